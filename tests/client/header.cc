// The header, taken twice, in a C++ program that links the library.
#include <pnf.h>
#include <pnf.h>

int main()
{
    const uint8_t file[] = {0x04, 0x01, 0x00, 0x10};
    uint8_t tables[PNF_TABLES_BYTES(0, 0, 1, 0, 0)];
    return pnf_read(file, sizeof file, tables, sizeof tables) == PNF_OK ? 0 : 1;
}
