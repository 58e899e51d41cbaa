/*
 * One call of an entry on the smallest file, with outputs just as long as the answer; the
 * word given picks the entry, "none" calls nothing. 'bash scripts/bench bytes' counts what
 * each call loads and stores: that of the program less that of "none".
 */
#include <pnf.h>
#include <string.h>

static const uint8_t file[] = {0x04, 0x01, 0x00, 0x10};
static uint8_t tables[PNF_TABLES_BYTES(0, 0, 1, 0, 0)];
static uint8_t out[10];
static uint8_t result[PNF_RUN_RESULT_BYTES];

int main(int argc, char **argv)
{
    const char *entry = argc > 1 ? argv[1] : "none";

    if (strcmp(entry, "read") == 0)
        return (int)pnf_read(file, sizeof file, tables, sizeof tables);
    if (strcmp(entry, "compile") == 0)
        return (int)pnf_compile(file, sizeof file, out, sizeof out, result, PNF_COMPILE_RESULT_BYTES);
    if (strcmp(entry, "run") == 0)
        return (int)pnf_run(file, sizeof file, NULL, 0, NULL, 0, result, sizeof result);
    if (strcmp(entry, "plan") == 0)
        return (int)pnf_plan(file, sizeof file, NULL, 0, result, PNF_PLAN_RESULT_BYTES);
    return 0;
}
