/*
 * How much stack the calls take on the deepest tasks. Each call runs in a thread whose
 * stack was painted before; the bytes that lost their paint were used. The last line is
 * 'N passed, M failed': a call passes if it took less than PNF_STACK_BYTES.
 */
#define _DEFAULT_SOURCE
#include <pnf.h>
#include <pthread.h>
#include <stdio.h>
#include <stdlib.h>
#include <string.h>
#include <sys/mman.h>

#define CALLS 4
#define PAINT 0xa5
#define STACK (PNF_STACK_BYTES + 64u * 1024u) /* and what starting a thread takes */

static uint8_t file[PNF_MOST_FILE_BYTES];
static size_t file_len;

static void put_word(unsigned word)
{
    file[file_len++] = (uint8_t)(word & 255);
    file[file_len++] = (uint8_t)(word >> 8);
}

/* A row's map byte, then the fields that are not 0. */
static void put_row(unsigned upper, const unsigned *fields, int count)
{
    int i;
    size_t map = file_len++;
    file[map] = (uint8_t)(upper << 4);
    for (i = 0; i < count; i++)
        if (fields[i] != 0) {
            file[map] |= (uint8_t)(1 << i);
            put_word(fields[i]);
        }
}

enum way { LEFT, RIGHT, UNDER };

/*
 * One variable; 4,096 formulas, each of the kind over the one before; 4,096 effects, each over
 * the one before: as the left or right of both, or under v0. The lowest condition is the deepest
 * formula, so that building it stands on top of all effects.
 */
static void put_deepest(unsigned kind, enum way way)
{
    static const unsigned head[] = {1, 0, PNF_MOST_FORMULAS, PNF_MOST_EFFECTS, 1, 0};
    static const unsigned operator_row[] = {0, PNF_MOST_EFFECTS - 1, 1};
    unsigned i;

    file_len = 0;
    put_row(0, head, 6);
    file[file_len++] = 0x00; /* initially v0 is 0 */
    file[file_len++] = 0x20; /* formula v0 */
    for (i = 1; i < PNF_MOST_FORMULAS; i++) {
        unsigned below[2];
        below[0] = i - 1;
        below[1] = kind == 3 ? 0 : i - 1;
        put_row(kind, below, 2);
    }
    file[file_len++] = 0x10; /* effect 0, set v0 */
    file[file_len++] = 0x41; /* effect 1, that under the deepest formula */
    put_word(PNF_MOST_FORMULAS - 1);
    for (i = 2; i < PNF_MOST_EFFECTS; i++) {
        unsigned below[2];
        below[0] = way == LEFT ? i - 1 : 0;
        below[1] = way == LEFT ? 0 : i - 1;
        put_row(way == UNDER ? 4 : 3, below, 2);
    }
    put_row(0, operator_row, 3); /* without a percent: 100 */
}

static uint32_t answer;

static void *call_read(void *unused)
{
    static uint8_t tables[PNF_MOST_TABLES_BYTES];
    answer = pnf_read(file, file_len, tables, sizeof tables);
    return unused;
}

static void *call_compile(void *unused)
{
    static uint8_t out[PNF_MOST_FILE_BYTES], result[PNF_COMPILE_RESULT_BYTES];
    answer = pnf_compile(file, file_len, out, sizeof out, result, sizeof result);
    return unused;
}

static void *call_run(void *unused)
{
    static uint8_t state[1], sequence[200], result[PNF_RUN_RESULT_BYTES];
    state[0] = 1;
    answer = pnf_run(file, file_len, state, 1, sequence, sizeof sequence, result, sizeof result);
    return unused;
}

static void *call_plan(void *unused)
{
    static uint8_t out[PNF_MOST_PLAN_BYTES], result[PNF_PLAN_RESULT_BYTES];
    answer = pnf_plan(file, file_len, out, sizeof out, result, sizeof result);
    return unused;
}

static void *call_nothing(void *unused) { return unused; }

/* The bytes of a painted stack that a call in a thread of its own used. */
static size_t used(void *(*call)(void *))
{
    size_t guard = 1u << 16, left = 0;
    uint8_t *block = mmap(NULL, guard + STACK, PROT_NONE, MAP_PRIVATE | MAP_ANONYMOUS, -1, 0);
    uint8_t *stack = block + guard;
    pthread_attr_t attributes;
    pthread_t thread;

    if (block == MAP_FAILED || mprotect(stack, STACK, PROT_READ | PROT_WRITE) != 0)
        abort();
    memset(stack, PAINT, STACK);
    if (pthread_attr_init(&attributes) != 0 ||
        pthread_attr_setstack(&attributes, stack, STACK) != 0 ||
        pthread_create(&thread, &attributes, call, NULL) != 0 || pthread_join(thread, NULL) != 0)
        abort();
    pthread_attr_destroy(&attributes);
    while (left < STACK && stack[left] == PAINT)
        left++;
    munmap(block, guard + STACK);
    return STACK - left;
}

int main(void)
{
    static const char *const names[] = {"read", "compile", "run", "plan"};
    static void *(*const calls[CALLS])(void *) = {call_read, call_compile, call_run, call_plan};
    size_t most[CALLS] = {0, 0, 0, 0}, start = used(call_nothing);
    unsigned kind, failed = 0;
    enum way way;
    int i;

    for (kind = 3; kind <= 7; kind++)
        for (way = LEFT; way <= UNDER; way++) {
            put_deepest(kind, way);
            for (i = 0; i < CALLS; i++) {
                size_t bytes = used(calls[i]) - start;
                if (answer != PNF_OK && answer != PNF_OVER_LIMIT && answer != PNF_NO_PLAN)
                    abort();
                if (bytes > most[i])
                    most[i] = bytes;
            }
        }
    for (i = 0; i < CALLS; i++) {
        printf("pnf_%s takes %zu bytes of stack\n", names[i], most[i]);
        failed += most[i] >= PNF_STACK_BYTES;
    }
    printf("%u passed, %u failed\n", CALLS - failed, failed);
    return failed > 0;
}
