/*
 * Layouts, buffer lengths, dirty buffers, and every number that the four calls give, held
 * to bytes written by hand from the scope. The last line is 'N passed, M failed'.
 *
 * Every buffer is a block of its own of just its length, so that a checker of memory sees
 * each byte read or written outside it.
 */
#include <pnf.h>
#include <stdio.h>
#include <stdlib.h>
#include <string.h>

static unsigned passed, failed;

/* What buffers hold before: this byte, or nothing at all if negative. */
static int fill;

static void check(const char *what, int holds)
{
    if (holds) {
        passed++;
        return;
    }
    failed++;
    printf("FAILED %s (fill %d)\n", what, fill);
}

static uint8_t *lent(size_t length)
{
    uint8_t *bytes = malloc(length + (length == 0));
    if (bytes == NULL)
        abort();
    if (fill >= 0)
        memset(bytes, fill, length);
    return bytes;
}

static uint8_t *copy(const uint8_t *bytes, size_t length)
{
    uint8_t *block = lent(length);
    if (length > 0)
        memcpy(block, bytes, length);
    return block;
}

/* Whether a buffer holds the answer and 0 behind it. */
static int holds(const uint8_t *buffer, size_t length, const uint8_t *answer, size_t answer_len)
{
    size_t i;
    if (answer_len > length || memcmp(buffer, answer, answer_len) != 0)
        return 0;
    for (i = answer_len; i < length; i++)
        if (buffer[i] != 0)
            return 0;
    return 1;
}

/* The scope's whole example: its file, its tables, its compiled task's file. */
static const uint8_t whole[] = {
    0x3d, 2, 0, 5, 0, 4, 0, 1, 0, 4, 0,                           /* head */
    0x02,                                                         /* initially v1 */
    0x20, 0x21, 1, 0, 0x30, 0x31, 1, 0, 0x42, 3, 0,               /* formulas */
    0x10, 0x21, 1, 0, 0x43, 1, 0, 1, 0, 0x32, 2, 0,               /* effects */
    0x07, 2, 0, 3, 0, 3, 0                                        /* operator */
};
static const uint8_t whole_tables[PNF_TABLES_BYTES(2, 0, 5, 4, 1)] = {
    2, 0, 0, 0, 5, 0, 4, 0, 1, 0, 4, 0,                           /* head */
    0, 1,                                                         /* initial state */
    2, 0, 0, 0, 0, 0, 2, 0, 1, 0, 0, 0, 3, 0, 0, 0, 0, 0,         /* formulas */
    3, 0, 1, 0, 0, 0, 4, 0, 0, 0, 3, 0,
    1, 0, 0, 0, 0, 0, 2, 0, 1, 0, 0, 0, 4, 0, 1, 0, 1, 0,         /* effects */
    3, 0, 0, 0, 2, 0,
    2, 0, 3, 0, 3, 0, 100, 0                                      /* operator */
};
static const uint8_t whole_compiled[] = {
    0x3f, 4, 0, 2, 0, 7, 0, 12, 0, 1, 0, 6, 0,                    /* head */
    0x06, 0, 0, 1, 0,                                             /* initially v1, v2; twins */
    0x00, 0x10, 0x21, 2, 0, 0x21, 1, 0, 0x20, 0x21, 3, 0,         /* formulas */
    0x43, 4, 0, 5, 0,
    0x00, 0x10, 0x43, 1, 0, 1, 0, 0x21, 2, 0, 0x43, 1, 0, 3, 0,   /* effects */
    0x33, 2, 0, 4, 0, 0x21, 1, 0, 0x43, 3, 0, 6, 0, 0x33, 5, 0, 7, 0,
    0x11, 3, 0, 0x43, 3, 0, 9, 0, 0x33, 8, 0, 10, 0,
    0x07, 2, 0, 11, 0, 3, 0                                       /* operator */
};

/* Each must give the number, and the answer or zeros. */
static void expect_read(const char *what, const uint8_t *bytes, size_t length, size_t tables_len,
                        uint32_t number, const uint8_t *answer, size_t answer_len)
{
    uint8_t *file = copy(bytes, length), *tables = lent(tables_len);
    uint32_t given = pnf_read(file, length, tables, tables_len);
    check(what, given == number);
    check(what, holds(tables, tables_len, answer, answer_len));
    check(what, length == 0 || memcmp(file, bytes, length) == 0);
    free(file);
    free(tables);
}

static void expect_compile(const char *what, const uint8_t *bytes, size_t length, size_t out_len,
                           size_t result_len, uint32_t number, const uint8_t *answer,
                           size_t answer_len)
{
    uint8_t *file = copy(bytes, length), *out = lent(out_len), *result = lent(result_len);
    uint8_t size[PNF_COMPILE_RESULT_BYTES] = {0, 0, 0, 0};
    uint32_t given = pnf_compile(file, length, out, out_len, result, result_len);
    size[0] = (uint8_t)(answer_len & 255);
    size[1] = (uint8_t)(answer_len >> 8);
    check(what, given == number);
    check(what, holds(out, out_len, answer, answer_len));
    check(what, holds(result, result_len, size, number == PNF_OK ? sizeof size : 0));
    check(what, length == 0 || memcmp(file, bytes, length) == 0);
    free(file);
    free(out);
    free(result);
}

struct run {
    const uint8_t *file;
    size_t file_len;
    const uint8_t *state;
    size_t state_len;
    const uint8_t *sequence;
    size_t sequence_len;
    size_t result_len;
};

static void expect_run(const char *what, struct run r, uint32_t number, const uint8_t *state_after,
                       const uint8_t *answer, size_t answer_len)
{
    uint8_t *file = copy(r.file, r.file_len), *state = copy(r.state, r.state_len);
    uint8_t *sequence = copy(r.sequence, r.sequence_len), *result = lent(r.result_len);
    uint32_t given = pnf_run(file, r.file_len, state, r.state_len, sequence, r.sequence_len, result,
                             r.result_len);
    check(what, given == number);
    check(what, holds(state, r.state_len, state_after, r.state_len));
    check(what, holds(result, r.result_len, answer, answer_len));
    free(file);
    free(state);
    free(sequence);
    free(result);
}

/* A run that is refused: the state stays, the result is all 0. */
static void expect_no_run(const char *what, struct run r, uint32_t number)
{
    expect_run(what, r, number, r.state, NULL, 0);
}

static void expect_plan(const char *what, const uint8_t *bytes, size_t length, size_t out_len,
                        size_t result_len, uint32_t number, const uint8_t *plan, size_t plan_len,
                        const uint8_t *answer, size_t answer_len)
{
    uint8_t *file = copy(bytes, length), *out = lent(out_len), *result = lent(result_len);
    uint32_t given = pnf_plan(file, length, out, out_len, result, result_len);
    check(what, given == number);
    check(what, holds(out, out_len, plan, plan_len));
    check(what, holds(result, result_len, answer, answer_len));
    check(what, length == 0 || memcmp(file, bytes, length) == 0);
    free(file);
    free(out);
    free(result);
}

/* No plan is given: both outputs are all 0. */
static void expect_no_plan(const char *what, const uint8_t *bytes, size_t length, size_t out_len,
                           size_t result_len, uint32_t number)
{
    expect_plan(what, bytes, length, out_len, result_len, number, NULL, 0, NULL, 0);
}

static void sizes(void)
{
    check("head", PNF_HEAD_BYTES == 12);
    check("largest tables", PNF_MOST_TABLES_BYTES == 52236);
    check("whole example's tables", sizeof whole_tables == 76);
    check("an operator row", PNF_OPERATOR_BYTES == 8);
    check("results", PNF_COMPILE_RESULT_BYTES == 4 && PNF_RUN_RESULT_BYTES == 16);
    check("a plan's result", PNF_PLAN_RESULT_BYTES == 12 && PNF_MOST_PLAN_BYTES == 2046);
    check("twins", 2 * PNF_MOST_TWINS == PNF_MOST_VARIABLES);
}

static void reading(void)
{
    size_t size = sizeof whole_tables, length;
    for (length = 0; length < size; length++)
        expect_read("tables too short", whole, sizeof whole, length, PNF_OUTPUT_SHORT, NULL, 0);
    for (length = size; length < size + 9; length++)
        expect_read("tables long enough", whole, sizeof whole, length, PNF_OK, whole_tables, size);
    expect_read("largest tables", whole, sizeof whole, PNF_MOST_TABLES_BYTES, PNF_OK, whole_tables,
                size);
    for (length = 0; length < sizeof whole; length++)
        expect_read("file ends", whole, length, size, PNF_FILE_ENDS, NULL, 0);
}

static void compiling(void)
{
    size_t size = sizeof whole_compiled, length, short_result;
    for (length = 0; length < size; length++)
        expect_compile("out too short", whole, sizeof whole, length, 4, PNF_OUTPUT_SHORT, NULL, 0);
    for (length = size; length < size + 9; length++)
        expect_compile("out long enough", whole, sizeof whole, length, length - size + 4, PNF_OK,
                       whole_compiled, size);
    expect_compile("largest out", whole, sizeof whole, PNF_MOST_FILE_BYTES, 4, PNF_OK,
                   whole_compiled, size);
    for (short_result = 0; short_result < 4; short_result++)
        expect_compile("result too short", whole, sizeof whole, size, short_result,
                       PNF_OUTPUT_SHORT, NULL, 0);
    expect_compile("compiled again", whole_compiled, size, 200, 4, PNF_HAS_TWINS, NULL, 0);
    expect_compile("13 before 20", whole_compiled, size, 0, 0, PNF_HAS_TWINS, NULL, 0);
}

/* The whole example's runs, on the source and on the compiled task. */
static void running(void)
{
    static const uint8_t once[] = {0, 0}, twice[] = {0, 0, 0, 0}, outside[] = {0, 0, 1, 0};
    static const uint8_t before[] = {0, 1}, after[] = {1, 0};
    static const uint8_t twins_before[] = {0, 1, 1, 0}, twins_after[] = {1, 0, 0, 1};
    static const uint8_t plan[] = {1, 0, 0, 0, 3, 0, 0, 0, 0, 0, 0, 0, 1, 1, 0, 0};
    static const uint8_t stop_18[] = {1, 0, 0, 0, 3, 0, 0, 0, 0, 0, 0, 0, 1, 0, 18, 0};
    static const uint8_t stop_17[] = {1, 0, 0, 0, 3, 0, 0, 0, 0, 0, 0, 0, 1, 0, 17, 0};
    static const uint8_t nothing[16];
    struct run source = {whole, sizeof whole, before, 2, once, 2, 16};
    struct run other = {whole_compiled, sizeof whole_compiled, twins_before, 4, once, 2, 16};
    size_t length;

    expect_run("source", source, PNF_OK, after, plan, 16);
    expect_run("compiled", other, PNF_OK, twins_after, plan, 16);
    source.sequence = other.sequence = twice;
    source.sequence_len = other.sequence_len = 4;
    expect_run("source stops", source, PNF_NOT_APPLICABLE, after, stop_18, 16);
    expect_run("compiled stops", other, PNF_NOT_APPLICABLE, twins_after, stop_18, 16);
    source.sequence = other.sequence = outside;
    expect_run("source outside", source, PNF_NO_OPERATOR, after, stop_17, 16);
    expect_run("compiled outside", other, PNF_NO_OPERATOR, twins_after, stop_17, 16);
    source.sequence_len = 0;
    expect_run("no step", source, PNF_OK, before, nothing, 16);
    source.sequence_len = 2;
    for (length = 16; length < 25; length++) {
        source.result_len = length;
        expect_run("result long enough", source, PNF_OK, after, plan, 16);
    }
    for (length = 0; length < 16; length++) {
        source.result_len = length;
        expect_no_run("result too short", source, PNF_OUTPUT_SHORT);
    }
}

/* 16, then 19, then 20, then the run. */
static void refused_runs(void)
{
    static const uint8_t state[] = {0, 1, 0}, two[] = {0, 2}, outside[] = {9, 9, 0};
    struct run r = {whole, sizeof whole, state, 2, outside, 3, 16};

    expect_no_run("odd sequence", r, PNF_SEQUENCE);
    r.sequence_len = 1;
    expect_no_run("one byte", r, PNF_SEQUENCE);
    r.result_len = 15;
    expect_no_run("19 before 20", r, PNF_SEQUENCE);
    r.state_len = 3;
    expect_no_run("16 before 19", r, PNF_STATE);
    r.state_len = 1;
    expect_no_run("state short", r, PNF_STATE);
    r.state_len = 0;
    expect_no_run("no state", r, PNF_STATE);
    r.state_len = 2;
    r.state = two;
    expect_no_run("a byte above 1", r, PNF_STATE);
    r.state = state;
    r.sequence_len = 2;
    expect_no_run("20 before 17", r, PNF_OUTPUT_SHORT);
    r.file_len--;
    r.state_len = 3;
    r.sequence_len = 3;
    expect_no_run("1 before 16", r, PNF_FILE_ENDS);
}

/*
 * 65,535 steps of cost 65,535, and the same at 200 percent; one number more is 19, even if the
 * first would stop.
 */
static void longest_runs(void)
{
    static const uint8_t costly[] = {0x1c, 1, 0, 1, 0, 1, 0, 0x10, 0x00, 0x04, 255, 255};
    static const uint8_t doubled[] = {0x1c, 1, 0, 1, 0, 1, 0, 0x10, 0x00, 0x0c, 255, 255, 200, 0};
    static const uint8_t total[] = {255, 255, 0, 0, 1, 0, 254, 255, 0, 0, 0, 0, 1, 1, 0, 0};
    static const uint8_t twice[] = {255, 255, 0, 0, 2, 0, 252, 255, 1, 0, 0, 0, 1, 1, 0, 0};
    uint8_t *sequence = calloc(PNF_MOST_STEPS + 2, 2);
    struct run r = {costly, sizeof costly, NULL, 0, sequence, 2 * PNF_MOST_STEPS, 16};

    if (sequence == NULL)
        abort();
    expect_run("65,535 steps", r, PNF_OK, NULL, total, 16);
    r.file = doubled;
    r.file_len = sizeof doubled;
    expect_run("at 200 percent", r, PNF_OK, NULL, twice, 16);
    r.sequence_len++;
    expect_no_run("half a number more", r, PNF_SEQUENCE);
    r.sequence_len++;
    expect_no_run("65,536 steps", r, PNF_SEQUENCE);
    sequence[0] = 1;
    expect_no_run("19 before 17", r, PNF_SEQUENCE);
    free(sequence);
}

/* One variable that operators 0, at cost 2, and 1, at cost 1, set; the goal is the variable. */
static const uint8_t cheaper[] = {
    0x3d, 1, 0, 2, 0, 1, 0, 2, 0, 1, 0,                           /* head */
    0x00, 0x10, 0x20, 0x10,                                       /* true; v0; set v0 */
    0x04, 2, 0, 0x04, 1, 0                                        /* operators */
};

/* The plans of the whole example, on the source and on the compiled task, and of `cheaper`. */
static void planning(void)
{
    static const uint8_t numbers[2] = {0, 0}, other[2] = {1, 0}, smallest[] = {0x04, 1, 0, 0x10};
    static const uint8_t cost_3[12] = {1, 0, 0, 0, 3}, cost_1[12] = {1, 0, 0, 0, 1}, none[12];
    size_t length;

    for (length = 2; length < 9; length++) {
        expect_plan("source", whole, sizeof whole, length, 12, PNF_OK, numbers, 2, cost_3, 12);
        expect_plan("compiled", whole_compiled, sizeof whole_compiled, length, 12, PNF_OK, numbers,
                    2, cost_3, 12);
        expect_plan("cheaper", cheaper, sizeof cheaper, length, 12, PNF_OK, other, 2, cost_1, 12);
    }
    for (length = 0; length < 2; length++)
        expect_no_plan("out too short", cheaper, sizeof cheaper, length, 12, PNF_PLAN_LONG);
    for (length = 12; length < 21; length++)
        expect_plan("result long enough", cheaper, sizeof cheaper, 2, length, PNF_OK, other, 2,
                    cost_1, 12);
    for (length = 0; length < 9; length++)
        expect_plan("empty plan", smallest, sizeof smallest, length, 12, PNF_OK, NULL, 0, none, 12);
}

/*
 * One variable that three operators set, the goal is the variable: cost 5 at 50, cost 2 at 100
 * (absent), cost 9 at 0. Charges 3, 2 and 0.
 */
static const uint8_t discounted[] = {
    0x3d, 1, 0, 2, 0, 1, 0, 3, 0, 1, 0,                           /* head */
    0x00, 0x10, 0x20, 0x10,                                       /* true; v0; set v0 */
    0x0c, 5, 0, 50, 0, 0x04, 2, 0, 0x0c, 9, 0, 0, 0               /* operators */
};
static const uint8_t discounted_tables[PNF_TABLES_BYTES(1, 0, 2, 1, 3)] = {
    1, 0, 0, 0, 2, 0, 1, 0, 3, 0, 1, 0, 0,                        /* head; initially none */
    1, 0, 0, 0, 0, 0, 2, 0, 0, 0, 0, 0, 1, 0, 0, 0, 0, 0,         /* true; v0; set v0 */
    0, 0, 0, 0, 5, 0, 50, 0, 0, 0, 0, 0, 2, 0, 100, 0,            /* operators */
    0, 0, 0, 0, 9, 0, 0, 0
};
static const uint8_t discounted_compiled[] = {
    0x3d, 1, 0, 3, 0, 7, 0, 3, 0, 2, 0,                           /* head */
    0x00, 0x00, 0x10, 0x20,                                       /* false; true; v0 */
    0x00, 0x10, 0x43, 1, 0, 1, 0, 0x10, 0x43, 1, 0, 3, 0,         /* effects */
    0x10, 0x43, 1, 0, 5, 0,
    0x0f, 1, 0, 2, 0, 5, 0, 50, 0, 0x07, 1, 0, 4, 0, 2, 0,        /* operators */
    0x0f, 1, 0, 6, 0, 9, 0, 0, 0
};

/* Percents in the tables and in the compiled task, and the charges of runs and plans. */
static void percents(void)
{
    static const uint8_t sequence[] = {0, 0, 1, 0, 0, 0, 2, 0}, state[1] = {0}, after[1] = {1};
    static const uint8_t charged[] = {4, 0, 0, 0, 8, 0, 0, 0, 0, 0, 0, 0, 1, 1, 0, 0};
    static const uint8_t last[2] = {2, 0}, free_of_charge[12] = {1, 0, 0, 0, 0};
    struct run source = {discounted, sizeof discounted, state, 1, sequence, 8, 16};
    struct run other = {discounted_compiled, sizeof discounted_compiled, state, 1, sequence, 8, 16};

    expect_read("percents", discounted, sizeof discounted, sizeof discounted_tables, PNF_OK, discounted_tables,
                sizeof discounted_tables);
    expect_read("a word short", discounted, sizeof discounted, sizeof discounted_tables - 2, PNF_OUTPUT_SHORT,
                NULL, 0);
    expect_compile("percents are kept", discounted, sizeof discounted, sizeof discounted_compiled, 4, PNF_OK,
                   discounted_compiled, sizeof discounted_compiled);
    expect_run("source's charges", source, PNF_OK, after, charged, 16);
    expect_run("compiled task's charges", other, PNF_OK, after, charged, 16);
    expect_plan("source's plan", discounted, sizeof discounted, 2, 12, PNF_OK, last, 2, free_of_charge, 12);
    expect_plan("compiled task's plan", discounted_compiled, sizeof discounted_compiled, 2, 12, PNF_OK,
                last, 2, free_of_charge, 12);
}

/* 21, then 20, then 22, then 23. */
static void refused_plans(void)
{
    static const uint8_t many[] = {0x05, 11, 0, 1, 0, 0, 0, 0x10}; /* 11 variables, goal true */
    static const uint8_t never[] = {0x04, 1, 0, 0x00};             /* goal false */
    size_t length;

    expect_no_plan("11 variables", many, sizeof many, 9, 12, PNF_MANY_VARIABLES);
    expect_no_plan("21 before 20", many, sizeof many, 0, 0, PNF_MANY_VARIABLES);
    expect_no_plan("1 before 21", many, sizeof many - 1, 9, 12, PNF_FILE_ENDS);
    for (length = 0; length < 12; length++) {
        expect_no_plan("result too short", cheaper, sizeof cheaper, 2, length, PNF_OUTPUT_SHORT);
        expect_no_plan("20 before 22", never, sizeof never, 9, length, PNF_OUTPUT_SHORT);
        expect_no_plan("20 before 23", cheaper, sizeof cheaper, 0, length, PNF_OUTPUT_SHORT);
        expect_no_plan("no plan", never, sizeof never, length, 12, PNF_NO_PLAN);
    }
}

struct damaged {
    const char *what;
    uint32_t number;
    size_t length;
    uint8_t bytes[13];
};

/* The numbers of a file: all four calls give them, whatever else is wrong. */
static void damaged_files(void)
{
    static const struct damaged files[] = {
        {"empty", PNF_FILE_ENDS, 0, {0}},
        {"half a field", PNF_FILE_ENDS, 2, {0x04, 1}},
        {"no formula", PNF_FILE_ENDS, 3, {0x04, 1, 0}},
        {"unused head bit", PNF_UNUSED_BIT, 1, {0xff}},
        {"unused formula bit", PNF_UNUSED_BIT, 4, {0x04, 1, 0, 0x14}},
        {"spare bit", PNF_UNUSED_BIT, 7, {0x05, 1, 0, 1, 0, 0x02, 0x10}},
        {"present zero", PNF_PRESENT_ZERO, 3, {0x04, 0, 0}},
        {"bytes follow", PNF_BYTES_FOLLOW, 5, {0x04, 1, 0, 0x10, 0}},
        {"no formulas", PNF_COUNT, 1, {0x00}},
        {"513 variables", PNF_COUNT, 5, {0x05, 1, 2, 1, 0}},
        {"goal F", PNF_GOAL, 5, {0x24, 1, 0, 1, 0}},
        {"original V - W", PNF_TWIN_ROW, 11, {0x07, 2, 0, 1, 0, 1, 0, 0, 1, 0, 0x10}},
        {"formula kind 8", PNF_FORMULA_ROW, 4, {0x04, 1, 0, 0x80}},
        {"effect kind 5", PNF_EFFECT_ROW, 7, {0x0c, 1, 0, 1, 0, 0x10, 0x50}},
        {"precondition F", PNF_OPERATOR_ROW, 12,
         {0x1c, 1, 0, 1, 0, 1, 0, 0x10, 0x00, 0x01, 1, 0}},
        {"unused operator bit", PNF_UNUSED_BIT, 10,
         {0x1c, 1, 0, 1, 0, 1, 0, 0x10, 0x00, 0x18}},
        {"half a percent", PNF_FILE_ENDS, 11,
         {0x1c, 1, 0, 1, 0, 1, 0, 0x10, 0x00, 0x08, 201}},
        {"percent 100", PNF_PRESENT_ZERO, 12,
         {0x1c, 1, 0, 1, 0, 1, 0, 0x10, 0x00, 0x08, 100, 0}},
        {"percent 201", PNF_PERCENT, 12,
         {0x1c, 1, 0, 1, 0, 1, 0, 0x10, 0x00, 0x08, 201, 0}},
        {"bytes follow a percent 0", PNF_BYTES_FOLLOW, 13,
         {0x1c, 1, 0, 1, 0, 1, 0, 0x10, 0x00, 0x08, 0, 0, 0}},
    };
    static const uint8_t state[] = {2, 1, 7};
    size_t i;

    for (i = 0; i < sizeof files / sizeof files[0]; i++) {
        const struct damaged *f = &files[i];
        struct run r = {f->bytes, f->length, state, 3, state, 3, 5};
        expect_read(f->what, f->bytes, f->length, 99, f->number, NULL, 0);
        expect_read(f->what, f->bytes, f->length, 0, f->number, NULL, 0);
        expect_compile(f->what, f->bytes, f->length, 99, 4, f->number, NULL, 0);
        expect_compile(f->what, f->bytes, f->length, 0, 1, f->number, NULL, 0);
        expect_no_run(f->what, r, f->number);
        r.result_len = 16;
        expect_no_run(f->what, r, f->number);
        expect_no_plan(f->what, f->bytes, f->length, 7, 12, f->number);
        expect_no_plan(f->what, f->bytes, f->length, 0, 1, f->number);
    }
}

/* 512 variables and a twin more. */
static void over_a_limit(void)
{
    uint8_t file[7 + 64 + 2] = {0x25, 0, 2, 2, 0, 1, 0};
    file[71] = 0x20;
    file[72] = 0x30;
    expect_compile("513 variables", file, sizeof file, 999, 4, PNF_OVER_LIMIT, NULL, 0);
    expect_compile("15 before 20", file, sizeof file, 0, 0, PNF_OVER_LIMIT, NULL, 0);
}

/* The pointer of an empty buffer may be null. */
static void null_pointers(void)
{
    static const uint8_t smallest[] = {0x04, 1, 0, 0x10};
    uint8_t result[PNF_RUN_RESULT_BYTES];

    check("read nothing", pnf_read(NULL, 0, NULL, 0) == PNF_FILE_ENDS);
    check("compile nothing", pnf_compile(NULL, 0, NULL, 0, NULL, 0) == PNF_FILE_ENDS);
    check("run nothing", pnf_run(NULL, 0, NULL, 0, NULL, 0, NULL, 0) == PNF_FILE_ENDS);
    check("plan nothing", pnf_plan(NULL, 0, NULL, 0, NULL, 0) == PNF_FILE_ENDS);
    check("no tables", pnf_read(smallest, 4, NULL, 0) == PNF_OUTPUT_SHORT);
    check("no out", pnf_compile(smallest, 4, NULL, 0, NULL, 0) == PNF_OUTPUT_SHORT);
    check("no result", pnf_run(smallest, 4, NULL, 0, NULL, 0, NULL, 0) == PNF_OUTPUT_SHORT);
    check("no plan's result", pnf_plan(smallest, 4, NULL, 0, NULL, 0) == PNF_OUTPUT_SHORT);
    check("empty plan", pnf_plan(smallest, 4, NULL, 0, result, PNF_PLAN_RESULT_BYTES) == PNF_OK);
    check("empty run", pnf_run(smallest, 4, NULL, 0, NULL, 0, result, sizeof result) == PNF_OK);
    check("empty run is a plan", result[PNF_RUN_PLAN] == 1 && result[PNF_RUN_COST] == 0);
}

int main(void)
{
    static const int fills[] = {0xa5, 0, -1};
    size_t i;

    sizes();
    for (i = 0; i < sizeof fills / sizeof fills[0]; i++) {
        fill = fills[i];
        reading();
        compiling();
        running();
        refused_runs();
        longest_runs();
        planning();
        percents();
        refused_plans();
        damaged_files();
        over_a_limit();
        null_pointers();
    }
    printf("%u passed, %u failed\n", passed, failed);
    return failed > 0;
}
