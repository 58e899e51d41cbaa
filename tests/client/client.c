/*
 * client FILE [OPERATOR ...]: compiles the task file and runs the operators on it and on
 * its compiled task, each from its own initial state.
 * client FILE plan: compiles the task file and prints the cheapest plan of it and of its
 * compiled task.
 *
 * Exit status: 0 a plan of both; 1 no plan; 2 refused; 3 bad usage.
 */
#include <pnf.h>
#include <stdio.h>
#include <stdlib.h>
#include <string.h>

/* One byte more than the longest file: a longer one still gets its right number. */
static uint8_t source[PNF_MOST_FILE_BYTES + 1];
static uint8_t compiled[PNF_MOST_FILE_BYTES];
static uint8_t sequence[2 * (PNF_MOST_STEPS + 1)];

static void usage(void)
{
    fprintf(stderr, "usage: client FILE [plan | OPERATOR ...]\n");
    exit(3);
}

static unsigned word(const uint8_t *at) { return at[0] | (unsigned)at[1] << 8; }

/* The number of so many bytes, lowest first. */
static unsigned long long number(const uint8_t *at, int bytes)
{
    unsigned long long sum = 0;
    while (bytes-- > 0)
        sum = sum << 8 | at[bytes];
    return sum;
}

static void refused(const char *what, uint32_t given)
{
    printf("%s refused: %u\n", what, (unsigned)given);
    exit(2);
}

/* The head of a task, in words. */
static void show_head(const char *name, const uint8_t *tables)
{
    printf("%-8s V %u, W %u, F %u, E %u, O %u, goal %u\n", name, word(tables),
           word(tables + 2), word(tables + 4), word(tables + 6), word(tables + 8),
           word(tables + 10));
}

/* Runs the sequence from the file's initial state; 1 if it is a plan. */
static int run(const char *name, const uint8_t *file, size_t file_len, size_t sequence_len)
{
    static uint8_t tables[PNF_MOST_TABLES_BYTES];
    uint8_t state[PNF_MOST_VARIABLES];
    uint8_t result[PNF_RUN_RESULT_BYTES];
    uint32_t answer = pnf_read(file, file_len, tables, sizeof tables);
    size_t variables;

    if (answer != PNF_OK)
        refused("reading", answer);
    show_head(name, tables);
    variables = word(tables);
    memcpy(state, tables + PNF_HEAD_BYTES, variables);
    answer = pnf_run(file, file_len, state, variables, sequence, sequence_len, result,
                     sizeof result);
    if (answer != PNF_OK && answer != PNF_NO_OPERATOR && answer != PNF_NOT_APPLICABLE)
        refused("running", answer);
    printf("%-8s steps %llu, charge %llu, ", name, number(result + PNF_RUN_STEPS, 4),
           number(result + PNF_RUN_COST, 8));
    if (answer != PNF_OK)
        printf("stopped: %u\n", word(result + PNF_RUN_STOP));
    else
        printf("%s\n", result[PNF_RUN_PLAN] ? "plan" : "goal not reached");
    return result[PNF_RUN_PLAN];
}

/* Prints the cheapest plan of the file's task; 1 if there is one. */
static int plan(const char *name, const uint8_t *file, size_t file_len)
{
    uint8_t out[PNF_MOST_PLAN_BYTES];
    uint8_t result[PNF_PLAN_RESULT_BYTES];
    uint32_t answer = pnf_plan(file, file_len, out, sizeof out, result, sizeof result);
    unsigned long long steps = number(result + PNF_PLAN_STEPS, 4), k;

    if (answer == PNF_NO_PLAN) {
        printf("%-8s no plan\n", name);
        return 0;
    }
    if (answer != PNF_OK)
        refused("planning", answer);
    printf("%-8s steps %llu, charge %llu, plan", name, steps, number(result + PNF_PLAN_COST, 8));
    for (k = 0; k < steps; k++)
        printf(" %u", word(out + 2 * k));
    printf("\n");
    return 1;
}

static size_t read_file(const char *name)
{
    FILE *input = fopen(name, "rb");
    size_t length;

    if (input == NULL) {
        perror(name);
        exit(3);
    }
    length = fread(source, 1, sizeof source, input);
    fclose(input);
    return length;
}

/* The operator numbers as they cross; the bytes that they take. */
static size_t put_sequence(int count, char **words)
{
    int i;

    if (count > PNF_MOST_STEPS + 1)
        count = PNF_MOST_STEPS + 1;
    for (i = 0; i < count; i++) {
        char *end;
        unsigned long value = strtoul(words[i], &end, 10);
        if (*words[i] == '\0' || *end != '\0' || value > 65535)
            usage();
        sequence[2 * i] = (uint8_t)(value & 255);
        sequence[2 * i + 1] = (uint8_t)(value >> 8);
    }
    return 2 * (size_t)count;
}

int main(int argc, char **argv)
{
    uint8_t result[PNF_COMPILE_RESULT_BYTES];
    size_t source_len, compiled_len, sequence_len = 0;
    uint32_t answer;
    int planning, source_plan, compiled_plan;

    if (argc < 2)
        usage();
    source_len = read_file(argv[1]);
    planning = argc == 3 && strcmp(argv[2], "plan") == 0;
    if (!planning)
        sequence_len = put_sequence(argc - 2, argv + 2);
    answer = pnf_compile(source, source_len, compiled, sizeof compiled, result, sizeof result);
    if (answer != PNF_OK)
        refused("compiling", answer);
    compiled_len = (size_t)number(result, PNF_COMPILE_RESULT_BYTES);
    if (planning) {
        source_plan = plan("source", source, source_len);
        compiled_plan = plan("compiled", compiled, compiled_len);
    } else {
        source_plan = run("source", source, source_len, sequence_len);
        compiled_plan = run("compiled", compiled, compiled_len, sequence_len);
    }
    return source_plan && compiled_plan ? 0 : 1;
}
