/*
 * pnf: reading, compiling and running propositional planning tasks, and the cheapest plan
 * of small ones, for C and C++.
 *
 * A task crosses as its task file, a state as one byte a variable (0 or 1), operator
 * numbers as 16 bits. All integers in all buffers are little-endian; none is aligned.
 * docs/C-INTERFACE.md has the layouts byte by byte, and a worked example.
 *
 * Each call gives 0 or one of the numbers below, the first in the order of its list.
 *
 * - Buffers. Each pointer is followed by its length in bytes. With length 0 the pointer
 *   is not used and may be null; otherwise that many bytes must be readable, and for
 *   tables, out, state and result writable. What tables, out and result hold before does
 *   not matter.
 * - Overlap. No buffer that a call writes may overlap another buffer of the same call.
 * - Memory. The calls allocate nothing and keep nothing: no shared state. Any number of
 *   threads may call at once, each with its own writable buffers.
 * - Stack. Less than PNF_STACK_BYTES for any call; a thread with a small stack of its
 *   own needs that much free.
 */
#ifndef PNF_H
#define PNF_H

#include <stddef.h>
#include <stdint.h>

#ifdef __cplusplus
extern "C" {
#endif

/* What a call gives back. 5, 8 and 14 belong to calls on tables and are never given here. */
enum {
    PNF_OK = 0,
    PNF_FILE_ENDS = 1,       /* the file ends inside a field or row */
    PNF_UNUSED_BIT = 2,      /* an unused map bit or a spare bit of the initial state is 1 */
    PNF_PRESENT_ZERO = 3,    /* a present field is 0, or a present percent 100 (0 it may be) */
    PNF_BYTES_FOLLOW = 4,    /* bytes follow the last row */
    PNF_TABLE_SHORT = 5,     /* (a lent table is too short for its count) */
    PNF_COUNT = 6,           /* a count of the head is outside its limits */
    PNF_GOAL = 7,            /* the goal is not below F */
    PNF_INITIAL_BYTE = 8,    /* (an initial byte is neither 0 nor 1) */
    PNF_TWIN_ROW = 9,        /* an original is not below V - W, or was named before */
    PNF_FORMULA_ROW = 10,    /* unknown kind, wrong reference, or unused word not 0 */
    PNF_EFFECT_ROW = 11,     /* the same of an effect */
    PNF_OPERATOR_ROW = 12,   /* precondition not below F, or effect not below E */
    PNF_HAS_TWINS = 13,      /* compiling: W is above 0 */
    PNF_SCRATCH_SHORT = 14,  /* (lent scratch is too short) */
    PNF_OVER_LIMIT = 15,     /* compiling: the compiled task is over a limit */
    PNF_STATE = 16,          /* running: state of wrong length, or a byte above 1 */
    PNF_NO_OPERATOR = 17,    /* running stopped: number not below O */
    PNF_NOT_APPLICABLE = 18, /* running stopped: precondition false */
    PNF_SEQUENCE = 19,       /* running: sequence of odd length, or too long */
    PNF_OUTPUT_SHORT = 20,   /* tables, out or result is shorter than its layout */
    PNF_MANY_VARIABLES = 21, /* planning: more than 10 variables, twins among them */
    PNF_NO_PLAN = 22,        /* planning: there is no plan */
    PNF_PLAN_LONG = 23,      /* planning: out is shorter than two bytes a step */
    PNF_PERCENT = 24         /* an operator's percent is above 200 */
};

/* Limits of a task, of a run, and of a task that is planned for and its plan. */
#define PNF_MOST_VARIABLES 512
#define PNF_MOST_TWINS 256
#define PNF_MOST_FORMULAS 4096
#define PNF_MOST_EFFECTS 4096
#define PNF_MOST_OPERATORS 256
#define PNF_MOST_STEPS 65535
#define PNF_MOST_PLAN_VARIABLES 10
#define PNF_MOST_PLAN_STEPS 1023

/* No task file is longer: an out of this length is never too short. */
#define PNF_MOST_FILE_BYTES 43853

/*
 * Tables: the head, V initial bytes, W originals, F + E rows of three words, then O rows of
 * four: precondition, effect, cost, percent.
 */
#define PNF_HEAD_BYTES 12
#define PNF_ROW_BYTES 6
#define PNF_OPERATOR_BYTES 8
#define PNF_TABLES_BYTES(v, w, f, e, o) \
    ((size_t)PNF_HEAD_BYTES + (size_t)(v) + 2 * (size_t)(w) + \
     PNF_ROW_BYTES * ((size_t)(f) + (size_t)(e)) + PNF_OPERATOR_BYTES * (size_t)(o))
#define PNF_MOST_TABLES_BYTES \
    PNF_TABLES_BYTES(PNF_MOST_VARIABLES, PNF_MOST_TWINS, PNF_MOST_FORMULAS, \
                     PNF_MOST_EFFECTS, PNF_MOST_OPERATORS)

/* No plan takes more bytes: an out of this length is never too short for one. */
#define PNF_MOST_PLAN_BYTES (2 * PNF_MOST_PLAN_STEPS)

/*
 * Results, and where the fields of a run's and of a plan's result stand. The cost is the sum of
 * the steps' charges, each its operator's cost x percent / 100 to the nearest, a half upwards.
 */
#define PNF_COMPILE_RESULT_BYTES 4
#define PNF_RUN_RESULT_BYTES 16
#define PNF_RUN_STEPS 0 /* 4 bytes */
#define PNF_RUN_COST 4  /* 8 bytes */
#define PNF_RUN_GOAL 12 /* 1 byte: 1 if the goal holds in the last state */
#define PNF_RUN_PLAN 13 /* 1 byte: 1 if the run was not stopped and the goal holds */
#define PNF_RUN_STOP 14 /* 2 bytes: 17, 18, or 0 if the run was not stopped */
#define PNF_PLAN_RESULT_BYTES 12
#define PNF_PLAN_STEPS 0 /* 4 bytes */
#define PNF_PLAN_COST 4  /* 8 bytes */

/*
 * Measured by tests/client/stack.c, on 4,096 formulas and 4,096 effects nested as deep as they
 * go: pnf_compile takes 2,120,408 bytes, pnf_run 192,608, pnf_plan 98,384, pnf_read 53,064.
 */
#define PNF_STACK_BYTES (11u * 512u * 1024u)

/*
 * Reads a task file into its tables.
 * Numbers: those of the file (1, 2, 3, 6, 7, 9, 10, 11, 12, 24, 4, first fault first), 20.
 * Afterwards tables holds the layout and 0 behind it; all 0 unless PNF_OK.
 */
uint32_t pnf_read(const uint8_t *file, size_t file_len,
                  uint8_t *tables, size_t tables_len);

/*
 * Compiles a task file to positive normal form.
 * Numbers: those of the file, 13, 15, 20 (out or result).
 * Afterwards out holds the compiled task's file and result that file's length, and 0
 * behind them; both all 0 unless PNF_OK.
 */
uint32_t pnf_compile(const uint8_t *file, size_t file_len,
                     uint8_t *out, size_t out_len,
                     uint8_t *result, size_t result_len);

/*
 * Runs a sequence of operator numbers from a state.
 * Numbers: those of the file, 16, 19, 20 (result); then 17 or 18 if the run is stopped.
 * After PNF_OK, 17 or 18 state holds the last state and result the outcome, and 0 behind
 * it. After any other number state is as it was and result all 0.
 */
uint32_t pnf_run(const uint8_t *file, size_t file_len,
                 uint8_t *state, size_t state_len,
                 const uint8_t *sequence, size_t sequence_len,
                 uint8_t *result, size_t result_len);

/*
 * The cheapest plan from the initial state of a task of at most 10 variables, twins among
 * them: of those that cost the least one with the fewest steps, of these the first by
 * operator numbers, compared from the front.
 * Numbers: those of the file, 21, 20 (result), 22, 23 (out).
 * Afterwards out holds the plan's operator numbers and result its steps and cost, and 0
 * behind them; both all 0 unless PNF_OK.
 */
uint32_t pnf_plan(const uint8_t *file, size_t file_len,
                  uint8_t *out, size_t out_len,
                  uint8_t *result, size_t result_len);

#ifdef __cplusplus
}
#endif

#endif
