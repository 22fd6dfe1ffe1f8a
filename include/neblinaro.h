/*
 * neblinaro.h: six calls for a marking host.
 *
 * A sheet is text: symbols, equations, and tasks over ground terms. The calls check a sheet, compare ground terms in
 * the lexicographic path ordering, solve an equation in a direction, ask whether it always holds, judge values, and run
 * a term.
 * Link with target/staticlib/libneblinaro.a, which `./build` writes.
 *
 * Each call is lent the whole sheet and reads it afresh. Nothing is kept between calls and nothing is shared between
 * them, nothing is allocated, and no call takes a lock or blocks: any number of threads may call at once, each with
 * buffers of its own; the sheet, which is only read, may be the same. A stack of 128 KiB is enough.
 *
 * ONE THING IS TAKEN ON TRUST: the host states true lengths, and lends buffers that overlap neither one another nor
 * the sheet. Whatever else is wrong is refused. Every byte of a buffer may hold anything before a call; a pointer with
 * length 0 is never followed and may be null.
 *
 * C99 or later, and C++.
 */
#ifndef NEBLINARO_H
#define NEBLINARO_H

#include <stddef.h>
#include <stdint.h>

#ifdef __cplusplus
extern "C" {
#endif

/* ---- the sheet's limits ---- */

#define NEBLINARO_SHEET_BYTES 16384 /* the longest sheet */
#define NEBLINARO_LINE_DIGITS 326 /* the longest line, without its LF */
#define NEBLINARO_SYMBOLS 16
#define NEBLINARO_ARITY 4
#define NEBLINARO_FIRST_VARIABLE 0x80 /* the byte of variable 0; symbols are below it */
#define NEBLINARO_VARIABLES 12 /* 80 to 8b */
#define NEBLINARO_EQUATIONS 16 /* numbered from 0 */
#define NEBLINARO_TASKS 32 /* runs, judgements and comparisons, numbered together from 0 */
#define NEBLINARO_SIDE_NODES 32 /* nodes of one side of an equation */
#define NEBLINARO_TASK_NODES 160 /* nodes of the terms of one task together, and of any term of a run */

/* ---- the limits of walks and runs ---- */

#define NEBLINARO_TURNS 10000 /* turns of one walk */
#define NEBLINARO_ELEMENTS 40 /* elements of a line */
#define NEBLINARO_LINES 255 /* lines of a table */
#define NEBLINARO_STEPS 255 /* steps of a run */

/* ---- lent buffers: the least lengths. A longer buffer is served, and its excess is not touched. ---- */

/*
 * A record is a line of a table: for each variable the position that it is bound to, the count of elements, and for
 * each element the positions of its greater and of its smaller side. Positions count the bytes of the equation, left
 * term and then right, from 0. NEBLINARO_NO_POSITION stands for a variable that is not bound, and behind the last
 * element.
 */
#define NEBLINARO_RECORD_BYTES (NEBLINARO_VARIABLES + 1 + 2 * NEBLINARO_ELEMENTS) /* 93 */
#define NEBLINARO_NO_POSITION 0xff

#define NEBLINARO_TABLE_BYTES (NEBLINARO_LINES * NEBLINARO_RECORD_BYTES) /* 23,715 */
#define NEBLINARO_SCRATCH_BYTES 57344
#define NEBLINARO_TERM_BYTES NEBLINARO_TASK_NODES

/* A step in the log: equation, direction, and the position in the term before the step. */
#define NEBLINARO_STEP_BYTES 3
#define NEBLINARO_LOG_BYTES (NEBLINARO_STEPS * NEBLINARO_STEP_BYTES)

/* ---- refusals ---- */

enum neblinaro_refusal {
    NEBLINARO_SERVED = 0, /* no refusal */

    /* Whoever types the sheet. The line is the sheet's, counted from 1; it is 0 with NEBLINARO_TEXT_LENGTH. */
    NEBLINARO_TEXT_LENGTH = 1, /* the sheet is empty or too long */
    NEBLINARO_DIGITS = 2, /* a line is not an even count, 2 to 326, of the digits 0-9 and a-f, or has no LF */
    NEBLINARO_FRAME_ORDER = 3, /* unknown kind of frame, or their order or number is broken */
    NEBLINARO_SYMBOL_FRAME = 4, /* bad symbol frame */
    NEBLINARO_FRAME_BYTES = 5, /* foreign byte, unknown symbol, frame ending early, bytes left over, too many nodes */
    NEBLINARO_NOT_GROUND = 6, /* variable in a ground term */
    NEBLINARO_ABSENT_DIRECTION = 7, /* judgement of an equation or a direction that the sheet does not have */

    /* Whoever writes the equations. The line is the equation's. */
    NEBLINARO_TOO_MANY_TURNS = 8, /* a walk needs more than 10,000 turns */
    NEBLINARO_TOO_MANY_ELEMENTS = 9, /* a line needs more than 40 elements */
    NEBLINARO_TOO_MANY_LINES = 10, /* a table has more than 255 lines after a turn */

    /* The host. The line is 0. */
    NEBLINARO_SHORT_BUFFER = 11, /* a lent buffer is too short */
    NEBLINARO_ABSENT_ARGUMENT = 12 /* no such equation, direction or task, or the task is of another kind */
};

/*
 * Which refusal where several are earned: 11; 1; then line by line 2, 3, and 4, or 7 and then the first of 5 and 6; then
 * 12; then the walk's 8, 9, 10. Refusals 8 to 10 leave the first NEBLINARO_TABLE_BYTES of the table ff, the first
 * NEBLINARO_SCRATCH_BYTES of scratch 00, and other buffers as they were. All other refusals write nothing.
 */

/* ---- what a call returns: the refusal in the lowest byte, above it fields of 16 bits ---- */

static inline uint16_t neblinaro_field(uint64_t returned, unsigned field)
{
    return (uint16_t)(returned >> (8 + 16 * field));
}

/* An enum neblinaro_refusal: 0 where the call was served. Only then the other fields are what their names say. */
static inline uint8_t neblinaro_refusal_of(uint64_t returned)
{
    return (uint8_t)returned;
}

/* The line that a refusal names, counted from 1, or 0 where it names none. */
static inline uint16_t neblinaro_refused_line(uint64_t returned)
{
    return neblinaro_field(returned, 0);
}

/* Solve: the lines of the table, and the turns that the walk took. */
static inline uint16_t neblinaro_solved_lines(uint64_t returned)
{
    return neblinaro_field(returned, 0);
}

static inline uint16_t neblinaro_solved_turns(uint64_t returned)
{
    return neblinaro_field(returned, 1);
}

/* Always: 1 for yes and 0 for no, and the turns that the walk took by then. */
static inline uint16_t neblinaro_always_yes(uint64_t returned)
{
    return neblinaro_field(returned, 0);
}

static inline uint16_t neblinaro_always_turns(uint64_t returned)
{
    return neblinaro_field(returned, 1);
}

/* Judge: 1 where a line holds and else 0, and the first line that holds, counted from 1, or 0. */
static inline uint16_t neblinaro_judged_yes(uint64_t returned)
{
    return neblinaro_field(returned, 0);
}

static inline uint16_t neblinaro_judged_line(uint64_t returned)
{
    return neblinaro_field(returned, 1);
}

/* Run: the steps taken, why no further one was taken, and the bytes of the last term. */
enum neblinaro_ending {
    NEBLINARO_NO_STEP = 0, /* no equation can be applied */
    NEBLINARO_STEP_LIMIT = 1, /* the step limit is reached */
    NEBLINARO_NODE_LIMIT = 2 /* the next term would have more than 160 nodes */
};

static inline uint16_t neblinaro_run_steps(uint64_t returned)
{
    return neblinaro_field(returned, 0);
}

static inline uint16_t neblinaro_run_ending(uint64_t returned)
{
    return neblinaro_field(returned, 1);
}

static inline uint16_t neblinaro_run_term_bytes(uint64_t returned)
{
    return neblinaro_field(returned, 2);
}

/* Compare: the first term is smaller than the second, equal to it, or greater. */
enum neblinaro_verdict { NEBLINARO_SMALLER = 0, NEBLINARO_EQUAL = 1, NEBLINARO_GREATER = 2 };

/*
 * The clause that decided: the first of L1, L2, L3 by which the greater term exceeds the other, and none where the terms
 * are equal. With s = f(s1..sm) the greater term and t = g(t1..tn) the other:
 */
enum neblinaro_clause {
    NEBLINARO_NO_CLAUSE = 0,
    NEBLINARO_L1 = 1, /* some si exceeds t or equals it */
    NEBLINARO_L2 = 2, /* f is above g in precedence, and s exceeds every tj */
    NEBLINARO_L3 = 3 /* f is g; the first arguments that differ are sk > tk, and s exceeds every tj behind tk */
};

static inline uint16_t neblinaro_compared_verdict(uint64_t returned)
{
    return neblinaro_field(returned, 0);
}

/* An enum neblinaro_clause. */
static inline uint16_t neblinaro_compared_clause(uint64_t returned)
{
    return neblinaro_field(returned, 1);
}

/* ---- the calls. A length stands behind its pointer. ---- */

/*
 * Checks a sheet. Returns 0, or one of the refusals 1 to 7 with its line. Walks no equation, so that an accepted sheet
 * may still earn 8 to 10 from solve, always, judge and run.
 */
uint64_t neblinaro_check(const uint8_t *sheet, size_t sheet_length);

/*
 * Compares the two ground terms of a task (frame 05).
 *
 * scratch: at least NEBLINARO_SCRATCH_BYTES; so many of its bytes are 00 afterwards.
 * Returns: neblinaro_compared_verdict, neblinaro_compared_clause. Refusals: 1 to 7, 11, 12; scratch is then as it was.
 */
uint64_t neblinaro_compare(const uint8_t *sheet, size_t sheet_length, uint64_t task, uint8_t *scratch,
                           size_t scratch_length);

/*
 * Solves an equation in a direction: 0 for left > right, 1 for right > left.
 *
 * table: at least NEBLINARO_TABLE_BYTES; starts with the records of the lines afterwards, and is as it was behind them.
 * scratch: at least NEBLINARO_SCRATCH_BYTES; so many of its bytes are 00 afterwards.
 * Returns: neblinaro_solved_lines, neblinaro_solved_turns. No lines means that the greater side never exceeds the other;
 * a line without bindings and elements, that it always does. Refusals: 1 to 12; 8 to 10 are those of this direction.
 */
uint64_t neblinaro_solve(const uint8_t *sheet, size_t sheet_length, uint64_t equation, uint64_t direction,
                         uint8_t *table, size_t table_length, uint8_t *scratch, size_t scratch_length);

/*
 * Asks whether an equation in a direction always holds: walks as solve does, and stops as soon as the table has a line
 * without bindings and elements.
 *
 * table: at least NEBLINARO_TABLE_BYTES; so many of its bytes are ff afterwards.
 * scratch: at least NEBLINARO_SCRATCH_BYTES; so many of its bytes are 00 afterwards.
 * Returns: neblinaro_always_yes, neblinaro_always_turns. Yes: at all values the greater side's instance exceeds the
 * other's. No: the table that solve gives, after as many turns, has no such line; its lines may still hold at all ground
 * values between them. Refusals: 1 to 12; 8 to 10 are those of this direction, and never met once the answer is yes.
 */
uint64_t neblinaro_always(const uint8_t *sheet, size_t sheet_length, uint64_t equation, uint64_t direction,
                          uint8_t *table, size_t table_length, uint8_t *scratch, size_t scratch_length);

/*
 * Judges a task (frame 04): whether some line of its equation and direction holds at its values. This is so exactly if
 * the greater side's instance exceeds the other's.
 *
 * table: at least NEBLINARO_TABLE_BYTES; so many of its bytes are ff afterwards.
 * scratch: at least NEBLINARO_SCRATCH_BYTES; so many of its bytes are 00 afterwards.
 * Returns: neblinaro_judged_yes, neblinaro_judged_line. Refusals: 1 to 12; 8 to 10 are those of the first equation and
 * direction of the sheet that earns one, whichever the task names.
 */
uint64_t neblinaro_judge(const uint8_t *sheet, size_t sheet_length, uint64_t task, uint8_t *table, size_t table_length,
                         uint8_t *scratch, size_t scratch_length);

/*
 * Runs the ground term of a task (frame 03) up to its step limit. Each equation is tried in both directions. Where the side
 * that replaces a match has a variable that the matched side lacks, the lowest-numbered symbol of arity 0 is its value.
 *
 * table: at least NEBLINARO_TABLE_BYTES; so many of its bytes are ff afterwards.
 * scratch: at least NEBLINARO_SCRATCH_BYTES; so many of its bytes are 00 afterwards.
 * term: at least NEBLINARO_TERM_BYTES; starts with the last term afterwards, and is as it was behind it.
 * log: at least NEBLINARO_LOG_BYTES; starts with the steps, NEBLINARO_STEP_BYTES each, and is as it was behind them.
 * Returns: neblinaro_run_steps, neblinaro_run_ending, neblinaro_run_term_bytes. Refusals: as judge.
 */
uint64_t neblinaro_run(const uint8_t *sheet, size_t sheet_length, uint64_t task, uint8_t *table, size_t table_length,
                       uint8_t *scratch, size_t scratch_length, uint8_t *term, size_t term_length, uint8_t *log,
                       size_t log_length);

#ifdef __cplusplus
}
#endif

#endif
