/*
 * A small marking host: reads a sheet from a file or from standard input, and prints what the six calls say of it.
 * Usage: host [FILE]
 * Exit status: 0 all was served, 1 something was refused, 2 the sheet could not be read.
 *
 * Symbols are written as letters, a to p, the later one greater in precedence; variables as x0 to x11.
 */
#include <stdio.h>

#include "neblinaro.h"

/* A frame: a line of the sheet as bytes. */
struct frame {
    uint8_t bytes[NEBLINARO_LINE_DIGITS / 2];
    size_t length;
};

/* What the host lends, and what it remembers of an accepted sheet. */
struct host {
    uint8_t sheet[NEBLINARO_SHEET_BYTES + 1]; /* one byte more, so that a sheet that is too long is refused */
    size_t length;
    uint8_t table[NEBLINARO_TABLE_BYTES];
    uint8_t scratch[NEBLINARO_SCRATCH_BYTES];
    uint8_t term[NEBLINARO_TERM_BYTES];
    uint8_t log[NEBLINARO_LOG_BYTES];
    struct frame symbols;
    struct frame equations[NEBLINARO_EQUATIONS];
    struct frame tasks[NEBLINARO_TASKS];
    unsigned equation_count;
    unsigned task_count;
    int refused;
};

static const char *const refusals[] = {
    "served",
    "the sheet is empty or too long",
    "a line is not of digits, or has no LF",
    "unknown kind of frame, or their order or number is broken",
    "bad symbol frame",
    "foreign byte, unknown symbol, frame ending early, bytes left over, or too many nodes",
    "variable in a ground term",
    "judgement of an absent equation or direction",
    "more than 10,000 turns",
    "more than 40 elements",
    "more than 255 lines",
    "a lent buffer is too short",
    "no such equation, direction or task",
};

static const char *const directions[] = {"left > right", "right > left"};
static const char *const endings[] = {"no further step", "step limit reached", "the next term is too large"};
static const char *const verdicts[] = {"smaller", "equal", "greater"};
static const char *const clauses[] = {"", ", by L1", ", by L2", ", by L3"};

/* "1 line", "2 lines". */
static void print_count(unsigned count, const char *what)
{
    printf("%u %s%s", count, what, count == 1 ? "" : "s");
}

/* Prints a refusal. Gives 1 if there is one. */
static int print_refusal(struct host *host, uint64_t returned)
{
    unsigned refusal = neblinaro_refusal_of(returned), line = neblinaro_refused_line(returned);
    if (refusal == NEBLINARO_SERVED)
        return 0;
    host->refused = 1;
    printf("refusal %u", refusal);
    if (line > 0)
        printf(", line %u", line);
    printf(": %s\n", refusals[refusal]);
    return 1;
}

/* ---- the frames of an accepted sheet ---- */

static uint8_t digit_value(uint8_t digit)
{
    return (uint8_t)(digit <= '9' ? digit - '0' : digit - 'a' + 10);
}

/* Reads the line that starts at `start` as a frame, and gives the start of the next line. */
static size_t read_frame(const uint8_t *sheet, size_t start, struct frame *frame)
{
    frame->length = 0;
    while (sheet[start] != '\n') {
        frame->bytes[frame->length++] = (uint8_t)(16 * digit_value(sheet[start]) + digit_value(sheet[start + 1]));
        start += 2;
    }
    return start + 1;
}

/* Takes an accepted sheet apart: check has looked at its digits, its frames and their number. */
static void read_frames(struct host *host)
{
    size_t start = read_frame(host->sheet, 0, &host->symbols);
    while (start < host->length) {
        struct frame frame;
        start = read_frame(host->sheet, start, &frame);
        if (frame.bytes[0] == 2)
            host->equations[host->equation_count++] = frame;
        else
            host->tasks[host->task_count++] = frame;
    }
}

static unsigned arity(const struct host *host, uint8_t symbol)
{
    return host->symbols.bytes[2 + symbol];
}

/* ---- terms ---- */

/* Prints the term whose prefix form starts at `bytes`, and gives how many bytes it has. */
static size_t print_term(const struct host *host, const uint8_t *bytes)
{
    size_t length = 1;
    unsigned i, count;
    if (bytes[0] >= NEBLINARO_FIRST_VARIABLE) {
        printf("x%d", bytes[0] - NEBLINARO_FIRST_VARIABLE);
        return length;
    }
    putchar('a' + bytes[0]);
    count = arity(host, bytes[0]);
    for (i = 0; i < count; i++) {
        putchar(i == 0 ? '(' : ',');
        length += print_term(host, bytes + length);
    }
    if (count > 0)
        putchar(')');
    return length;
}

/* Prints two terms that stand one behind the other. */
static void print_pair(const struct host *host, const uint8_t *bytes, const char *between)
{
    size_t length = print_term(host, bytes);
    fputs(between, stdout);
    print_term(host, bytes + length);
}

/* ---- lines ---- */

/* Prints a line of a table: its bindings and then its inequalities, which all have to hold. */
static void print_line(const struct host *host, const struct frame *equation, const uint8_t *record)
{
    const uint8_t *terms = equation->bytes + 1, *elements = record + NEBLINARO_VARIABLES + 1;
    unsigned variable, element, printed = 0;
    for (variable = 0; variable < NEBLINARO_VARIABLES; variable++)
        if (record[variable] != NEBLINARO_NO_POSITION) {
            printf("%sx%u = ", printed++ > 0 ? ", " : "", variable);
            print_term(host, terms + record[variable]);
        }
    for (element = 0; element < record[NEBLINARO_VARIABLES]; element++) {
        fputs(printed++ > 0 ? ", " : "", stdout);
        print_term(host, terms + elements[2 * element]);
        fputs(" > ", stdout);
        print_term(host, terms + elements[2 * element + 1]);
    }
    puts(printed > 0 ? "" : "always");
}

static void solve(struct host *host, unsigned equation, unsigned direction)
{
    unsigned line, lines;
    uint64_t returned = neblinaro_solve(host->sheet, host->length, equation, direction, host->table,
                                        sizeof host->table, host->scratch, sizeof host->scratch);
    printf("  %s: ", directions[direction]);
    if (print_refusal(host, returned))
        return;
    lines = neblinaro_solved_lines(returned);
    print_count(lines, "line");
    fputs(", ", stdout);
    print_count(neblinaro_solved_turns(returned), "turn");
    puts(lines > 0 ? "" : ", never");
    for (line = 0; line < lines; line++) {
        printf("    %u. ", line + 1);
        print_line(host, &host->equations[equation], host->table + line * NEBLINARO_RECORD_BYTES);
    }
}

/* Whether the direction always holds, which is told before all its lines are found, and may be told where they are too many. */
static void always(struct host *host, unsigned equation, unsigned direction)
{
    uint64_t returned = neblinaro_always(host->sheet, host->length, equation, direction, host->table,
                                         sizeof host->table, host->scratch, sizeof host->scratch);
    printf("  %s always: ", directions[direction]);
    if (print_refusal(host, returned))
        return;
    fputs(neblinaro_always_yes(returned) ? "yes, after " : "no, after ", stdout);
    print_count(neblinaro_always_turns(returned), "turn");
    puts("");
}

/* ---- tasks ---- */

static void run(struct host *host, unsigned task)
{
    const struct frame *frame = &host->tasks[task];
    unsigned step, steps;
    uint64_t returned;
    fputs("run of ", stdout);
    print_term(host, frame->bytes + 2);
    fputs(", at most ", stdout);
    print_count(frame->bytes[1], "step");
    fputs("\n  ", stdout);
    returned = neblinaro_run(host->sheet, host->length, task, host->table, sizeof host->table, host->scratch,
                             sizeof host->scratch, host->term, sizeof host->term, host->log, sizeof host->log);
    if (print_refusal(host, returned))
        return;
    steps = neblinaro_run_steps(returned);
    for (step = 0; step < steps; step++) {
        const uint8_t *entry = host->log + NEBLINARO_STEP_BYTES * step;
        printf("equation %u, %s, at position %u\n  ", entry[0], directions[entry[1]], entry[2]);
    }
    print_term(host, host->term);
    fputs(" after ", stdout);
    print_count(steps, "step");
    printf(", %s\n", endings[neblinaro_run_ending(returned)]);
}

static void judge(struct host *host, unsigned task)
{
    const struct frame *frame = &host->tasks[task];
    size_t start = 3;
    unsigned variable;
    uint64_t returned;
    printf("judgement of equation %u, %s", frame->bytes[1], directions[frame->bytes[2]]);
    for (variable = 0; start < frame->length; variable++) {
        printf(", x%u = ", variable);
        start += print_term(host, frame->bytes + start);
    }
    fputs("\n  ", stdout);
    returned = neblinaro_judge(host->sheet, host->length, task, host->table, sizeof host->table, host->scratch,
                               sizeof host->scratch);
    if (print_refusal(host, returned))
        return;
    if (neblinaro_judged_yes(returned))
        printf("yes, by line %u\n", neblinaro_judged_line(returned));
    else
        puts("no");
}

static void compare(struct host *host, unsigned task)
{
    uint64_t returned;
    fputs("comparison of ", stdout);
    print_pair(host, host->tasks[task].bytes + 1, " with ");
    fputs("\n  ", stdout);
    returned = neblinaro_compare(host->sheet, host->length, task, host->scratch, sizeof host->scratch);
    if (!print_refusal(host, returned))
        printf("%s%s\n", verdicts[neblinaro_compared_verdict(returned)], clauses[neblinaro_compared_clause(returned)]);
}

/* ---- the sheet ---- */

static void print_symbols(const struct host *host)
{
    unsigned symbol;
    fputs("symbols, ascending:", stdout);
    for (symbol = 0; symbol < host->symbols.bytes[1]; symbol++) {
        printf(" %c", 'a' + (int)symbol);
        if (arity(host, (uint8_t)symbol) > 0)
            printf("/%u", arity(host, (uint8_t)symbol));
    }
    puts("");
}

static void mark(struct host *host)
{
    unsigned equation, direction, task;
    if (print_refusal(host, neblinaro_check(host->sheet, host->length)))
        return;
    read_frames(host);
    print_symbols(host);
    for (equation = 0; equation < host->equation_count; equation++) {
        printf("equation %u: ", equation);
        print_pair(host, host->equations[equation].bytes + 1, " = ");
        puts("");
        for (direction = 0; direction < 2; direction++) {
            solve(host, equation, direction);
            always(host, equation, direction);
        }
    }
    for (task = 0; task < host->task_count; task++) {
        printf("task %u: ", task);
        switch (host->tasks[task].bytes[0]) {
        case 3:
            run(host, task);
            break;
        case 4:
            judge(host, task);
            break;
        default:
            compare(host, task);
        }
    }
}

int main(int argc, char **argv)
{
    static struct host host;
    FILE *file = stdin;
    if (argc > 2) {
        fputs("usage: host [FILE]\n", stderr);
        return 2;
    }
    if (argc == 2 && (file = fopen(argv[1], "rb")) == NULL) {
        perror(argv[1]);
        return 2;
    }
    host.length = fread(host.sheet, 1, sizeof host.sheet, file);
    if (ferror(file)) {
        fputs("host: cannot read the sheet\n", stderr);
        return 2;
    }
    mark(&host);
    return host.refused;
}
