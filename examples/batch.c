/*
 * Marks many sheets on several threads: file names on standard input, one a line. Prints a line for each sheet, in the
 * order of the names, and behind all of them, on standard error, how many sheets a second were marked.
 * Usage: batch [THREADS]
 * Exit status: 0 all sheets were read (a refused sheet is an answer), 2 some could not be read, or no memory was left.
 *
 * The calls keep nothing and share nothing, so that a thread needs buffers of its own and nothing else.
 */
#define _POSIX_C_SOURCE 200809L
#include <pthread.h>
#include <stdio.h>
#include <stdlib.h>
#include <string.h>
#include <time.h>

#include "neblinaro.h"

#define MOST_THREADS 256
/* Sheets that a thread takes at a time: threads then seldom meet at the lock. */
#define PORTION 8

/* What is printed of a sheet: the first refusal, or sums over its equations and tasks. */
struct mark {
    int unread;
    uint64_t refused; /* what the refused call returned, or 0 */
    unsigned lines, turns, steps, yes, no, verdicts[3];
};

struct sheet {
    char *name;
    struct mark mark;
};

struct batch {
    struct sheet *sheets;
    size_t count;
    size_t next; /* the first sheet that no thread has taken */
    pthread_mutex_t lock; /* of `next` */
};

/* The lent memory of one thread. */
struct buffers {
    uint8_t sheet[NEBLINARO_SHEET_BYTES + 1]; /* one byte more, so that a sheet that is too long is refused */
    uint8_t table[NEBLINARO_TABLE_BYTES];
    uint8_t scratch[NEBLINARO_SCRATCH_BYTES];
    uint8_t term[NEBLINARO_TERM_BYTES];
    uint8_t log[NEBLINARO_LOG_BYTES];
};

/* ---- marking a sheet ---- */

/* Remembers a refusal. Gives whether there is none. */
static int served(struct mark *mark, uint64_t returned)
{
    if (neblinaro_refusal_of(returned) == NEBLINARO_SERVED)
        return 1;
    mark->refused = returned;
    return 0;
}

static int mark_equation(struct buffers *lent, size_t length, unsigned equation, struct mark *mark)
{
    unsigned direction;
    for (direction = 0; direction < 2; direction++) {
        uint64_t returned = neblinaro_solve(lent->sheet, length, equation, direction, lent->table, sizeof lent->table,
                                            lent->scratch, sizeof lent->scratch);
        if (!served(mark, returned))
            return 0;
        mark->lines += neblinaro_solved_lines(returned);
        mark->turns += neblinaro_solved_turns(returned);
    }
    return 1;
}

/* `kind` is the last digit of the task frame's kind. */
static int mark_task(struct buffers *lent, size_t length, unsigned task, char kind, struct mark *mark)
{
    uint64_t returned;
    switch (kind) {
    case '3':
        returned = neblinaro_run(lent->sheet, length, task, lent->table, sizeof lent->table, lent->scratch,
                                 sizeof lent->scratch, lent->term, sizeof lent->term, lent->log, sizeof lent->log);
        if (served(mark, returned))
            mark->steps += neblinaro_run_steps(returned);
        break;
    case '4':
        returned = neblinaro_judge(lent->sheet, length, task, lent->table, sizeof lent->table, lent->scratch,
                                   sizeof lent->scratch);
        if (served(mark, returned))
            *(neblinaro_judged_yes(returned) ? &mark->yes : &mark->no) += 1;
        break;
    default:
        returned = neblinaro_compare(lent->sheet, length, task, lent->scratch, sizeof lent->scratch);
        if (served(mark, returned))
            mark->verdicts[neblinaro_compared_verdict(returned)] += 1;
    }
    return mark->refused == 0;
}

/* Goes over the lines of a sheet that check accepts: the symbols, the equations, and the tasks. */
static void mark_sheet(struct buffers *lent, size_t length, struct mark *mark)
{
    unsigned equations = 0, tasks = 0;
    size_t at = 0;
    int going = served(mark, neblinaro_check(lent->sheet, length));
    while (going && at < length) {
        char kind = (char)lent->sheet[at + 1];
        if (kind == '2')
            going = mark_equation(lent, length, equations++, mark);
        else if (kind != '1')
            going = mark_task(lent, length, tasks++, kind, mark);
        while (lent->sheet[at++] != '\n')
            ;
    }
}

static struct mark read_and_mark(struct buffers *lent, const char *name)
{
    struct mark mark = {1, 0, 0, 0, 0, 0, 0, {0, 0, 0}};
    size_t length;
    FILE *file = fopen(name, "rb");
    if (file == NULL)
        return mark;
    setvbuf(file, NULL, _IONBF, 0); /* no buffer between the file and the lent memory */
    length = fread(lent->sheet, 1, sizeof lent->sheet, file);
    mark.unread = ferror(file) != 0;
    fclose(file);
    if (!mark.unread)
        mark_sheet(lent, length, &mark);
    return mark;
}

/* ---- threads ---- */

static void *mark_portions(void *argument)
{
    struct batch *batch = (struct batch *)argument;
    struct buffers *lent = (struct buffers *)malloc(sizeof *lent);
    size_t from, to;
    if (lent == NULL)
        return NULL; /* the other threads mark what is left */
    do {
        pthread_mutex_lock(&batch->lock);
        from = batch->next;
        to = from + PORTION < batch->count ? from + PORTION : batch->count;
        batch->next = to;
        pthread_mutex_unlock(&batch->lock);
        for (; from < to; from++) /* a mark is stored once, so that threads seldom write to the same cache line */
            batch->sheets[from].mark = read_and_mark(lent, batch->sheets[from].name);
    } while (to < batch->count);
    free(lent);
    return batch;
}

/* Marks all sheets on so many threads. Gives whether every thread that is needed was there. */
static int mark_batch(struct batch *batch, unsigned threads)
{
    pthread_t started[MOST_THREADS];
    unsigned count = 0, served_by = 0;
    while (count < threads && pthread_create(&started[count], NULL, mark_portions, batch) == 0)
        count++;
    while (count > 0) {
        void *ended;
        pthread_join(started[--count], &ended);
        served_by += ended != NULL;
    }
    return served_by > 0;
}

/* ---- names in, marks out ---- */

static int read_names(struct batch *batch)
{
    size_t room = 0, line_room = 0;
    char *line = NULL;
    while (getline(&line, &line_room, stdin) > 0) {
        struct sheet *sheet;
        line[strcspn(line, "\n")] = '\0';
        if (batch->count == room) {
            struct sheet *larger;
            room = 2 * room + 64;
            larger = (struct sheet *)realloc(batch->sheets, room * sizeof *larger);
            if (larger == NULL)
                return 0;
            batch->sheets = larger;
        }
        sheet = &batch->sheets[batch->count++];
        memset(sheet, 0, sizeof *sheet);
        sheet->name = line;
        line = NULL;
        line_room = 0;
    }
    free(line);
    return 1;
}

static void print_sheet(const struct sheet *sheet)
{
    const struct mark *mark = &sheet->mark;
    printf("%s: ", sheet->name);
    if (mark->unread)
        puts("cannot be read");
    else if (mark->refused != 0)
        printf("refusal %u, line %u\n", neblinaro_refusal_of(mark->refused), neblinaro_refused_line(mark->refused));
    else
        printf("lines %u, turns %u, steps %u, yes %u, no %u, smaller %u, equal %u, greater %u\n", mark->lines, mark->turns,
               mark->steps, mark->yes, mark->no, mark->verdicts[NEBLINARO_SMALLER], mark->verdicts[NEBLINARO_EQUAL],
               mark->verdicts[NEBLINARO_GREATER]);
}

static double seconds(void)
{
    struct timespec now;
    clock_gettime(CLOCK_MONOTONIC, &now);
    return (double)now.tv_sec + 1e-9 * (double)now.tv_nsec;
}

int main(int argc, char **argv)
{
    struct batch batch = {NULL, 0, 0, PTHREAD_MUTEX_INITIALIZER};
    unsigned long threads = argc == 2 ? strtoul(argv[1], NULL, 10) : 1;
    double took;
    size_t i;
    int unread = 0;
    if (argc > 2 || threads < 1 || threads > MOST_THREADS) {
        fprintf(stderr, "usage: batch [THREADS], 1 to %d; names of sheets on standard input\n", MOST_THREADS);
        return 2;
    }
    if (!read_names(&batch)) {
        fputs("batch: no memory for the names\n", stderr);
        return 2;
    }
    took = seconds();
    if (!mark_batch(&batch, (unsigned)threads)) {
        fputs("batch: no thread could be started\n", stderr);
        return 2;
    }
    took = seconds() - took;
    for (i = 0; i < batch.count; i++) {
        print_sheet(&batch.sheets[i]);
        unread |= batch.sheets[i].mark.unread;
        free(batch.sheets[i].name);
    }
    free(batch.sheets);
    fflush(stdout);
    fprintf(stderr, "%zu sheets in %.3f s on %lu thread%s: %.0f a second\n", batch.count, took, threads,
            threads == 1 ? "" : "s", took > 0 ? (double)batch.count / took : 0);
    return unread ? 2 : 0;
}
