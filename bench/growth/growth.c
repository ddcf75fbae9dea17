/* Says of each call of hivevigil.h whether its cost grows with rows where the runs stay five: each is timed over
 * columns of 2^10 to 2^60 rows, in a process of its own with a limit of time and of memory, by which a call that grows
 * is stopped. Prints the table of docs/PERFORMANCE.md, and on standard error how many calls grow, and which. run.sh
 * builds and runs it. */
#include "columns.h"
#include <malloc.h>
#include <stdbool.h>
#include <sys/time.h>
#include <sys/wait.h>
#include <time.h>
#include <unistd.h>

enum { SIZES_ASKED = 5, MOST_BYTES = 1 << 28, MOST_MICROSECONDS = 400000, LEAST_TURNS = 4, MOST_TURNS = 40 };
static const unsigned powers[SIZES_ASKED] = {10, 20, 30, 40, 60};

/* What a call cost, the least of several turns: its time, and the most bytes that it held beyond those before. */
typedef struct cost {
    double microseconds;
    size_t bytes;
    int32_t answer;
    uint8_t is_there;
} cost;

/* ---- Memory, which is counted and limited ---- */

void *__real_malloc(size_t size);
void *__real_realloc(void *block, size_t size);
void *__real_calloc(size_t count, size_t size);
void __real_free(void *block);
static size_t held, most_held;

static void *counted(void *block) {
    if (block) held += malloc_usable_size(block);
    if (held > most_held) most_held = held;
    return block;
}
void *__wrap_malloc(size_t size) { return size > MOST_BYTES - held ? NULL : counted(__real_malloc(size)); }
void *__wrap_calloc(size_t count, size_t size) {
    return count && size > (MOST_BYTES - held) / count ? NULL : counted(__real_calloc(count, size));
}
void __wrap_free(void *block) {
    if (block) held -= malloc_usable_size(block);
    __real_free(block);
}
void *__wrap_realloc(void *block, size_t size) {
    const size_t before = block ? malloc_usable_size(block) : 0;
    if (size > MOST_BYTES - held) return NULL;
    void *made = __real_realloc(block, size);
    if (!made) return NULL;
    held -= before;
    return counted(made);
}

/* ---- Calls that are more than one ---- */

enum built_by { BY_NOTHING, BY_VALUE, BY_COLUMN, BY_ENCODING };

/* A builder from its start to its end, with all rows in it. */
static int32_t built(inputs *in, enum built_by by) {
    int32_t answer = hv_builder_new(&in->type, &in->builder, &in->error);
    if (!answer && by == BY_VALUE)
        answer = hv_append_value(&in->builder, &in->value, in->text, (size_t)in->value.as_unsigned, in->rows,
                                 &in->error);
    if (!answer && by >= BY_COLUMN) answer = hv_append(&in->builder, &in->column, &in->error);
    in->size = hv_builder_rows(&in->builder) + hv_builder_runs(&in->builder);
    if (!answer && by == BY_ENCODING) answer = hv_encoding(&in->builder, &in->out, &in->error);
    if (!answer && by != BY_ENCODING) answer = hv_finish(&in->builder, &in->out, &in->error);
    hv_builder_free(&in->builder);
    return answer;
}

/* The column again by its record, ends and values. */
static int32_t read_record(inputs *in) {
    int32_t answer = hv_serialize(&in->column, in->bytes, ROOM, &in->size, &in->error);
    if (answer) return answer;
    return hv_deserialize(&in->type, in->rows, in->bytes, in->size, &in->ends, &in->values, &in->out, &in->error);
}

static int32_t freed(inputs *in) {
    const int32_t answer = hv_clone(&in->column, &in->out, &in->error);
    hv_free(&in->out);
    return answer;
}

/* Makes the codes numbers of one type, in the first turn of a call. */
static int32_t cast_codes(inputs *in, uint8_t number) {
    const hv_kind kind = {number, 0, 0, 0};
    return in->cast.at ? HV_OK : hv_cast(&in->session, &in->codes, &kind, &in->cast, &in->error);
}
#define READ_AS(type, number) \
    cast_codes(in, number) || hv_read_##type(&in->cast, in->start, (void *)in->pairs, RUN_COUNT, &in->error)

/* ---- The cases ---- */

#define GLUED(name, line) case_##name##_##line
#define CASE_AT(name, line) GLUED(name, line)
#define CALL(name, shown, kinds, expression) \
    static int32_t CASE_AT(name, __LINE__)(inputs *in) { return (expression); }
#include "calls.h"

typedef struct call_case {
    const char *call, *shown;
    unsigned kinds;
    int32_t (*work)(inputs *in);
} call_case;

static const call_case cases[] = {
#define CALL(name, shown, kinds, expression) {#name, shown, kinds, CASE_AT(name, __LINE__)},
#include "calls.h"
};
enum { CASES = sizeof cases / sizeof *cases };
static cost costs[CASES][KINDS][SIZES_ASKED];

/* ---- One call, timed in a process of its own ---- */

static double now(void) {
    struct timespec time;
    clock_gettime(CLOCK_MONOTONIC, &time);
    return (double)time.tv_sec * 1e6 + (double)time.tv_nsec / 1e3;
}

/* The cost of a call over columns of as many rows. */
static cost timed(const call_case *asked, unsigned kind, size_t rows) {
    static inputs in;
    const struct itimerval limit = {{0, 0}, {0, MOST_MICROSECONDS}};
    cost found = {1e300, SIZE_MAX, HV_OK, 1};
    make_inputs(&in, kind, rows);
    double whole = 0;
    for (int turn = 0; turn < MOST_TURNS && (turn < LEAST_TURNS || whole < 20000) && !found.answer; turn++) {
        const size_t before = most_held = held;
        setitimer(ITIMER_PROF, &limit, NULL);
        const double start = now();
        found.answer = asked->work(&in);
        const double taken = now() - start;
        whole += taken;
        if (taken < found.microseconds) found.microseconds = taken;
        if (most_held - before < found.bytes) found.bytes = most_held - before;
    }
    return found;
}

/* Times a call over each number of rows, up to the first that stops it, and writes what each cost. */
static void time_all(const call_case *asked, unsigned kind, int to) {
    for (int size = 0; size < SIZES_ASKED; size++) {
        const cost found = timed(asked, kind, (size_t)1 << powers[size]);
        if (write(to, &found, sizeof found) != sizeof found || found.answer) return;
    }
}

/* The same in a process of its own. What is missing was stopped. */
static bool ask(const call_case *asked, unsigned kind, cost *found) {
    int ends[2], status = 0;
    memset(found, 0, SIZES_ASKED * sizeof *found);
    if (pipe(ends)) return false;
    const pid_t child = fork();
    if (child == 0) {
        time_all(asked, kind, ends[1]);
        _exit(0);
    }
    close(ends[1]);
    for (int size = 0; size < SIZES_ASKED && read(ends[0], found + size, sizeof *found) == sizeof *found; size++) {}
    close(ends[0]);
    if (waitpid(child, &status, 0) < 0 || (WIFEXITED(status) && WEXITSTATUS(status))) return false;
    for (int size = 0; size < SIZES_ASKED; size++) {
        if (!found[size].is_there || !found[size].answer || found[size].answer == HV_OUT_OF_MEMORY) continue;
        fprintf(stderr, "growth: %s of %u is refused as %d\n", asked->call, kind, (int)found[size].answer);
        return false;
    }
    return true;
}

/* ---- The table ---- */

static bool is_stopped(const cost *found) { return !found->is_there || found->answer; }

/* Does the cost of 2^60 rows differ from that of 2^10 by more than the widths of numbers and chance explain? */
static bool grows(const cost *found) {
    const cost *few = found, *many = found + SIZES_ASKED - 1;
    for (int size = 0; size < SIZES_ASKED; size++)
        if (is_stopped(found + size)) return true;
    return many->microseconds > 8 * few->microseconds + 20 || many->bytes > 4 * few->bytes + 4096;
}

/* The rows of the table: the greatest costs of cases of one text, of the kinds that grow or of those that do not. */
static void print_row(int first, int after, bool is_grown) {
    unsigned kinds = 0, all = 0;
    cost most[SIZES_ASKED] = {{0, 0, 0, 1}};
    for (int at = first; at < after; at++) {
        all |= cases[at].kinds;
        for (int kind = 0; kind < KINDS; kind++) {
            if (!(cases[at].kinds >> kind & 1) || grows(costs[at][kind]) != is_grown) continue;
            kinds |= 1u << kind;
            for (int size = 0; size < SIZES_ASKED; size++) {
                const cost *found = &costs[at][kind][size];
                if (is_stopped(found)) most[size].answer = HV_OUT_OF_MEMORY;
                if (found->is_there && found->microseconds > most[size].microseconds)
                    most[size].microseconds = found->microseconds;
                if (found->is_there && found->bytes > most[size].bytes) most[size].bytes = found->bytes;
            }
        }
    }
    if (!kinds) return;
    printf("| %s | ", cases[first].shown);
    const char *comma = "";
    for (int kind = 0; kind < KINDS && kinds != all; kind++)
        if (kinds >> kind & 1) printf("%s%s", comma, kind_names[kind]), comma = ", ";
    if (kinds == all) printf("all");
    for (int size = 0; size < SIZES_ASKED; size++)
        if (most[size].answer) printf(" | stopped");
        else printf(" | %.1f", most[size].microseconds);
    if (most[SIZES_ASKED - 1].answer) printf(" | stopped");
    else printf(" | %zu", most[SIZES_ASKED - 1].bytes);
    puts(is_grown ? " | **yes** |" : " | no |");
}

static void print_table(void) {
    puts("| Call | Kinds | 2^10 rows | 2^20 | 2^30 | 2^40 | 2^60 | Bytes at 2^60 | Grows |");
    puts("|---|---|---|---|---|---|---|---|---|");
    for (int first = 0, after; first < CASES; first = after) {
        for (after = first + 1; after < CASES && !strcmp(cases[after].shown, cases[first].shown); after++) {}
        print_row(first, after, false);
        print_row(first, after, true);
    }
}

/* How many calls there are, and the names of those that grow, of which each is said once. */
static void print_calls(void) {
    int calls = 0, grown = 0;
    char names[4096] = "";
    for (int at = 0, after; at < CASES; at = after) {
        bool is_grown = false;
        for (after = at; after < CASES && !strcmp(cases[after].call, cases[at].call); after++)
            for (int kind = 0; kind < KINDS; kind++)
                is_grown |= (cases[after].kinds >> kind & 1) && grows(costs[after][kind]);
        calls++;
        grown += is_grown;
        if (is_grown) strcat(strcat(names, " "), cases[at].call);
    }
    fprintf(stderr, "%d calls, %d grow:%s\n", calls, grown, names);
}

/* A call that seems to grow is asked again: on a busy machine a turn may take long by chance. */
int main(void) {
    for (int at = 0; at < CASES; at++)
        for (int kind = 0; kind < KINDS; kind++)
            for (int turn = 0; turn < 3 && grows(costs[at][kind]) && cases[at].kinds >> kind & 1; turn++)
                if (!ask(&cases[at], 1u << kind, costs[at][kind])) return 2;
    print_table();
    print_calls();
    return 0;
}
