/* bench: the CPU time of the library on named problems, beside FLINT and PARI where they are compiled in
   (-DWITH_FLINT, -DWITH_PARI). It prints six tables in Markdown and fails if a peer finds other roots. */
#include "bench.h"

#include <signal.h>
#include <stdio.h>
#include <stdlib.h>
#include <string.h>
#include <sys/resource.h>
#include <sys/wait.h>
#include <unistd.h>

enum { SECONDS = 30, MEBIBYTES = 1024, ROUNDS = 3 };

/* The library **********************************************************************************************************************/

static problem given;
static int32_t residues[WIMPLECLAY_MAX_CLASSES];
static uint8_t levels[WIMPLECLAY_MAX_CLASSES], marks[WIMPLECLAY_MAX_CLASSES];
static wimpleclay_solve_answer answer;

static int library_prepare(const problem *q)
{
    given = *q;
    return 1;
}

static int library_run(void)
{
    answer = wimpleclay_solve(given.f, given.count, given.p, given.n, residues, WIMPLECLAY_MAX_CLASSES, levels,
                              WIMPLECLAY_MAX_CLASSES, marks, WIMPLECLAY_MAX_CLASSES);
    return answer.number == 0;
}

static uint64_t library_root_count(void)
{
    return answer.roots;
}

static const solver library = {"Wimpleclay", "", library_prepare, library_run, library_root_count, NULL};

static const solver *const solvers[] = {
    &library,
#ifdef WITH_FLINT
    &flint,
#endif
#ifdef WITH_PARI
    &pari,
#endif
};

enum { SOLVERS = sizeof solvers / sizeof *solvers };

/* Runs *****************************************************************************************************************************/

typedef enum { DONE, NOT_MADE_FOR_IT, DECLINED, NO_TIME, NO_MEMORY, FAILED } outcome;

typedef struct {
    outcome outcome;
    double seconds;
    int agrees; /* with the library */
} result;

static int is_member(uint64_t r)
{
    for (size_t i = 0; i < answer.classes; i++) {
        int64_t power = 1;
        for (int t = 0; t < levels[i]; t++)
            power *= given.p;
        if (((int64_t)r - residues[i]) % power == 0)
            return 1;
    }
    return 0;
}

static int compare(const void *a, const void *b)
{
    uint64_t x = *(const uint64_t *)a, y = *(const uint64_t *)b;
    return (x > y) - (x < y);
}

/* Whether the roots found are the members of the library's classes: as many, each a member, and none twice. */
static int agrees(const solver *s)
{
    library_run();
    if (s->root_count() != answer.roots)
        return 0;
    if (!s->root || !answer.roots)
        return 1;
    uint64_t *found = malloc(answer.roots * sizeof *found);
    if (!found)
        abort();
    for (uint64_t i = 0; i < answer.roots; i++)
        found[i] = s->root(i);
    qsort(found, answer.roots, sizeof *found, compare);
    int all = 1;
    for (uint64_t i = 0; i < answer.roots; i++)
        all = all && is_member(found[i]) && (i == 0 || found[i - 1] < found[i]);
    free(found);
    return all;
}

static result run(const solver *s, const problem *q)
{
    result r = {NOT_MADE_FOR_IT, 0, 1};
    library_prepare(q);
    if (!s->prepare(q))
        return r;
    r.outcome = DECLINED;
    if (!s->run())
        return r;
    r.outcome = DONE;
    r.seconds = time_of(s->run);
    r.agrees = agrees(s);
    return r;
}

/* Runs in a child with limited time and memory. */
static result run_limited(const solver *s, const problem *q)
{
    result r;
    int ends[2], status = 0;
    fflush(stdout);
    if (pipe(ends))
        exit(2);
    pid_t child = fork();
    if (child < 0)
        exit(2);
    if (child == 0) {
        struct rlimit memory = {(rlim_t)MEBIBYTES << 20, (rlim_t)MEBIBYTES << 20};
        if (setrlimit(RLIMIT_AS, &memory) || !freopen("/dev/null", "w", stdout) || !freopen("/dev/null", "w", stderr))
            _exit(2);
        alarm(SECONDS); /* and not RLIMIT_CPU, which makes the clock of CPU time coarse */
        r = run(s, q);
        _exit(write(ends[1], &r, sizeof r) != sizeof r);
    }
    close(ends[1]);
    int complete = read(ends[0], &r, sizeof r) == sizeof r;
    close(ends[0]);
    waitpid(child, &status, 0);
    if (complete)
        return r;
    int end = WIFSIGNALED(status) ? WTERMSIG(status) : 0; /* FLINT aborts where it gets no memory */
    return (result){end == SIGALRM ? NO_TIME : end == SIGABRT ? NO_MEMORY : FAILED, 0, 1};
}

/* Tables ***************************************************************************************************************************/

static void print_cells(const result *r, const result *first)
{
    static const char *const words[] = {"", "–", "declines", "no time", "no memory", "fails"};
    double ratio = r->seconds / first->seconds;
    if (r->outcome != DONE)
        printf(" %s | |", words[r->outcome]);
    else
        printf(" %s | %.*f |", time_text(r->seconds), ratio < 1 ? 3 : ratio < 100 ? 1 : 0, ratio);
}

/* One row of the first table: the best of some rounds, in which the solvers take turns. Returns whether all agree. */
static int print_row(const problem *q)
{
    result best[SOLVERS] = {0};
    int all = 1;
    for (int round = 0; round < ROUNDS; round++)
        for (int i = 0; i < SOLVERS; i++) {
            if (round && best[i].outcome != DONE)
                continue;
            result r = run_limited(solvers[i], q);
            all = all && r.agrees;
            if (!round || (r.outcome == DONE && r.seconds < best[i].seconds))
                best[i] = r;
        }
    library_prepare(q);
    library_run();
    printf("| %s | %zu | %llu | %s |", q->name, answer.classes, (unsigned long long)answer.roots,
           time_text(best[0].seconds));
    for (int i = 1; i < SOLVERS; i++)
        print_cells(&best[i], &best[0]);
    printf("\n");
    return all && best[0].outcome == DONE;
}

static int print_problems(void)
{
    const problem problems[] = {
        simple_roots("64 simple roots mod 65521", 65521, 1),
        drawn("random of degree 64 mod 65521", 65521, 1),
        simple_roots("64 simple roots mod 251^4", 251, 4),
        drawn("random of degree 64 mod 251^4", 251, 4),
        fermat(),
        consecutive("3^10·x(x − 1)…(x − 7) mod 3^20", 3, 20, 59049, 8),
        unity("x^2 − 1 mod 2^31", 2, 31, 1, 2),
        unity("x^64 − 1 mod 2^31", 2, 31, 1, 64),
        unity("2^20·(x^2 − 1) mod 2^31", 2, 31, 1 << 20, 2),
        repeated("(x − 1)^32 mod 2^31", 2, 31, 1, 32),
        consecutive("x(x − 1)…(x − 30) mod 2^31", 2, 31, 1, 31),
        consecutive("x(x − 1)…(x − 31) mod 2^31", 2, 31, 1, 32),
    };
    int all = 1;
    printf("| problem | classes | roots | Wimpleclay |");
    for (int i = 1; i < SOLVERS; i++)
        printf(" %s %.*s | ratio |", solvers[i]->name, (int)strcspn(solvers[i]->version, " "), solvers[i]->version);
    printf("\n|---|--:|--:|--:|");
    for (int i = 1; i < SOLVERS; i++)
        printf("--:|--:|");
    printf("\n");
    for (size_t i = 0; i < sizeof problems / sizeof *problems; i++)
        all = print_row(&problems[i]) && all;
    return all;
}

/* A list of 100,000 classes, single residues modulo 2^19, and its map. */
enum { LONG = 100000, MODULUS = 1 << 19 };

static int32_t long_residues[LONG];
static uint8_t long_levels[LONG], map[WIMPLECLAY_MAP_BYTES(MODULUS)];

static int next_in_solved(void)
{
    return wimpleclay_next_root(given.p, given.n, residues, answer.classes, levels, answer.classes, 1).number == 0;
}

static int next_in_long(void)
{
    return wimpleclay_next_root(2, 19, long_residues, LONG, long_levels, LONG, MODULUS / 2).number == 0;
}

static int fill_long(void)
{
    return wimpleclay_fill_map(2, 19, long_residues, LONG, long_levels, LONG, map, sizeof map).number == 0;
}

static int count_long(void)
{
    return wimpleclay_count_map(2, 19, map, sizeof map).ones == LONG;
}

/* One word of the map, three of its bits spare. */
static int count_word(void)
{
    return wimpleclay_count_map(61, 1, map, 8).number == 0;
}

static int print_lists(void)
{
    static const struct {
        const char *name;
        int (*call)(void);
    } calls[] = {
        {"`next_root`, 64 classes mod 251^4", next_in_solved},
        {"`next_root`, 100,000 classes mod 2^19", next_in_long},
        {"`fill_map`, 100,000 classes mod 2^19", fill_long},
        {"`count_map`, mod 2^19", count_long},
        {"`count_map`, mod 61", count_word},
    };
    problem q = simple_roots("", 251, 4);
    library_prepare(&q);
    int all = library_run();
    for (int32_t i = 0; i < LONG; i++) {
        long_residues[i] = 5 * (i - LONG / 2);
        long_levels[i] = 19;
    }
    printf("\n| one call | Wimpleclay |\n|---|--:|\n");
    for (size_t i = 0; i < sizeof calls / sizeof *calls; i++) {
        all = calls[i].call() && all;
        printf("| %s | %s |\n", calls[i].name, time_text(time_of(calls[i].call)));
    }
    return all;
}

int main(void)
{
    int all = print_problems();
    all = print_lists() && all;
    all = print_points() && all;
    all = print_counts() && all;
    all = print_raised() && all;
    all = print_systems() && all;
    if (!all)
        fprintf(stderr, "bench: a call was refused, or a peer found other roots\n");
    return !all;
}
