/* Times libraries on matrices call by call, in turn and in one process. For each matrix it tells the least time of the first
   library, and for each other one the median of the ratios of its time to that of the first one in the same turn, and in
   brackets the ratio of the least times; at the end the geometric means of both:

     pairs SECONDS i32|i64 LIBRARY.. -- MATRIX..
     pairs first TURNS i32|i64 LIBRARY.. -- MATRIX..

   A LIBRARY is a shared library with the calls of rimopaku.h, as librimopaku.so.1, or with those of SuiteSparse's amd.h, as
   suitesparse_o3.so of peers/build; `suitesparse` is the one that is installed. What else runs on the
   machine slows a call by half for a second or two, but both calls of a turn alike: two copies of one library differ by two
   thousandths in the mean of 24 matrices, where least times of separate processes differ by two hundredths and more.

   With `first` each call is the first one of a process, and the page faults of a call stand behind its ratios. */
#include <dlfcn.h>
#include <math.h>
#include <rimopaku.h>
#include <stdbool.h>
#include <suitesparse/amd.h>
#include <sys/mman.h>
#include <sys/resource.h>
#include <sys/wait.h>
#include <unistd.h>
#include "peer.h"

#define MOST_LIBRARIES 8
#define MOST_TURNS 100000

typedef int32_t defaults(struct rimopaku_parameters *);
typedef int32_t order_i32(int32_t, const int32_t *, size_t, const int32_t *, size_t, const struct rimopaku_parameters *, int32_t *,
                          size_t, int32_t *, size_t, struct rimopaku_statistics *);
typedef int32_t order_i64(int64_t, const int64_t *, size_t, const int64_t *, size_t, const struct rimopaku_parameters *, int64_t *,
                          size_t, int64_t *, size_t, struct rimopaku_statistics *);

typedef int amd_i32(int, const int *, const int *, int *, double *, double *);
typedef SuiteSparse_long amd_i64(SuiteSparse_long, const SuiteSparse_long *, const SuiteSparse_long *, SuiteSparse_long *,
                                 double *, double *);

/* Its own calls, or those of SuiteSparse. */
struct library {
    const char *name;
    order_i32 *narrow;
    order_i64 *wide;
    amd_i32 *amd_narrow;
    amd_i64 *amd_wide;
    struct rimopaku_parameters parameters;
};

/* A call that was timed. */
struct call {
    uint64_t time, hash;
    long faults;
};

static double ratios[MOST_LIBRARIES][MOST_TURNS];

static uint64_t processor_time(void) {
    struct timespec t;
    clock_gettime(CLOCK_PROCESS_CPUTIME_ID, &t);
    return (uint64_t)t.tv_sec * 1000000000u + t.tv_nsec;
}

static long page_faults(void) {
    struct rusage usage;
    getrusage(RUSAGE_SELF, &usage);
    return usage.ru_minflt;
}

static void *symbol(void *handle, const char *library, const char *name) {
    void *found = handle ? dlsym(handle, name) : NULL;
    if (!found) {
        fprintf(stderr, "%s: %s\n", library, dlerror());
        exit(1);
    }
    return found;
}

static struct library open_library(const char *name) {
    struct library it = {.name = name, .amd_narrow = amd_order, .amd_wide = amd_l_order};
    if (!strcmp(name, "suitesparse")) return it;
    void *handle = dlopen(name, RTLD_NOW | RTLD_LOCAL);
    if (handle && dlsym(handle, "amd_order")) {
        it.amd_narrow = (amd_i32 *)dlsym(handle, "amd_order");
        it.amd_wide = (amd_i64 *)symbol(handle, name, "amd_l_order");
        return it;
    }
    ((defaults *)symbol(handle, name, "rimopaku_defaults"))(&it.parameters);
    it.narrow = (order_i32 *)symbol(handle, name, "rimopaku_order_i32");
    it.wide = (order_i64 *)symbol(handle, name, "rimopaku_order_i64");
    return it;
}

static void order(const struct library *it, const struct matrix *m, bool is_wide, void *p, void *p_inv) {
    int64_t n = m->n, entries = m->pointers[n];
    struct rimopaku_statistics told;
    double info[AMD_INFO];
    if (!it->wide && is_wide) {
        it->amd_wide(n, (SuiteSparse_long *)m->pointers, (SuiteSparse_long *)m->wide_rows, (SuiteSparse_long *)p, NULL, info);
    } else if (!it->wide) {
        it->amd_narrow((int)n, m->narrow_pointers, m->rows, (int *)p, NULL, info);
    } else if (is_wide) {
        it->wide(n, m->pointers, n + 1, m->wide_rows, entries, &it->parameters, p, n, p_inv, n, &told);
    } else {
        it->narrow((int32_t)n, m->narrow_pointers, n + 1, m->rows, entries, &it->parameters, p, n, p_inv, n, &told);
    }
}

static struct call timed(const struct library *it, const struct matrix *m, bool is_wide, void *p, void *p_inv) {
    struct call call = {.hash = 1469598103934665603u, .faults = page_faults()};
    uint64_t start = processor_time();
    order(it, m, is_wide, p, p_inv);
    call.time = processor_time() - start;
    call.faults = page_faults() - call.faults;
    for (int64_t k = 0; k < m->n; k++)
        call.hash = (call.hash ^ (uint64_t)(is_wide ? ((int64_t *)p)[k] : ((int32_t *)p)[k])) * 1099511628211u;
    return call;
}

/* As `timed`, in a process of its own, which hands the call back in memory that both share. */
static struct call timed_apart(const struct library *it, const struct matrix *m, bool is_wide, void *p, void *p_inv) {
    static struct call *shared;
    if (!shared) shared = mmap(NULL, sizeof *shared, PROT_READ | PROT_WRITE, MAP_SHARED | MAP_ANONYMOUS, -1, 0);
    pid_t child = fork();
    if (!child) {
        memset(p, 0, m->n * 8), memset(p_inv, 0, m->n * 8);
        *shared = timed(it, m, is_wide, p, p_inv);
        _exit(0);
    }
    int status;
    if (child < 0 || waitpid(child, &status, 0) < 0 || status) exit(1);
    return *shared;
}

static int by_ratio(const void *a, const void *b) {
    double x = *(const double *)a, y = *(const double *)b;
    return (x > y) - (x < y);
}

static double median(double *numbers, int count) {
    qsort(numbers, count, sizeof *numbers, by_ratio);
    return numbers[count / 2];
}

/* The libraries, what is counted (turns for first calls, seconds for others), the least times for a matrix in milliseconds,
   and the sums of the logarithms of the ratios: of medians, and of least times. */
struct duel {
    struct library libraries[MOST_LIBRARIES];
    int count;
    bool are_first, is_wide;
    double much, least[MOST_LIBRARIES], medians[MOST_LIBRARIES], leasts[MOST_LIBRARIES];
};

/* One turn: a call of each library, another one first in each turn. Notes the least times and the ratios. */
static void take_turn(struct duel *duel, const struct matrix *m, int turn, void *p, void *p_inv, struct call *calls) {
    for (int k = 0; k < duel->count; k++) {
        int it = (k + turn) % duel->count;
        calls[it] = (duel->are_first ? timed_apart : timed)(&duel->libraries[it], m, duel->is_wide, p, p_inv);
    }
    for (int k = 0; k < duel->count; k++) {
        double time = calls[k].time / 1e6;
        ratios[k][turn] = (double)calls[k].time / calls[0].time;
        if (turn == 0 || time < duel->least[k]) duel->least[k] = time;
    }
}

static void time_matrix(struct duel *duel, const char *path) {
    struct matrix m = read_matrix(path);
    void *p = room(m.n, 8), *p_inv = room(m.n, 8);
    struct call calls[MOST_LIBRARIES];
    const char *file = strrchr(path, '/');
    uint64_t start = now();
    int turns = 0;
    while (turns < MOST_TURNS && (turns < 3 || (duel->are_first ? turns < duel->much : now() - start < duel->much * 1e9)))
        take_turn(duel, &m, turns++, p, p_inv, calls);
    printf("%-20s %6d %9.3f ms", file ? file + 1 : path, turns, duel->least[0]);
    for (int k = 0; k < duel->count; k++) {
        double middle = median(ratios[k], turns), least = duel->least[k] / duel->least[0];
        if (k) printf("  %.3f (%.3f)", middle, least);
        if (duel->are_first) printf(" %ld", calls[k].faults);
        if (calls[k].hash != calls[0].hash) printf(" ANOTHER ORDER");
        duel->medians[k] += log(middle);
        duel->leasts[k] += log(least);
    }
    puts("");
    fflush(stdout);
    free(m.pointers), free(m.rows), free(m.wide_rows), free(m.narrow_pointers), free(p), free(p_inv);
}

int main(int count, char **words) {
    static struct duel duel;
    duel.are_first = count > 1 && !strcmp(words[1], "first");
    int at = duel.are_first ? 2 : 1, end = at + 2, matrices;
    while (end < count && strcmp(words[end], "--")) end++;
    duel.count = end - at - 2, matrices = count - end - 1;
    if (duel.count < 1 || duel.count > MOST_LIBRARIES || matrices < 1) {
        fprintf(stderr, "usage: %s SECONDS|first TURNS i32|i64 LIBRARY.. -- MATRIX..\n", words[0]);
        return 2;
    }
    duel.much = atof(words[at]), duel.is_wide = !strcmp(words[at + 1], "i64");
    for (int k = 0; k < duel.count; k++) duel.libraries[k] = open_library(words[at + 2 + k]);
    for (int k = end + 1; k < count; k++) time_matrix(&duel, words[k]);
    for (int k = 1; k < duel.count; k++)
        printf("%s to %s: %.3f (%.3f) in the mean of %d\n", duel.libraries[k].name, duel.libraries[0].name,
               exp(duel.medians[k] / matrices), exp(duel.leasts[k] / matrices), matrices);
    return 0;
}
