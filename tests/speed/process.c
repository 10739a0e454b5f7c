/* A stand-in for the clock of the C library and for its requests for memory, to be loaded before a program that times calls:
     cc -O2 -shared -fPIC -o process.so process.c && LD_PRELOAD=./process.so PROGRAM ..
   Each clock tells the processor time of the process, so that other programs on the machine count less. What stands in memory is counted
   from one reading of the clock to the next, which are the beginning and the end of a call; what came before the first reading is none. At
   the end of the program the greatest peak of a call, in bytes, and how many requests that call made are told on standard error. */
#include <malloc.h>
#include <stdio.h>
#include <sys/syscall.h>
#include <time.h>
#include <unistd.h>

void *__libc_malloc(size_t), *__libc_calloc(size_t, size_t), *__libc_realloc(void *, size_t), *__libc_memalign(size_t, size_t);
void __libc_free(void *);

static size_t now, base, peak, requests, most, most_requests;
static int began;

static void *met(void *p) {
    if (p) {
        now += malloc_usable_size(p);
        requests++;
        if (now > peak) peak = now;
    }
    return p;
}

static void gone(void *p) {
    if (p) now -= malloc_usable_size(p);
}

void *malloc(size_t n) { return met(__libc_malloc(n)); }
void *calloc(size_t n, size_t m) { return met(__libc_calloc(n, m)); }
void *realloc(void *p, size_t n) {
    size_t before = p ? malloc_usable_size(p) : 0;
    void *q = __libc_realloc(p, n);
    if (q || !n) now -= before;
    return met(q);
}
void *aligned_alloc(size_t a, size_t n) { return met(__libc_memalign(a, n)); }
int posix_memalign(void **p, size_t a, size_t n) {
    *p = met(__libc_memalign(a, n));
    return *p ? 0 : 12;
}
void free(void *p) {
    gone(p);
    __libc_free(p);
}

int clock_gettime(clockid_t id, struct timespec *t) {
    if (began && peak - base > most) {
        most = peak - base;
        most_requests = requests;
    }
    began = 1;
    base = peak = now;
    requests = 0;
    return syscall(SYS_clock_gettime, CLOCK_PROCESS_CPUTIME_ID, t);
}

__attribute__((destructor)) static void tell(void) { fprintf(stderr, "peak=%zu requests=%zu\n", most, most_requests); }
