/* What stands in the place of a C library on Linux for x86-64 and aarch64: the start of the program on a stack of its own, its end, and the
 * functions that a compiler takes from a C library in any case. After `main` it writes how much of the stack was used, and ends with the
 * status of `main`; or with 254, where more than a half was. */
#include <stddef.h>
#include <stdint.h>

#define STACK 65536

int main(void);
void begin(void);
void *memcpy(void *to, const void *from, size_t count);
void *memmove(void *to, const void *from, size_t count);
void *memset(void *to, int byte, size_t count);

_Alignas(16) unsigned char own_stack[STACK];

#if defined(__x86_64__)
__asm__(".globl _start\n_start:\n\txor %ebp, %ebp\n\tlea own_stack+65536(%rip), %rsp\n\tcall begin\n");

static long call_system(long number, long a, long b, long c)
{
    long answer;
    __asm__ volatile("syscall" : "=a"(answer) : "a"(number), "D"(a), "S"(b), "d"(c) : "rcx", "r11", "memory");
    return answer;
}
enum { WRITE = 1, EXIT = 60 };
#elif defined(__aarch64__)
__asm__(".globl _start\n_start:\n\tadrp x0, own_stack\n\tadd x0, x0, :lo12:own_stack\n\tadd x0, x0, #16, lsl #12\n\tmov sp, x0\n"
        "\tbl begin\n");

static long call_system(long number, long a, long b, long c)
{
    register long x8 __asm__("x8") = number;
    register long x0 __asm__("x0") = a;
    register long x1 __asm__("x1") = b;
    register long x2 __asm__("x2") = c;
    __asm__ volatile("svc 0" : "+r"(x0) : "r"(x8), "r"(x1), "r"(x2) : "memory");
    return x0;
}
enum { WRITE = 64, EXIT = 93 };
#else
#error "start.c knows x86-64 and aarch64"
#endif

void *memcpy(void *to, const void *from, size_t count)
{
    unsigned char *target = to;
    const unsigned char *source = from;
    for (size_t k = 0; k < count; k++)
        target[k] = source[k];
    return to;
}

void *memmove(void *to, const void *from, size_t count)
{
    unsigned char *target = to;
    const unsigned char *source = from;
    if ((uintptr_t)to <= (uintptr_t)from)
        return memcpy(to, from, count);
    for (size_t k = count; k > 0; k--)
        target[k - 1] = source[k - 1];
    return to;
}

void *memset(void *to, int byte, size_t count)
{
    unsigned char *target = to;
    for (size_t k = 0; k < count; k++)
        target[k] = (unsigned char)byte;
    return to;
}

/* Writes a number as a line. */
static void tell(size_t number)
{
    char text[24];
    size_t at = sizeof text;
    text[--at] = '\n';
    do
        text[--at] = (char)('0' + number % 10);
    while ((number /= 10) > 0);
    call_system(WRITE, 1, (long)(text + at), (long)(sizeof text - at));
}

#define PAINT 0xa5

/* How many bytes at the lower end of the stack have the paint still. */
static size_t painted(void)
{
    size_t count = 0;
    while (count < STACK && own_stack[count] == PAINT)
        count++;
    return count;
}

/* The stack is painted before, but for the part near the frame of this function; what has no paint afterwards was used. */
void begin(void)
{
    size_t free = (size_t)((unsigned char *)__builtin_frame_address(0) - own_stack) - 1024, untouched;
    int status;

    memset(own_stack, PAINT, free);
    status = main();
    untouched = painted();
    tell(STACK - untouched);
    call_system(EXIT, status == 0 && untouched < STACK / 2 ? 254 : status, 0, 0);
    for (;;)
        ;
}
