/* For LD_PRELOAD, by tests/program_stack: fills the stack below `main` with a pattern, runs the program, and prints the number of bytes
   from there down to the lowest one that was changed. What the system and libc put on the stack before `main` is not counted. */
#define _GNU_SOURCE
#include <dlfcn.h>
#include <stdio.h>
#include <stdlib.h>

enum { PAINTED = 4 << 20, KEPT = 256, PAINT = 0xa7 };

static int (*program)(int, char **, char **);
static volatile unsigned char *top;

static void print_used(void)
{
    volatile unsigned char *at = top - PAINTED;
    while (at < top - KEPT && *at == PAINT)
        at++;
    fprintf(stderr, "%td\n", top - at);
}

__attribute__((noinline)) static int painted(int argc, char **argv, char **environment)
{
    top = __builtin_frame_address(0);
    for (volatile unsigned char *at = top - KEPT; at > top - PAINTED;)
        *--at = PAINT;
    /* The scan itself needs stack, but after the program. */
    atexit(print_used);
    return program(argc, argv, environment);
}

int __libc_start_main(int (*main)(int, char **, char **), int argc, char **argv, void (*init)(void), void (*fini)(void), void (*last)(void),
                      void *end)
{
    int (*start)(int (*)(int, char **, char **), int, char **, void (*)(void), void (*)(void), void (*)(void), void *) =
        dlsym(RTLD_NEXT, "__libc_start_main");
    program = main;
    return start(painted, argc, argv, init, fini, last, end);
}
