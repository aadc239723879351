/* Binds the set in a file at an address of this process, maps it there, calls what starts it, then a function of the set by its name, and
 * at the end what stops it. On x86-64 Linux.
 *
 * usage: start_stop FILE NAME
 *
 * FILE is an input of the program `bind`: a word count, the sheet, the bytes. NAME takes no argument and returns a uint64_t; its answer is
 * printed after the start, and again after the stop, while the modules are still mapped. */
#define _GNU_SOURCE
#include <inttypes.h>
#include <stdio.h>
#include <stdlib.h>
#include <string.h>
#include <sys/mman.h>

#include "lugwormpin.h"

enum { ADDRESS = 0x10000000, ARENA = 1 << 24, WORDS = 4096, FUNCTIONS = 4096 };

static uint32_t input[1 << 22]; /* 16 MiB */
static uint32_t report[WORDS];
static uint32_t types[64];
static uint64_t start[FUNCTIONS], stop[FUNCTIONS], counts[2];

static int refused(const char *call, uint64_t answer)
{
    if (answer != 0)
        printf("%s: refused %" PRIu32 " object %" PRIu32 "\n", call, LUGWORMPIN_NUMBER(answer), LUGWORMPIN_OBJECT(answer));
    return answer != 0;
}

/* An array may hold words that are no function: 0 is listed too, and some linkers end an array with -1. */
static void call_all(const uint64_t *list, uint64_t count, int argc, char **argv, char **env)
{
    for (uint64_t i = 0; i < count; i++)
        if (list[i] != 0 && list[i] != UINT64_MAX)
            ((void (*)(int, char **, char **))(uintptr_t)list[i])(argc, argv, env);
}

int main(int argc, char **argv, char **env)
{
    FILE *file = argc == 3 ? fopen(argv[1], "rb") : NULL;
    if (file == NULL) {
        fprintf(stderr, "usage: start_stop FILE NAME\n");
        return 2;
    }
    size_t size = fread(input, 1, sizeof input, file);
    fclose(file);
    if (size < 4 || size == sizeof input || input[0] > (size - 4) / 4) {
        fprintf(stderr, "start_stop: the file is too long or cut short\n");
        return 2;
    }
    const uint32_t *sheet = input + 1;
    size_t words = input[0], bytes_len = size - 4 - 4 * words;
    const uint8_t *bytes = (const uint8_t *)(sheet + words);

    /* The arena is the memory at the address that the set is bound for. */
    uint8_t *arena = mmap((void *)(uintptr_t)ADDRESS, ARENA, PROT_READ | PROT_WRITE, MAP_PRIVATE | MAP_ANONYMOUS | MAP_FIXED_NOREPLACE, -1, 0);
    if (arena != (uint8_t *)(uintptr_t)ADDRESS) {
        fprintf(stderr, "start_stop: the address is taken\n");
        return 2;
    }

    /* A query leaves placed bytes in its arena, so the name is asked for before the set is bound. Names are handed over with their zero bytes. */
    uint64_t found;
    if (refused("query_all", lugwormpin_query_all(sheet, words, bytes, bytes_len, arena, ARENA, ADDRESS, 1, (const uint8_t *)argv[2], strlen(argv[2]) + 1, &found, 1)))
        return 1;
    if (found == 0) {
        printf("%s: not found\n", argv[2]);
        return 1;
    }
    lugwormpin_types(types, 64);
    if (refused("start_stop", lugwormpin_start_stop(sheet, words, bytes, bytes_len, arena, ARENA, ADDRESS, 1, types, 64, report, WORDS, start, FUNCTIONS, stop,
                                                    FUNCTIONS, counts, 2)))
        return 1;
    if (mprotect(arena, ARENA, PROT_READ | PROT_WRITE | PROT_EXEC) != 0) {
        perror("start_stop: mprotect");
        return 2;
    }
    uint64_t (*function)(void) = (uint64_t (*)(void))(uintptr_t)found;
    call_all(start, counts[0], argc, argv, env);
    printf("%" PRIu64 " started, %s says %" PRIu64 "\n", counts[0], argv[2], function());
    call_all(stop, counts[1], argc, argv, env);
    printf("%" PRIu64 " stopped, %s says %" PRIu64 "\n", counts[1], argv[2], function());
    return 0;
}
