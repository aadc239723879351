/* Reads sets in the frames of compare/sets.py from standard input and binds each. Writes for each the answer (64 bits), then, where the set
   is bound, the arena. compare/ld and compare/ld_so run it. */
#include <stdint.h>
#include <stdio.h>
#include <stdlib.h>

#include "lugwormpin.h"

static void *taken(size_t size)
{
    void *at = malloc(size + 1);
    if (at == NULL || fread(at, 1, size, stdin) != size)
        exit(4);
    return at;
}

int main(void)
{
    uint32_t length;
    while (fread(&length, 1, 4, stdin) == 4) {
        free(taken(length));
        uint64_t *place = taken(16);
        uint32_t *four = taken(16);
        size_t arena_len = place[1], report_len = four[0], words = four[2], bytes_len = four[3];
        uint32_t *sheet = taken(4 * words), *report = malloc(4 * report_len + 1);
        uint8_t *bytes = taken(bytes_len), *arena = malloc(arena_len + 1);
        if (report == NULL || arena == NULL)
            return 4;
        uint32_t types[64];
        lugwormpin_types(types, 64);
        uint64_t answer =
            lugwormpin_bind(sheet, words, bytes, bytes_len, arena, arena_len, place[0], four[1], types, 64, report, report_len);
        fwrite(&answer, 1, 8, stdout);
        if (answer == 0)
            fwrite(arena, 1, arena_len, stdout);
        free(place), free(four), free(sheet), free(report), free(bytes), free(arena);
    }
    return 0;
}
