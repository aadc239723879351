/* Reads sets in the frames of compare/sets.py from standard input. For each it binds, then asks the questions that stand in the label
   behind `|`, each as REQUESTER:NAME with the name in hexadecimal, and prints one line: for each call the answer, and hashes of what it
   wrote. Arena and report are filled with other bytes before each call, or with the byte that is its argument, and the memory right behind
   each slice cannot be touched. tests/compare_archives.py and tests/dirty_arenas.py run it. */
#define _GNU_SOURCE
#include <inttypes.h>
#include <stdio.h>
#include <stdlib.h>
#include <string.h>
#include <sys/mman.h>
#include <unistd.h>

#include "lugwormpin.h"

enum { SECONDS = 120 };
static const size_t ROOM = (size_t)1 << 29;

static void *end_of_room(void)
{
    uint8_t *at = mmap(NULL, ROOM + 4096, PROT_READ | PROT_WRITE, MAP_PRIVATE | MAP_ANONYMOUS | MAP_NORESERVE, -1, 0);
    if (at == MAP_FAILED || mprotect(at + ROOM, 4096, PROT_NONE) != 0)
        exit(3);
    return at + ROOM;
}

static uint64_t hash(const void *slice, size_t len)
{
    const uint8_t *p = slice;
    uint64_t h = len + 1, w;
    for (; len >= 8; p += 8, len -= 8) {
        memcpy(&w, p, 8);
        h = (h ^ w) * 0x9e3779b97f4a7c15u;
        h ^= h >> 29;
    }
    for (; len > 0; p++, len--)
        h = (h ^ *p) * 0x100000001b3u;
    return h;
}

static void take(void *to, size_t len)
{
    if (fread(to, 1, len, stdin) != len)
        exit(4);
}

int main(int argc, char **argv)
{
    int fill = argc > 1 ? atoi(argv[1]) : -1;
    static char label[1 << 16];
    uint8_t *bytes_end = end_of_room(), *arena_end = end_of_room(), *report_end = end_of_room(), *sheet_end = end_of_room();
    static char buffer[1 << 20];
    setvbuf(stdin, buffer, _IOFBF, sizeof buffer);
    uint32_t length;
    for (unsigned set = 0; fread(&length, 1, 4, stdin) == 4; set++) {
        uint64_t place[2];
        uint32_t four[4];
        if (length >= sizeof label)
            return 4;
        take(label, length);
        label[length] = 0;
        take(place, sizeof place);
        take(four, sizeof four);
        size_t arena_len = place[1], report_len = four[0], words = four[2], bytes_len = four[3];
        if (arena_len > ROOM || 4 * report_len > ROOM || 4 * words > ROOM || bytes_len > ROOM)
            return 5;
        uint32_t *sheet = (uint32_t *)(sheet_end - 4 * words), *report = (uint32_t *)(report_end - 4 * report_len);
        uint8_t *bytes = bytes_end - bytes_len, *arena = arena_end - arena_len;
        take(sheet, 4 * words);
        take(bytes, bytes_len);
        alarm(SECONDS);
        memset(arena, fill < 0 ? (int)(0xa5 + set) : fill, arena_len);
        memset(report, fill < 0 ? (int)(0x5a + set) : fill, 4 * report_len);
        uint32_t types[64];
        lugwormpin_types(types, 64);
        uint64_t answer =
            lugwormpin_bind(sheet, words, bytes, bytes_len, arena, arena_len, place[0], four[1], types, 64, report, report_len);
        printf("%" PRIx64 " %" PRIx64 " %" PRIx64, answer, hash(arena, arena_len), hash(report, 4 * report_len));
        char *at = strchr(label, '|');
        while (at != NULL && *at != 0 && at[1] != 0) {
            static uint8_t name[1 << 16];
            uint64_t reply[5];
            size_t name_len = 0;
            uint32_t requester = strtoul(at + 1, &at, 10);
            at++;
            for (unsigned byte; *at != 0 && *at != ' ' && sscanf(at, "%2x", &byte) == 1; at += 2)
                name[name_len++] = byte;
            memset(arena, fill < 0 ? (int)(0x3c + set) : fill, arena_len);
            memset(reply, 0xff, sizeof reply);
            answer = lugwormpin_query(sheet, words, bytes, bytes_len, arena, arena_len, place[0], requester, name, name_len, reply, 5);
            printf(" %" PRIx64 " %" PRIx64 " %" PRIx64, answer, hash(arena, arena_len), hash(reply, sizeof reply));
        }
        printf("\n");
        fflush(stdout);
    }
    return 0;
}
