/* Binds the set in a file as the program `bind` does, then asks for the addresses of up to 400 entry names, one a line in a second file, as
 * the program finds them, in one call. Prints each address with its name, 0 for a name that nobody has. */
#include <inttypes.h>
#include <stdio.h>
#include <string.h>

#include "lugwormpin.h"

enum { ENTRIES = 400 };

static uint32_t input[16384];
static uint8_t image[32768], asked[32768]; /* the names are asked in an arena of their own: the call leaves placed, unrelocated bytes in it */
static uint32_t report[1024];
static char names[65536];
static uint64_t addresses[ENTRIES];

static size_t read_file(const char *path, void *to, size_t room)
{
    FILE *file = fopen(path, "rb");
    if (file == NULL)
        return 0;
    size_t size = fread(to, 1, room, file);
    fclose(file);
    return size;
}

static int refused(const char *what, uint64_t answer)
{
    printf("%s: refused %" PRIu32 " object %" PRIu32 "\n", what, LUGWORMPIN_NUMBER(answer), LUGWORMPIN_OBJECT(answer));
    return 1;
}

int main(int argc, char **argv)
{
    if (argc != 3) {
        fprintf(stderr, "usage: query_all FILE NAMES\n");
        return 2;
    }
    size_t size = read_file(argv[1], input, sizeof input), length = read_file(argv[2], names, sizeof names), count = 0;
    if (size < 4 || input[0] > (size - 4) / 4) {
        fprintf(stderr, "query_all: %s is no set\n", argv[1]);
        return 2;
    }
    /* each name with a zero byte after it */
    for (size_t i = 0; i < length; i++)
        if (names[i] == '\n') {
            names[i] = 0;
            count++;
        }
    if (count > ENTRIES) {
        fprintf(stderr, "query_all: over %d names\n", ENTRIES);
        return 2;
    }
    size_t words = input[0], bytes_len = size - 4 - 4 * words;
    const uint8_t *bytes = (const uint8_t *)(input + 1 + words);
    uint32_t types[64];
    lugwormpin_types(types, 64);
    uint64_t answer = lugwormpin_bind(input + 1, words, bytes, bytes_len, image, sizeof image, 0x10000000, 0, types, 64, report, 1024);
    if (answer != 0)
        return refused("bind", answer);
    answer = lugwormpin_query_all(input + 1, words, bytes, bytes_len, asked, sizeof asked, 0x10000000, 1, (const uint8_t *)names, length, addresses, count);
    if (answer != 0)
        return refused("query_all", answer);
    const char *name = names;
    for (size_t i = 0; i < count; i++) {
        printf("%016" PRIx64 " %s\n", addresses[i], name);
        name += strlen(name) + 1;
    }
    return 0;
}
