/* Binds the set in a file as the program `bind` does: leniently, at 0x10000000, in 32,768 bytes, under the supplied words of
 * the types. Prints the report or the refusal. */
#include <inttypes.h>
#include <stdio.h>

#include "lugwormpin.h"

static uint32_t input[16385]; /* 65,536 bytes, and a word to see that there are more */
static uint8_t arena[32768];
static uint32_t types[64];
static uint32_t report[1024];

int main(int argc, char **argv)
{
    FILE *file = argc == 2 ? fopen(argv[1], "rb") : NULL;
    if (file == NULL) {
        fprintf(stderr, "usage: bind FILE\n");
        return 2;
    }
    size_t size = fread(input, 1, sizeof input, file);
    fclose(file);

    uint64_t answer = 1; /* refusal 1, object 0: a file that is too long or cut short */
    if (size >= 4 && size <= 65536 && input[0] <= (size - 4) / 4) {
        size_t words = input[0];
        const uint8_t *bytes = (const uint8_t *)(input + 1 + words);
        lugwormpin_types(types, 64);
        /* types[1] = 0xB0000001 would refuse entries of type 1 */
        answer = lugwormpin_bind(input + 1, words, bytes, size - 4 - 4 * words, arena, sizeof arena, 0x10000000, 0, types, 64, report, 1024);
    }
    if (answer != 0) {
        printf("refused %" PRIu32 " object %" PRIu32 "\n", LUGWORMPIN_NUMBER(answer), LUGWORMPIN_OBJECT(answer));
        return 1;
    }
    for (size_t i = 0; i < 1024 && report[i] != 0; i++)
        printf("%08" PRIx32 "\n", report[i]);
    return 0;
}
