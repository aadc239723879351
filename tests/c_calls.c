/* Calls the functions of include/lugwormpin.h on tests/sets/linked.set (the first argument) and prints what they leave. tests/c_calls.out
   has the lines that are to be printed, worked out from `readelf --dyn-syms` of the set's objects and the rules. */
#include <inttypes.h>
#include <stdio.h>
#include <string.h>

#include "lugwormpin.h"

static uint32_t input[16384], report[1024], types[66];
static uint8_t arena[32768];
static size_t words, bytes_len, types_len = 64;
static const uint8_t *bytes;

static int zeros(const void *slice, size_t len)
{
    const uint8_t *p = slice;
    while (len > 0 && p[len - 1] == 0)
        len--;
    return len == 0;
}

static void ask(uint32_t requester, const char *name, size_t answer_len)
{
    uint64_t answer[8];
    memset(answer, 0xff, sizeof answer);
    memset(arena, 0xff, sizeof arena);
    uint64_t r = lugwormpin_query(input + 1, words, bytes, bytes_len, arena, sizeof arena, 0x10000000, requester, (const uint8_t *)name,
                                  strlen(name), answer, answer_len);
    printf("%s for %" PRIu32 ": %" PRIu32 " %" PRIu32 ",", name, requester, LUGWORMPIN_NUMBER(r), LUGWORMPIN_OBJECT(r));
    for (size_t i = 0; i < 8; i++)
        printf(" %" PRIx64, answer[i]);
    printf(", arena %s\n", zeros(arena, sizeof arena) ? "zeros" : "placed");
}

static void ask_all(uint32_t requester, const char *names, size_t names_len, size_t addresses_len)
{
    uint64_t addresses[4];
    memset(addresses, 0xff, sizeof addresses);
    memset(arena, 0xff, sizeof arena);
    uint64_t r = lugwormpin_query_all(input + 1, words, bytes, bytes_len, arena, sizeof arena, 0x10000000, requester, (const uint8_t *)names,
                                      names_len, addresses, addresses_len);
    printf("%zu bytes of names for %" PRIu32 ": %" PRIu32 " %" PRIu32 ",", names_len, requester, LUGWORMPIN_NUMBER(r), LUGWORMPIN_OBJECT(r));
    for (size_t i = 0; i < 4; i++)
        printf(" %" PRIx64, addresses[i]);
    printf(", arena %s\n", zeros(arena, sizeof arena) ? "zeros" : "placed");
}

static void bind(uint32_t strict, size_t report_len)
{
    memset(arena, 0xff, sizeof arena);
    memset(report, 0xff, sizeof report);
    uint64_t r =
        lugwormpin_bind(input + 1, words, bytes, bytes_len, arena, sizeof arena, 0x10000000, strict, types, types_len, report, report_len);
    printf("bind: %" PRIu32 " %" PRIu32 ", arena %s, report %s, next word %" PRIx32 "\n", LUGWORMPIN_NUMBER(r), LUGWORMPIN_OBJECT(r),
           zeros(arena, sizeof arena) ? "zeros" : "bound", zeros(report, report_len * 4) ? "zeros" : "words", report[report_len]);
}

/* Whether the arena is that of lugwormpin_bind, and the report's words. */
static void ordered(size_t order_len, uint32_t first, uint32_t second, uint32_t third)
{
    static uint8_t bound[sizeof arena];
    const uint32_t order[] = {first, second, third};
    lugwormpin_bind(input + 1, words, bytes, bytes_len, bound, sizeof bound, 0x10000000, 0, types, types_len, report, 6);
    memset(arena, 0xff, sizeof arena);
    memset(report, 0xff, sizeof report);
    uint64_t r = lugwormpin_bind_ordered(input + 1, words, bytes, bytes_len, arena, sizeof arena, 0x10000000, 0, types, types_len, report, 6, order, order_len);
    printf("bind_ordered: %" PRIu32 " %" PRIu32 ", arena %s,", LUGWORMPIN_NUMBER(r), LUGWORMPIN_OBJECT(r),
           zeros(arena, sizeof arena) ? "zeros" : memcmp(arena, bound, sizeof arena) ? "another" : "the same");
    for (size_t i = 0; i < 7; i++)
        printf(" %" PRIx32, report[i]);
    printf("\n");
}

static void list(uint32_t strict, size_t start_len, size_t stop_len, size_t counts_len)
{
    uint64_t start[4], stop[4], counts[4];
    memset(arena, 0xff, sizeof arena);
    memset(report, 0xff, sizeof report);
    memset(start, 0xff, sizeof start);
    memset(stop, 0xff, sizeof stop);
    memset(counts, 0xff, sizeof counts);
    uint64_t r = lugwormpin_start_stop(input + 1, words, bytes, bytes_len, arena, sizeof arena, 0x10000000, strict, types, types_len, report, 6, start, start_len, stop,
                                       stop_len, counts, counts_len);
    printf("start_stop: %" PRIu32 " %" PRIu32 ", start %" PRIx64 " %" PRIx64 ", stop %" PRIx64 " %" PRIx64 ", counts %" PRIx64 " %" PRIx64 " %" PRIx64
           ", arena %s\n", LUGWORMPIN_NUMBER(r), LUGWORMPIN_OBJECT(r), start[0], start[1], stop[0], stop[1], counts[0], counts[1], counts[2],
           zeros(arena, sizeof arena) ? "zeros" : "bound");
}

int main(int argc, char **argv)
{
    FILE *file = argc == 2 ? fopen(argv[1], "rb") : NULL;
    if (file == NULL)
        return 2;
    size_t size = fread(input, 1, sizeof input, file);
    fclose(file);
    words = input[0];
    bytes = (const uint8_t *)(input + 1 + words);
    bytes_len = size - 4 - 4 * words;
    memset(types, 0xff, sizeof types);
    lugwormpin_types(types, 66);
    printf("types: %" PRIx32 " %" PRIx32 " %" PRIx32 " %" PRIx32 ", %" PRIx32 " %" PRIx32 "\n", types[0], types[1], types[37], types[63],
           types[64], types[65]);
    ask(1, "a_call", 4);
    ask(3, "shared_var", 6);
    ask(0, "only_b", 2);
    ask(2, "no_such_name", 4);
    ask(4, "a_call", 4);
    ask_all(1, "a_call\0no_such_name\0shared_var", 31, 3);
    ask_all(1, "", 0, 0);
    ask_all(1, "", 0, 2);
    ask_all(1, "a_call", 7, 2);
    ask_all(1, "a_call", 6, 0);
    ask_all(4, "a_call", 6, 3);
    bind(0, 4);
    bind(0, 3);
    bind(1, 4);
    ordered(3, 2, 3, 1);
    ordered(3, 3, 2, 1);
    ordered(3, 1, 2, 3);
    ordered(2, 2, 3, 1);
    ordered(0, 2, 3, 1);
    list(0, 1, 2, 2);
    list(0, 0, 0, 3);
    list(1, 2, 2, 1);
    /* the words of the types: 63 of them, type 6 refused, type 6 passed over */
    types_len = 63;
    bind(0, 4);
    types_len = 64;
    types[6] = 0xb0000006;
    bind(0, 4);
    types[6] = 0xa0000006;
    bind(0, 4);
    bind(0, 12);
    lugwormpin_types(types, 7);
    words -= 1;
    ordered(3, 2, 3, 1);
    ask(1, "a_call", 4);
    ask_all(1, "a_call", 7, 1);
    bind(0, 6);
    list(0, 2, 1, 2);
    return 0;
}
