/* Lugwormpin: binds x86-64 ELF shared objects into one image. x86-64 Linux, System V calling convention.
 *
 * Link with libexport.a, which tools/archive writes to target/staticlib/. It needs memcpy, memmove and memset, and nothing else.
 *
 * All functions:
 * - answer every call that keeps to "What the caller owes"; what they answer is proved, for any contents of the slices, refused calls too
 *   (crates/export_c/src/lib.rt, crates/export/specs/Calls.antt);
 * - keep no pointer, allocate nothing, have no global state, and may run in several threads at once over different memory;
 * - use about 73 KiB of stack (lugwormpin_bind) or 36 KiB (lugwormpin_query, lugwormpin_query_all), whatever the set: measured, with the compiler of
 *   the file KIT. lugwormpin_bind_ordered and lugwormpin_start_stop take some 5 and 8 KiB more than lugwormpin_bind;
 * - end on every input, but a file can be made so that a call takes seconds (docs/BENCHMARKS.md): bound the size of files of unknown origin,
 *   or the time of the call.
 *
 * What the caller owes:
 * - A slice is a pointer and a length in ELEMENTS, not in bytes. The pointer is not NULL, also where the length is 0, and is aligned for
 *   its element type; the length is true.
 * - No two slices of a call overlap, and no other thread writes to them during the call.
 */
#ifndef LUGWORMPIN_H
#define LUGWORMPIN_H

#include <stddef.h>
#include <stdint.h>

#ifdef __cplusplus
extern "C" {
#endif

/* The answer of each function but lugwormpin_types is 0, or a refusal: its number in the low 32 bits, its object in the high 32.
 * Objects: the host is 0, the program 1, libraries are numbered from 2 in the order of the sheet.
 *
 *  no.  object    refused because
 *    1  0         the sheet: a kind that is wrong for its position, a word missing, over 62 libraries, a name of 0 or over 255 bytes, or
 *                 lengths whose sum is not bytes_len
 *    2  0         the address is no multiple of 4,096, the arena has over 2^28 bytes, or their sum is over 2^63
 *   24  0         after 2 and before 3, of the words of the types: there are not 64, a word has another kind or type than its place asks for, or
 *                 a type is marked apply that cannot be applied
 *    3  a library an earlier library has the same name
 *    4  any       the file has under 64 bytes, is no ELF file, or is no shared object (e_type is not 3)
 *    5  any       not 64 bits, not little-endian, not x86-64, or e_phentsize is not 56
 *    6  any       over 64 program headers, or their table is not inside the file
 *    7  any       the host's length is no multiple of 4,096. Others: no PT_LOAD has offset and address 0, it does not hold the header table,
 *                 there are over 16 PT_LOAD, or one of them has no memory, more file than memory, bytes past the file's end, an end over
 *                 2^28, offset and address that differ modulo 4,096, no read flag, zero fill without a write flag, or a page that another
 *                 one has too
 *   21  not 0     after 7 and before 8: a PT_LOAD has a p_align that is not 0 and is no power of two, or is over 2,097,152
 *    8  any       it ends past the arena's end
 *    9  any       no PT_DYNAMIC, or its entries through the first of tag 0 are not inside the object
 *   10  any       no string table or no symbol table
 *   11  any       DT_SYMENT or DT_RELAENT is not 24, DT_PLTREL is not 7, or over 64 needed libraries
 *   12  any       what binding reads (names of needed libraries, relocation tables, the hash table, each symbol and name that the hash table
 *                 leads to) is not wholly in table bytes, or the hash table has no buckets, no bloom word, a shift over 31, or a bucket or
 *                 chain that leads outside its table or does not end. Table bytes are those of the object that are in no writable
 *                 segment; of the host, all. The host's relocation tables are not read
 *   13  0         lugwormpin_query and lugwormpin_query_all only: the requester is no object of the set
 *   23  0         lugwormpin_query_all only, after 13: the last byte of the names is not zero, or the count of their zero bytes is not
 *                 addresses_len
 *   35  0         lugwormpin_bind_ordered only: the order does not list each library once, then the program, and nothing else; or a library has a
 *                 relocation entry of type 5 and the order is not the one that lugwormpin_bind takes
 *   14  not 0     an applied entry of type 1, 2, 5, 6, 7, 10, 11 or 24 has a symbol index at or above the symbol count, where that is known
 *   15  not 0     that symbol or its name is not in table bytes
 *   16  not 0     an entry of type 37 (R_X86_64_IRELATIVE), where that is marked refuse
 *   25  not 0     an entry of another type that is marked refuse
 *   17  not 0     what an applied entry writes is not inside one writable segment of its object, or a RELR bitmap has a bit set before any address
 *   18  not 0     the bytes that a COPY entry reads are at an absolute symbol, outside the object that defines it, or overlap what it writes
 *   28  not 0     a COPY entry writes a byte that an earlier one, of any object, writes or reads, or reads one that an earlier one writes
 *   19  not 0     the call is strict and an entry is undefined: the first such object in binding order
 *   20  0         the report is too short
 *   22  not 0     after 17: a result of 32 bits (types 2, 10 and 11) does not fit
 *   26  not 0     lugwormpin_start_stop only, after 20: the words of an array of functions that is listed (DT_INIT_ARRAY, DT_FINI_ARRAY; of the
 *                 program DT_PREINIT_ARRAY) are not all inside the object: the first such object in binding order
 *   27  0         lugwormpin_start_stop only, after 26: a list is too short
 *
 * The first refusal in this order is answered: 4 to 12 and 21 object by object, 14 to 18, 22, 25 and 28 entry by entry in binding order, which is the
 * order that is handed in where one is. lugwormpin_bind answers all but 13, 23, 26, 27 and 35, lugwormpin_bind_ordered these and 35,
 * lugwormpin_start_stop these and 26 and 27 but not 35, lugwormpin_query 1 to 13 and 21, lugwormpin_query_all these and 23. */
#define LUGWORMPIN_NUMBER(answer) ((uint32_t)(answer))
#define LUGWORMPIN_OBJECT(answer) ((uint32_t)((answer) >> 32))

/* Fills a slice with the supplied words of the types, those of the list in lugwormpin_bind's description: types_len is 64 for all of them.
 * Words that do not fit are dropped, words past the 64th are 0. Edit a word to have its type done otherwise. */
void lugwormpin_types(uint32_t *types, size_t types_len);

/* Binds a set.
 *
 * sheet, sheet_len    words of kind (top 4 bits) and length in bytes (low 28): kind 1 the host's image, kind 2 the program's file, then for
 *                     each library kind 3, its file, and kind 4, its name
 * bytes, bytes_len    those images, files and names, end to end, in the sheet's order
 * arena, arena_len    written: the image. Object after object, the host at offset 0, the rest 0. What stood there before does not matter.
 *                     Each object after the host starts at the next free offset where address + offset is a multiple of the largest p_align
 *                     of its PT_LOAD headers (4,096 at least), so that a module built for pages of 2 MiB can be mapped with them, at
 *                     `address`: its first byte stands at such a page. Bytes between objects are 0; an added library moves no other
 * address             the address at which the arena will be mapped
 * strict              0: lenient, undefined entries are reported. Any other number: strict, they are refused (19)
 * types, types_len    64 words, word t for the relocation entries of type t: 0x90000000 + t, apply; 0xA0000000 + t, pass over, with a word in the
 *                     report (not for type 0); 0xB0000000 + t, refuse (16 for type 37, else 25). Types 1, 2, 5 to 8, 10, 11 and 24 may be
 *                     applied. Types above 63 are passed over. Of entries that are not applied neither symbol nor place is looked at; RELR
 *                     has no type, and is done whatever the words say. lugwormpin_types supplies: those nine apply, 37 refuse, all others
 *                     pass
 * report, report_len  written: for each object in binding order 0x50000000 + its number, then for its entries 0x60000000 + entry number
 *                     (undefined) or 0x70000000 + entry number (of a type that is passed over), RELA from 0, PLT following; the rest 0
 *
 * Returns 0 where the set is bound, else the refusal; then arena and report are all 0. */
uint64_t lugwormpin_bind(const uint32_t *sheet, size_t sheet_len, const uint8_t *bytes, size_t bytes_len, uint8_t *arena, size_t arena_len,
                         uint64_t address, uint32_t strict, const uint32_t *types, size_t types_len, uint32_t *report, size_t report_len);

/* Binds a set in an order of the caller's.
 *
 * sheet to report     as above; the report is in the order that is handed in
 * order, order_len    object numbers: each library once, then 1, the program. Where a library has a relocation entry of type 5 (COPY) only the order
 *                     of lugwormpin_bind is taken, each library after those that it needs. For all other sets every order is bound where
 *                     lugwormpin_bind binds the set, and leaves the same arena
 *
 * Returns 0 where the set is bound, else the refusal; then arena and report are all 0. */
uint64_t lugwormpin_bind_ordered(const uint32_t *sheet, size_t sheet_len, const uint8_t *bytes, size_t bytes_len, uint8_t *arena, size_t arena_len,
                                 uint64_t address, uint32_t strict, const uint32_t *types, size_t types_len, uint32_t *report, size_t report_len,
                                 const uint32_t *order, size_t order_len);

/* The address of a name, as an object of the set would find it.
 *
 * sheet to address    as above. The arena is written: the placed bytes of all objects, not relocated
 * requester           the number of the object that asks
 * name, name_len      the bytes of the name, without a zero byte at the end
 * answer, answer_len  written: 1, the object that defines the name, the index of its symbol there, and the address; or four times 0 where
 *                     no object has the name. Words that do not fit are dropped, words past the fourth are 0
 *
 * Returns 0 where the question is answered, found or not, else the refusal; then arena and answer are all 0. */
uint64_t lugwormpin_query(const uint32_t *sheet, size_t sheet_len, const uint8_t *bytes, size_t bytes_len, uint8_t *arena, size_t arena_len,
                          uint64_t address, uint32_t requester, const uint8_t *name, size_t name_len, uint64_t *answer, size_t answer_len);

/* The addresses of many names in one call, each as lugwormpin_query finds it; the set is loaded once.
 *
 * sheet to requester  as above. The arena is written, as by lugwormpin_query: placed bytes, not relocated, also where no name is asked for.
 *                     So a bound image is not to be handed over as the arena
 * names, names_len    the bytes of the names, end to end, with a zero byte after each. No bytes are no names; a zero byte by itself is one
 *                     empty name. There is no limit to the number of names, to their lengths, or to how often one occurs
 * addresses,          written: the address of each name in the order of the list, 0 where no object has it. Exactly as many words as names (23).
 * addresses_len       An absolute symbol may have the address 0 too: lugwormpin_query tells the two apart
 *
 * Returns 0 where the names are answered, found or not, else the refusal; then arena and addresses are all 0. */
uint64_t lugwormpin_query_all(const uint32_t *sheet, size_t sheet_len, const uint8_t *bytes, size_t bytes_len, uint8_t *arena, size_t arena_len,
                              uint64_t address, uint32_t requester, const uint8_t *names, size_t names_len, uint64_t *addresses,
                              size_t addresses_len);

/* Binds a set, and lists what to call to start it and to stop it.
 *
 * sheet to report_len  as of lugwormpin_bind; arena and report are written as by it
 * start, start_len     written: the addresses to call once the image is mapped at `address`, in this order: the program's preinit array; then of each
 *                      object in binding order, the program last, DT_INIT and its init array. The rest 0
 * stop, stop_len       written: the addresses to call at the end: of each object backwards, its fini array from last to first and DT_FINI. The rest 0
 * counts, counts_len   written: how many words each list has, of start and of stop; then zeros. Words that do not fit are dropped
 *
 * A DT_INIT or DT_FINI of 0 is none. Words of arrays are listed as they stand after relocation, 0 and -1 too, which programs such as
 * examples/start_stop.c do not call. The host gives none, and no library's preinit array is listed.
 *
 * Returns 0 where the set is bound and listed, else the refusal; then arena, report, start, stop and counts are all 0. */
uint64_t lugwormpin_start_stop(const uint32_t *sheet, size_t sheet_len, const uint8_t *bytes, size_t bytes_len, uint8_t *arena, size_t arena_len,
                               uint64_t address, uint32_t strict, const uint32_t *types, size_t types_len, uint32_t *report, size_t report_len,
                               uint64_t *start, size_t start_len, uint64_t *stop, size_t stop_len, uint64_t *counts, size_t counts_len);

#ifdef __cplusplus
}
#endif

#endif
