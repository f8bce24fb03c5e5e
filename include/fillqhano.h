/* The linker of CRO modules: three calls over memory that the host lends; a service desk above it, two calls; and a writer of CRO images, two calls.
 *
 * target/lib/libfillqhano.a, which host/build makes, has the calls with the prefix fillqhano_: fillqhano_initialize and so on.
 * A host that links the library with the plain names, target/staticlib/libfillqhano.a, where they are `initialize`, `load`,
 * `unload`, `write_image`, `read_image`, `send` and `turn`, defines FILLQHANO_PLAIN_NAMES before it includes this; all below then calls those.
 * `send` is also the name of a function of the C library's sockets: a host that uses sockets takes the library with the prefix.
 *
 * A lent buffer is passed as two arguments, a pointer to its first byte and its length in bytes. The pointers must be
 * valid for their lengths, not null even where a length is 0, and the buffers, `*value`, `*touched` and the other words included,
 * must not overlap. The inline functions at the end take structs in place of the linker's long lists of arguments, and allow a null
 * pointer where a length is 0.
 * A call keeps no pointer, allocates nothing, and has no state but the buffers. Every call ends on any bytes and
 * any arguments. A count, however great, costs no more than what of its table lies in the window; but counts that nest there multiply:
 * module entries, their imports, the entries of a batch. A host that takes images from anywhere calls on a thread that it can spare.
 * C99 or C++.
 *
 * The window: a part of a 32-bit address space.
 *   at       the address of its first byte, a multiple of 4,096
 *   window   its bytes: a multiple of 4,096 of them, at least one page, none past 2^32
 *   A read outside gives 0, a write outside is dropped. Of a word that lies across an edge the bytes inside are written,
 *   but a relocated word begun outside, as two bytes below the window, is dropped whole; one that runs off the window's
 *   end keeps its bytes inside.
 *
 * The register: what stands between calls. All bytes 0 is a register without modules.
 *   records  at least FILLQHANO_RECORDS_LEAST bytes: 8 header words, then one record per module, at most FILLQHANO_MODULES. A
 *            record takes 32 bytes, 4 a segment (of at most 16) and indexed export, and 12 a named export. Its named exports
 *            ascend by name: bytes as unsigned numbers, a name before those that extend it
 *   names    any length: the names of modules and exports, each of at most FILLQHANO_NAME bytes
 *   missing  exactly FILLQHANO_MISSING bytes: 64 slots of a 16-bit length and 512 bytes, the names that no module provided
 *   Only these calls write it, and the three buffers go together: they are the state that a host saves. Every call looks at all their
 *   bytes. Those past the ones in use are 0, so a buffer may be made longer by zeros between calls.
 *   To read it (words of 32 bits, lowest byte first): header words are the modules, 1 if a CRS is known, its base, the record bytes in
 *   use (header included; 0 means 32), the name bytes in use, the missing names, 0, 0. A record is base, size, auto-link, the offset
 *   and length of its name in `names`, the counts of segments, named and indexed exports; then an address a segment, three words a
 *   named export (offset and length of its name, address), an address an indexed export.
 *
 * What a call answers: an enum fillqhano_number, tested in the order 3, 4, 1, 2, 5. The register is unchanged by 1 to 5, and
 * *value is 0 then. After a 2 or a 5 the image has been rebased, in part or whole: before the call is made again, its bytes have
 * to be put back as they were.
 *
 * Touches: *touched becomes 1 if an access of the call had a byte outside the window, and *first the address where the first
 * such access started, in the order of accesses of the Rust that this was ported from; else both become 0. A touch may start
 * at address 0. A word is one access, and so is each byte of a name; a write counts even where it is dropped or cut. With 3
 * and 4 there is no access, with 1 the magic's alone, with 2 those up to the bad segment, with 5 those of the rebase and of
 * the external reset.
 *
 * The desk: FILLQHANO_DESK bytes, in which the commands of several titles wait for the linker. All bytes 0 is a desk at which nobody waits.
 *   A caller is any number that the host tells titles apart by. At most FILLQHANO_CALLERS have a place, each with at most FILLQHANO_WAITING
 *   command buffers that wait. A place is given with the first buffer sent, and kept.
 *   Words (of 32 bits, lowest byte first): the places taken; the place that the next turn looks at first; 0, 0; then 18 words a place: the
 *   caller, how many buffers wait, and their addresses, the oldest first, unused words 0. Any bytes are some desk: a count above its limit
 *   is read as the limit, and written so with the next change. Bytes past FILLQHANO_DESK stay, and fewer are a desk without places.
 * A command buffer is an address in the window, not lent apart. Its words are read in its turn, not when it is sent; those outside the window
 * are 0, and a reply's are dropped there. Word 0 has the command's id in its upper half; its lower half is not looked at. Parameters:
 *   id 1           initialize: 1 source, 2 size, 3 address
 *   id 4, id 9     load: 1 source, 2 address, 3 size, 4 data, 6 data size, 7 bss, 8 bss size, 9 auto-link in its lowest byte, 10 fix level
 *   id 5           unload: 1 base
 *   id 2, 3, 6-8   none; nothing is done
 * The reply, over the same words: (id << 16) + 0x40 and 0 where it is done, also for an unload that found no module; for a load that is done
 * (id << 16) + 0x80, 0, and the fixed size; for an initialize or load that is refused (id << 16) + 0x40 and FILLQHANO_NOT_LOADED. The
 * address has to be 0 or the source: with any other the command is refused (9) without a call. To any other id nothing is written.
 *
 * A description, of which the writer makes an image: bytes in the form of a CRO's, without padding at the end.
 *   The header, 0x138 bytes. Described are the words at 0x084 (the name's offset) and 0x094 (the Bss size), those from 0x0A0 on: four tags,
 *   the code and data pairs, and 15 pairs of an offset and a count from 0x0C0 on. All other bytes are 0, the magic and the length too.
 *   From 0x138 on its parts, each at the next multiple of 4, bytes between them 0: the segments in table order, but those of kind 3 or
 *   above, which have none and whose offset word is free; then the tables and string areas of the 15 pairs, in this order, empty ones
 *   too. The description ends where the last pair's (empty) table starts. Three tables are empty: the export tree (0x0E8), static
 *   anonymous symbols (0x120) and static relocations (0x130).
 *   Names stand in the string areas one right after another, each of at most 512 bytes with a zero after it, and each entry points at its own:
 *   0x0C0 has the module's, 0x0E0 those of the named exports, 0x118 those of the module entries, then those of the named imports.
 * The image is the description with CRO0 at 0x080, its own length at 0x090, and zeros up to that, the next multiple of 4,096.
 */
#ifndef FILLQHANO_H
#define FILLQHANO_H

#include <stddef.h>
#include <stdint.h>

#ifdef __cplusplus
extern "C" {
#endif

/* Sizes in bytes, and the most modules that can stand. */
#define FILLQHANO_PAGE 4096u
#define FILLQHANO_RECORDS_LEAST 32u
#define FILLQHANO_MISSING 32896u
#define FILLQHANO_NAME 512u
#define FILLQHANO_MODULES 64u
#define FILLQHANO_DESK 592u

/* The most callers at a desk, and the most command buffers of one that wait. */
#define FILLQHANO_CALLERS 8u
#define FILLQHANO_WAITING 16u

/* The result in the reply to an initialize or load that is refused. */
#define FILLQHANO_NOT_LOADED 0xD9012402u

enum fillqhano_number {
    FILLQHANO_DONE = 0,
    FILLQHANO_NOT_A_CRO = 1,    /* the magic is neither CRO0 nor CRS0; nothing has changed (initialize and load) */
    FILLQHANO_BAD_SEGMENT = 2,  /* a segment is bad; the window has been written up to there (load) */
    FILLQHANO_BAD_WINDOW = 3,   /* the window breaks its rule; nothing has changed */
    FILLQHANO_BAD_REGISTER = 4, /* the three buffers are no register; nothing has changed */
    FILLQHANO_FULL = 5,         /* 64 modules stand, or the module's record or its names have no room; the window has been
                                   written: rebased, its imports reset (initialize and load) */
    FILLQHANO_NOT_WRITABLE = 6, /* no description of an image that has a place and is well laid in every place; an image too short
                                   to be read back (write_image and read_image); nothing has changed */
    FILLQHANO_NO_ROOM = 7,      /* the buffer is too short; nothing has changed (write_image and read_image) */
    FILLQHANO_DESK_FULL = 8,    /* a ninth caller, a seventeenth buffer, or no desk; nothing has changed (send) */
    FILLQHANO_ELSEWHERE = 9     /* a module at another address than its bytes; answered, and nothing else has changed (turn) */
};

#ifdef FILLQHANO_PLAIN_NAMES
#define fillqhano_initialize initialize
#define fillqhano_load load
#define fillqhano_unload unload
#define fillqhano_write_image write_image
#define fillqhano_read_image read_image
#define fillqhano_send send
#define fillqhano_turn turn
#endif

/* Takes in the static module (CRS) at `base`, `size` bytes long. *value becomes 0. */
uint32_t fillqhano_initialize(uint32_t at,
                              uint8_t *window, size_t window_length,
                              uint8_t *records, size_t records_length,
                              uint8_t *names, size_t names_length,
                              uint8_t *missing, size_t missing_length,
                              uint32_t base, uint32_t size,
                              uint32_t *value, uint32_t *touched, uint32_t *first);

/* Loads the module at `base`, `size` bytes long, its data and bss segments at the addresses given, with their sizes.
 * auto_link: 0, or anything else for a module whose named exports others may use.
 * fix_level: 1, 2 or 3 drops the tables that the level says; any other level drops none.
 * *value becomes the bytes of the module that are left after fixing, 0 where the level drops nothing. */
uint32_t fillqhano_load(uint32_t at,
                        uint8_t *window, size_t window_length,
                        uint8_t *records, size_t records_length,
                        uint8_t *names, size_t names_length,
                        uint8_t *missing, size_t missing_length,
                        uint32_t base, uint32_t size,
                        uint32_t data_segment, uint32_t data_segment_size,
                        uint32_t bss_segment, uint32_t bss_segment_size,
                        uint32_t auto_link, uint32_t fix_level,
                        uint32_t *value, uint32_t *touched, uint32_t *first);

/* Unloads the first module whose record has `base`: the batches of auto-linked modules that it served go back to their
 * handlers, it leaves its list, its offsets become those of its file, and its record and names leave the register.
 * *value becomes 1, or 0 where no module has that base; then nothing has changed. */
uint32_t fillqhano_unload(uint32_t at,
                          uint8_t *window, size_t window_length,
                          uint8_t *records, size_t records_length,
                          uint8_t *names, size_t names_length,
                          uint8_t *missing, size_t missing_length,
                          uint32_t base,
                          uint32_t *value, uint32_t *touched, uint32_t *first);

/* Writes the image of a description to the front of `image`; the bytes after it stay. *value becomes the image's length. It refuses (6)
 * exactly a description that is not of the form above, or whose image has no place, or is not well laid in each: a place is a base and lent
 * areas of at least the sizes of its Data and Bss segments, all three above 0, ending below 2^32 and apart from each other.
 * Then it refuses a buffer shorter than the image (7). With 6 and 7 every byte of the buffer stays, and *value becomes 0. */
uint32_t fillqhano_write_image(const uint8_t *description, size_t description_length,
                               uint8_t *image, size_t image_length,
                               uint32_t *value);

/* Gives back the description of an image that fillqhano_write_image made, at the front of `description`; the bytes after it stay. *value
 * becomes its length. It judges no image but one that is shorter than 0x138 bytes or than its last table's offset (6). Then it
 * refuses a buffer that is too short (7). With 6 and 7 every byte of the buffer stays, and *value becomes 0. */
uint32_t fillqhano_read_image(const uint8_t *image, size_t image_length,
                              uint8_t *description, size_t description_length,
                              uint32_t *value);

/* Puts the command buffer at the address `buffer` at the end of its caller's queue. It refuses (8) a caller that has no place where all are taken,
 * and one with FILLQHANO_WAITING buffers waiting. It looks at no window and at nothing of the buffer, which may wait twice. *value becomes 0. */
uint32_t fillqhano_send(uint8_t *desk, size_t desk_length, uint32_t caller, uint32_t buffer, uint32_t *value);

/* Serves one command buffer: the oldest of the first caller with one waiting, looked for from behind the place served last, round to the start.
 * The tests of 3 and 4 come first: with them nothing changes, and the buffer waits on. So a caller with a buffer waiting is served within 8
 * turns that meet neither. The number is 3, 4, 9, that of the linker call made (0, 1, 2 or 5), else 0.
 * *value becomes that of the linker call, 0 without one; *served 1 where a buffer was answered, 2 where its id is outside 1 to 9, 0 where nothing
 * waited and with 3 and 4; *caller and *buffer whose it was and its address, whom to wake, or 0. *touched and *first are those of the linker
 * call made, 0 without one: the desk's own accesses are no touches. */
uint32_t fillqhano_turn(uint32_t at,
                        uint8_t *window, size_t window_length,
                        uint8_t *records, size_t records_length,
                        uint8_t *names, size_t names_length,
                        uint8_t *missing, size_t missing_length,
                        uint8_t *desk, size_t desk_length,
                        uint32_t *value, uint32_t *served, uint32_t *caller, uint32_t *buffer,
                        uint32_t *touched, uint32_t *first);

/* The linker's calls by structs, and the desk's. A buffer of length 0 may be null here. */

struct fillqhano_window {
    uint32_t at;
    uint8_t *bytes;
    size_t length;
};

/* The register's three buffers. */
struct fillqhano_linker {
    uint8_t *records;
    size_t records_length;
    uint8_t *names;
    size_t names_length;
    uint8_t *missing;
    size_t missing_length;
};

struct fillqhano_load_arguments {
    uint32_t base, size;
    uint32_t data_segment, data_segment_size;
    uint32_t bss_segment, bss_segment_size;
    uint32_t auto_link, fix_level;
};

struct fillqhano_answer {
    uint32_t number; /* an enum fillqhano_number */
    uint32_t value;
    uint32_t touched, first;
};

/* A desk; all bytes 0 is one at which nobody waits. */
struct fillqhano_desk {
    uint8_t bytes[FILLQHANO_DESK];
};

struct fillqhano_turn_answer {
    uint32_t number; /* an enum fillqhano_number */
    uint32_t value;
    uint32_t served, caller, buffer;
    uint32_t touched, first;
};

/* Gives buffers of length 0 an address each, at which nothing is read. */
static inline void fillqhano_no_nulls(struct fillqhano_linker *linker, struct fillqhano_window *window, uint8_t addresses[4])
{
    if (!window->length)
        window->bytes = addresses;
    if (!linker->records_length)
        linker->records = addresses + 1;
    if (!linker->names_length)
        linker->names = addresses + 2;
    if (!linker->missing_length)
        linker->missing = addresses + 3;
}

static inline struct fillqhano_answer fillqhano_linker_initialize(struct fillqhano_linker linker, struct fillqhano_window window,
                                                                  uint32_t base, uint32_t size)
{
    struct fillqhano_answer answer = {0, 0, 0, 0};
    uint8_t addresses[4];
    fillqhano_no_nulls(&linker, &window, addresses);
    answer.number = fillqhano_initialize(window.at, window.bytes, window.length, linker.records, linker.records_length,
                                         linker.names, linker.names_length, linker.missing, linker.missing_length, base, size,
                                         &answer.value, &answer.touched, &answer.first);
    return answer;
}

static inline struct fillqhano_answer fillqhano_linker_load(struct fillqhano_linker linker, struct fillqhano_window window,
                                                            struct fillqhano_load_arguments given)
{
    struct fillqhano_answer answer = {0, 0, 0, 0};
    uint8_t addresses[4];
    fillqhano_no_nulls(&linker, &window, addresses);
    answer.number = fillqhano_load(window.at, window.bytes, window.length, linker.records, linker.records_length,
                                   linker.names, linker.names_length, linker.missing, linker.missing_length,
                                   given.base, given.size, given.data_segment, given.data_segment_size,
                                   given.bss_segment, given.bss_segment_size, given.auto_link, given.fix_level,
                                   &answer.value, &answer.touched, &answer.first);
    return answer;
}

static inline struct fillqhano_answer fillqhano_linker_unload(struct fillqhano_linker linker, struct fillqhano_window window,
                                                              uint32_t base)
{
    struct fillqhano_answer answer = {0, 0, 0, 0};
    uint8_t addresses[4];
    fillqhano_no_nulls(&linker, &window, addresses);
    answer.number = fillqhano_unload(window.at, window.bytes, window.length, linker.records, linker.records_length,
                                     linker.names, linker.names_length, linker.missing, linker.missing_length, base,
                                     &answer.value, &answer.touched, &answer.first);
    return answer;
}

/* Gives 0 or FILLQHANO_DESK_FULL. */
static inline uint32_t fillqhano_desk_send(struct fillqhano_desk *desk, uint32_t caller, uint32_t buffer)
{
    uint32_t value;
    return fillqhano_send(desk->bytes, sizeof desk->bytes, caller, buffer, &value);
}

static inline struct fillqhano_turn_answer fillqhano_desk_turn(struct fillqhano_desk *desk, struct fillqhano_linker linker,
                                                               struct fillqhano_window window)
{
    struct fillqhano_turn_answer answer = {0, 0, 0, 0, 0, 0, 0};
    uint8_t addresses[4];
    fillqhano_no_nulls(&linker, &window, addresses);
    answer.number = fillqhano_turn(window.at, window.bytes, window.length, linker.records, linker.records_length,
                                   linker.names, linker.names_length, linker.missing, linker.missing_length,
                                   desk->bytes, sizeof desk->bytes, &answer.value, &answer.served, &answer.caller,
                                   &answer.buffer, &answer.touched, &answer.first);
    return answer;
}

#ifdef __cplusplus
}
#endif

#endif
