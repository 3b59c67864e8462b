/* Plavotesk for C: the proved calls on packets, messages, packed codes, count formats, cadence and histogram memory.
 *
 * Every call takes all inputs. Those that answer uint8_t answer a refusal number, 0 where they are accepted; the others refuse
 * nothing. On a refusal nothing is written, but for the bytes skipped with PLV_NO_PACKET and the bits missing with
 * PLV_BITS_RAN_OUT. After each call's explanation stand its refusals, in the order in which they are looked for.
 *
 * A slice is a pointer and a length, which counts elements, not bytes. What is lent must be there: every pointer is aligned for
 * its type and not null, not even where the length is 0 (the proofs speak of memory that exists, and a slice of nothing has a
 * place too); the places that a call writes to hold a value before the call, and overlap neither each other nor what it reads.
 *
 * The library keeps nothing between calls, and calls may come from several threads at once; but what one call is lent no other
 * call may be lent at the same time: two increments of one memory from two threads lose counts. */
#ifndef PLAVOTESK_H
#define PLAVOTESK_H

#include <stddef.h>
#include <stdint.h>

#ifdef __cplusplus
extern "C" {
#endif

/* The refusal numbers: each is given exactly when its line says, by the calls that name it. */
enum plv_refusal {
    PLV_ACCEPTED = 0,
    PLV_CAPTURE_TOO_LONG = 1,    /* capture over 65,536 bytes */
    PLV_TOO_MUCH_DATA = 2,       /* packet data over 8,187 bytes */
    PLV_BUFFER_TOO_SHORT = 3,    /* buffer too short to write into */
    PLV_WRONG_MARK = 4,          /* message mark wrong */
    PLV_CUT_SHORT = 5,           /* message cut short */
    PLV_WRONG_CHECKSUM = 6,      /* message checksum wrong */
    PLV_WRONG_MESSAGE = 7,       /* message address, tag or stray bits */
    PLV_OUTSIDE_THE_RULE = 8,    /* number or drop outside the rule */
    PLV_BITS_RAN_OUT = 9,        /* bits ran out */
    PLV_REDUNDANT_ZERO = 10,     /* redundant zero */
    PLV_RUN_TOO_LONG = 11,       /* run of ones too long */
    PLV_COUNT_TOO_LARGE = 12,    /* count too large for the format */
    PLV_WRONG_MEMORY = 13,       /* memory length odd, outside 2 to 524,288, or not the state's 2N; state words too few */
    PLV_WRONG_ADDRESS = 14,      /* address, or a window's last cell, not under N */
    PLV_COUNTER_FULL = 15,       /* counter full */
    PLV_WORD_ABOVE_FULL = 16,    /* a visited word above 67,108,863 */
    PLV_ASK_OUT_OF_TURN = 17,    /* ask number neither last nor next */
    PLV_OTHER_WINDOW = 18,       /* last number, other window or input, or the other kind of ask */
    PLV_OUT_OF_RANGE = 19,       /* second, level or flags out of range */
    PLV_NO_PACKET = 20,          /* no packet */
    PLV_FORBIDDEN_ITEM = 22,     /* forbidden item: sum, res or enc not 0, or a on the first or after one with t */
    PLV_TOO_MANY_ITEMS = 23      /* over 64 items */
};

/* The version of this interface: a library of another version has other calls, or other state words. */
#define PLV_VERSION 4

/* A number that must be looked at: a refused call changed nothing. */
#if defined(__GNUC__)
#define PLV_ANSWERS __attribute__((warn_unused_result))
#else
#define PLV_ANSWERS
#endif

/* The words of a refusal, as above; "accepted" for 0. */
static inline const char *plv_refusal_words(uint8_t number) {
    static const char none[] = "no refusal of this version";
    static const char *const words[] = {
        "accepted",
        "capture over 65,536 bytes",
        "packet data over 8,187 bytes",
        "buffer too short to write into",
        "message mark wrong",
        "message cut short",
        "message checksum wrong",
        "message address, tag or stray bits",
        "number or drop outside the rule",
        "bits ran out",
        "redundant zero",
        "run of ones too long",
        "count too large for the format",
        "memory length odd, outside 2 to 524,288, or not the state's 2N; state words too few",
        "address, or a window's last cell, not under N",
        "counter full",
        "a visited word above 67,108,863",
        "ask number neither last nor next",
        "last number, other window or input, or the other kind of ask",
        "second, level or flags out of range",
        "no packet",
        none,
        "forbidden item: sum, res or enc not 0, or a on the first or after one with t",
        "over 64 items",
    };
    return number < sizeof words / sizeof *words ? words[number] : none;
}

/* The version of the library that is linked: PLV_VERSION, where header and library belong together. */
uint32_t plv_version(void);

/* The words of a histogram's state, which the caller lends to each call and keeps between them:
 *   0          2N, the words of the memory that was opened
 *   1          not 0 where the second page is active
 *   2          which ask is kept, the last that was accepted: 0 none, 2 a packet's, any other number a window's (1 is written)
 *   3          its number
 *   4 to 8     its window: address, xsize, ysize, ystride, and not 0 where it clears
 *   9          its sum, or a packet's total
 *   10 to 13   a packet's low byte, flags, initial level and second
 *   14         the number of its items; above 64 it says 64
 *   15 to 78   its items
 *   79         the number of its bytes; above 243 it says 243
 *   80 to 322  its bytes, one a word, in the low 8 bits
 * A call looks only at the words that it needs, and writes only those that it changes; opening writes them all.
 * Memory and state words together are all there is of a board: kept together, a bench goes on from them after it died. Putting
 * back older words of one of them, or of both, brings the dear mistake back: a state from before ask 1 with the memory from after
 * it answers ask 1 as new, with 0. */
#define PLV_STATE_WORDS 323

/* The checksum of bytes. */
uint16_t plv_checksum(const uint8_t *bytes, size_t bytes_length);

/* The first place where a packet stands, and the bytes skipped before it; 1, or 20 with the bytes skipped. */
PLV_ANSWERS uint8_t plv_packet_find(const uint8_t *capture, size_t capture_length, uint64_t *place, uint64_t *skipped);

/* The APID and the bytes of data of the packet at a place; 1, 20. */
PLV_ANSWERS uint8_t plv_packet_header(const uint8_t *capture, size_t capture_length, uint64_t place, uint16_t *apid, uint16_t *length);

/* Where the data of the packet at a place lies in the capture; 0 and 0 where there is none. */
void plv_packet_payload(const uint8_t *capture, size_t capture_length, uint64_t place, uint64_t *start, uint64_t *length);

/* Writes a packet to the front of a buffer, and answers its bytes; 2, 3. */
PLV_ANSWERS uint8_t plv_packet_write(uint8_t *buffer, size_t buffer_length, uint16_t apid, const uint8_t *payload, size_t payload_length,
                                     uint64_t *written);

/* Reads the message at the front of the bytes, and answers the bytes it used; under 4 bytes 5, then 4, 5, 6. */
PLV_ANSWERS uint8_t plv_message_read(const uint8_t *bytes, size_t bytes_length, uint16_t *address, uint8_t *tag, uint64_t *value,
                                     uint64_t *used);

/* Writes a message to the front of a buffer, and answers its bytes: an address of 14 bits, and a value of 0, 2, 4 or 8 bytes for
 * tag 0, 1, 2, 3; 7, 3. */
PLV_ANSWERS uint8_t plv_message_write(uint8_t *buffer, size_t buffer_length, uint16_t address, uint8_t tag, uint64_t value,
                                      uint64_t *written);

/* Packs a number of at most 67,108,863 either way at a bit position, with drop 0 or 3, and answers the next position. Bits go
 * most significant first; 8, 3. */
PLV_ANSWERS uint8_t plv_code_pack(uint8_t *buffer, size_t buffer_length, uint64_t at, int32_t value, uint8_t drop, uint64_t *next);

/* Reads the code at a bit position, and answers the number that it decodes to and the next position. That number is not the count
 * that went in: a code stands for a band of counts, which plv_reading answers. Zeros that pad the last byte read as codes of 0:
 * know how many codes there are. missing is written with 9 alone: the least number of further bits, up to 15, with which some code
 * could be completed from what was read (1 at the end exactly, 0 from any other position past it); 8, 9 with the bits missing, 10,
 * 11. */
PLV_ANSWERS uint8_t plv_code_unpack(const uint8_t *bytes, size_t bytes_length, uint64_t at, uint8_t drop, int32_t *value, uint64_t *next,
                                    uint8_t *missing);

/* Reads the count at a bit position: the edges of its band, and 1 where it is exact (both edges are the count), else 0; 8, 9 with
 * the bits missing as of plv_code_unpack, 10, 11, and 8 for a negative number. */
PLV_ANSWERS uint8_t plv_reading(const uint8_t *bytes, size_t bytes_length, uint64_t at, uint8_t drop, double *low, double *high,
                                uint8_t *exact, uint64_t *next, uint8_t *missing);

/* Reads the count at a bit position as a rate over the seconds of a level: both edges, each divided once; as for a reading, 9 with
 * the bits missing, then 19. */
PLV_ANSWERS uint8_t plv_rate(const uint8_t *bytes, size_t bytes_length, uint64_t at, uint8_t drop, uint8_t level, double *low,
                             double *high, double *seconds, uint64_t *next, uint8_t *missing);

/* A count to its 16-bit float and back; 12. */
PLV_ANSWERS uint8_t plv_float16_code(uint64_t count, uint16_t *code);
uint64_t plv_float16_count(uint16_t code);

/* A count to its 8-bit float and back; 12. */
PLV_ANSWERS uint8_t plv_float8_code(uint64_t count, uint8_t *code);
uint64_t plv_float8_count(uint8_t code);

/* A count to its 24-bit integer and back; 12. */
PLV_ANSWERS uint8_t plv_int24_code(uint64_t count, uint32_t *code);
PLV_ANSWERS uint8_t plv_int24_count(uint32_t code, uint32_t *count);

/* A count to its logarithm byte: 0 for 0, else the largest v with 2^(v-8) not above the count to the eighth power; 12. */
PLV_ANSWERS uint8_t plv_log8_code(uint64_t count, uint8_t *code);

/* The smallest and the largest count that give a logarithm byte, and some 1: a byte stands for a run of counts, not for one count.
 * Look at some first: some 0 means that no count gives the byte, and both ends are then 0. */
void plv_log8_counts(uint8_t code, uint64_t *low, uint64_t *high, uint8_t *some);

/* The seconds that a level, 0 to 7, lasts; 19. */
PLV_ANSWERS uint8_t plv_level_seconds(uint8_t level, uint16_t *seconds);

/* The level that begins, and the level that ends, in a second of the hour, 0 to 3599; 19. */
PLV_ANSWERS uint8_t plv_second_beginning(uint16_t second, uint8_t *level);
PLV_ANSWERS uint8_t plv_second_ending(uint16_t second, uint8_t *level);

/* Takes 2N words, sets them to 0, and makes the state of a memory with nothing asked; 13. */
PLV_ANSWERS uint8_t plv_histogram_open(uint32_t *memory, size_t memory_length, uint64_t *state, size_t state_length);

/* Adds 1 to a word of the active page; 13, 14, 16, 15. */
PLV_ANSWERS uint8_t plv_histogram_increment(uint32_t *memory, size_t memory_length, const uint64_t *state, size_t state_length,
                                            uint32_t address);

/* Adds 1 to a word of the active page for each address, one after the other, up to the first that would be refused: how many were
 * counted, and the number by which it ended, 0 where all were (14, 16, 15); 13. */
PLV_ANSWERS uint8_t plv_histogram_increments(uint32_t *memory, size_t memory_length, const uint64_t *state, size_t state_length,
                                             const uint32_t *addresses, size_t addresses_length, uint64_t *count, uint8_t *ended);

/* The number that the next new ask bears; 13 for too few state words, and for a state that no call leaves. */
PLV_ANSWERS uint8_t plv_histogram_next(const uint64_t *state, size_t state_length, uint16_t *number);

/* Exchanges the active page and the idle one; 13. */
PLV_ANSWERS uint8_t plv_histogram_flip(const uint32_t *memory, size_t memory_length, uint64_t *state, size_t state_length);

/* Sums a window of the idle page, once for each number. The first number is 1, each next one more, and 0 follows 65535; the last
 * number with its window answers the same sum, with again 1, and changes nothing. Row r, column c of the window, from 0 to ysize
 * and xsize inclusive, is at address + r * (xsize + ystride) + c. clear is 0 to keep the counts; any other number clears them; 13,
 * then 18 or 17, 14, 16. */
PLV_ANSWERS uint8_t plv_histogram_ask(uint32_t *memory, size_t memory_length, uint64_t *state, size_t state_length, uint16_t number,
                                      uint32_t address, uint8_t xsize, uint8_t ysize, uint16_t ystride, uint8_t clear, uint64_t *sum,
                                      uint8_t *again);

/* How the result of an item is sent. */
enum plv_format {
    PLV_FLOAT16 = 0, /* 16 bits: the code of plv_float16_code */
    PLV_LOG8 = 1,    /* 8 bits: the byte of plv_log8_code, a run of counts */
    PLV_INT24 = 2,   /* 24 bits: the count itself */
    PLV_PACKED = 3   /* 1 bit, or 7 to 29: the code of plv_code_pack with drop 0, a band of counts */
};

/* An item of a packet's table: a window as of an ask, whether it clears (c), whether its result is sent (t), whether it adds the result
 * of the item before it (a), and the format (comp). From the top: ystride 16 bits, ysize 8, xsize 8; res 3, enc 3 and sum 3, which are 0;
 * c, t, a, comp 2, address 18. An address of more bits becomes a window that no memory has (14), a format over 3 a forbidden item (22). */
static inline uint64_t plv_item(uint32_t address, uint8_t xsize, uint8_t ysize, uint16_t ystride, int clear, int send, int add,
                                enum plv_format format) {
    uint64_t cells = (uint64_t)ystride << 48 | (uint64_t)ysize << 40 | (uint64_t)xsize << 32 | address;
    uint64_t fits = address < 1u << 18 ? cells : (uint64_t)1 << 32 | 0x3ffff;
    uint64_t sent = (unsigned)format <= 3 ? (uint64_t)format << 18 : (uint64_t)7 << 29;
    return fits | (uint64_t)(clear != 0) << 22 | (uint64_t)(send != 0) << 21 | (uint64_t)(add != 0) << 20 | sent;
}

/* The most bytes of a packet that plv_histogram_packet writes. */
#define PLV_HISTOGRAM_PACKET_BYTES 243

/* Builds a data packet from the idle page, once for each number; asks of both kinds share one row of numbers. Items, at most 64, run in
 * order, each a window as of plv_histogram_ask; a counter that one of them cleared is 0 for the next. An item's result is its window's
 * sum, and the result of the item before it where it adds that. The packet's APID is 0x03 and the low byte; its data are one byte, flags
 * (2 bits), initial level (3) and the level that ends in the second (3), and then the results that are sent, bit after bit, the most
 * significant first, with zeros to the end of the last byte. It goes to the front of the buffer, written says how many bytes, and total is
 * the sum of the windows of the items that clear: what a sheet files. The last number with the same low byte, items, flags, level and
 * second writes the same bytes and answers the same total, with again 1, and changes nothing, whatever was counted since; it meets only 13
 * and 3; 13, then 18 or 17, 23, 22, 19, item after item 14, 16, and 12 where it is sent, then 3. */
PLV_ANSWERS uint8_t plv_histogram_packet(uint32_t *memory, size_t memory_length, uint64_t *state, size_t state_length, uint16_t number,
                                         uint8_t low, const uint64_t *items, size_t items_length, uint8_t flags, uint8_t initial,
                                         uint16_t second, uint8_t *buffer, size_t buffer_length, uint64_t *written, uint64_t *total,
                                         uint8_t *again);

#ifdef __cplusplus
}
#endif

#endif
