/* Every call of the C header on document 01's cases and on refusals, a line each; the bindings print the same. */
#include <inttypes.h>
#include <stdio.h>
#include <string.h>
#include "plavotesk.h"

/* The start of a line, and the refusal where there is one; whether the call was accepted. What a refusal carries ends its line. */
static int accepted(const char *name, uint8_t number) {
    int carries = number == PLV_BITS_RAN_OUT || (number == PLV_NO_PACKET && strncmp(name, "find", 4) == 0);
    printf("%s: ", name);
    if (number != PLV_ACCEPTED) {
        printf("refused %u: %s%s", number, plv_refusal_words(number), carries ? "" : "\n");
    }
    return number == PLV_ACCEPTED;
}

static void hex(const char *name, const uint8_t *bytes, size_t count) {
    printf("%s: ", name);
    for (size_t i = 0; i < count; i++) {
        printf("%02x", bytes[i]);
    }
    printf("\n");
}

static void one(const char *name, uint8_t number, uint64_t value) {
    if (accepted(name, number)) {
        printf("%" PRIu64 "\n", value);
    }
}

static void find(const char *name, const uint8_t *capture, size_t length) {
    uint64_t place = 0, skipped = 0;
    uint8_t number = plv_packet_find(capture, length, &place, &skipped);
    if (accepted(name, number)) {
        printf("%" PRIu64 " %" PRIu64 "\n", place, skipped);
    } else if (number == PLV_NO_PACKET) {
        printf(" (%" PRIu64 " bytes skipped)\n", skipped);
    }
}

static void header(const char *name, const uint8_t *capture, size_t length, uint64_t place) {
    uint16_t apid = 0, n = 0;
    if (accepted(name, plv_packet_header(capture, length, place, &apid, &n))) {
        printf("%u %u\n", apid, n);
    }
}

static void payload(const char *name, const uint8_t *capture, size_t length, uint64_t place) {
    uint64_t start = 0, n = 0;
    plv_packet_payload(capture, length, place, &start, &n);
    hex(name, capture + start, n);
}

static void packets(void) {
    static uint8_t capture[30], zeros[65537];
    uint64_t written = 0;
    uint8_t number;
    printf("checksum: %04x\n", plv_checksum((const uint8_t *)"123456789", 9));
    memset(capture, 0xee, 30);
    number = plv_packet_write(capture + 7, 23, 0x0301, (const uint8_t *)"counts", 6, &written);
    one("write", number, written);
    hex("capture", capture, 30);
    find("find", capture, 30);
    find("find nothing", capture, 22);
    find("find in too much", zeros, 65537);
    header("header", capture, 30, 7);
    header("header elsewhere", capture, 30, 8);
    payload("payload", capture, 30, 7);
    payload("payload elsewhere", capture, 30, 8);
    number = plv_packet_write(capture, 30, 1, zeros, 8188, &written);
    one("write too much", number, written);
    number = plv_packet_write(capture, 9, 1, zeros, 0, &written);
    one("write into too little", number, written);
}

static void read_message(const char *name, const uint8_t *bytes, size_t length) {
    uint16_t address = 0;
    uint8_t tag = 0;
    uint64_t value = 0, used = 0;
    if (accepted(name, plv_message_read(bytes, length, &address, &tag, &value, &used))) {
        printf("%x %u %" PRIx64 " %" PRIu64 "\n", address, tag, value, used);
    }
}

static void messages(void) {
    static const uint8_t zeros[4];
    uint8_t buffer[12], number;
    uint64_t written = 0;
    memset(buffer, 0xee, 12);
    number = plv_message_write(buffer, 12, 0x1234, 2, 0xdeadbeef, &written);
    one("write message", number, written);
    hex("message", buffer, 12);
    read_message("read message", buffer, 12);
    read_message("read cut message", buffer, 9);
    read_message("read no message", zeros, 4);
    buffer[5] ^= 1;
    read_message("read damaged message", buffer, 12);
    number = plv_message_write(buffer, 12, 0, 0, 1, &written);
    one("write stray bits", number, written);
    number = plv_message_write(buffer, 5, 0, 0, 0, &written);
    one("write message into too little", number, written);
}

/* What the place of the bits missing holds before each call, a number that is never written. */
enum { HELD = 99 };

/* The bits missing end the line of a refusal by 9; with any other answer the place keeps what it held. */
static void bits_missing(uint8_t number, uint8_t missing) {
    if (number == PLV_BITS_RAN_OUT && missing == 0) {
        printf(" (the position lies past the end)\n");
    } else if (number == PLV_BITS_RAN_OUT) {
        printf(" (at least %u more %s missing)\n", missing, missing == 1 ? "bit is" : "bits are");
    } else if (missing != HELD) {
        printf("answered %u, and %u written as the bits missing\n", number, missing);
    }
}

static void unpack(const char *name, const uint8_t *bytes, size_t length, uint64_t at, uint8_t drop) {
    int32_t value = 0;
    uint64_t next = 0;
    uint8_t missing = HELD, number = plv_code_unpack(bytes, length, at, drop, &value, &next, &missing);
    if (accepted(name, number)) {
        printf("%" PRId32 " %" PRIu64 "\n", value, next);
    }
    bits_missing(number, missing);
}

static void rate(const char *name, const uint8_t *bytes, size_t length, uint64_t at, uint8_t drop, uint8_t level) {
    double low = 0, high = 0, seconds = 0;
    uint64_t next = 0;
    uint8_t missing = HELD, number = plv_rate(bytes, length, at, drop, level, &low, &high, &seconds, &next, &missing);
    if (accepted(name, number)) {
        printf("%.3f to %.3f over %.1f %" PRIu64 "\n", low, high, seconds, next);
    }
    bits_missing(number, missing);
}

static void reading(const char *name, const uint8_t *bytes, size_t length, uint64_t at, uint8_t drop) {
    double low = 0, high = 0;
    uint8_t exact = 0;
    uint64_t next = 0;
    uint8_t missing = HELD, number = plv_reading(bytes, length, at, drop, &low, &high, &exact, &next, &missing);
    if (accepted(name, number)) {
        if (exact) {
            printf("exactly %.1f %" PRIu64 "\n", low, next);
        } else {
            printf("%.1f to %.1f %" PRIu64 "\n", low, high, next);
        }
    }
    bits_missing(number, missing);
}

static void codes(void) {
    static const int32_t values[] = {0, 5, -16, 32, 100, 3, 4, 33554431, 33554432, 67108863, 67108864, -67108863, 5};
    static const uint8_t drops[] = {0, 0, 0, 0, 0, 3, 3, 0, 0, 0, 0, 3, 1}, zero[1], redundant[] = {0x80}, ones[] = {0xff};
    static const uint64_t positions[] = {8, 9, 1ull << 63, UINT64_MAX};
    uint8_t buffer[4];
    char name[40];
    for (int i = 0; i < 13; i++) {
        uint64_t next = 0;
        memset(buffer, 0xff, 4);
        snprintf(name, sizeof name, "pack %" PRId32 " drop %u", values[i], drops[i]);
        uint8_t number = plv_code_pack(buffer, 4, 3, values[i], drops[i], &next);
        one(name, number, next);
        hex("bits", buffer, 4);
        unpack("unpack", buffer, 4, 3, drops[i]);
        reading("reading", buffer, 4, 3, drops[i]);
        rate("rate", buffer, 4, 3, drops[i], 1);
    }
    uint64_t next = 0;
    uint8_t number = plv_code_pack(buffer, 0, 0, 5, 0, &next);
    one("pack into nothing", number, next);
    unpack("unpack nothing", zero, 0, 0, 0);
    rate("rate at level 8", zero, 1, 0, 0, 8);
    rate("rate of a cut code at level 8", ones, 1, 0, 0, 8);
    unpack("unpack a redundant zero", redundant, 1, 0, 0);
    reading("reading of a redundant zero", redundant, 1, 0, 0);
    rate("rate of a redundant zero", redundant, 1, 0, 0, 1);
    for (int i = 0; i < 4; i++) {
        snprintf(name, sizeof name, "unpack at %" PRIu64, positions[i]);
        unpack(name, zero, 1, positions[i], 0);
    }
}

/* A packet with four counts of 0 and one of 67,108,863, 33 bits. Its data cut by one bit and cut by many are told apart, by whatever reads
 * them; where nothing is left the position lies past the end. */
static void cut_packet(void) {
    static const int32_t counts[] = {0, 0, 0, 0, 67108863};
    uint8_t data[5] = {0}, packet[15] = {0};
    uint64_t at = 0, written = 0, start = 0, length = 0;
    char name[80];
    for (int i = 0; i < 5; i++) {
        if (plv_code_pack(data, 5, at, counts[i], 0, &at) != PLV_ACCEPTED) {
            printf("not packed\n");
        }
    }
    if (plv_packet_write(packet, 15, 0x0301, data, 5, &written) != PLV_ACCEPTED) {
        printf("not written\n");
    }
    plv_packet_payload(packet, 15, 0, &start, &length);
    for (int left = 5; left >= 0; left--) {
        snprintf(name, sizeof name, "unpack from %d of %" PRIu64 " bytes", left, length);
        unpack(name, packet + start, left, 4, 0);
        snprintf(name, sizeof name, "reading from %d of %" PRIu64 " bytes", left, length);
        reading(name, packet + start, left, 4, 0);
        snprintf(name, sizeof name, "rate from %d of %" PRIu64 " bytes", left, length);
        rate(name, packet + start, left, 4, 0, 1);
    }
}

/* The bits missing of the longest code, cut before its first bit, before its second, and so on to its last. */
static void cut_everywhere(uint8_t drop, uint64_t bits) {
    printf("bits missing with drop %u:", drop);
    for (uint64_t before = 0; before < bits; before++) {
        uint64_t left = (before + 7) / 8, at = 8 * left - before, next = 0;
        uint8_t code[5] = {0}, missing = HELD;
        int32_t value = 0;
        if (plv_code_pack(code, 5, at, 67108863, drop, &next) == PLV_ACCEPTED &&
            plv_code_unpack(code, left, at, drop, &value, &next, &missing) == PLV_BITS_RAN_OUT) {
            printf(" %u", missing);
        }
    }
    printf("\n");
}

static void floats(void) {
    static const uint64_t sixteen[] = {8191, 8193, 1u << 27}, eight[] = {100, 1ull << 34};
    char name[40];
    for (int i = 0; i < 3; i++) {
        uint16_t code = 0;
        snprintf(name, sizeof name, "float16 of %" PRIu64, sixteen[i]);
        uint8_t number = plv_float16_code(sixteen[i], &code);
        one(name, number, code);
    }
    printf("float16 8192: %" PRIu64 "\n", plv_float16_count(8192));
    for (int i = 0; i < 2; i++) {
        uint8_t code = 0;
        snprintf(name, sizeof name, "float8 of %" PRIu64, eight[i]);
        uint8_t number = plv_float8_code(eight[i], &code);
        one(name, number, code);
    }
    printf("float8 36: %" PRIu64 "\n", plv_float8_count(36));
    for (uint32_t count = 16777215; count <= 16777216; count++) {
        uint32_t code = 0;
        snprintf(name, sizeof name, "int24 of %" PRIu32, count);
        uint8_t number = plv_int24_code(count, &code);
        one(name, number, code);
        snprintf(name, sizeof name, "int24 %" PRIu32, count);
        number = plv_int24_count(count, &code);
        one(name, number, code);
    }
}

static void logarithms(void) {
    static const uint64_t counts[] = {0, 1, 100, 2147483647, 2147483648, 1ull << 40};
    static const uint8_t codes[] = {0, 7, 8, 9, 61, 255};
    char name[40];
    for (int i = 0; i < 6; i++) {
        uint8_t code = 0;
        snprintf(name, sizeof name, "log8 of %" PRIu64, counts[i]);
        uint8_t number = plv_log8_code(counts[i], &code);
        one(name, number, code);
    }
    for (int i = 0; i < 6; i++) {
        uint64_t low = 0, high = 0;
        uint8_t some = 0;
        plv_log8_counts(codes[i], &low, &high, &some);
        if (some) {
            printf("log8 %u: %" PRIu64 " to %" PRIu64 "\n", codes[i], low, high);
        } else {
            printf("log8 %u: no count\n", codes[i]);
        }
    }
}

static void cadence(void) {
    static const uint8_t levels[] = {0, 7, 8};
    static const uint16_t seconds[] = {0, 59, 3600};
    char name[40];
    for (int i = 0; i < 3; i++) {
        uint16_t lasts = 0;
        snprintf(name, sizeof name, "level %u", levels[i]);
        uint8_t number = plv_level_seconds(levels[i], &lasts);
        one(name, number, lasts);
    }
    for (int i = 0; i < 3; i++) {
        uint8_t level = 0;
        snprintf(name, sizeof name, "beginning %u", seconds[i]);
        uint8_t number = plv_second_beginning(seconds[i], &level);
        one(name, number, level);
        snprintf(name, sizeof name, "ending %u", seconds[i]);
        number = plv_second_ending(seconds[i], &level);
        one(name, number, level);
    }
}

static uint32_t memory[4];
static uint64_t state[PLV_STATE_WORDS];

static void ask(const char *name, uint16_t number, uint32_t address, uint8_t clear) {
    uint64_t sum = 0;
    uint8_t again = 0;
    if (accepted(name, plv_histogram_ask(memory, 4, state, PLV_STATE_WORDS, number, address, 1, 0, 0, clear, &sum, &again))) {
        printf("%" PRIu64 " %s\n", sum, again ? "again" : "new");
    }
}

static void show_memory(void) {
    printf("memory: [%" PRIu32 ", %" PRIu32 ", %" PRIu32 ", %" PRIu32 "]\n", memory[0], memory[1], memory[2], memory[3]);
}

static void next_number(void) {
    uint16_t number = 0;
    uint8_t refused = plv_histogram_next(state, PLV_STATE_WORDS, &number);
    one("next number", refused, number);
}

static void feed(const char *name, const uint32_t *addresses, size_t length) {
    uint64_t count = 0;
    uint8_t ended = 0;
    if (accepted(name, plv_histogram_increments(memory, 4, state, PLV_STATE_WORDS, addresses, length, &count, &ended))) {
        printf("%" PRIu64 " counted, ended by %u\n", count, ended);
    }
}

static void histogram(void) {
    static const uint32_t addresses[] = {0, 0, 0, 2};
    static uint32_t large[524290];
    char name[40];
    one("open 0", plv_histogram_open(memory, 0, state, PLV_STATE_WORDS), 0);
    one("open 262145", plv_histogram_open(large, 524290, state, PLV_STATE_WORDS), 0);
    if (plv_histogram_open(memory, 4, state, PLV_STATE_WORDS) != PLV_ACCEPTED) {
        printf("not opened\n");
    }
    ask("ask 0", 0, 0, 1);
    for (int i = 0; i < 4; i++) {
        snprintf(name, sizeof name, "increment %" PRIu32, addresses[i]);
        if (accepted(name, plv_histogram_increment(memory, 4, state, PLV_STATE_WORDS, addresses[i]))) {
            printf("counted\n");
        }
    }
    show_memory();
    if (plv_histogram_flip(memory, 4, state, PLV_STATE_WORDS) != PLV_ACCEPTED) {
        printf("not exchanged\n");
    }
    next_number();
    ask("ask 1", 1, 0, 1);
    ask("ask 1", 1, 0, 1);
    next_number();
    ask("ask 2", 2, 0, 1);
    ask("ask 4", 4, 0, 1);
    ask("ask 2 of another window", 2, 0, 0);
    ask("ask too far", 3, 1, 1);
    next_number();
    show_memory();
    feed("feed", addresses, 4);
    feed("feed nothing", addresses, 0);
    show_memory();
}

static uint32_t counters[16];
static uint64_t words[PLV_STATE_WORDS];
static uint8_t buffer[PLV_HISTOGRAM_PACKET_BYTES];

/* A packet asked with low byte 1, initial level 5 and second 59, into so much room. */
static void packet(const char *name, uint16_t number, const uint64_t *items, size_t length, uint8_t flags, size_t room) {
    uint64_t written = 0, total = 0;
    uint8_t again = 0;
    if (accepted(name, plv_histogram_packet(counters, 16, words, PLV_STATE_WORDS, number, 1, items, length, flags, 5, 59, buffer, room,
                                            &written, &total, &again))) {
        printf("%" PRIu64 " bytes, total %" PRIu64 ", %s\n", written, total, again ? "again" : "new");
    }
}

static void packet_asks(void) {
    static const uint32_t fed[] = {0, 1, 1, 2, 2, 2, 5};
    static uint32_t many[1024];
    const uint64_t items[] = {
        plv_item(0, 1, 0, 0, 1, 1, 0, PLV_FLOAT16), plv_item(2, 0, 0, 0, 1, 0, 0, PLV_FLOAT16), plv_item(4, 1, 0, 0, 0, 1, 1, PLV_PACKED),
        plv_item(0, 6, 0, 0, 0, 1, 0, PLV_LOG8),    plv_item(0, 1, 2, 1, 1, 1, 0, PLV_INT24),
    };
    const uint64_t far[] = {items[0], plv_item(1 << 18, 255, 255, 65535, 0, 0, 0, PLV_FLOAT16)};
    uint64_t chain[65], count = 0, sum = 0;
    uint8_t ended = 0, again = 0;
    for (int i = 0; i < 1024; i++) {
        many[i] = 7;
    }
    for (int i = 0; i < 65; i++) {
        chain[i] = plv_item(7, 0, 255, 0, 0, i == 63, i > 0, PLV_INT24);
    }
    if (plv_histogram_open(counters, 16, words, PLV_STATE_WORDS) != PLV_ACCEPTED ||
        plv_histogram_increments(counters, 16, words, PLV_STATE_WORDS, fed, 7, &count, &ended) != PLV_ACCEPTED ||
        plv_histogram_increments(counters, 16, words, PLV_STATE_WORDS, many, 1024, &count, &ended) != PLV_ACCEPTED ||
        plv_histogram_flip(counters, 16, words, PLV_STATE_WORDS) != PLV_ACCEPTED) {
        printf("not fed\n");
    }
    for (int i = 0; i < 5; i++) {
        printf("item: %016" PRIx64 "\n", items[i]);
    }
    printf("item too far: %016" PRIx64 "\n", far[1]);
    packet("packet of 65 items", 1, chain, 65, 2, 243);
    packet("packet whose first item adds", 1, items + 2, 3, 2, 243);
    packet("packet with flags 4", 1, items, 5, 4, 243);
    packet("packet too far", 1, far, 2, 2, 243);
    packet("packet too large", 1, chain, 64, 2, 243);
    packet("packet into too little", 1, items, 5, 2, 17);
    packet("packet 1", 1, items, 5, 2, 18);
    hex("packet", buffer, 18);
    header("header", buffer, 18, 0);
    payload("payload", buffer, 18, 0);
    memset(buffer, 0xee, sizeof buffer);
    packet("packet 1", 1, items, 5, 2, 18);
    hex("packet", buffer, 18);
    packet("packet 1 into too little", 1, items, 5, 2, 17);
    packet("packet 1 with flags 4", 1, items, 5, 4, 243);
    packet("packet 1 of other items", 1, items, 4, 2, 243);
    packet("packet 3", 3, items, 5, 2, 243);
    if (accepted("ask 1", plv_histogram_ask(counters, 16, words, PLV_STATE_WORDS, 1, 0, 7, 0, 0, 1, &sum, &again))) {
        printf("%" PRIu64 " %s\n", sum, again ? "again" : "new");
    }
    packet("packet of no items", 2, items, 0, 0, 11);
    hex("packet", buffer, 11);
    if (accepted("ask 3", plv_histogram_ask(counters, 16, words, PLV_STATE_WORDS, 3, 0, 7, 0, 0, 1, &sum, &again))) {
        printf("%" PRIu64 " %s\n", sum, again ? "again" : "new");
    }
    packet("packet 3", 3, items, 5, 2, 243);
}

int main(void) {
    printf("version: %s\n", plv_version() == PLV_VERSION ? "as it should be" : "another");
    packets();
    messages();
    codes();
    cut_packet();
    cut_everywhere(0, 29);
    cut_everywhere(3, 26);
    floats();
    logarithms();
    cadence();
    histogram();
    packet_asks();
    for (int number = 21; number < 256; number += number == 21 ? 3 : 1) {
        if (strcmp(plv_refusal_words((uint8_t)number), "no refusal of this version") != 0) {
            return 1;
        }
    }
    return strcmp(plv_refusal_words(0), "accepted") != 0;
}
