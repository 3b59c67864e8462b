/* A bench in C: a board is opened, fed, flipped and asked over a link that times out, by windows and by a packet, and the count sheet
 * is right. */
#include <stdbool.h>
#include <stdio.h>
#include <stdlib.h>
#include "plavotesk.h"

enum { COUNTERS = 64, PARTICLES = 300, WINDOWS = 4 };

/* The board: two pages of counters, and the state that goes with them. */
struct board {
    uint32_t memory[2 * COUNTERS];
    uint64_t state[PLV_STATE_WORDS];
};

/* Feeds the board a particle that hits a counter; whether it was counted. */
static bool feed(struct board *board, uint32_t counter) {
    uint8_t refused = plv_histogram_increment(board->memory, 2 * COUNTERS, board->state, PLV_STATE_WORDS, counter);
    if (refused != PLV_ACCEPTED) {
        printf("a particle at counter %u: refused %u\n", (unsigned)counter, (unsigned)refused);
    }
    return refused == PLV_ACCEPTED;
}

/* The number of a new ask. It is drawn once, and every try of the ask bears it. */
static uint16_t new_number(const struct board *board) {
    uint16_t number = 0;
    if (plv_histogram_next(board->state, PLV_STATE_WORDS, &number) != PLV_ACCEPTED) {
        exit(1);
    }
    return number;
}

/* Whether an answer comes over the link. The board answered, but the first answer to every odd ask is lost. */
static bool came(uint16_t number, int tried, uint8_t refused) {
    if (number % 2 == 1 && tried == 0) {
        printf("ask %u: timed out\n", (unsigned)number);
        return false;
    }
    if (refused != PLV_ACCEPTED) {
        printf("ask %u: refused %u\n", (unsigned)number, (unsigned)refused);
        exit(1);
    }
    return true;
}

/* Asks for the sum of sixteen counters until an answer comes, and gives it to file. */
static uint64_t ask(struct board *board, uint32_t first) {
    uint16_t number = new_number(board);
    uint64_t sum = 0;
    uint8_t again = 0, refused;
    int tried = 0;
    do {
        refused = plv_histogram_ask(board->memory, 2 * COUNTERS, board->state, PLV_STATE_WORDS, number, first, 15, 0, 0, 1, &sum, &again);
    } while (!came(number, tried++, refused));
    printf("ask %u: %llu, %s\n", (unsigned)number, (unsigned long long)sum, again ? "again" : "new");
    return sum;
}

/* Asks for a packet with the counts of two times sixteen counters, three bytes each after one byte, and gives them to file. */
static void ask_packet(struct board *board, uint32_t first, uint64_t counts[2]) {
    const uint64_t items[2] = {plv_item(first, 15, 0, 0, 1, 1, 0, PLV_INT24), plv_item(first + 16, 15, 0, 0, 1, 1, 0, PLV_INT24)};
    uint16_t number = new_number(board);
    uint8_t packet[PLV_HISTOGRAM_PACKET_BYTES] = {0}, again = 0, refused;
    uint64_t written = 0, total = 0, place = 0, skipped = 0, start = 0, length = 0;
    int tried = 0;
    do {
        refused = plv_histogram_packet(board->memory, 2 * COUNTERS, board->state, PLV_STATE_WORDS, number, 1, items, 2, 0, 0, 59, packet,
                                       sizeof packet, &written, &total, &again);
    } while (!came(number, tried++, refused));
    printf("ask %u: a packet of %llu bytes, %llu in all, %s\n", (unsigned)number, (unsigned long long)written, (unsigned long long)total,
           again ? "again" : "new");
    if (plv_packet_find(packet, written, &place, &skipped) != PLV_ACCEPTED) {
        exit(1);
    }
    plv_packet_payload(packet, written, place, &start, &length);
    for (uint64_t i = 0; i < 2 && 3 * i + 3 < length; i++) {
        const uint8_t *code = packet + start + 1 + 3 * i;
        uint32_t count = 0;
        if (plv_int24_count((uint32_t)code[0] << 16 | (uint32_t)code[1] << 8 | code[2], &count) != PLV_ACCEPTED) {
            exit(1);
        }
        counts[i] = count;
    }
}

int main(void) {
    static struct board board;
    uint64_t sheet[WINDOWS], counted = 0, filed = 0;

    if (plv_histogram_open(board.memory, 2 * COUNTERS, board.state, PLV_STATE_WORDS) != PLV_ACCEPTED) {
        return 1;
    }
    printf("board opened: two pages of %d counters\n", COUNTERS);
    for (uint32_t i = 0; i < PARTICLES; i++) {
        counted += feed(&board, (i * i + 3 * i) % COUNTERS);
    }
    counted += feed(&board, COUNTERS);
    printf("%d particles fed, %llu counted\n", PARTICLES + 1, (unsigned long long)counted);
    if (plv_histogram_flip(board.memory, 2 * COUNTERS, board.state, PLV_STATE_WORDS) != PLV_ACCEPTED) {
        return 1;
    }
    sheet[0] = ask(&board, 0);
    sheet[1] = ask(&board, 16);
    ask_packet(&board, 32, sheet + 2);
    printf("count sheet\n");
    for (int i = 0; i < WINDOWS; i++) {
        printf("  counters %d to %d: %llu\n", 16 * i, 16 * i + 15, (unsigned long long)sheet[i]);
        filed += sheet[i];
    }
    printf("  total: %llu\n", (unsigned long long)filed);
    printf(filed == counted ? "every count is filed once\n" : "THE SHEET IS WRONG\n");
    return filed == counted ? 0 : 1;
}
