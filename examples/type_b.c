/* Type B: one reader and two cards. A request with two slots, in which each card answers; one card is attached, the other one halted. */
#include "lacrivosum.h"
#include <stdio.h>

static const uint8_t application[] = {0x00, 0x00, 0x00, 0x00}, protocol[] = {0x00, 0x81, 0x00};
static const uint8_t pupi[2][4] = {{0x11, 0x22, 0x33, 0x44}, {0xAA, 0xBB, 0xCC, 0xDD}};

static uint8_t reader[LAC_STATE_SIZE], card[2][LAC_STATE_SIZE];
static uint8_t frame[LAC_B_FRAME_SIZE], answer[LAC_B_ANSWER_SIZE], heard[LAC_B_ANSWER_SIZE];
static uint8_t atqb[2][LAC_B_ATQB_SIZE];

/* Both cards take the reader's frame of so many bits: what is heard on the air. Their hosts drew the slots 1 and 2. */
static size_t air(int64_t bits) {
    size_t most = 0, k;
    int i;
    for (i = 0; i < 2; i++) {
        int64_t n = lac_b_card_take(card[i], LAC_STATE_SIZE, (uint8_t)(i + 1), frame, (size_t)bits, answer, sizeof answer);
        for (k = 0; n > 0 && k < (size_t)n; k++) heard[k] = k < most && heard[k] != answer[k] ? 2 : answer[k];
        if (n > 0 && (size_t)n > most) most = (size_t)n;
    }
    return most;
}

/* The reader sends a frame of so many bits and hears what comes back: the number of its next frame. */
static int64_t turn(int64_t bits) {
    return bits <= 0 ? bits : lac_b_reader_hear(reader, sizeof reader, heard, air(bits), frame, sizeof frame);
}

static int told(int event) {
    return lac_event(reader, sizeof reader) == event;
}

/* The slot that is over held one card: its ATQB. */
static int one(int slot) {
    int k, good = lac_b_held(reader, sizeof reader) == 1 && lac_b_atqb(reader, sizeof reader, atqb[slot], LAC_B_ATQB_SIZE) == LAC_B_ATQB_SIZE;
    printf("slot %d:", slot + 1);
    for (k = 0; k < LAC_B_ATQB_SIZE; k++) printf(" %02X", atqb[slot][k]);
    printf("\n");
    return good;
}

int main(void) {
    int i, good = 1;
    int64_t n;
    for (i = 0; i < 2; i++) {
        good = good && lac_b_card_new(card[i], LAC_STATE_SIZE, pupi[i], 4, 0x10, 1, application, 4, protocol, 3) == 0;
        good = good && lac_b_card_power_on(card[i], LAC_STATE_SIZE) == 0;
    }
    n = turn(lac_b_reader_request(reader, sizeof reader, 0, 2, 0x00, frame, sizeof frame));
    good = good && n == 24 && told(LAC_B_SLOT) && one(0);
    n = turn(n);
    good = good && n == 0 && told(LAC_B_SLOTS) && one(1);
    n = turn(lac_b_reader_attach(reader, sizeof reader, atqb[0], LAC_B_ATQB_SIZE, 8, frame, sizeof frame));
    good = good && n == 0 && told(LAC_B_ATTACHED);
    n = turn(lac_b_reader_halt(reader, sizeof reader, atqb[1] + 1, 4, frame, sizeof frame));
    good = good && n == 0 && told(LAC_B_HALTED);
    good = good && lac_b_card_state(card[0], LAC_STATE_SIZE) == LAC_B_CARD_ACTIVE && lac_b_card_state(card[1], LAC_STATE_SIZE) == LAC_B_CARD_HALT;
    printf("%s\n", good ? "one card is attached, the other one halted" : "something went wrong");
    return !good;
}
