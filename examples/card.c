/* A reader and a card talk to each other: selection, RATS, an APDU and its answer, both in two blocks, with more time asked for, and DESELECT. */
#include "lacrivosum.h"
#include <stdio.h>
#include <string.h>

static const uint8_t uid[] = {0x04, 0xA1, 0xB2, 0xC3, 0xD4, 0xE5, 0xF6};
static const uint8_t apdu[] = {0x00, 0xA4, 0x04, 0x00, 0x0E, '1', 'P', 'A', 'Y', '.', 'S', 'Y', 'S', '.', 'D', 'D', 'F', '0', '1', 0x00};
static const uint8_t answer[] = {0x6F, 0x0E, 0x84, 0x0C, 'a', 'n', ' ', 'a', 'p', 'p', 'l', 'e', 't', '!', ' ', ' ', 0x90, 0x00};

static uint8_t reader[LAC_STATE_SIZE], card[LAC_STATE_SIZE];
static uint8_t down[LAC_ROW_SIZE], up[LAC_ROW_SIZE]; /* the reader's frames, and the card's */
static uint8_t card_hears[LAC_MESSAGE_MAX], reader_hears[LAC_MESSAGE_MAX];

/* A row as bytes: eight bits each, the lowest first, and a parity bit behind each eight. */
static void show(const char *who, const uint8_t *row, int64_t bits) {
    int64_t i;
    printf("  %-6s", who);
    for (i = 0; i < bits; i += 9) {
        unsigned k, byte = 0;
        for (k = 0; k < 8 && i + k < bits; k++) byte |= (unsigned)row[i + k] << k;
        printf(" %02X", byte);
    }
    printf("\n");
}

static int event(const uint8_t *state) {
    return lac_event(state, LAC_STATE_SIZE);
}

/* The card takes the reader's frame. Where it owes an answer its host asks for more time, and answers when that is granted. */
static int64_t card_turn(int64_t bits) {
    int64_t n = lac_card_take(card, sizeof card, down, (size_t)bits, answer, sizeof answer, card_hears, sizeof card_hears, up, sizeof up);
    if (n < 0 || !lac_card_owes(card, sizeof card)) return n;
    if (event(card) == LAC_MESSAGE) return lac_card_ask(card, sizeof card, 3, up, sizeof up);
    return lac_card_reply(card, sizeof card, answer, sizeof answer, up, sizeof up);
}

/* From the reader's frame of so many bits on, until the reader sends no more: 1 where that ends in the event. */
static int play(const char *what, int64_t bits, int until) {
    printf("%s\n", what);
    while (bits > 0) {
        int64_t n;
        show("reader", down, bits);
        n = card_turn(bits);
        if (n < 0) {
            printf("  the card refuses: %d\n", (int)-n);
            return 0;
        }
        show("card", up, n);
        bits = lac_reader_hear(reader, sizeof reader, up, (size_t)n, apdu, sizeof apdu, reader_hears, sizeof reader_hears, down, sizeof down);
    }
    if (bits < 0) printf("  the reader refuses: %d\n", (int)-bits);
    return bits == 0 && event(reader) == until;
}

/* Was this heard, whole? */
static int heard(const char *who, const uint8_t *buffer, const uint8_t *message, size_t n) {
    int good = memcmp(buffer, message, n) == 0;
    printf("  %s heard %d bytes%s\n", who, (int)n, good ? "" : ", but other ones");
    return good;
}

int main(void) {
    uint8_t found[LAC_UID_SIZE];
    int good = lac_card_new(card, sizeof card, uid, sizeof uid, 1, 0) == 0 && lac_card_power_on(card, sizeof card) == 0;
    good = good && play("selection", lac_reader_select(reader, sizeof reader, down, sizeof down), LAC_SELECTED);
    good = good && lac_uid(reader, sizeof reader, found, sizeof found) == sizeof uid && memcmp(found, uid, sizeof uid) == 0;
    good = good && play("RATS and ATS", lac_reader_rats(reader, sizeof reader, 0, down, sizeof down), LAC_OPENED);
    good = good && play("APDU and answer", lac_reader_send(reader, sizeof reader, apdu, sizeof apdu, down, sizeof down), LAC_MESSAGE);
    good = good && lac_length(reader, sizeof reader) == sizeof answer;
    good = good && heard("card", card_hears, apdu, sizeof apdu) && heard("reader", reader_hears, answer, sizeof answer);
    good = good && play("DESELECT", lac_reader_deselect(reader, sizeof reader, down, sizeof down), LAC_DESELECTED);
    good = good && lac_card_state(card, sizeof card) == LAC_CARD_HALT;
    printf("%s\n", good ? "the card is halted" : "something went wrong");
    return !good;
}
