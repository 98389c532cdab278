/* Type B: a field of six cards, and two whole requests over it, each with all its slot markers. Between them the field loses power, and the cards'
 * hosts draw other slots. */
#include "lacrivosum.h"
#include <stdio.h>
#include <string.h>

#define CARDS 6
#define SLOTS 4

static uint8_t cards[CARDS * LAC_STATE_SIZE], list[LAC_B_LIST_ROOM];

/* What the hosts of the cards drew, round by round. */
static const uint8_t drawn[2][CARDS] = {{1, 3, 3, 2, 3, 2}, {1, 1, 2, 3, 4, 4}};

static int power(void) {
    static const uint8_t application[4] = {0, 0, 0, 0}, protocol[3] = {0x00, 0x81, 0x00};
    int i;
    for (i = 0; i < CARDS; i++) {
        uint8_t pupi[4] = {0x0A, 0x0B, 0x0C, 0};
        uint8_t *card = cards + i * LAC_STATE_SIZE;
        pupi[3] = (uint8_t)(16 * i);
        if (lac_b_card_new(card, LAC_STATE_SIZE, pupi, 4, 0x10, 1, application, 4, protocol, 3) < 0) return 0;
        if (lac_b_card_power_on(card, LAC_STATE_SIZE) < 0) return 0;
    }
    return 1;
}

/* One request over the field, and what each slot held. Gives how many cards were heard alone. */
static int round_of(uint8_t *reader, const uint8_t *numbers) {
    int64_t n = lac_b_inquire(reader, LAC_STATE_SIZE, 0, SLOTS, 0x00, cards, sizeof cards, numbers, CARDS, list, sizeof list);
    int alone = 0, i, k;
    if (n < 0) printf("refused %d\n", (int)-n);
    for (i = 0; i < n; i++) {
        const uint8_t *entry = list + 13 * i;
        printf("slot %d: %s", i + 1, entry[0] == 0 ? "no card" : entry[0] == 2 ? "more than one card" : "PUPI");
        for (k = 2; entry[0] == 1 && k < 6; k++) printf(" %02X", entry[k]);
        printf("\n");
        alone += entry[0] == 1;
    }
    return n == SLOTS && lac_event(reader, LAC_STATE_SIZE) == LAC_B_SLOTS ? alone : -1;
}

int main(void) {
    uint8_t reader[LAC_STATE_SIZE] = {0}; /* it is ready, and ready again after each request */
    int good = power(), first, second, i;
    first = round_of(reader, drawn[0]);
    for (i = 0; i < CARDS; i++) good = good && lac_b_card_state(cards + i * LAC_STATE_SIZE, LAC_STATE_SIZE) == LAC_B_CARD_DECLARED;
    for (i = 0; i < CARDS; i++) {
        uint8_t *card = cards + i * LAC_STATE_SIZE;
        good = good && lac_b_card_power_off(card, LAC_STATE_SIZE) == 0 && lac_b_card_power_on(card, LAC_STATE_SIZE) == 0;
    }
    second = round_of(reader, drawn[1]);
    good = good && first == 1 && second == 2;
    printf("%s\n", good ? "one card was alone in its slot, then two" : "this is not as it should be");
    return !good;
}
