/* A field of 16 cards, swept by the plain sweep and by the one that remembers: the same UIDs, in fewer frames. Then one of the halted cards is woken by
 * its UID, and no other is disturbed. */
#include "lacrivosum.h"
#include <stdio.h>
#include <string.h>

#define CARDS 16

static uint8_t first[CARDS * LAC_STATE_SIZE];                /* the field as it is powered */
static uint8_t plain[sizeof first], remembered[sizeof first]; /* .. and as each sweep leaves it */
static uint8_t record[LAC_LOG_ROOM], list[2][LAC_LIST_ROOM];

/* Cards of one maker: UIDs of 7 bytes that differ in their last two alone, and three cards of 4 or 10 bytes. */
static int power(void) {
    int i;
    for (i = 0; i < CARDS; i++) {
        uint8_t uid[LAC_UID_SIZE] = {0x04, 0x5A, 0x11, 0x22, 0x33, 0, 0, 0x77, 0x88, 0x99};
        uint8_t *card = first + i * LAC_STATE_SIZE;
        size_t n = i == 3 ? 4 : i == 7 || i == 11 ? 10 : 7;
        uid[5] = (uint8_t)(i * 37);
        uid[6] = (uint8_t)(i * 11 + 5);
        if (n == 4) uid[0] = 0x12;
        if (lac_card_new(card, LAC_STATE_SIZE, uid, n, 1, 8) < 0 || lac_card_power_on(card, LAC_STATE_SIZE) < 0) return 0;
    }
    return 1;
}

static int said(const char *what, int64_t found, const uint8_t *state) {
    int frames = (int)lac_frames(state, LAC_STATE_SIZE), logged = (int)lac_length(state, LAC_STATE_SIZE);
    if (found < 0) printf("%s: refused %d\n", what, (int)-found);
    else printf("%s: %d UIDs, %d frames, %d bytes of log\n", what, (int)found, frames, logged);
    return found == CARDS && lac_event(state, LAC_STATE_SIZE) == LAC_SWEPT;
}

static void show(int64_t found) {
    int64_t i;
    for (i = 0; i < found; i++) {
        const uint8_t *entry = list[0] + 11 * i;
        int k;
        for (k = 1; k <= entry[0]; k++) printf(" %02X", entry[k]);
        printf("\n");
    }
}

/* Every card halted, and none of them changed else? */
static int halted(const uint8_t *cards) {
    int i;
    for (i = 0; i < CARDS; i++) {
        const uint8_t *card = cards + i * LAC_STATE_SIZE, *was = first + i * LAC_STATE_SIZE;
        if (lac_card_state(card, LAC_STATE_SIZE) != LAC_CARD_HALT || memcmp(card + 1, was + 1, LAC_STATE_SIZE - 1) != 0) return 0;
    }
    return 1;
}

/* Wakes the card at place i by its UID: it alone is Active* then. */
static int woken(uint8_t *cards, int i) {
    uint8_t reader[LAC_STATE_SIZE] = {0}, uid[LAC_UID_SIZE];
    int64_t n = lac_uid(cards + i * LAC_STATE_SIZE, LAC_STATE_SIZE, uid, sizeof uid);
    int64_t frames = lac_wake(reader, sizeof reader, uid, (size_t)n, cards, CARDS * LAC_STATE_SIZE, CARDS);
    int k, good = frames > 0 && lac_event(reader, sizeof reader) == LAC_SELECTED && lac_reader_sak(reader, sizeof reader) == 0x20;
    for (k = 0; k < CARDS; k++)
        good = good && lac_card_state(cards + k * LAC_STATE_SIZE, LAC_STATE_SIZE) == (k == i ? LAC_CARD_ACTIVE_STAR : LAC_CARD_HALT);
    printf("card %d woken in %d frames: %s\n", i, (int)frames, good ? "it is Active*, all others are still halted" : "this is not as it should be");
    return good;
}

int main(void) {
    uint8_t a[LAC_STATE_SIZE] = {0}, b[LAC_STATE_SIZE] = {0}; /* two new readers */
    int64_t found;
    int good = power();
    memcpy(plain, first, sizeof first);
    memcpy(remembered, first, sizeof first);
    found = lac_sweep(a, sizeof a, plain, sizeof plain, CARDS, 0, record, sizeof record, list[0], sizeof list[0]);
    good = said("plain", found, a) && good;
    found = lac_sweep_remember(b, sizeof b, remembered, sizeof remembered, CARDS, 0, record, sizeof record, list[1], sizeof list[1]);
    good = said("remembering", found, b) && good;
    show(found);
    good = good && memcmp(list[0], list[1], sizeof list[0]) == 0 && memcmp(plain, remembered, sizeof plain) == 0 && halted(plain);
    printf("%s\n", good ? "both found the same UIDs and halted every card" : "this is not as it should be");
    return !(woken(plain, 5) && good);
}
