/* A reader selects a card, opens a link and sends an APDU. The card is played: its answers are fixed bytes. */
#include "lacrivosum.h"
#include <stdio.h>
#include <string.h>

static uint8_t state[LAC_STATE_SIZE], out[LAC_ROW_SIZE], row[LAC_ROW_SIZE], buffer[LAC_MESSAGE_MAX];
static const uint8_t apdu[] = {0x00, 0xA4, 0x04, 0x00, 0x02, 0x3F, 0x00};

/* Bytes as a row: eight bits each, the lowest first, and odd parity; where asked, CRC_A behind them. */
static size_t row_of(const uint8_t *bytes, size_t n, int with_crc) {
    uint8_t all[32];
    size_t i, at = 0;
    memcpy(all, bytes, n);
    if (with_crc) {
        uint16_t crc = lac_crc_a(bytes, n);
        all[n++] = (uint8_t)(crc & 255);
        all[n++] = (uint8_t)(crc >> 8);
    }
    for (i = 0; i < n; i++) {
        uint8_t k, odd = 1;
        for (k = 0; k < 8; k++) {
            row[at] = (uint8_t)(all[i] >> k & 1);
            odd ^= row[at++];
        }
        row[at++] = odd;
    }
    return at;
}

static int said(const char *what, int64_t answer) {
    if (answer < 0) printf("%-12s refused %d\n", what, (int)-answer);
    else printf("%-12s reader sends %d bits, event %d\n", what, (int)answer, lac_event(state, sizeof state));
    return answer >= 0;
}

static int hear(const char *what, const uint8_t *bytes, size_t n, int with_crc) {
    size_t bits = row_of(bytes, n, with_crc);
    return said(what, lac_reader_hear(state, sizeof state, row, bits, apdu, sizeof apdu, buffer, sizeof buffer, out, sizeof out));
}

static void show(const char *what, const uint8_t *bytes, uint64_t n) {
    printf("%-12s", what);
    while (n--) printf(" %02X", *bytes++);
    printf("\n");
}

int main(void) {
    const uint8_t atqa[] = {0x04, 0x00}, level[] = {0x04, 0xA1, 0xB2, 0xC3, 0xD4}, sak[] = {0x20}, ats[] = {0x02, 0x08}, answer[] = {0x02, 0x90, 0x00};
    uint8_t uid[LAC_UID_SIZE];
    int good = said("select", lac_reader_select(state, sizeof state, out, sizeof out)) && hear("ATQA", atqa, 2, 0) && hear("level 1", level, 5, 0) &&
               hear("SAK", sak, 1, 1) && lac_event(state, sizeof state) == LAC_SELECTED;
    show("UID", uid, (uint64_t)lac_uid(state, sizeof state, uid, sizeof uid));
    good = good && said("RATS", lac_reader_rats(state, sizeof state, 8, out, sizeof out)) && hear("ATS", ats, 2, 1) &&
           said("send", lac_reader_send(state, sizeof state, apdu, sizeof apdu, out, sizeof out)) && hear("answer", answer, 3, 1) &&
           lac_event(state, sizeof state) == LAC_MESSAGE;
    show("answer", buffer, lac_length(state, sizeof state));
    return !good;
}
