/* lacrivosum: reader and card of a proved ISO/IEC 14443 core, Type A and Type B, as a library for C99. It needs no other library, but
 * memcpy and memset of the C runtime.
 *
 * What is promised, and proved of each function below for every value of every byte lent to it (docs/PROMISES.md): it does what the rules
 * of the core say, it writes nowhere but into the memory lent as `uint8_t *`, and there no more than is said here. It allocates nothing,
 * keeps nothing between calls and ends always. Every answer is one of those named here.
 *
 * What is not promised: the archive is for x86-64 only; nothing is said of time, neither how long a call takes nor when a frame is due. This
 * header itself is outside the proof, and so is what the caller owes: each pointer is valid for the length given with it (a length of 0
 * too wants a pointer that is not null), and of the memory lent to one call, none that is written overlaps with another.
 *
 * Memory is the caller's. A reader is LAC_STATE_SIZE bytes, lent with each call, and so is a card. Any bytes at all are one reader, and one card,
 * so no state is undefined; a longer state is used by its front. Bytes all zero are a new reader. Each selection and each sweep takes a new
 * reader. A card is made by lac_card_new; bytes all zero are one without power, its UID four zeros.
 *
 * A row holds one air bit a byte: 0, 1, and anything else is a collided bit. An empty row is silence.
 *
 * Each call that begins something, hears or answers gives one number. 0 or more: so many air bits of the next frame stand at the front of
 * `out` (0: no frame), and lac_event says what else happened. Less than 0: refused, minus one of the LAC_ numbers below, and nothing is
 * written into `out`. A refusal that leaves a reader what it was writes nothing into the state either, so lac_event still tells of the
 * call before it: so it is with LAC_NOT_DUE, LAC_ROOM and LAC_ARGUMENT, and with LAC_TOO_LONG of a message to be sent. By any other
 * refusal the reader has stopped. A card does not stop: each refusal leaves it what it was, and nothing at all is written. A state under
 * LAC_STATE_SIZE bytes is refused by LAC_ROOM, and nothing at all is written. */
#ifndef LACRIVOSUM_H
#define LACRIVOSUM_H

#include <stddef.h>
#include <stdint.h>

#ifdef __cplusplus
extern "C" {
#endif

#define LAC_STATE_SIZE 64    /* bytes of a reader, and of a card */
#define LAC_ROW_SIZE 2304    /* bytes of `out`: the longest frame, 256 bytes with a parity bit each */
#define LAC_FRAME_MAX 256    /* bytes of the longest frame */
#define LAC_UID_SIZE 10      /* bytes of the longest UID */
#define LAC_MESSAGE_MAX 4096 /* bytes of the longest message, and so of a buffer for any answer */
#define LAC_MOST_CARDS 32    /* cards of the largest field that a sweep takes */
#define LAC_LOG_ROOM 40960   /* bytes of a sweep's log: so many hold that of any field */
#define LAC_LIST_ROOM 352    /* bytes of a sweep's list, 11 for each card */
#define LAC_B_FRAME_SIZE 88  /* bytes of `out` for a Type B reader: its longest frame, ATTRIB of 11 bytes */
#define LAC_B_ANSWER_SIZE 112 /* bytes of `out` for a Type B card: its longest answer, ATQB of 14 bytes */
#define LAC_B_ATQB_SIZE 12   /* bytes of an ATQB without CRC_B */
#define LAC_B_MOST_SLOTS 16  /* slots of the longest request */
#define LAC_B_LIST_ROOM 208  /* bytes of a request's list, 13 for each slot */
#define LAC_MEMORY_SIZE 192  /* bytes of a reader that remembers (lac_memory_sweep) */
#define LAC_SWEEP_ROW 81     /* bytes of its `out`: the longest frame of a sweep */
#define LAC_NO_DELAY INT64_MIN /* what lac_delay answers where it is refused */

/* Why a call is refused; it answers minus this. */
#define LAC_ROOM 1       /* a state or a row to write to shorter than asked; a message or an answer that ends before the block that is sent from it */
#define LAC_LENGTH 2     /* a bit count that the awaited frame cannot have */
#define LAC_PARITY 3     /* wrong parity; lac_length is the first byte of the row, from 0, in which it is wrong */
#define LAC_CRC 4        /* wrong CRC_A */
#define LAC_CHECK 5      /* wrong check byte B of a UID's level */
#define LAC_ARGUMENT 6   /* an argument that the core does not take */
#define LAC_SILENCE 7    /* silence where an answer is needed */
#define LAC_COLLISION 8  /* a collided bit where none may be */
#define LAC_FORBIDDEN 9  /* a value or a block that the rules forbid */
#define LAC_TOO_LONG 10  /* a message or an answer over LAC_MESSAGE_MAX bytes, or one that is heard and over the buffer */
#define LAC_NOT_DUE 11   /* a call or a row that is not due now */
#define LAC_REPEATS 12   /* silence or damage three times running: repeats are used up */
#define LAC_ENERGY 13    /* of lac_front: a number that is no energy, a level or a share that is none, or half a bit */
#define LAC_DELAY 14     /* a delay of 2^31 carrier periods or more; of lac_delay, which tells it by LAC_NO_DELAY */

/* What else a call told. */
enum lac_event_number {
    LAC_NONE = 0,
    LAC_FOUND = 1,     /* a sweep found a card: lac_uid and lac_reader_sak tell which; the frame in `out` is HLTA */
    LAC_SELECTED = 2,  /* one card is selected: lac_uid and lac_reader_sak tell which */
    LAC_SWEPT = 3,     /* the sweep is over */
    LAC_OPENED = 4,    /* a good ATS: messages may go; lac_length is the card's size index */
    LAC_MESSAGE = 5,   /* the other end's whole message stands at the front of `buffer`; lac_length is its length */
    LAC_GRANTED = 6,   /* of a card: the reader grants the time that was asked for */
    LAC_DESELECTED = 7, /* the card answered DESELECT */
    LAC_B_SLOT = 8,     /* Type B: a slot is over, lac_b_held and lac_b_atqb tell what it held; the frame in `out` is the next slot's marker */
    LAC_B_SLOTS = 9,    /* Type B: the request's last slot is over, lac_b_held and lac_b_atqb tell what it held; the reader is ready */
    LAC_B_ATTACHED = 10, /* Type B: the card answered ATTRIB; lac_length is its MBLI; the reader is ready */
    LAC_B_HALTED = 11   /* Type B: the card answered HLTB; the reader is ready */
};

/* The gates of lac_front. */
enum lac_gate_number {
    LAC_GATE_OFF = 0,   /* every row is silence */
    LAC_GATE_LEVEL = 1, /* a fixed level */
    LAC_GATE_SHARE = 2  /* a share of the strongest half heard */
};

/* The states of a card. */
enum lac_card_state_number {
    LAC_CARD_OFF = 0,
    LAC_CARD_IDLE = 1,
    LAC_CARD_READY = 2,
    LAC_CARD_ACTIVE = 3,
    LAC_CARD_HALT = 4,
    LAC_CARD_READY_STAR = 5,  /* Ready and Active of a card that was woken from Halt */
    LAC_CARD_ACTIVE_STAR = 6,
    LAC_CARD_PROTOCOL = 7     /* it was sent RATS, and speaks blocks */
};

/* The states of a Type B card. */
enum lac_b_card_state_number {
    LAC_B_CARD_OFF = 0,
    LAC_B_CARD_IDLE = 1,
    LAC_B_CARD_REQUESTED = 2, /* it waits for the marker of its slot */
    LAC_B_CARD_DECLARED = 3,  /* it sent ATQB */
    LAC_B_CARD_ACTIVE = 4,    /* it answered ATTRIB, and is silent from then on */
    LAC_B_CARD_HALT = 5
};

/* Begins the selection of one card. `out` has room for LAC_ROW_SIZE bytes.
 * 7: the bits of REQA. Refused: LAC_NOT_DUE, the reader is not new; LAC_ROOM. */
int64_t lac_reader_select(uint8_t *state, size_t state_len, uint8_t *out, size_t out_len);

/* Begins the selection of the one card that has this UID, of 4, 7 or 10 bytes; it ends in LAC_SELECTED, as lac_reader_select does.
 * 7: the bits of WUPA. Refused: LAC_NOT_DUE, the reader is not new; LAC_ROOM; LAC_ARGUMENT, the bytes are no valid UID. */
int64_t lac_reader_wake(uint8_t *state, size_t state_len, const uint8_t *uid, size_t uid_len, uint8_t *out, size_t out_len);

/* Begins the reader's part of a sweep, which finds one card after the other and ends in LAC_SWEPT.
 * 7: the bits of REQA. Refused: LAC_NOT_DUE, the reader is not new; LAC_ROOM. */
int64_t lac_reader_sweep(uint8_t *state, size_t state_len, uint8_t *out, size_t out_len);

/* Asks the selected card for its ATS, with the reader's own size index, 0 to 8 (16, 24, 32, 40, 48, 64, 96, 128, 256 bytes a frame).
 * 36: the bits of RATS. Refused: LAC_NOT_DUE, no card is selected, or b6 of its SAK is clear; LAC_ROOM; LAC_ARGUMENT, the index is over 8. */
int64_t lac_reader_rats(uint8_t *state, size_t state_len, uint8_t index, uint8_t *out, size_t out_len);

/* Sends a message to the card, cut into blocks: this call the first, lac_reader_hear the others.
 * Over 0: the bits of a block. Refused: LAC_NOT_DUE, no link is open or a message is still on its way; LAC_ROOM; LAC_TOO_LONG. */
int64_t lac_reader_send(uint8_t *state, size_t state_len, const uint8_t *message, size_t message_len, uint8_t *out, size_t out_len);

/* Ends the talk with the card.
 * 27: the bits of DESELECT. Refused: LAC_NOT_DUE, no link is open or a message is still on its way; LAC_ROOM. */
int64_t lac_reader_deselect(uint8_t *state, size_t state_len, uint8_t *out, size_t out_len);

/* The reader hears a row, whatever it awaits. `message` is the one that is being sent, lent again (of length 0 where none is); the card's
 * answer is joined in `buffer`, which is to be lent as the last call left it. `out` has room for LAC_ROW_SIZE bytes.
 * 0 or more: the bits of the next frame, and lac_event. Refused: LAC_NOT_DUE, no row is awaited; LAC_ROOM; and what is wrong with the row,
 * LAC_LENGTH to LAC_CHECK and LAC_SILENCE to LAC_TOO_LONG, or LAC_REPEATS. */
int64_t lac_reader_hear(uint8_t *state, size_t state_len, const uint8_t *row, size_t row_len, const uint8_t *message, size_t message_len,
                        uint8_t *buffer, size_t buffer_len, uint8_t *out, size_t out_len);

/* Makes a card without power, over whatever the state was: its UID, of 4, 7 or 10 bytes; whether it speaks blocks (0: it does not; any other
 * number: it does); its own size index, 0 to 8, as of lac_reader_rats.
 * 0. Refused: LAC_ROOM; LAC_ARGUMENT, the bytes are no valid UID, or the index is over 8. */
int64_t lac_card_new(uint8_t *state, size_t state_len, const uint8_t *uid, size_t uid_len, uint8_t blocks, uint8_t index);

/* Power comes: a card that was Off is Idle; any other stays. Power is lost: the card is Off, and what it was doing is forgotten.
 * 0. Refused: LAC_ROOM. */
int64_t lac_card_power_on(uint8_t *state, size_t state_len);
int64_t lac_card_power_off(uint8_t *state, size_t state_len);

/* The card takes a row, any row in any state. `answer` is the one that is being sent, lent again (of length 0 where none is); the reader's
 * message is joined in `buffer`, which is to be lent as the last call left it. `out` has room for LAC_ROW_SIZE bytes.
 * 0 or more: the bits of what the card sends (0: it is silent, as it is to damage and to what it does not await), and lac_event. After
 * LAC_MESSAGE the card owes an answer, and takes no row until lac_card_reply or lac_card_ask.
 * Refused: LAC_NOT_DUE, an answer is owed; LAC_ROOM, `out` is too short, or `answer` ends before the block that is to be sent from it;
 * LAC_TOO_LONG, the reader's message, or `answer` where a block is to be sent from it. */
int64_t lac_card_take(uint8_t *state, size_t state_len, const uint8_t *row, size_t row_len, const uint8_t *answer, size_t answer_len,
                      uint8_t *buffer, size_t buffer_len, uint8_t *out, size_t out_len);

/* Answers the reader's message, cut into blocks: this call the first, lac_card_take the others.
 * Over 0: the bits of a block. Refused: LAC_NOT_DUE, no answer is owed; LAC_ROOM; LAC_TOO_LONG. */
int64_t lac_card_reply(uint8_t *state, size_t state_len, const uint8_t *answer, size_t answer_len, uint8_t *out, size_t out_len);

/* Asks the reader for more time, `wtxm` of 1 to 59, before the answer; after LAC_GRANTED the answer is owed again.
 * 36: the bits of WTX. Refused: LAC_NOT_DUE, no answer is owed; LAC_ROOM; LAC_ARGUMENT, wtxm is not 1 to 59. */
int64_t lac_card_ask(uint8_t *state, size_t state_len, uint8_t wtxm, uint8_t *out, size_t out_len);

/* 1 where the card owes an answer, else 0; and its state, one of enum lac_card_state_number. Bytes past the end of a short state count as 0. */
uint8_t lac_card_owes(const uint8_t *state, size_t state_len);
uint8_t lac_card_state(const uint8_t *state, size_t state_len);

/* Of a reader and of a card: what the last call told, one of enum lac_event_number, and what came with it: a length, a size index, the byte of
 * LAC_PARITY, or 0. A call that was refused without the reader being stopped told nothing. Of a state that no call has written they are
 * what its bytes say; bytes past the end of a short state count as 0. */
uint8_t lac_event(const uint8_t *state, size_t state_len);
uint64_t lac_length(const uint8_t *state, size_t state_len);

/* The last SAK of a selection; after LAC_FOUND and LAC_SELECTED it is the card's. Bytes past the end of a short state count as 0. */
uint8_t lac_reader_sak(const uint8_t *state, size_t state_len);

/* The UID, at the front of `out`, which has room for LAC_UID_SIZE bytes: a card's own, and a reader's after LAC_FOUND and LAC_SELECTED the
 * card's. 4, 7 or 10: how many bytes it has; no more are written. Refused: LAC_ROOM, the state or `out` is too short; nothing is written. */
int64_t lac_uid(const uint8_t *state, size_t state_len, uint8_t *out, size_t out_len);

/* Both sweeps: the reader finds every Idle card of a field and halts it; the library plays the cards. lac_sweep is the plain one;
 * lac_sweep_remember keeps the branches that it has not taken, so it finds the same UIDs, leaves the same cards, and sends no more frames.
 * `state` is a new reader's, which is finished then. `cards` is a row of n cards' states, LAC_STATE_SIZE bytes each, as lac_card_new and
 * lac_card_power_on leave them: at most LAC_MOST_CARDS, each Idle or Halt, no UID there twice. `tick` is the tick of the log's first record;
 * each record after it has the next, modulo 2^32. `log` has room for LAC_LOG_ROOM bytes, `list` for LAC_LIST_ROOM, whatever the field is.
 *
 * 0 or more: how many UIDs were found. lac_event is LAC_SWEPT, lac_length the bytes of log written and lac_frames the frames that the reader
 * sent. Of a card's state only its first 20 bytes are written: its end of the block protocol stays, and so does the reader's.
 * Refused, and nothing at all is written: LAC_ROOM, a state is too short, or `cards` for n of them; LAC_NOT_DUE, the reader is not new;
 * LAC_ROOM, the log or the list; LAC_ARGUMENT, n is over LAC_MOST_CARDS, or a card is neither Idle nor Halt, or has no valid UID, an index over
 * 8 or a UID that another one has.
 *
 * The list, from its front on, has 11 bytes for each UID: its length, its bytes, zeros; of two UIDs the one that has a 1 in the first air
 * bit in which they differ comes first. The log, from its front on, has a record for each frame of the reader and one behind it for what was
 * heard; numbers have their highest byte first. A record is two bytes, the kind times 16384 plus the number of air bits; four bytes, its
 * tick; then the air bits, parity among them, packed eight to a byte, the first in the top bit, zeros in the rest of the last byte. Kind 0
 * is a frame of the reader, 1 an answer, 2 an answer in which bits collided, 3 silence, without bits. In kind 2 a collided bit is held as 0,
 * and a second row of as many bits, packed in the same way from a new byte on, has a 1 for each. */
int64_t lac_sweep(uint8_t *state, size_t state_len, uint8_t *cards, size_t cards_len, size_t n, uint32_t tick, uint8_t *log, size_t log_len,
                  uint8_t *list, size_t list_len);
int64_t lac_sweep_remember(uint8_t *state, size_t state_len, uint8_t *cards, size_t cards_len, size_t n, uint32_t tick, uint8_t *log,
                           size_t log_len, uint8_t *list, size_t list_len);

/* The frames that a reader's last sweep by these two sent. Of a state that no sweep has written it is what its bytes say; bytes past the end of
 * a short state count as 0. */
uint64_t lac_frames(const uint8_t *state, size_t state_len);

/* Wakes one known card of a field: the reader sends WUPA and SELECT for each level of the UID, of 4, 7 or 10 bytes; the library plays the cards.
 * `state` is a new reader's, `cards` a row of n cards' states as of lac_sweep. The card with that UID is then Active, or Active* if it was halted;
 * every other card is what it was, and the reader is as after any selection, so that lac_reader_rats is due if b6 of the SAK is set.
 *
 * Over 0: how many frames the reader sent, one more than the UID has levels. lac_event is LAC_SELECTED; lac_uid and lac_reader_sak tell of the card.
 * Of a card's state only its first 20 bytes are written, of the reader's the first 54.
 * Refused, and nothing at all is written: LAC_ROOM, a state is too short, or `cards` for n of them; LAC_NOT_DUE, the reader is not new; LAC_ARGUMENT,
 * the bytes are no valid UID, or the row is one that lac_sweep refuses so. LAC_SILENCE: no card has this UID; the reader has stopped, and no card's
 * state is written. */
int64_t lac_wake(uint8_t *state, size_t state_len, const uint8_t *uid, size_t uid_len, uint8_t *cards, size_t cards_len, size_t n);

/* Type B. A reader and a card of their own kind, each in LAC_STATE_SIZE bytes too; any bytes at all are one Type B reader, and one Type B card.
 * Bytes all zero are a reader that is ready, and a card without power. A row holds data bits only, eight a byte, the lowest first: no parity,
 * start or stop bits. Numbers, lac_event and lac_length are as above; a Type B card has no events. A reader that is ready sends a request, ATTRIB
 * or HLTB, hears one row for each frame that it sent, and is ready again; so one reader does as many of them as its host likes. It stops at a row
 * that is not what it awaits; LAC_NOT_DUE, LAC_ROOM and LAC_ARGUMENT leave it what it was, and nothing is written. A call that writes a reader's
 * state writes its first 54 bytes, one that writes a card's the first 15.
 *
 * Begins a request: REQB where `wake` is 0, else WUPB, which halted cards take too; with n slots, 1, 2, 4, 8 or 16; to the cards that `afi` admits
 * (0x00: all; 0xX0: those of family X; any other: those with that AFI). `out` has room for LAC_B_FRAME_SIZE bytes.
 * 40: the bits of the request; what is heard then is slot 1. Refused: LAC_NOT_DUE, the reader is not ready; LAC_ROOM; LAC_ARGUMENT, n. */
int64_t lac_b_reader_request(uint8_t *state, size_t state_len, uint8_t wake, uint8_t n, uint8_t afi, uint8_t *out, size_t out_len);

/* Attaches the card of an ATQB, of LAC_B_ATQB_SIZE bytes as lac_b_atqb gives it, with the reader's own size index, 0 to 8; it ends in
 * LAC_B_ATTACHED. 88: the bits of ATTRIB.
 * Refused: LAC_NOT_DUE, the reader is not ready; LAC_ROOM; LAC_ARGUMENT, the ATQB has another length, or the index is over 8. */
int64_t lac_b_reader_attach(uint8_t *state, size_t state_len, const uint8_t *atqb, size_t atqb_len, uint8_t index, uint8_t *out, size_t out_len);

/* Halts the card with this PUPI, four bytes, which stand in its ATQB behind the first; it ends in LAC_B_HALTED. 56: the bits of HLTB.
 * Refused: LAC_NOT_DUE, the reader is not ready; LAC_ROOM; LAC_ARGUMENT, the PUPI has another length. */
int64_t lac_b_reader_halt(uint8_t *state, size_t state_len, const uint8_t *pupi, size_t pupi_len, uint8_t *out, size_t out_len);

/* The reader hears a row, whatever it awaits. `out` has room for LAC_B_FRAME_SIZE bytes.
 * 24: the bits of the next slot's marker; 0: no frame; and lac_event. In a slot silence is no card, and an answer with collided bits is more than
 * one. Refused: LAC_NOT_DUE, no row is awaited; LAC_ROOM; and what is wrong with the row: LAC_SILENCE, in no slot; LAC_LENGTH; LAC_COLLISION, in
 * no slot; LAC_CRC, here CRC_B; LAC_FORBIDDEN, what is not an ATQB in a slot, a CID that is not 0, or a byte that is no answer to HLTB. */
int64_t lac_b_reader_hear(uint8_t *state, size_t state_len, const uint8_t *row, size_t row_len, uint8_t *out, size_t out_len);

/* Of a reader: what the slot of the last answer held, 0 no card, 1 one, 2 more; 0 where the answer told of no slot. Of a state that no call has
 * written it is what its byte says; bytes past the end of a short state count as 0. */
uint8_t lac_b_held(const uint8_t *state, size_t state_len);

/* .. and the one card's ATQB without CRC_B, at the front of `out`, which has room for LAC_B_ATQB_SIZE bytes; zeros where there was not one card.
 * 12: how many bytes; no more are written. Refused: LAC_ROOM, the state or `out` is too short; nothing is written. */
int64_t lac_b_atqb(const uint8_t *state, size_t state_len, uint8_t *out, size_t out_len);

/* Makes a Type B card without power, over whatever the state was: its PUPI, four bytes; its AFI; whether it answers slot markers (0: it does not;
 * any other number: it does); application data, four bytes, and protocol information, three, of its ATQB.
 * 0. Refused: LAC_ROOM; LAC_ARGUMENT, a length is another one. */
int64_t lac_b_card_new(uint8_t *state, size_t state_len, const uint8_t *pupi, size_t pupi_len, uint8_t afi, uint8_t markers,
                       const uint8_t *application, size_t application_len, const uint8_t *protocol, size_t protocol_len);

/* Power comes: a card that was Off is Idle; any other stays. Power is lost: the card is Off.
 * 0. Refused: LAC_ROOM. */
int64_t lac_b_card_power_on(uint8_t *state, size_t state_len);
int64_t lac_b_card_power_off(uint8_t *state, size_t state_len);

/* The card takes a row, any row in any state. `number` is the slot that its host drew for it, 1 to the N of the request; of a row that is no
 * request it is not looked at. `out` has room for LAC_B_ANSWER_SIZE bytes.
 * 0 or more: the bits of what the card sends (0: it is silent, as it is to damage and to what it does not await).
 * Refused: LAC_ROOM; LAC_ARGUMENT, the row is a request, whether this card heeds it or not, and the number is not 1 to its N. */
int64_t lac_b_card_take(uint8_t *state, size_t state_len, uint8_t number, const uint8_t *row, size_t row_len, uint8_t *out, size_t out_len);

/* The state of a card, one of enum lac_b_card_state_number. Bytes past the end of a short state count as 0. */
uint8_t lac_b_card_state(const uint8_t *state, size_t state_len);

/* A whole request over a field of Type B cards: REQB where `wake` is 0, else WUPB, with n slots, and then the marker of each other slot; the library
 * plays the cards. `state` is a reader's that is ready, and is ready again then. `cards` is a row of cards' states, LAC_STATE_SIZE bytes each, one for
 * each of `numbers`, the slots that the cards' hosts drew, 1 to n: at most LAC_MOST_CARDS, each Idle or Halt, no PUPI there twice. `list` has room
 * for LAC_B_LIST_ROOM bytes, whatever n is.
 *
 * 0 or more: how many slots the list tells of, which is n. lac_event is LAC_B_SLOTS; lac_b_held and lac_b_atqb tell of the last slot. The list, from
 * its front on, has 13 bytes for each slot: 0, 1 or 2 for no card, one, more; then the one's ATQB without CRC_B, else zeros. Of a card's state only
 * its first 15 bytes are written, of the reader's the first 54.
 * Refused, and nothing at all is written: LAC_ROOM, a state is too short, or `cards` for so many; LAC_NOT_DUE, the reader is not ready; LAC_ROOM, the
 * list; LAC_ARGUMENT, n is not 1, 2, 4, 8 or 16, a number is not 1 to n, they are over LAC_MOST_CARDS, or a card is neither Idle nor Halt or has a
 * PUPI that another one has. */
int64_t lac_b_inquire(uint8_t *state, size_t state_len, uint8_t wake, uint8_t n, uint8_t afi, uint8_t *cards, size_t cards_len,
                      const uint8_t *numbers, size_t numbers_len, uint8_t *list, size_t list_len);

/* The reader of lac_sweep_remember, stepped by hand against cards of your own. Its state has its path too, the branches that it has not taken, and
 * is LAC_MEMORY_SIZE bytes: any bytes are one such reader, bytes all zero a new one, and a shorter state is refused by LAC_ROOM. lac_event,
 * lac_length, lac_uid and lac_reader_sak tell of it as of any reader. `out` has room for LAC_SWEEP_ROW bytes.
 *
 * Begins the sweep, which finds one card after the other and ends in LAC_SWEPT.
 * 7: the bits of REQA. Refused, and nothing at all is written: LAC_NOT_DUE, the reader is not new; LAC_ROOM. */
int64_t lac_memory_sweep(uint8_t *state, size_t state_len, uint8_t *out, size_t out_len);

/* The reader hears a row, whatever it awaits.
 * 0 or more: the bits of the next frame, and lac_event. Refused: LAC_NOT_DUE, no row is awaited; LAC_ROOM; these two write nothing. And what is
 * wrong with the row, LAC_LENGTH to LAC_CHECK and LAC_SILENCE to LAC_FORBIDDEN: by these the reader has stopped, and its path is forgotten. */
int64_t lac_memory_hear(uint8_t *state, size_t state_len, const uint8_t *row, size_t row_len, uint8_t *out, size_t out_len);

/* CRC_A of bytes, and CRC_B. The byte sent first is the low one. */
uint16_t lac_crc_a(const uint8_t *bytes, size_t bytes_len);
uint16_t lac_crc_b(const uint8_t *bytes, size_t bytes_len);

/* Frames, without a state. A standard frame is 1 to LAC_FRAME_MAX bytes, eight bits each, the lowest first, and then odd parity. A refusal
 * writes nothing.
 *
 * Writes bytes as a frame at the front of `out`: as they are, or with their CRC_A behind them.
 * 0 or more: the bits written, 9 for each byte. Refused: LAC_ROOM, `out` is too short for them. No bytes at all, and bytes over
 * LAC_FRAME_MAX (CRC_A counts), are written too, but such a row is no frame: read back it is LAC_LENGTH. */
int64_t lac_frame_write(const uint8_t *bytes, size_t bytes_len, uint8_t *out, size_t out_len);
int64_t lac_frame_write_crc(const uint8_t *bytes, size_t bytes_len, uint8_t *out, size_t out_len);

/* Writes the seven low bits of a byte as a short frame, without parity.
 * 7: the bits written. Refused: LAC_ROOM. */
int64_t lac_frame_write_short(uint8_t byte, uint8_t *out, size_t out_len);

/* Reads a received row as a standard frame, its bytes to the front of `out`, which has room for LAC_FRAME_MAX bytes whatever is heard: as
 * they are, or with CRC_A tested and left out.
 * Over 0: how many bytes. Refused, tested in this order: LAC_ROOM; LAC_LENGTH, the row is not 1 (with CRC_A 3) to LAC_FRAME_MAX whole bytes
 * with parity; LAC_COLLISION; LAC_PARITY, and lac_frame_wrong tells the byte; LAC_CRC. */
int64_t lac_frame_read(const uint8_t *row, size_t row_len, uint8_t *out, size_t out_len);
int64_t lac_frame_read_crc(const uint8_t *row, size_t row_len, uint8_t *out, size_t out_len);

/* Reads a received row as a short frame.
 * 0 to 127: its seven bits. Refused: LAC_LENGTH, the row is not 7 bits; LAC_COLLISION. */
int64_t lac_frame_read_short(const uint8_t *row, size_t row_len);

/* The first of a row's whole bytes, row_len / 9 of them, from 0, that has no collided data bit and wrong parity; row_len / 9 where none is
 * so. A collided parity bit is wrong. */
uint64_t lac_frame_wrong(const uint8_t *row, size_t row_len);

/* How far a card's answer was from due, in carrier periods: below zero it was early, above it late. `row` is the reader's frame, `sent` the tick
 * at which its last pause ended, `heard` the tick at which the answer began; ticks wrap at 2^32. After REQA, WUPA, ANTICOLLISION and SELECT 1236
 * carrier periods are due where the last data bit sent was a 1, else 1172; after any other row the nearest n * 128 + 84 after a 1, or
 * n * 128 + 20 after a 0, n being at least 9 (of two as near the smaller one).
 * Any number but LAC_NO_DELAY: the difference. LAC_NO_DELAY: refused by LAC_DELAY, 2^31 carrier periods or more from `sent` to `heard`. */
int64_t lac_delay(const uint8_t *row, size_t row_len, uint32_t sent, uint32_t heard);

/* Makes a received row of a front end's energies, two for each bit: `halves_len` numbers, the first half of the first bit first. A half is loaded
 * when its energy is at least the level and above `floor`; only the first half loaded is a 1, only the second a 0, both a collided bit, 2, and
 * neither ends the row. `gate` is one of enum lac_gate_number: with LAC_GATE_LEVEL the level is `value`, with LAC_GATE_SHARE it is `value` times
 * `peak`, rounded once, `peak` being the strongest half heard. `out` has a place for each whole bit handed in.
 * 0 or more: the bits of the row, at the front of `out`; no more is written. Refused, tested in this order, and nothing is written: LAC_ARGUMENT, no
 * gate has this number; LAC_ROOM; LAC_ENERGY, a NaN, an infinity or a number below zero among `halves`, `floor` and `peak` (halves behind the end
 * too), or an odd number of halves; of LAC_GATE_LEVEL a `value` that is none of those but above 0; of LAC_GATE_SHARE one that is not above 0 and
 * at most 1, or a level that comes out 0. With LAC_GATE_OFF `value` is not looked at. */
int64_t lac_front(uint8_t gate, float value, float floor, float peak, const float *halves, size_t halves_len, uint8_t *out, size_t out_len);

#ifdef __cplusplus
}
#endif
#endif
