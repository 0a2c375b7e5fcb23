/* A feed on a wireless desk, where packets swap places: a MoldUDP64 receiver that keeps early messages, shows each one
 * once and in order, and asks only for what is really missing. feed.c has the plain receiver, and a session whose name
 * isn't known.
 *
 *   cc -I ../../include early.c ../../target/staticlib/libeiderwagon.a -o early && ./early
 *
 * A real host has a socket and a clock. Here the venue's datagrams are written in main, out of order.
 */
#include "eiderwagon.h"

#include <inttypes.h>
#include <stdio.h>
#include <string.h>

static const uint8_t session[EIDERWAGON_SESSION_SIZE] = {'R', 'E', 'A', 'D', 'R', 'O', 'O', 'M', '0', '1'};

/* ---- The receiver's host ----------------------------------------------------------------------------------------- */

/* The receiver, and beside it the slots in which it holds messages: they belong together, and go from call to call. */
static uint8_t receiver[EIDERWAGON_EARLY_SIZE];
static uint8_t slots[EIDERWAGON_SLOTS_SIZE];

/* Room for the places of what one datagram delivers: as many as any can have. */
static uint64_t places[EIDERWAGON_EARLY_MOST_PLACES];

/* Shows the messages that an answer delivers. They stand in the slots and in the datagram: nothing is copied. */
static void deliver(const uint8_t *datagram, const uint64_t *answer) {
    const uint64_t *place = places;
    for (uint64_t i = 0; i < answer[EIDERWAGON_EARLY_TAKE_COUNT]; i++) {
        int held = place[EIDERWAGON_EARLY_PLACE_HELD] == 1;
        const uint8_t *message = (held ? slots : datagram) + place[EIDERWAGON_EARLY_PLACE_OFFSET];
        printf("%" PRIu64 " %.*s%s\n", answer[EIDERWAGON_EARLY_TAKE_FIRST] + i,
               (int)place[EIDERWAGON_EARLY_PLACE_LENGTH], (const char *)message, held ? " (held)" : "");
        place += EIDERWAGON_EARLY_PLACE_WORDS;
    }
}

/* Sends a request, once for each first number: while something is held every datagram asks again. A real host also
 * sends it again after a while, since requests get lost too. */
static void ask(uint64_t first, uint16_t count) {
    static uint64_t asked = 0;
    uint8_t request[EIDERWAGON_MOLD_HEADER_SIZE];
    uint64_t words[EIDERWAGON_WRITE_WORDS];
    if (first == asked) {
        return;
    }
    asked = first;
    eiderwagon_mold_write_request(session, sizeof session, first, count, request, sizeof request, words,
                                  EIDERWAGON_WRITE_WORDS);
    printf("a request of %" PRIu64 " bytes: %u messages from %" PRIu64 " on\n", words[EIDERWAGON_WRITE_SIZE],
           (unsigned)count, first);
}

/* Takes one datagram as it came. A request may stand beside any answer but the last. */
static void take(const uint8_t *datagram, size_t size) {
    uint64_t answer[EIDERWAGON_EARLY_TAKE_WORDS];
    uint32_t code = eiderwagon_early_deliver(receiver, sizeof receiver, slots, sizeof slots, datagram, size, answer,
                                             EIDERWAGON_EARLY_TAKE_WORDS, places, EIDERWAGON_EARLY_MOST_PLACES);
    if (EIDERWAGON_NUMBER(code) != EIDERWAGON_OK) {
        printf("refused: %s\n", eiderwagon_ground(code)); /* nothing has changed: the next one may be good */
        return;
    }
    switch (answer[EIDERWAGON_EARLY_TAKE_ANSWER]) {
    case EIDERWAGON_EARLY_DELIVER:
        deliver(datagram, answer);
        break;
    case EIDERWAGON_EARLY_ENDED:
        printf("the session is over\n");
        break;
    default: /* EIDERWAGON_EARLY_OLD, EIDERWAGON_EARLY_QUIET, EIDERWAGON_EARLY_AHEAD: nothing to show yet */
        break;
    }
    if (answer[EIDERWAGON_EARLY_TAKE_ASKS] == 1) {
        ask(answer[EIDERWAGON_EARLY_TAKE_FROM], (uint16_t)answer[EIDERWAGON_EARLY_TAKE_WANTED]);
    }
}

/* ---- In place of a socket ---------------------------------------------------------------------------------------- */

/* A datagram with the messages from number `first` on, as they stand in `joined`. */
static void data(uint64_t first, const uint16_t *lengths, size_t count, const char *joined) {
    uint8_t datagram[EIDERWAGON_LARGEST_DATAGRAM];
    uint64_t words[EIDERWAGON_WRITE_WORDS];
    eiderwagon_mold_write_data(session, sizeof session, first, lengths, count, (const uint8_t *)joined, strlen(joined),
                               datagram, sizeof datagram, words, EIDERWAGON_WRITE_WORDS);
    take(datagram, (size_t)words[EIDERWAGON_WRITE_SIZE]);
}

static void end_of_session(uint64_t next) {
    uint8_t datagram[EIDERWAGON_MOLD_HEADER_SIZE];
    uint64_t words[EIDERWAGON_WRITE_WORDS];
    eiderwagon_mold_write_end(session, sizeof session, next, datagram, sizeof datagram, words, EIDERWAGON_WRITE_WORDS);
    take(datagram, (size_t)words[EIDERWAGON_WRITE_SIZE]);
}

int main(void) {
    uint32_t code;
    if (eiderwagon_version() != EIDERWAGON_VERSION) {
        fprintf(stderr, "the library is of another version than its header\n");
        return 1;
    }
    /* The receiver is all zeros, as a state is to be before its start: a refused start changes no byte. */
    code = eiderwagon_early_start(session, sizeof session, 1, 100, receiver, sizeof receiver);
    if (EIDERWAGON_NUMBER(code) != EIDERWAGON_OK) {
        fprintf(stderr, "no receiver: %s\n", eiderwagon_ground(code));
        return 1;
    }
    data(1, (const uint16_t[]){3}, 1, "one");
    data(4, (const uint16_t[]){4, 4}, 2, "fourfive"); /* swapped with the next one: held, and it asks */
    data(2, (const uint16_t[]){3, 5}, 2, "twothree"); /* closes the gap */
    data(9, (const uint16_t[]){4}, 1, "nine");        /* 6 to 8 are missing */
    data(7, (const uint16_t[]){5}, 1, "seven");       /* now 6 alone, but the request for 3 messages is on its way */
    data(6, (const uint16_t[]){3}, 1, "six");         /* 6 and 7; of the two gaps the second one is left */
    data(6, (const uint16_t[]){3, 5, 5}, 3, "sixseveneight"); /* what was asked for */
    end_of_session(10);
    return 0;
}
