/* A feed: a MoldUDP64 receiver that learns its session's name, shows each message once and in order, and asks for what
 * was lost.
 *
 *   cc -I ../../include feed.c ../../target/staticlib/libeiderwagon.a -o feed && ./feed
 *
 * A real host has a socket and a clock. Here the venue's datagrams are written in main, two of them late.
 */
#include "eiderwagon.h"

#include <inttypes.h>
#include <stdio.h>
#include <string.h>

/* A session that isn't known yet is ten spaces. Where it is known, start with its name instead. */
static const uint8_t unknown[EIDERWAGON_SESSION_SIZE] = {' ', ' ', ' ', ' ', ' ', ' ', ' ', ' ', ' ', ' '};

static uint8_t receiver[EIDERWAGON_RECEIVER_SIZE];

/* ---- The receiver's host ----------------------------------------------------------------------------------------- */

/* Its session's name, which stands in the state. */
static const uint8_t *const session = receiver + EIDERWAGON_RECEIVER_SESSION_AT;

/* Shows the messages that an answer delivers. They stand in the datagram: nothing is copied. */
static void deliver(const uint8_t *datagram, size_t size, const uint64_t *answer) {
    uint8_t cursor[EIDERWAGON_CURSOR_SIZE];
    uint64_t message[EIDERWAGON_NEXT_WORDS];
    uint64_t number = answer[EIDERWAGON_TAKE_FIRST];
    eiderwagon_receiver_walk(datagram, size, (uint16_t)answer[EIDERWAGON_TAKE_COUNT],
                             (uint16_t)answer[EIDERWAGON_TAKE_SKIPPED], cursor, sizeof cursor);
    for (;;) {
        eiderwagon_mold_next(cursor, sizeof cursor, datagram, size, message, EIDERWAGON_NEXT_WORDS);
        if (message[EIDERWAGON_NEXT_FOUND] == 0) {
            return;
        }
        printf("%" PRIu64 " %.*s\n", number, (int)message[EIDERWAGON_NEXT_LENGTH],
               (const char *)datagram + message[EIDERWAGON_NEXT_OFFSET]);
        number += 1;
    }
}

/* Sends a request, once for each first number: every datagram ahead asks again. A real host also sends it again after
 * a while, since requests get lost too. */
static void ask(uint64_t first, uint16_t count) {
    static uint64_t asked = 0;
    uint8_t request[EIDERWAGON_MOLD_HEADER_SIZE];
    uint64_t words[EIDERWAGON_WRITE_WORDS];
    if (first == asked) {
        return;
    }
    asked = first;
    eiderwagon_mold_write_request(session, EIDERWAGON_SESSION_SIZE, first, count, request, sizeof request, words,
                                  EIDERWAGON_WRITE_WORDS);
    printf("a request of %" PRIu64 " bytes: %u messages from %" PRIu64 " on\n", words[EIDERWAGON_WRITE_SIZE],
           (unsigned)count, first);
}

/* Takes one datagram as it came. */
static void take(const uint8_t *datagram, size_t size) {
    uint64_t answer[EIDERWAGON_TAKE_WORDS];
    int learns = memcmp(session, unknown, sizeof unknown) == 0;
    uint32_t code = eiderwagon_receiver_take(receiver, sizeof receiver, datagram, size, answer, EIDERWAGON_TAKE_WORDS);
    if (EIDERWAGON_NUMBER(code) != EIDERWAGON_OK) {
        printf("refused: %s\n", eiderwagon_ground(code)); /* nothing has changed: the next one may be good */
        return;
    }
    if (learns) {
        printf("the session is %.*s\n", EIDERWAGON_SESSION_SIZE, (const char *)session); /* from any answer */
    }
    switch (answer[EIDERWAGON_TAKE_ANSWER]) {
    case EIDERWAGON_RECEIVER_DELIVER:
        deliver(datagram, size, answer);
        break;
    case EIDERWAGON_RECEIVER_ASK:
        ask(answer[EIDERWAGON_TAKE_FIRST], (uint16_t)answer[EIDERWAGON_TAKE_COUNT]);
        break;
    case EIDERWAGON_RECEIVER_ENDED:
        printf("the session is over\n");
        break;
    default: /* EIDERWAGON_RECEIVER_OLD, EIDERWAGON_RECEIVER_QUIET: nothing to do */
        break;
    }
}

/* ---- In place of a socket ---------------------------------------------------------------------------------------- */

static const uint8_t tonight[EIDERWAGON_SESSION_SIZE] = {'R', 'E', 'A', 'D', 'R', 'O', 'O', 'M', '0', '1'};

/* A datagram with the messages from number `first` on, as they stand in `joined`. */
static void data(uint64_t first, const uint16_t *lengths, size_t count, const char *joined) {
    uint8_t datagram[EIDERWAGON_LARGEST_DATAGRAM];
    uint64_t words[EIDERWAGON_WRITE_WORDS];
    eiderwagon_mold_write_data(tonight, sizeof tonight, first, lengths, count, (const uint8_t *)joined, strlen(joined),
                               datagram, sizeof datagram, words, EIDERWAGON_WRITE_WORDS);
    take(datagram, (size_t)words[EIDERWAGON_WRITE_SIZE]);
}

static void end_of_session(uint64_t next, size_t cut) {
    uint8_t datagram[EIDERWAGON_MOLD_HEADER_SIZE];
    uint64_t words[EIDERWAGON_WRITE_WORDS];
    eiderwagon_mold_write_end(tonight, sizeof tonight, next, datagram, sizeof datagram, words, EIDERWAGON_WRITE_WORDS);
    take(datagram, (size_t)words[EIDERWAGON_WRITE_SIZE] - cut);
}

int main(void) {
    uint32_t code;
    if (eiderwagon_version() != EIDERWAGON_VERSION) {
        fprintf(stderr, "the library is of another version than its header\n");
        return 1;
    }
    /* The receiver is all zeros, as a state is to be before its start: a refused start changes no byte. */
    code = eiderwagon_receiver_start(unknown, sizeof unknown, 1, 100, receiver, sizeof receiver);
    if (EIDERWAGON_NUMBER(code) != EIDERWAGON_OK) {
        fprintf(stderr, "no receiver: %s\n", eiderwagon_ground(code));
        return 1;
    }
    data(1, (const uint16_t[]){3, 3}, 2, "onetwo");
    data(5, (const uint16_t[]){4}, 1, "five");               /* 3 and 4 are lost: it asks */
    data(6, (const uint16_t[]){3}, 1, "six");                /* it asks again, and is not sent again */
    data(2, (const uint16_t[]){3, 5, 4}, 3, "twothreefour"); /* what was asked for, and one that is there already */
    data(5, (const uint16_t[]){4, 3}, 2, "fivesix");
    end_of_session(7, 1); /* cut short on the way */
    end_of_session(7, 0);
    return 0;
}
