/* A branch: it sends a run of notices in packets, and answers a desktop's request from the same messages.
 *
 *   cc -I ../../include branch.c ../../target/staticlib/libeiderwagon.a -o branch && ./branch
 *
 * A real host has sockets. Here the desktop's receiver stands beside the branch, and the second packet is lost.
 */
#include "eiderwagon.h"

#include <inttypes.h>
#include <stdio.h>

static const uint8_t session[EIDERWAGON_SESSION_SIZE] = {'R', 'E', 'A', 'D', 'R', 'O', 'O', 'M', '0', '1'};

/* The messages, as the branch keeps them: one run for the transmitter, and one store for requests. */
static const uint16_t lengths[] = {4, 6, 7, 5};
static const uint8_t joined[] = {'o', 'p', 'e', 'n', 'l', 'a', 't', 'e', ' ', '1', 'l', 'a', 't', 'e',
                                 ' ', '1', '0', 'c', 'l', 'o', 's', 'e'};
enum { MESSAGES = sizeof lengths / sizeof lengths[0], FIRST = 1, SIZE = 34 };

static uint8_t receiver[EIDERWAGON_RECEIVER_SIZE];

static int refused(const char *what, uint32_t code) {
    if (EIDERWAGON_NUMBER(code) != EIDERWAGON_OK) {
        fprintf(stderr, "%s: %s\n", what, eiderwagon_ground(code));
        return 1;
    }
    return 0;
}

/* The desktop takes a packet. Where it asks, the request is written, and its size handed back; else 0. */
static size_t take(const uint8_t *packet, size_t size, uint8_t request[EIDERWAGON_MOLD_HEADER_SIZE]) {
    uint64_t answer[EIDERWAGON_TAKE_WORDS];
    uint64_t words[EIDERWAGON_WRITE_WORDS];
    if (refused("take", eiderwagon_receiver_take(receiver, sizeof receiver, packet, size, answer,
                                                 EIDERWAGON_TAKE_WORDS))) {
        return 0;
    }
    if (answer[EIDERWAGON_TAKE_ANSWER] == EIDERWAGON_RECEIVER_DELIVER) {
        printf("the desktop shows %" PRIu64 " from %" PRIu64 " on\n", answer[EIDERWAGON_TAKE_COUNT],
               answer[EIDERWAGON_TAKE_FIRST]);
    }
    if (answer[EIDERWAGON_TAKE_ANSWER] != EIDERWAGON_RECEIVER_ASK) {
        return 0;
    }
    printf("the desktop asks for %" PRIu64 " from %" PRIu64 " on\n", answer[EIDERWAGON_TAKE_COUNT],
           answer[EIDERWAGON_TAKE_FIRST]);
    if (refused("ask", eiderwagon_mold_write_request(session, sizeof session, answer[EIDERWAGON_TAKE_FIRST],
                                                     (uint16_t)answer[EIDERWAGON_TAKE_COUNT], request,
                                                     EIDERWAGON_MOLD_HEADER_SIZE, words, EIDERWAGON_WRITE_WORDS))) {
        return 0;
    }
    return (size_t)words[EIDERWAGON_WRITE_SIZE];
}

/* The branch answers a request with one packet. */
static void answer(const uint8_t *request, size_t request_size) {
    uint8_t packet[SIZE];
    uint8_t again[EIDERWAGON_MOLD_HEADER_SIZE];
    uint64_t words[EIDERWAGON_WRITE_WORDS];
    uint32_t code = eiderwagon_store_answer(session, sizeof session, FIRST, lengths, MESSAGES, joined, sizeof joined,
                                            SIZE, request, request_size, packet, sizeof packet, words,
                                            EIDERWAGON_WRITE_WORDS);
    if (!refused("answer", code)) {
        printf("the store answers with %" PRIu64 " bytes\n", words[EIDERWAGON_WRITE_SIZE]);
        take(packet, (size_t)words[EIDERWAGON_WRITE_SIZE], again);
    }
}

/* A packet reaches the desktop, and the branch answers where it asks. */
static void send(const uint8_t *packet, size_t size) {
    uint8_t request[EIDERWAGON_MOLD_HEADER_SIZE];
    size_t asked = take(packet, size, request);
    if (asked > 0) {
        answer(request, asked);
    }
}

int main(void) {
    uint8_t transmitter[EIDERWAGON_TRANSMITTER_SIZE] = {0};
    uint8_t packet[SIZE];
    uint64_t words[EIDERWAGON_WRITE_WORDS];
    if (eiderwagon_version() != EIDERWAGON_VERSION) {
        fprintf(stderr, "the library is of another version than its header\n");
        return 1;
    }
    if (refused("receiver", eiderwagon_receiver_start(session, sizeof session, FIRST, 100, receiver,
                                                      sizeof receiver)) ||
        refused("transmitter", eiderwagon_transmitter_start(FIRST, lengths, MESSAGES, joined, sizeof joined, SIZE,
                                                            transmitter, sizeof transmitter))) {
        return 1;
    }
    /* The same run at each call, until no packet is left. */
    for (int sent = 0;; sent++) {
        uint32_t code = eiderwagon_transmitter_next(session, sizeof session, FIRST, lengths, MESSAGES, joined,
                                                    sizeof joined, SIZE, transmitter, sizeof transmitter, packet,
                                                    sizeof packet, words, EIDERWAGON_WRITE_WORDS);
        if (EIDERWAGON_NUMBER(code) == EIDERWAGON_REFUSED_NO_SUCH_PACKET) {
            printf("all %d packets are sent\n", sent);
            break;
        }
        if (refused("next", code)) {
            return 1;
        }
        if (sent != 1) { /* the second is lost on the way */
            send(packet, (size_t)words[EIDERWAGON_WRITE_SIZE]);
        }
    }
    /* The last packet came too early and wasn't kept: a heartbeat makes the desktop ask for it. */
    if (refused("heartbeat", eiderwagon_mold_write_heartbeat(session, sizeof session, FIRST + MESSAGES, packet,
                                                             sizeof packet, words, EIDERWAGON_WRITE_WORDS))) {
        return 1;
    }
    send(packet, (size_t)words[EIDERWAGON_WRITE_SIZE]);
    return 0;
}
