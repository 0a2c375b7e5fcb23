/* A test that each exported function does what eiderwagon.h says, and that the header itself holds.
 *
 * ../test.sh builds and runs it. feed.c, early.c, missing.c, login.c and branch.c, beside it, are the examples. The
 * parts:
 *   1. both MoldUDP64 receivers, with gaps,  5. what is done, and that it changes no more than it says
 *      a store and a transmitter             6. states: open by their own code alone, and made by hand
 *   2. a SoupBinTCP login and session        7. buffers with no elements, at NULL
 *   3. a capture, whole and in pieces, and   8. the version, codes, and grounds in words
 *      what is missing from it
 *   4. what is refused, and that it
 *      changes nothing
 */
#include "eiderwagon.h"

#include <inttypes.h>
#include <stdio.h>
#include <stdlib.h>
#include <string.h>

/* ---- What a test needs ------------------------------------------------------------------------------------------- */

static unsigned long checks = 0;

#define CHECK(holds)                                                            \
    do {                                                                        \
        if (!(holds)) {                                                         \
            fprintf(stderr, "%s:%d: not so: %s\n", __FILE__, __LINE__, #holds); \
            exit(1);                                                            \
        }                                                                       \
        checks += 1;                                                            \
    } while (0)

/* A call that gives this refusal, or EIDERWAGON_OK. */
#define GIVES(number, call)                                                                          \
    do {                                                                                             \
        uint32_t given = (call);                                                                     \
        if (EIDERWAGON_NUMBER(given) != (number)) {                                                  \
            fprintf(stderr, "%s:%d: %s: %s\n", __FILE__, __LINE__, #call, eiderwagon_ground(given)); \
            exit(1);                                                                                 \
        }                                                                                            \
        checks += 1;                                                                                 \
    } while (0)

/* A call that isn't refused. */
#define DONE(call) GIVES(EIDERWAGON_OK, call)

/* A word of an answer, by its name in the header. */
#define WORD(name) words[EIDERWAGON_##name]

/* ---- What a host needs ------------------------------------------------------------------------------------------- */

/* Lends an array, or the characters of a literal: a pointer, and behind it how many elements there are. */
#define LEND(array) (array), sizeof(array) / sizeof((array)[0])
#define TEXT(literal) (const uint8_t *)(literal), sizeof(literal) - 1

/* Bytes on their way: a datagram, or a stream that fills up. */
typedef struct {
    uint8_t bytes[512];
    size_t size;
} Bytes;

static const uint8_t name[EIDERWAGON_SESSION_SIZE] = {'R', 'E', 'A', 'D', 'R', 'O', 'O', 'M', '0', '1'};

static int same(const uint8_t *bytes, size_t size, const char *text) {
    return size == strlen(text) && memcmp(bytes, text, size) == 0;
}

/* A number of so many bytes in a state: the low ones come first. */
static uint64_t number_in(const uint8_t *state, size_t at, size_t size) {
    uint64_t number = 0;
    for (size_t i = size; i > 0; i--) {
        number = number << 8 | state[at + i - 1];
    }
    return number;
}

/* Messages, from their lengths and their joined text. */
static Bytes data(uint64_t first, size_t count, const uint16_t *lengths, const char *joined) {
    Bytes datagram = {{0}, 0};
    uint64_t words[EIDERWAGON_WRITE_WORDS];
    DONE(eiderwagon_mold_write_data(LEND(name), first, lengths, count, (const uint8_t *)joined, strlen(joined),
                                    LEND(datagram.bytes), LEND(words)));
    datagram.size = WORD(WRITE_SIZE);
    return datagram;
}

static Bytes heartbeat(uint64_t next) {
    Bytes datagram = {{0}, 0};
    uint64_t words[EIDERWAGON_WRITE_WORDS];
    DONE(eiderwagon_mold_write_heartbeat(LEND(name), next, LEND(datagram.bytes), LEND(words)));
    datagram.size = WORD(WRITE_SIZE);
    return datagram;
}

static Bytes end_of_session(uint64_t next) {
    Bytes datagram = {{0}, 0};
    uint64_t words[EIDERWAGON_WRITE_WORDS];
    DONE(eiderwagon_mold_write_end(LEND(name), next, LEND(datagram.bytes), LEND(words)));
    datagram.size = WORD(WRITE_SIZE);
    return datagram;
}

/* ---- 1. A receiver ----------------------------------------------------------------------------------------------- */

/* What the program shows: one line for each message, with its number. */
static char screen[256];

/* Shows the messages that a deliver answer delivers, which stand at these places. */
static void deliver(const Bytes *datagram, const uint64_t *answer, const uint64_t *places) {
    uint8_t cursor[EIDERWAGON_CURSOR_SIZE];
    uint64_t words[EIDERWAGON_NEXT_WORDS];
    uint64_t number = answer[EIDERWAGON_TAKE_FIRST];
    DONE(eiderwagon_receiver_walk(datagram->bytes, datagram->size, (uint16_t)answer[EIDERWAGON_TAKE_COUNT],
                                  (uint16_t)answer[EIDERWAGON_TAKE_SKIPPED], LEND(cursor)));
    for (;;) {
        DONE(eiderwagon_mold_next(LEND(cursor), datagram->bytes, datagram->size, LEND(words)));
        if (WORD(NEXT_FOUND) == 0) {
            break;
        }
        CHECK(places[EIDERWAGON_PLACE_OFFSET] == WORD(NEXT_OFFSET));
        CHECK(places[EIDERWAGON_PLACE_LENGTH] == WORD(NEXT_LENGTH));
        places += EIDERWAGON_PLACE_WORDS;
        size_t used = strlen(screen);
        snprintf(screen + used, sizeof screen - used, "%" PRIu64 " %.*s\n", number, (int)WORD(NEXT_LENGTH),
                 (const char *)datagram->bytes + WORD(NEXT_OFFSET));
        number += 1;
    }
    CHECK(number == answer[EIDERWAGON_TAKE_FIRST] + answer[EIDERWAGON_TAKE_COUNT]);
}

/* Gives a receiver one datagram, does what it answers, and returns which answer it was. The call that lays places
 * answers the same, and leaves the same state. */
static uint64_t take(uint8_t receiver[EIDERWAGON_RECEIVER_SIZE], const Bytes *datagram, Bytes *request) {
    uint64_t answer[EIDERWAGON_TAKE_WORDS];
    uint64_t words[EIDERWAGON_WRITE_WORDS];
    uint64_t answer_with_places[EIDERWAGON_TAKE_WORDS];
    uint64_t places[3 * EIDERWAGON_PLACE_WORDS];
    uint8_t copy[EIDERWAGON_RECEIVER_SIZE];
    memcpy(copy, receiver, sizeof copy);
    DONE(eiderwagon_receiver_deliver(LEND(copy), datagram->bytes, datagram->size, LEND(answer_with_places),
                                     LEND(places)));
    DONE(eiderwagon_receiver_take(receiver, EIDERWAGON_RECEIVER_SIZE, datagram->bytes, datagram->size, LEND(answer)));
    CHECK(memcmp(answer, answer_with_places, sizeof answer) == 0 && memcmp(receiver, copy, sizeof copy) == 0);
    switch (answer[EIDERWAGON_TAKE_ANSWER]) {
    case EIDERWAGON_RECEIVER_DELIVER:
        deliver(datagram, answer, places);
        break;
    case EIDERWAGON_RECEIVER_ASK:
        CHECK(answer[EIDERWAGON_TAKE_SKIPPED] == 0);
        DONE(eiderwagon_mold_write_request(receiver + EIDERWAGON_RECEIVER_SESSION_AT, EIDERWAGON_SESSION_SIZE,
                                           answer[EIDERWAGON_TAKE_FIRST], (uint16_t)answer[EIDERWAGON_TAKE_COUNT],
                                           LEND(request->bytes), LEND(words)));
        request->size = WORD(WRITE_SIZE);
        break;
    default: /* EIDERWAGON_RECEIVER_OLD, EIDERWAGON_RECEIVER_QUIET, EIDERWAGON_RECEIVER_ENDED: nothing to do */
        CHECK(answer[EIDERWAGON_TAKE_FIRST] == 0 && answer[EIDERWAGON_TAKE_COUNT] == 0);
        CHECK(answer[EIDERWAGON_TAKE_SKIPPED] == 0);
        break;
    }
    return answer[EIDERWAGON_TAKE_ANSWER];
}

static void follow_a_feed(void) {
    const Bytes one_two = data(1, 2, (const uint16_t[]){3, 3}, "onetwo");
    const Bytes two_to_four = data(2, 3, (const uint16_t[]){3, 0, 4}, "twofour");
    const Bytes five = data(5, 1, (const uint16_t[]){4}, "five");
    const Bytes still_at_six = heartbeat(6);
    const Bytes far_ahead = heartbeat(UINT64_MAX);
    const Bytes end = end_of_session(6);
    uint8_t receiver[EIDERWAGON_RECEIVER_SIZE];
    uint64_t words[EIDERWAGON_READ_REQUEST_WORDS];
    Bytes request = {{0}, 0};

    DONE(eiderwagon_receiver_start(LEND(name), 1, 100, LEND(receiver)));
    CHECK(take(receiver, &one_two, &request) == EIDERWAGON_RECEIVER_DELIVER);
    CHECK(take(receiver, &one_two, &request) == EIDERWAGON_RECEIVER_OLD);

    /* Messages 3 and 4 are lost: message 5 isn't kept, and the receiver asks. */
    CHECK(request.size == 0);
    CHECK(take(receiver, &five, &request) == EIDERWAGON_RECEIVER_ASK);
    CHECK(request.size == EIDERWAGON_MOLD_HEADER_SIZE && memcmp(request.bytes, name, sizeof name) == 0);

    /* The venue reads the request, and sends again. It begins at 2: the receiver skips what it has. */
    DONE(eiderwagon_mold_read_request(request.bytes, request.size, LEND(words)));
    CHECK(WORD(READ_REQUEST_FIRST) == 3 && WORD(READ_REQUEST_COUNT) == 2);
    CHECK(take(receiver, &two_to_four, &request) == EIDERWAGON_RECEIVER_DELIVER);
    CHECK(take(receiver, &five, &request) == EIDERWAGON_RECEIVER_DELIVER);
    CHECK(strcmp(screen, "1 one\n2 two\n3 \n4 four\n5 five\n") == 0);

    CHECK(take(receiver, &still_at_six, &request) == EIDERWAGON_RECEIVER_QUIET);

    /* It never asks for more than its limit at once, however much is missing; and each datagram ahead asks again. */
    for (int times = 0; times < 3; times++) {
        request.size = 0;
        CHECK(take(receiver, &far_ahead, &request) == EIDERWAGON_RECEIVER_ASK);
        DONE(eiderwagon_mold_read_request(request.bytes, request.size, LEND(words)));
        CHECK(WORD(READ_REQUEST_FIRST) == 6 && WORD(READ_REQUEST_COUNT) == 100);
    }
    CHECK(take(receiver, &end, &request) == EIDERWAGON_RECEIVER_ENDED);
    CHECK(receiver[EIDERWAGON_RECEIVER_CODE_AT] == 0);
}

/* Shows the messages that a datagram will deliver to a receiver that keeps early ones, as a walk finds them; each is
 * also had by its place. */
static void show_early(const uint8_t *receiver, const uint8_t *slots, const Bytes *datagram, const uint64_t *places) {
    uint8_t walk[EIDERWAGON_WALK_SIZE];
    uint64_t words[EIDERWAGON_PART_WORDS];
    uint64_t located[EIDERWAGON_PART_WORDS];
    uint64_t count[EIDERWAGON_EARLY_COUNT_WORDS];
    uint64_t number = number_in(receiver, EIDERWAGON_EARLY_NEXT_AT, 8);
    DONE(eiderwagon_early_count(receiver, EIDERWAGON_EARLY_SIZE, slots, EIDERWAGON_SLOTS_SIZE, datagram->bytes,
                                datagram->size, LEND(count)));
    DONE(eiderwagon_early_walk(receiver, EIDERWAGON_EARLY_SIZE, slots, EIDERWAGON_SLOTS_SIZE, datagram->bytes,
                               datagram->size, LEND(walk)));
    CHECK(number_in(walk, EIDERWAGON_WALK_NUMBER_AT, 8) == number);
    for (uint16_t place = 0; place <= count[EIDERWAGON_EARLY_COUNT_COUNT]; place++) {
        CHECK(number_in(walk, EIDERWAGON_WALK_LEFT_AT, 2) == count[EIDERWAGON_EARLY_COUNT_COUNT] - place);
        DONE(eiderwagon_early_locate(receiver, EIDERWAGON_EARLY_SIZE, slots, EIDERWAGON_SLOTS_SIZE, datagram->bytes,
                                     datagram->size, place, LEND(located)));
        DONE(eiderwagon_early_next(LEND(walk), receiver, EIDERWAGON_EARLY_SIZE, slots, EIDERWAGON_SLOTS_SIZE,
                                   datagram->bytes, datagram->size, LEND(words)));
        CHECK(memcmp(words, located, sizeof words) == 0);
        CHECK(WORD(PART_FOUND) == (place < count[EIDERWAGON_EARLY_COUNT_COUNT]));
        if (WORD(PART_FOUND) == 0) {
            break;
        }
        CHECK(places[EIDERWAGON_EARLY_PLACE_HELD] == WORD(PART_HELD));
        CHECK(places[EIDERWAGON_EARLY_PLACE_OFFSET] == WORD(PART_OFFSET));
        CHECK(places[EIDERWAGON_EARLY_PLACE_LENGTH] == WORD(PART_LENGTH));
        places += EIDERWAGON_EARLY_PLACE_WORDS;
        size_t used = strlen(screen);
        const uint8_t *message = (WORD(PART_HELD) == 1 ? slots : datagram->bytes) + WORD(PART_OFFSET);
        snprintf(screen + used, sizeof screen - used, "%" PRIu64 " %.*s\n", number, (int)WORD(PART_LENGTH),
                 (const char *)message);
        number += 1;
    }
}

/* Gives it one datagram, which answers `wanted`: the step with places, on a copy, and the one without do the same. */
static void take_early(uint8_t *receiver, uint8_t *slots, Bytes datagram, const uint64_t *wanted) {
    static uint8_t copy[EIDERWAGON_SLOTS_SIZE];
    uint8_t other[EIDERWAGON_EARLY_SIZE];
    uint64_t words[EIDERWAGON_EARLY_TAKE_WORDS];
    uint64_t places[8 * EIDERWAGON_EARLY_PLACE_WORDS];
    memcpy(other, receiver, sizeof other);
    memcpy(copy, slots, sizeof copy);
    DONE(eiderwagon_early_deliver(LEND(other), LEND(copy), datagram.bytes, datagram.size, LEND(words), LEND(places)));
    CHECK(memcmp(words, wanted, sizeof words) == 0);
    show_early(receiver, slots, &datagram, places);
    DONE(eiderwagon_early_take(receiver, EIDERWAGON_EARLY_SIZE, slots, EIDERWAGON_SLOTS_SIZE, datagram.bytes,
                               datagram.size, LEND(words)));
    CHECK(memcmp(words, wanted, sizeof words) == 0);
    CHECK(memcmp(other, receiver, sizeof other) == 0 && memcmp(copy, slots, sizeof copy) == 0);
}

/* The words of an answer with its request. */
#define ANSWERS(...) ((const uint64_t[EIDERWAGON_EARLY_TAKE_WORDS]){__VA_ARGS__})

static void keep_early_messages(void) {
    static uint8_t slots[EIDERWAGON_SLOTS_SIZE];
    uint8_t receiver[EIDERWAGON_EARLY_SIZE] = {0};
    screen[0] = '\0';
    memset(slots, 0xA5, sizeof slots);
    DONE(eiderwagon_early_start(LEND(name), 1, 100, LEND(receiver)));
    take_early(receiver, slots, data(3, 2, (const uint16_t[]){5, 0}, "three"),
               ANSWERS(EIDERWAGON_EARLY_AHEAD, 0, 0, 0, 1, 1, 2));
    CHECK(number_in(receiver, EIDERWAGON_EARLY_HELD_AT, 8) == 6);
    CHECK(same(slots + 3 * EIDERWAGON_SLOT_SIZE, 5, "three") && slots[3 * EIDERWAGON_SLOT_SIZE + 5] == 0xA5);
    CHECK(receiver[EIDERWAGON_EARLY_LENGTHS_AT + 6] == 0 && receiver[EIDERWAGON_EARLY_LENGTHS_AT + 7] == 5);
    take_early(receiver, slots, data(6, 1, (const uint16_t[]){3}, "six"),
               ANSWERS(EIDERWAGON_EARLY_AHEAD, 0, 0, 0, 1, 1, 2));
    take_early(receiver, slots, heartbeat(1), ANSWERS(EIDERWAGON_EARLY_QUIET, 0, 0, 0, 1, 1, 2));
    take_early(receiver, slots, data(1, 2, (const uint16_t[]){3, 3}, "onetwo"),
               ANSWERS(EIDERWAGON_EARLY_DELIVER, 1, 4, 0, 1, 5, 1));
    take_early(receiver, slots, heartbeat(2), ANSWERS(EIDERWAGON_EARLY_OLD, 0, 0, 0, 1, 5, 1));
    take_early(receiver, slots, data(4, 2, (const uint16_t[]){0, 4}, "five"),
               ANSWERS(EIDERWAGON_EARLY_DELIVER, 5, 2, 1, 0, 0, 0));
    take_early(receiver, slots, data(9, 1, (const uint16_t[]){4}, "nine"),
               ANSWERS(EIDERWAGON_EARLY_AHEAD, 0, 0, 0, 1, 7, 2));
    take_early(receiver, slots, end_of_session(7), ANSWERS(EIDERWAGON_EARLY_ENDED, 0, 0, 0, 0, 0, 0));
    CHECK(number_in(receiver, EIDERWAGON_EARLY_HELD_AT, 8) == 0);
    CHECK(receiver[EIDERWAGON_EARLY_CODE_AT] != EIDERWAGON_EARLY_OPEN);
    CHECK(strcmp(screen, "1 one\n2 two\n3 three\n4 \n5 five\n6 six\n") == 0);
}

/* The messages of a store and of a run: "one", "", "three" and "four", from number 6 on. */
static const uint16_t kept_lengths[] = {3, 0, 5, 4};
static const char kept[] = "onethreefour";

/* A receiver that misses all of a store's messages: each round of a heartbeat, its request and the store's answer moves
 * it on, and a packet of 29 bytes holds "one" and "", and then one of the others. */
static void serve_from_a_store(void) {
    const Bytes behind = heartbeat(10);
    uint8_t receiver[EIDERWAGON_RECEIVER_SIZE];
    uint64_t words[EIDERWAGON_WRITE_WORDS];
    Bytes request = {{0}, 0};
    Bytes answer = {{0}, 0};
    screen[0] = 0;
    DONE(eiderwagon_receiver_start(LEND(name), 6, 100, LEND(receiver)));
    for (int round = 0; round < 3; round++) {
        CHECK(take(receiver, &behind, &request) == EIDERWAGON_RECEIVER_ASK);
        DONE(eiderwagon_store_answer(LEND(name), 6, LEND(kept_lengths), TEXT(kept), 29, request.bytes, request.size,
                                     LEND(answer.bytes), LEND(words)));
        answer.size = WORD(WRITE_SIZE);
        CHECK(answer.size <= 29);
        CHECK(take(receiver, &answer, &request) == EIDERWAGON_RECEIVER_DELIVER);
    }
    CHECK(take(receiver, &behind, &request) == EIDERWAGON_RECEIVER_QUIET);
    CHECK(strcmp(screen, "6 one\n7 \n8 three\n9 four\n") == 0);
}

/* The same messages as a run: its packets by turns are those by place, and a receiver has it whole. */
static void send_a_run(void) {
    uint8_t receiver[EIDERWAGON_RECEIVER_SIZE];
    uint8_t transmitter[EIDERWAGON_TRANSMITTER_SIZE];
    uint64_t words[EIDERWAGON_WRITE_WORDS];
    Bytes request = {{0}, 0};
    Bytes packet = {{0}, 0};
    Bytes by_place = {{0}, 0};
    screen[0] = 0;
    DONE(eiderwagon_receiver_start(LEND(name), 6, 100, LEND(receiver)));
    DONE(eiderwagon_transmitter_start(6, LEND(kept_lengths), TEXT(kept), 29, LEND(transmitter)));
    for (uint64_t place = 0; place < 3; place++) {
        DONE(eiderwagon_transmitter_next(LEND(name), 6, LEND(kept_lengths), TEXT(kept), 29, LEND(transmitter),
                                         LEND(packet.bytes), LEND(words)));
        packet.size = WORD(WRITE_SIZE);
        DONE(eiderwagon_transmitter_packet(LEND(name), 6, LEND(kept_lengths), TEXT(kept), 29, place,
                                           LEND(by_place.bytes), LEND(words)));
        CHECK(WORD(WRITE_SIZE) == packet.size && memcmp(packet.bytes, by_place.bytes, packet.size) == 0);
        CHECK(take(receiver, &packet, &request) == EIDERWAGON_RECEIVER_DELIVER);
    }
    CHECK(strcmp(screen, "6 one\n7 \n8 three\n9 four\n") == 0);
    CHECK(number_in(transmitter, EIDERWAGON_TRANSMITTER_MESSAGES_AT, 8) == 4);
    CHECK(number_in(transmitter, EIDERWAGON_TRANSMITTER_BYTES_AT, 8) == 12);
    GIVES(EIDERWAGON_REFUSED_NO_SUCH_PACKET,
          eiderwagon_transmitter_next(LEND(name), 6, LEND(kept_lengths), TEXT(kept), 29, LEND(transmitter),
                                      LEND(packet.bytes), LEND(words)));
    GIVES(EIDERWAGON_REFUSED_NO_SUCH_PACKET,
          eiderwagon_transmitter_packet(LEND(name), 6, LEND(kept_lengths), TEXT(kept), 29, 3, LEND(packet.bytes),
                                        LEND(words)));
}

/* A datagram without a receiver: what it is, one message by its place, and all of them. */
static void read_a_datagram(void) {
    const Bytes datagram = data(7, 2, (const uint16_t[]){0, 3}, "two");
    const Bytes last_heartbeat = heartbeat(UINT64_MAX);
    const Bytes end = end_of_session(9);
    uint8_t cursor[EIDERWAGON_CURSOR_SIZE];
    uint64_t words[EIDERWAGON_MOLD_READ_WORDS];

    DONE(eiderwagon_mold_read(datagram.bytes, datagram.size, LEND(words)));
    CHECK(WORD(MOLD_READ_KIND) == EIDERWAGON_MOLD_DATA && WORD(MOLD_READ_NUMBER) == 7 && WORD(MOLD_READ_COUNT) == 2);
    DONE(eiderwagon_mold_read(last_heartbeat.bytes, last_heartbeat.size, LEND(words)));
    CHECK(WORD(MOLD_READ_KIND) == EIDERWAGON_MOLD_HEARTBEAT && WORD(MOLD_READ_NUMBER) == UINT64_MAX);
    CHECK(WORD(MOLD_READ_COUNT) == 0);
    DONE(eiderwagon_mold_read(end.bytes, end.size, LEND(words)));
    CHECK(WORD(MOLD_READ_KIND) == EIDERWAGON_MOLD_END_OF_SESSION && WORD(MOLD_READ_NUMBER) == 9);
    CHECK(WORD(MOLD_READ_COUNT) == 0);

    DONE(eiderwagon_mold_locate(datagram.bytes, datagram.size, 1, LEND(words)));
    CHECK(WORD(LOCATE_FOUND) == 1 && same(datagram.bytes + WORD(LOCATE_OFFSET), WORD(LOCATE_LENGTH), "two"));
    DONE(eiderwagon_mold_locate(datagram.bytes, datagram.size, 2, LEND(words)));
    CHECK(WORD(LOCATE_FOUND) == 0 && WORD(LOCATE_OFFSET) == 0 && WORD(LOCATE_LENGTH) == 0);

    DONE(eiderwagon_mold_walk(datagram.bytes, datagram.size, LEND(cursor)));
    /* Another datagram than the cursor's, here one that has no byte at its place, is safe: no message is there. */
    DONE(eiderwagon_mold_next(LEND(cursor), end.bytes, end.size, LEND(words)));
    CHECK(WORD(NEXT_FOUND) == 0 && WORD(NEXT_OFFSET) == 0 && WORD(NEXT_LENGTH) == 0);
    DONE(eiderwagon_mold_next(LEND(cursor), datagram.bytes, datagram.size, LEND(words)));
    CHECK(WORD(NEXT_FOUND) == 1 && WORD(NEXT_OFFSET) == 22 && WORD(NEXT_LENGTH) == 0);
    DONE(eiderwagon_mold_next(LEND(cursor), datagram.bytes, datagram.size, LEND(words)));
    CHECK(WORD(NEXT_FOUND) == 1 && WORD(NEXT_OFFSET) == 24 && WORD(NEXT_LENGTH) == 3);
    CHECK(number_in(cursor, EIDERWAGON_CURSOR_LEFT_AT, 2) == 0);
    DONE(eiderwagon_mold_next(LEND(cursor), datagram.bytes, datagram.size, LEND(words)));
    CHECK(WORD(NEXT_FOUND) == 0 && WORD(NEXT_OFFSET) == 0 && WORD(NEXT_LENGTH) == 0);
}

/* ---- 2. A login -------------------------------------------------------------------------------------------------- */

/* Two records of EIDERWAGON_ACCOUNT_SIZE bytes: username (6) and password (10), with spaces on the right. */
static const char accounts[] = "readeropensesame"
                               "clerk desk5     ";

static const char any_session[] = "          ";

/* Where the next packet goes in a stream: the room behind the bytes that are there. */
#define ROOM(stream) (stream)->bytes + (stream)->size, sizeof((stream)->bytes) - (stream)->size

/* Takes the first `size` bytes off a stream, as a step says. */
static void pass(Bytes *stream, uint64_t size) {
    stream->size -= size;
    memmove(stream->bytes, stream->bytes + size, stream->size);
}

static void server_step(uint8_t server[EIDERWAGON_SERVER_SIZE], const Bytes *stream, uint64_t *words) {
    DONE(eiderwagon_server_step(server, EIDERWAGON_SERVER_SIZE, TEXT(accounts), stream->bytes, stream->size, words,
                                EIDERWAGON_SERVER_STEP_WORDS));
}

/* The same step with its reply, which goes behind what is in the other stream. */
static void server_reply(uint8_t server[EIDERWAGON_SERVER_SIZE], const Bytes *stream, Bytes *reply, uint64_t *words) {
    DONE(eiderwagon_server_reply(server, EIDERWAGON_SERVER_SIZE, TEXT(accounts), stream->bytes, stream->size,
                                 ROOM(reply), words, EIDERWAGON_SERVER_REPLY_WORDS));
    reply->size += WORD(SERVER_REPLY_WRITTEN);
}

static void client_step(uint8_t client[EIDERWAGON_CLIENT_SIZE], const Bytes *stream, uint64_t *words) {
    DONE(eiderwagon_client_step(client, EIDERWAGON_CLIENT_SIZE, stream->bytes, stream->size, words,
                                EIDERWAGON_CLIENT_STEP_WORDS));
}

static void log_in_and_out(void) {
    uint8_t server[EIDERWAGON_SERVER_SIZE];
    uint8_t client[EIDERWAGON_CLIENT_SIZE];
    Bytes up = {{0}, 0};   /* from the client to the server */
    Bytes down = {{0}, 0}; /* and back */
    uint64_t words[EIDERWAGON_SERVER_REPLY_WORDS]; /* no function has more */

    /* The server's session has no message, and then one. The client wants any session, from message 1 on. */
    DONE(eiderwagon_server_start(LEND(name), 0, LEND(server)));
    DONE(eiderwagon_server_set_last(LEND(server), 1));
    CHECK(number_in(server, EIDERWAGON_SERVER_LAST_AT, 8) == 1);
    DONE(eiderwagon_client_start(TEXT(any_session), 1, LEND(client)));
    DONE(eiderwagon_soup_write_login(TEXT("Clerk "), TEXT("DESK5     "), TEXT(any_session), 1, ROOM(&up), LEND(words)));
    CHECK(WORD(WRITE_SIZE) == 49);

    /* Before all of the login is there, the server needs more and takes nothing. */
    up.size = WORD(WRITE_SIZE) - 1;
    server_step(server, &up, words);
    CHECK(WORD(SERVER_STEP_ANSWER) == EIDERWAGON_SESSION_NEED_MORE && WORD(SERVER_STEP_SIZE) == 0);
    up.size += 1;
    server_reply(server, &up, &down, words);
    CHECK(WORD(SERVER_REPLY_ANSWER) == EIDERWAGON_SESSION_ACCEPTED && WORD(SERVER_REPLY_SIZE) == 49);
    CHECK(WORD(SERVER_REPLY_NUMBER) == 1 && WORD(SERVER_REPLY_WRITTEN) == EIDERWAGON_LARGEST_REPLY);
    pass(&up, WORD(SERVER_REPLY_SIZE));
    CHECK(up.size == 0);

    /* It has written A, with its session and the number of the answer; its messages from that number on follow. */
    CHECK(memcmp(down.bytes, "\0\x1F" "AREADROOM01" "                   1", EIDERWAGON_LARGEST_REPLY) == 0);
    DONE(eiderwagon_soup_write_sequenced(TEXT("offer"), ROOM(&down), LEND(words)));
    down.size += WORD(WRITE_SIZE);
    DONE(eiderwagon_soup_write_server_heartbeat(ROOM(&down), LEND(words)));
    down.size += WORD(WRITE_SIZE);
    DONE(eiderwagon_soup_write_debug(TEXT("text for people"), ROOM(&down), LEND(words)));
    down.size += WORD(WRITE_SIZE);
    DONE(eiderwagon_soup_read(down.bytes, down.size, EIDERWAGON_SOUP_FROM_SERVER, LEND(words)));
    CHECK(WORD(SOUP_READ_LETTER) == 'A' && WORD(SOUP_READ_SIZE) == 33 && WORD(SOUP_READ_NUMBER) == 1);
    DONE(eiderwagon_soup_scan(down.bytes, down.size, EIDERWAGON_SOUP_FROM_SERVER, LEND(words)));
    CHECK(WORD(SCAN_COUNT) == 4 && WORD(SCAN_SIZE) == down.size && WORD(SCAN_REFUSAL) == 0);

    /* The client takes packet after packet. A message comes with its number, and as a place in the stream. */
    client_step(client, &down, words);
    CHECK(WORD(CLIENT_STEP_ANSWER) == EIDERWAGON_SESSION_ACCEPTED && WORD(CLIENT_STEP_NUMBER) == 1);
    CHECK(memcmp(client + EIDERWAGON_CLIENT_SESSION_AT, name, sizeof name) == 0);
    pass(&down, WORD(CLIENT_STEP_SIZE));
    client_step(client, &down, words);
    CHECK(WORD(CLIENT_STEP_ANSWER) == EIDERWAGON_SESSION_SEQUENCED && WORD(CLIENT_STEP_NUMBER) == 1);
    CHECK(same(down.bytes + WORD(CLIENT_STEP_OFFSET), WORD(CLIENT_STEP_LENGTH), "offer"));
    pass(&down, WORD(CLIENT_STEP_SIZE));
    client_step(client, &down, words);
    CHECK(WORD(CLIENT_STEP_ANSWER) == EIDERWAGON_SESSION_HEARTBEAT);
    pass(&down, WORD(CLIENT_STEP_SIZE));
    client_step(client, &down, words);
    CHECK(WORD(CLIENT_STEP_ANSWER) == EIDERWAGON_SESSION_DEBUG);
    pass(&down, WORD(CLIENT_STEP_SIZE));
    client_step(client, &down, words);
    CHECK(WORD(CLIENT_STEP_ANSWER) == EIDERWAGON_SESSION_NEED_MORE && WORD(CLIENT_STEP_SIZE) == 0);

    /* The client sends a message of its own, a heartbeat, and logs out. */
    DONE(eiderwagon_soup_write_unsequenced(TEXT("hello"), ROOM(&up), LEND(words)));
    up.size += WORD(WRITE_SIZE);
    DONE(eiderwagon_soup_write_client_heartbeat(ROOM(&up), LEND(words)));
    up.size += WORD(WRITE_SIZE);
    DONE(eiderwagon_soup_write_logout(ROOM(&up), LEND(words)));
    up.size += WORD(WRITE_SIZE);
    server_step(server, &up, words);
    CHECK(WORD(SERVER_STEP_ANSWER) == EIDERWAGON_SESSION_UNSEQUENCED);
    CHECK(same(up.bytes + WORD(SERVER_STEP_OFFSET), WORD(SERVER_STEP_LENGTH), "hello"));
    /* a step that needs no reply writes none */
    server_reply(server, &up, &down, words);
    CHECK(WORD(SERVER_REPLY_ANSWER) == EIDERWAGON_SESSION_UNSEQUENCED && WORD(SERVER_REPLY_WRITTEN) == 0);
    CHECK(same(up.bytes + WORD(SERVER_REPLY_OFFSET), WORD(SERVER_REPLY_LENGTH), "hello"));
    CHECK(WORD(SERVER_STEP_WORDS - 1) == 0);
    pass(&up, WORD(SERVER_STEP_SIZE));
    server_step(server, &up, words);
    CHECK(WORD(SERVER_STEP_ANSWER) == EIDERWAGON_SESSION_HEARTBEAT);
    pass(&up, WORD(SERVER_STEP_SIZE));
    server_step(server, &up, words);
    CHECK(WORD(SERVER_STEP_ANSWER) == EIDERWAGON_SESSION_LOGGED_OUT);
    CHECK(server[EIDERWAGON_SERVER_CODE_AT] == 0 && server[EIDERWAGON_SERVER_PHASE_AT] == EIDERWAGON_SERVER_CLOSED);

    /* Had the client stayed, the server would have ended the session some day. */
    DONE(eiderwagon_soup_write_end(ROOM(&down), LEND(words)));
    down.size += WORD(WRITE_SIZE);
    client_step(client, &down, words);
    CHECK(WORD(CLIENT_STEP_ANSWER) == EIDERWAGON_SESSION_OVER);
    CHECK(client[EIDERWAGON_CLIENT_CODE_AT] == 0 && client[EIDERWAGON_CLIENT_PHASE_AT] == EIDERWAGON_CLIENT_ENDED);
}

/* A wrong password: the server answers J with a reason, and both ends are closed. */
static void be_rejected(void) {
    uint8_t server[EIDERWAGON_SERVER_SIZE];
    uint8_t client[EIDERWAGON_CLIENT_SIZE];
    Bytes up = {{0}, 0};
    Bytes down = {{0}, 0};
    uint64_t words[EIDERWAGON_SERVER_REPLY_WORDS] = {9, 9, 9, 9, 9, 9};

    DONE(eiderwagon_server_start(LEND(name), 1, LEND(server)));
    DONE(eiderwagon_client_start(LEND(name), 0, LEND(client)));
    DONE(eiderwagon_soup_write_login(TEXT("clerk "), TEXT("desk      "), LEND(name), 0, ROOM(&up), LEND(words)));
    up.size = WORD(WRITE_SIZE);

    /* Without a session, the packet itself can be read too. */
    DONE(eiderwagon_soup_read(up.bytes, up.size, EIDERWAGON_SOUP_FROM_CLIENT, LEND(words)));
    CHECK(WORD(SOUP_READ_LETTER) == 'L' && WORD(SOUP_READ_SIZE) == up.size && WORD(SOUP_READ_NUMBER) == 0);
    CHECK(same(up.bytes + 3, EIDERWAGON_USERNAME_SIZE, "clerk "));

    server_reply(server, &up, &down, words);
    CHECK(WORD(SERVER_REPLY_ANSWER) == EIDERWAGON_SESSION_REJECTED && WORD(SERVER_REPLY_REASON) == 'A');
    CHECK(down.size == 4);
    client_step(client, &down, words);
    CHECK(WORD(CLIENT_STEP_ANSWER) == EIDERWAGON_SESSION_REJECTED && WORD(CLIENT_STEP_REASON) == 'A');
    CHECK(WORD(CLIENT_STEP_OFFSET) == 0 && WORD(CLIENT_STEP_LENGTH) == 0);
    CHECK(server[EIDERWAGON_SERVER_CODE_AT] == 0 && server[EIDERWAGON_SERVER_PHASE_AT] == EIDERWAGON_SERVER_CLOSED);
    CHECK(client[EIDERWAGON_CLIENT_CODE_AT] == 0 && client[EIDERWAGON_CLIENT_PHASE_AT] == EIDERWAGON_CLIENT_CLOSED);
}

/* ---- 3. A capture ------------------------------------------------------------------------------------------------ */

static const char report[] = "session=READROOM01\n"
                             "next=6\n"
                             "ended=yes\n"
                             "delivered=5\n"
                             "old=2\n"
                             "quiet=1\n"
                             "asked=2\n"
                             "refused=1\n";

/* A record: a length of two bytes, the high one first, and a datagram. */
static void record(Bytes *capture, Bytes datagram) {
    capture->bytes[capture->size] = (uint8_t)(datagram.size >> 8);
    capture->bytes[capture->size + 1] = (uint8_t)(datagram.size & 0xFF);
    memcpy(capture->bytes + capture->size + 2, datagram.bytes, datagram.size);
    capture->size += 2 + datagram.size;
}

static Bytes sample_capture(void) {
    static const char settings[] = "session=READROOM01\nnext=1\nlimit=100\n";
    Bytes capture = {{0}, sizeof settings - 1};
    Bytes nineteen_bytes = heartbeat(6);
    nineteen_bytes.size = 19;
    memcpy(capture.bytes, settings, capture.size);
    record(&capture, data(1, 2, (const uint16_t[]){3, 3}, "onetwo"));
    record(&capture, data(5, 1, (const uint16_t[]){4}, "five"));
    record(&capture, heartbeat(6));
    record(&capture, data(2, 3, (const uint16_t[]){3, 5, 4}, "twothreefour"));
    record(&capture, data(1, 2, (const uint16_t[]){3, 3}, "onetwo"));
    record(&capture, data(5, 1, (const uint16_t[]){4}, "five"));
    record(&capture, heartbeat(6));
    record(&capture, nineteen_bytes);
    record(&capture, end_of_session(6));
    return capture;
}

/* Reads a capture in pieces, and keeps what was not used for the next one. */
static void report_in_pieces(const Bytes *capture, size_t piece) {
    uint8_t reading[EIDERWAGON_CAPTURE_SIZE];
    uint8_t out[EIDERWAGON_LARGEST_REPORT];
    Bytes kept = {{0}, 0};
    uint64_t words[EIDERWAGON_FEED_WORDS];
    static uint8_t slots[EIDERWAGON_SLOTS_SIZE];
    DONE(eiderwagon_capture_start(LEND(reading)));
    for (size_t at = 0; at < capture->size; at += piece) {
        size_t left = capture->size - at;
        size_t came = left < piece ? left : piece;
        memcpy(kept.bytes + kept.size, capture->bytes + at, came);
        kept.size += came;
        DONE(eiderwagon_capture_feed(LEND(reading), LEND(slots), kept.bytes, kept.size, LEND(words)));
        CHECK(WORD(FEED_USED) <= kept.size && WORD(FEED_OVER) == 0);
        pass(&kept, WORD(FEED_USED));
    }
    DONE(eiderwagon_capture_finish(LEND(reading), LEND(slots), kept.bytes, kept.size));
    DONE(eiderwagon_capture_write(LEND(reading), LEND(out), LEND(words)));
    CHECK(same(out, WORD(WRITE_SIZE), report));
}

static void report_captures(void) {
    const Bytes capture = sample_capture();
    uint8_t out[EIDERWAGON_LARGEST_REPORT];
    uint64_t words[EIDERWAGON_WRITE_WORDS];
    DONE(eiderwagon_capture_report(capture.bytes, capture.size, LEND(out), LEND(words)));
    CHECK(same(out, WORD(WRITE_SIZE), report));
    for (size_t piece = 1; piece <= 7; piece++) {
        report_in_pieces(&capture, piece);
    }
    /* A last record that is cut short counts as one refusal: here the end of session, which then isn't seen. */
    DONE(eiderwagon_capture_report(capture.bytes, capture.size - 1, LEND(out), LEND(words)));
    CHECK(same(out, WORD(WRITE_SIZE),
               "session=READROOM01\nnext=6\nended=no\ndelivered=5\nold=2\nquiet=1\nasked=2\nrefused=2\n"));
    /* Bad settings are a report too, and no refusal. */
    DONE(eiderwagon_capture_report(TEXT("session=short\n"), LEND(out), LEND(words)));
    CHECK(same(out, WORD(WRITE_SIZE), "settings=refused\n"));
}

/* A capture in which 2 and 5 to 8 are missing, and one message is of another session. */
static Bytes gappy_capture(void) {
    static const char settings[] = "session=READROOM01\nnext=1\nlimit=100\n";
    Bytes capture = {{0}, sizeof settings - 1};
    Bytes other = data(5, 1, (const uint16_t[]){4}, "five");
    other.bytes[9] = '2';
    memcpy(capture.bytes, settings, capture.size);
    record(&capture, data(3, 1, (const uint16_t[]){5}, "three"));
    record(&capture, end_of_session(6));
    record(&capture, data(4, 1, (const uint16_t[]){4}, "four")); /* after the end, and it counts */
    record(&capture, other);
    record(&capture, heartbeat(9));
    record(&capture, data(1, 1, (const uint16_t[]){3}, "one"));
    return capture;
}

static const char gaps[] = "session=READROOM01\nfrom=2\nto=2\nfrom=5\nto=8\nmissing=5\n";

/* Reads a capture in pieces for what is missing, and lists it by range and as text. */
static void list_in_pieces(const Bytes *capture, size_t piece) {
    static uint64_t edges[EIDERWAGON_MISSING_EDGES];
    static uint8_t out[EIDERWAGON_MISSING_TEXT];
    uint8_t reading[EIDERWAGON_MISSING_SIZE];
    Bytes kept = {{0}, 0};
    uint64_t words[EIDERWAGON_MISSING_RANGE_WORDS];
    DONE(eiderwagon_missing_start(LEND(reading)));
    for (size_t at = 0; at < capture->size; at += piece) {
        size_t left = capture->size - at;
        size_t came = left < piece ? left : piece;
        memcpy(kept.bytes + kept.size, capture->bytes + at, came);
        kept.size += came;
        DONE(eiderwagon_missing_feed(LEND(reading), LEND(edges), kept.bytes, kept.size, LEND(words)));
        CHECK(WORD(FEED_USED) <= kept.size && WORD(FEED_OVER) == 0);
        pass(&kept, WORD(FEED_USED));
    }
    DONE(eiderwagon_missing_finish(LEND(reading), LEND(edges), kept.bytes, kept.size));
    DONE(eiderwagon_missing_count(LEND(reading), LEND(edges), LEND(words)));
    CHECK(WORD(MISSING_COUNT_LISTED) == 1 && WORD(MISSING_COUNT_RANGES) == 2 && WORD(MISSING_COUNT_NUMBERS) == 5);
    DONE(eiderwagon_missing_range(LEND(reading), LEND(edges), 1, LEND(words)));
    CHECK(WORD(MISSING_RANGE_FOUND) == 1 && WORD(MISSING_RANGE_FROM) == 5 && WORD(MISSING_RANGE_TO) == 8);
    DONE(eiderwagon_missing_range(LEND(reading), LEND(edges), 2, LEND(words)));
    CHECK(WORD(MISSING_RANGE_FOUND) == 0 && WORD(MISSING_RANGE_FROM) == 0 && WORD(MISSING_RANGE_TO) == 0);
    DONE(eiderwagon_missing_write(LEND(reading), LEND(edges), LEND(out), LEND(words)));
    CHECK(same(out, WORD(WRITE_SIZE), gaps));
}

static void list_what_is_missing(void) {
    const Bytes capture = gappy_capture();
    for (size_t piece = 1; piece <= 7; piece++) {
        list_in_pieces(&capture, piece);
    }
    list_in_pieces(&capture, capture.size);
}

/* ---- 4. Refusals ------------------------------------------------------------------------------------------------- */

/* Everything that a call of this part may be lent to write in. */
static struct {
    uint8_t state[EIDERWAGON_CAPTURE_SIZE];
    uint8_t cursor[EIDERWAGON_CURSOR_SIZE];
    uint8_t out[EIDERWAGON_LARGEST_PACKET];
    uint64_t words[EIDERWAGON_EARLY_TAKE_WORDS]; /* no function has more */
    uint64_t places[4 * EIDERWAGON_EARLY_PLACE_WORDS];
    uint8_t walk[EIDERWAGON_WALK_SIZE];
    uint8_t slots[EIDERWAGON_SLOTS_SIZE];
    uint64_t edges[EIDERWAGON_MISSING_EDGES];
    uint8_t text[EIDERWAGON_MISSING_TEXT];
} lent, before;

#define SLOTS LEND(lent.slots)
#define EDGES LEND(lent.edges)

#define LENT(name) lent.words[EIDERWAGON_##name]

/* A call that is refused on this ground, and changes no byte of what it was lent. */
#define REFUSED(ground, call)                            \
    do {                                                 \
        memcpy(&before, &lent, sizeof lent);             \
        GIVES(EIDERWAGON_REFUSED_##ground, call);        \
        CHECK(memcmp(&before, &lent, sizeof lent) == 0); \
    } while (0)

static const uint8_t zeros[EIDERWAGON_LARGEST_DATAGRAM + 1];
static const uint16_t too_many_lengths[65535];

/* The first elements of a buffer: fewer than the call needs, or just as many. */
#define STATE(size) lent.state, (size_t)(size)
#define WALK(size) lent.walk, (size_t)(size)
#define SLOTS_OF(size) lent.slots, (size_t)(size)
#define EDGES_OF(size) lent.edges, (size_t)(size)
#define OUT(size) lent.out, (size_t)(size)
#define PLACES(size) lent.places, (size_t)(size)
#define PART(array, size) (array), (size_t)(size)

/* As many words as a function needs, and one fewer. */
#define WORDS(function) lent.words, (size_t)EIDERWAGON_##function##_WORDS
#define FEWER(function) lent.words, (size_t)EIDERWAGON_##function##_WORDS - 1

static void refuse_datagrams(void) {
    const Bytes one = data(1, 1, (const uint16_t[]){3}, "one");
    Bytes bad = one;

    /* Too few words come behind every other ground. */
    REFUSED(OUTPUT_SHORT, eiderwagon_mold_read(one.bytes, one.size, FEWER(MOLD_READ)));
    REFUSED(DATAGRAM_SHORT, eiderwagon_mold_read(one.bytes, 19, FEWER(MOLD_READ)));
    REFUSED(DATAGRAM_SHORT, eiderwagon_mold_read(one.bytes, 19, WORDS(MOLD_READ)));
    REFUSED(DATAGRAM_LONG, eiderwagon_mold_read(zeros, EIDERWAGON_LARGEST_DATAGRAM + 1, WORDS(MOLD_READ)));
    REFUSED(NUMBER_ZERO, eiderwagon_mold_read(zeros, EIDERWAGON_LARGEST_DATAGRAM, WORDS(MOLD_READ)));
    REFUSED(NUMBER_ZERO, eiderwagon_mold_read(zeros, 20, WORDS(MOLD_READ)));
    REFUSED(BLOCK_PAST_END, eiderwagon_mold_read(one.bytes, one.size - 1, WORDS(MOLD_READ)));
    REFUSED(BYTES_AFTER_BLOCKS, eiderwagon_mold_read(one.bytes, one.size + 1, WORDS(MOLD_READ)));
    memset(bad.bytes + 10, 0xFF, 8);
    REFUSED(NUMBERS_RUN_OUT, eiderwagon_mold_read(bad.bytes, bad.size, WORDS(MOLD_READ)));

    REFUSED(OUTPUT_SHORT, eiderwagon_mold_locate(one.bytes, one.size, 0, FEWER(LOCATE)));
    REFUSED(OUTPUT_SHORT, eiderwagon_mold_walk(one.bytes, one.size, lent.cursor, EIDERWAGON_CURSOR_SIZE - 1));
    REFUSED(OUTPUT_SHORT,
            eiderwagon_mold_next(lent.cursor, EIDERWAGON_CURSOR_SIZE - 1, one.bytes, one.size, WORDS(NEXT)));
    REFUSED(OUTPUT_SHORT, eiderwagon_mold_next(LEND(lent.cursor), one.bytes, one.size, FEWER(NEXT)));
    REFUSED(OUTPUT_SHORT, eiderwagon_receiver_walk(one.bytes, one.size, 1, 0, lent.cursor, EIDERWAGON_CURSOR_SIZE - 1));
}

static void refuse_written_datagrams(void) {
    const uint16_t lengths[] = {3};
    const uint16_t long_length[] = {65486};

    /* A name of another size, too few words and a short output come behind every other ground. */
    REFUSED(OUTPUT_SHORT,
            eiderwagon_mold_write_data(name, 9, 1, LEND(lengths), TEXT("one"), LEND(lent.out), WORDS(WRITE)));
    REFUSED(OUTPUT_SHORT,
            eiderwagon_mold_write_data(TEXT("READROOM011"), 1, LEND(lengths), TEXT("one"), LEND(lent.out),
                                       WORDS(WRITE)));
    REFUSED(NUMBER_ZERO,
            eiderwagon_mold_write_data(name, 9, 0, LEND(lengths), TEXT("one"), LEND(lent.out), FEWER(WRITE)));
    REFUSED(OUTPUT_SHORT,
            eiderwagon_mold_write_data(LEND(name), 1, LEND(lengths), TEXT("one"), LEND(lent.out), FEWER(WRITE)));
    REFUSED(OUTPUT_SHORT, eiderwagon_mold_write_data(LEND(name), 1, LEND(lengths), TEXT("one"), OUT(24), WORDS(WRITE)));
    REFUSED(TOO_MANY_MESSAGES,
            eiderwagon_mold_write_data(LEND(name), 1, LEND(too_many_lengths), TEXT(""), OUT(0), FEWER(WRITE)));
    REFUSED(LENGTHS_DIFFER,
            eiderwagon_mold_write_data(LEND(name), 0, LEND(lengths), TEXT("four"), OUT(0), WORDS(WRITE)));
    REFUSED(NUMBER_ZERO, eiderwagon_mold_write_data(LEND(name), 0, LEND(lengths), TEXT("one"), OUT(0), WORDS(WRITE)));
    REFUSED(NUMBERS_RUN_OUT,
            eiderwagon_mold_write_data(LEND(name), UINT64_MAX, LEND(lengths), TEXT("one"), OUT(0), WORDS(WRITE)));
    REFUSED(DATAGRAM_LONG,
            eiderwagon_mold_write_data(LEND(name), 1, LEND(long_length), zeros, 65486, OUT(0), WORDS(WRITE)));

    REFUSED(OUTPUT_SHORT, eiderwagon_mold_write_heartbeat(name, 9, 1, LEND(lent.out), WORDS(WRITE)));
    REFUSED(OUTPUT_SHORT, eiderwagon_mold_write_heartbeat(TEXT("READROOM011"), 1, LEND(lent.out), WORDS(WRITE)));
    REFUSED(OUTPUT_SHORT, eiderwagon_mold_write_heartbeat(LEND(name), 1, LEND(lent.out), FEWER(WRITE)));
    REFUSED(OUTPUT_SHORT, eiderwagon_mold_write_heartbeat(LEND(name), 1, OUT(19), WORDS(WRITE)));
    REFUSED(NUMBER_ZERO, eiderwagon_mold_write_heartbeat(LEND(name), 0, OUT(19), WORDS(WRITE)));

    REFUSED(OUTPUT_SHORT, eiderwagon_mold_write_end(name, 9, 1, LEND(lent.out), WORDS(WRITE)));
    REFUSED(OUTPUT_SHORT, eiderwagon_mold_write_end(TEXT("READROOM011"), 1, LEND(lent.out), WORDS(WRITE)));
    REFUSED(OUTPUT_SHORT, eiderwagon_mold_write_end(LEND(name), 1, LEND(lent.out), FEWER(WRITE)));
    REFUSED(OUTPUT_SHORT, eiderwagon_mold_write_end(LEND(name), 1, OUT(19), WORDS(WRITE)));
    REFUSED(NUMBER_ZERO, eiderwagon_mold_write_end(LEND(name), 0, OUT(19), WORDS(WRITE)));
}

static void refuse_requests(void) {
    const Bytes count_zero = heartbeat(1);
    const Bytes count_of_an_end = end_of_session(1);

    REFUSED(OUTPUT_SHORT,
            eiderwagon_mold_read_request((const uint8_t *)"READROOM01\0\0\0\0\0\0\0\1\0\1", 20,
                                         FEWER(READ_REQUEST)));
    REFUSED(REQUEST_SIZE, eiderwagon_mold_read_request(zeros, 0, FEWER(READ_REQUEST)));
    REFUSED(REQUEST_SIZE, eiderwagon_mold_read_request(zeros, 21, WORDS(READ_REQUEST)));
    REFUSED(NUMBER_ZERO, eiderwagon_mold_read_request(zeros, 20, WORDS(READ_REQUEST)));
    REFUSED(REQUEST_COUNT, eiderwagon_mold_read_request(count_zero.bytes, 20, WORDS(READ_REQUEST)));
    REFUSED(REQUEST_COUNT, eiderwagon_mold_read_request(count_of_an_end.bytes, 20, WORDS(READ_REQUEST)));

    REFUSED(OUTPUT_SHORT, eiderwagon_mold_write_request(name, 9, 1, 1, LEND(lent.out), WORDS(WRITE)));
    REFUSED(OUTPUT_SHORT, eiderwagon_mold_write_request(TEXT("READROOM011"), 1, 1, LEND(lent.out), WORDS(WRITE)));
    REFUSED(OUTPUT_SHORT, eiderwagon_mold_write_request(LEND(name), 1, 1, LEND(lent.out), FEWER(WRITE)));
    REFUSED(OUTPUT_SHORT, eiderwagon_mold_write_request(LEND(name), 1, 1, OUT(19), WORDS(WRITE)));
    REFUSED(NUMBER_ZERO, eiderwagon_mold_write_request(LEND(name), 0, 0, OUT(19), WORDS(WRITE)));
    REFUSED(REQUEST_COUNT, eiderwagon_mold_write_request(LEND(name), 1, 0, OUT(19), WORDS(WRITE)));
    REFUSED(REQUEST_COUNT, eiderwagon_mold_write_request(LEND(name), 1, 65535, OUT(19), WORDS(WRITE)));
}

static void refuse_at_a_receiver(void) {
    const Bytes end_at_five = end_of_session(5);
    const Bytes end_at_four = end_of_session(4);
    Bytes other = end_at_five;
    other.bytes[9] = '2';

    REFUSED(BAD_SETTING, eiderwagon_receiver_start(name, 9, 5, 100, STATE(EIDERWAGON_RECEIVER_SIZE)));
    REFUSED(BAD_SETTING, eiderwagon_receiver_start(TEXT("READROOM011"), 5, 100, STATE(EIDERWAGON_RECEIVER_SIZE)));
    REFUSED(OUTPUT_SHORT, eiderwagon_receiver_start(LEND(name), 5, 100, STATE(EIDERWAGON_RECEIVER_SIZE - 1)));
    REFUSED(BAD_SETTING, eiderwagon_receiver_start(LEND(name), 0, 100, STATE(EIDERWAGON_RECEIVER_SIZE - 1)));
    REFUSED(BAD_SETTING, eiderwagon_receiver_start(LEND(name), 0, 100, LEND(lent.state)));
    REFUSED(BAD_SETTING, eiderwagon_receiver_start(LEND(name), 5, 0, LEND(lent.state)));
    REFUSED(BAD_SETTING, eiderwagon_receiver_start(LEND(name), 5, 65535, LEND(lent.state)));

    DONE(eiderwagon_receiver_start(LEND(name), 5, 100, LEND(lent.state)));
    /* 11 to 16 need no state; 17, 18 and 20 do, and come behind a short one, but before too few words. */
    REFUSED(DATAGRAM_SHORT, eiderwagon_receiver_take(STATE(EIDERWAGON_RECEIVER_SIZE - 1), zeros, 0, FEWER(TAKE)));
    REFUSED(OUTPUT_SHORT,
            eiderwagon_receiver_take(STATE(EIDERWAGON_RECEIVER_SIZE - 1), other.bytes, other.size, WORDS(TAKE)));
    REFUSED(OUTPUT_SHORT,
            eiderwagon_receiver_take(LEND(lent.state), end_at_five.bytes, end_at_five.size, FEWER(TAKE)));
    REFUSED(DATAGRAM_SHORT, eiderwagon_receiver_take(LEND(lent.state), zeros, 0, WORDS(TAKE)));
    REFUSED(SESSION_DIFFERS, eiderwagon_receiver_take(LEND(lent.state), other.bytes, other.size, FEWER(TAKE)));
    REFUSED(END_BELOW_EXPECTED,
            eiderwagon_receiver_take(LEND(lent.state), end_at_four.bytes, end_at_four.size, WORDS(TAKE)));

    DONE(eiderwagon_receiver_take(LEND(lent.state), end_at_five.bytes, end_at_five.size, WORDS(TAKE)));
    REFUSED(SESSION_ENDED,
            eiderwagon_receiver_take(LEND(lent.state), end_at_five.bytes, end_at_five.size, WORDS(TAKE)));
}

/* The same grounds in the same order at the call that lays places, and last too few of them: what is refused lays none,
 * and can be called again. */
static void refuse_to_deliver(void) {
    const Bytes end_at_five = end_of_session(5);
    const Bytes end_at_four = end_of_session(4);
    const Bytes four_to_six = data(4, 3, (const uint16_t[]){4, 0, 3}, "foursix");
    Bytes other = four_to_six;
    other.bytes[9] = '2';

    DONE(eiderwagon_receiver_start(LEND(name), 5, 100, LEND(lent.state)));
    REFUSED(DATAGRAM_SHORT,
            eiderwagon_receiver_deliver(STATE(EIDERWAGON_RECEIVER_SIZE - 1), zeros, 0, FEWER(TAKE), PLACES(0)));
    REFUSED(BLOCK_PAST_END, eiderwagon_receiver_deliver(LEND(lent.state), four_to_six.bytes, four_to_six.size - 1,
                                                        FEWER(TAKE), PLACES(0)));
    REFUSED(BYTES_AFTER_BLOCKS, eiderwagon_receiver_deliver(LEND(lent.state), four_to_six.bytes, four_to_six.size + 1,
                                                            WORDS(TAKE), PLACES(4)));
    REFUSED(OUTPUT_SHORT, eiderwagon_receiver_deliver(STATE(EIDERWAGON_RECEIVER_SIZE - 1), other.bytes, other.size,
                                                      WORDS(TAKE), PLACES(4)));
    REFUSED(SESSION_DIFFERS,
            eiderwagon_receiver_deliver(LEND(lent.state), other.bytes, other.size, FEWER(TAKE), PLACES(0)));
    REFUSED(END_BELOW_EXPECTED, eiderwagon_receiver_deliver(LEND(lent.state), end_at_four.bytes, end_at_four.size,
                                                            FEWER(TAKE), PLACES(4)));

    /* Messages 5 and 6 are delivered: four words, and neither one fewer nor none. */
    REFUSED(OUTPUT_SHORT, eiderwagon_receiver_deliver(LEND(lent.state), four_to_six.bytes, four_to_six.size,
                                                      FEWER(TAKE), PLACES(4)));
    for (size_t few = 0; few < 4; few++) {
        REFUSED(OUTPUT_SHORT, eiderwagon_receiver_deliver(LEND(lent.state), four_to_six.bytes, four_to_six.size,
                                                          WORDS(TAKE), PLACES(few)));
    }
    DONE(eiderwagon_receiver_deliver(LEND(lent.state), four_to_six.bytes, four_to_six.size, WORDS(TAKE), PLACES(4)));
    CHECK(LENT(TAKE_ANSWER) == EIDERWAGON_RECEIVER_DELIVER && LENT(TAKE_FIRST) == 5);
    CHECK(LENT(TAKE_COUNT) == 2 && LENT(TAKE_SKIPPED) == 1);
    CHECK(lent.places[0] == 28 && lent.places[1] == 0 && lent.places[2] == 30 && lent.places[3] == 3);

    DONE(eiderwagon_receiver_start(LEND(name), 5, 100, LEND(lent.state)));
    DONE(eiderwagon_receiver_deliver(LEND(lent.state), end_at_five.bytes, end_at_five.size, WORDS(TAKE), PLACES(0)));
    REFUSED(SESSION_ENDED, eiderwagon_receiver_deliver(LEND(lent.state), end_at_five.bytes, end_at_five.size,
                                                       FEWER(TAKE), PLACES(0)));
}

/* The receiver that keeps early messages: 19, for slots of another size, stands between 18 and 20. */
static void refuse_at_an_early_receiver(void) {
    const Bytes five = data(5, 2, (const uint16_t[]){4, 3}, "fivesix");
    const Bytes end_at_four = end_of_session(4);
    const Bytes end_at_five = end_of_session(5);
    const size_t slots = EIDERWAGON_SLOTS_SIZE;
    const size_t size = EIDERWAGON_EARLY_SIZE;
    Bytes other = five;
    other.bytes[9] = '2';

    REFUSED(BAD_SETTING, eiderwagon_early_start(name, 9, 5, 100, STATE(size - 1)));
    REFUSED(BAD_SETTING, eiderwagon_early_start(LEND(name), 0, 100, STATE(size - 1)));
    REFUSED(BAD_SETTING, eiderwagon_early_start(LEND(name), 5, 0, LEND(lent.state)));
    REFUSED(BAD_SETTING, eiderwagon_early_start(LEND(name), 5, 65535, LEND(lent.state)));
    REFUSED(OUTPUT_SHORT, eiderwagon_early_start(LEND(name), 5, 100, STATE(size - 1)));

    DONE(eiderwagon_early_start(LEND(name), 5, 100, LEND(lent.state)));
    for (int at_once = 0; at_once <= 1; at_once++) {
#define EARLY(state, slots, datagram, datagram_size, words, places)                                \
    (at_once ? eiderwagon_early_deliver(state, slots, (datagram).bytes, datagram_size, words, places) \
             : eiderwagon_early_take(state, slots, (datagram).bytes, datagram_size, words))
        REFUSED(DATAGRAM_SHORT, EARLY(STATE(size - 1), SLOTS_OF(0), five, 19, FEWER(EARLY_TAKE), PLACES(0)));
        REFUSED(OUTPUT_SHORT,
                EARLY(STATE(size - 1), SLOTS_OF(0), other, other.size, FEWER(EARLY_TAKE), PLACES(0)));
        REFUSED(SESSION_DIFFERS,
                EARLY(LEND(lent.state), SLOTS_OF(0), other, other.size, FEWER(EARLY_TAKE), PLACES(0)));
        REFUSED(BAD_SETTING,
                EARLY(LEND(lent.state), SLOTS_OF(slots - 1), end_at_four, end_at_four.size, FEWER(EARLY_TAKE),
                      PLACES(0)));
        REFUSED(END_BELOW_EXPECTED,
                EARLY(LEND(lent.state), SLOTS, end_at_four, end_at_four.size, FEWER(EARLY_TAKE), PLACES(0)));
        REFUSED(OUTPUT_SHORT, EARLY(LEND(lent.state), SLOTS, five, five.size, FEWER(EARLY_TAKE), PLACES(6)));
    }
    REFUSED(OUTPUT_SHORT, eiderwagon_early_deliver(LEND(lent.state), SLOTS, five.bytes, five.size, WORDS(EARLY_TAKE),
                                                   PLACES(5)));

    /* What only reads: first too short a state, then the slots, then what it would write. */
    REFUSED(OUTPUT_SHORT,
            eiderwagon_early_count(STATE(size - 1), SLOTS_OF(0), five.bytes, five.size, FEWER(EARLY_COUNT)));
    REFUSED(BAD_SETTING,
            eiderwagon_early_count(LEND(lent.state), SLOTS_OF(slots - 1), five.bytes, five.size, FEWER(EARLY_COUNT)));
    REFUSED(OUTPUT_SHORT, eiderwagon_early_count(LEND(lent.state), SLOTS, five.bytes, five.size, FEWER(EARLY_COUNT)));
    REFUSED(OUTPUT_SHORT,
            eiderwagon_early_locate(STATE(size - 1), SLOTS_OF(0), five.bytes, five.size, 0, FEWER(PART)));
    REFUSED(BAD_SETTING,
            eiderwagon_early_locate(LEND(lent.state), SLOTS_OF(0), five.bytes, five.size, 0, FEWER(PART)));
    REFUSED(OUTPUT_SHORT, eiderwagon_early_locate(LEND(lent.state), SLOTS, five.bytes, five.size, 0, FEWER(PART)));
    REFUSED(OUTPUT_SHORT,
            eiderwagon_early_walk(STATE(size - 1), SLOTS_OF(0), five.bytes, five.size, WALK(0)));
    REFUSED(BAD_SETTING, eiderwagon_early_walk(LEND(lent.state), SLOTS_OF(0), five.bytes, five.size, WALK(0)));
    REFUSED(OUTPUT_SHORT, eiderwagon_early_walk(LEND(lent.state), SLOTS, five.bytes, five.size,
                                                WALK(EIDERWAGON_WALK_SIZE - 1)));
    DONE(eiderwagon_early_walk(LEND(lent.state), SLOTS, five.bytes, five.size, LEND(lent.walk)));
    REFUSED(OUTPUT_SHORT, eiderwagon_early_next(WALK(EIDERWAGON_WALK_SIZE - 1), LEND(lent.state), SLOTS_OF(0),
                                                five.bytes, five.size, FEWER(PART)));
    REFUSED(OUTPUT_SHORT, eiderwagon_early_next(LEND(lent.walk), STATE(size - 1), SLOTS_OF(0), five.bytes, five.size,
                                                FEWER(PART)));
    REFUSED(BAD_SETTING, eiderwagon_early_next(LEND(lent.walk), LEND(lent.state), SLOTS_OF(0), five.bytes, five.size,
                                               FEWER(PART)));
    REFUSED(OUTPUT_SHORT, eiderwagon_early_next(LEND(lent.walk), LEND(lent.state), SLOTS, five.bytes, five.size,
                                                FEWER(PART)));

    DONE(eiderwagon_early_take(LEND(lent.state), SLOTS, end_at_five.bytes, end_at_five.size, WORDS(EARLY_TAKE)));
    CHECK(LENT(EARLY_TAKE_ANSWER) == EIDERWAGON_EARLY_ENDED);
    REFUSED(SESSION_ENDED, eiderwagon_early_take(LEND(lent.state), SLOTS_OF(0), five.bytes, five.size,
                                                 FEWER(EARLY_TAKE)));
}

/* A receiver of a session that isn't known is named by any answer, and by no refusal: until then 17 is ten spaces, and
 * from then on every other name. */
static void learn_a_name(void) {
    static const uint8_t unknown[] = {' ', ' ', ' ', ' ', ' ', ' ', ' ', ' ', ' ', ' '};
    const Bytes below = end_of_session(4);
    const Bytes by_answer[] = {
        [EIDERWAGON_RECEIVER_DELIVER] = data(4, 3, (const uint16_t[]){4, 0, 3}, "foursix"),
        [EIDERWAGON_RECEIVER_OLD] = data(4, 1, (const uint16_t[]){4}, "four"),
        [EIDERWAGON_RECEIVER_QUIET] = heartbeat(5),
        [EIDERWAGON_RECEIVER_ASK] = heartbeat(7),
        [EIDERWAGON_RECEIVER_ENDED] = end_of_session(5),
    };
    const uint8_t *session = lent.state + EIDERWAGON_RECEIVER_SESSION_AT;
    for (uint64_t answer = EIDERWAGON_RECEIVER_DELIVER; answer <= EIDERWAGON_RECEIVER_ENDED; answer++) {
        const Bytes known = by_answer[answer];
        Bytes blank = known;
        Bytes other = known;
        memset(blank.bytes, ' ', EIDERWAGON_SESSION_SIZE);
        other.bytes[9] = '2';
        for (int at_once = 0; at_once <= 1; at_once++) {
            DONE(eiderwagon_receiver_start(LEND(unknown), 5, 100, LEND(lent.state)));
            REFUSED(SESSION_DIFFERS, eiderwagon_receiver_take(LEND(lent.state), blank.bytes, blank.size, WORDS(TAKE)));
            REFUSED(SESSION_DIFFERS, eiderwagon_receiver_deliver(LEND(lent.state), blank.bytes, blank.size, WORDS(TAKE),
                                                                 PLACES(4)));
            REFUSED(DATAGRAM_SHORT, eiderwagon_receiver_take(LEND(lent.state), known.bytes, 19, WORDS(TAKE)));
            REFUSED(END_BELOW_EXPECTED,
                    eiderwagon_receiver_take(LEND(lent.state), below.bytes, below.size, WORDS(TAKE)));
            REFUSED(OUTPUT_SHORT, eiderwagon_receiver_take(LEND(lent.state), known.bytes, known.size, FEWER(TAKE)));
            CHECK(memcmp(session, unknown, sizeof unknown) == 0);
            if (at_once) {
                DONE(eiderwagon_receiver_deliver(LEND(lent.state), known.bytes, known.size, WORDS(TAKE), PLACES(4)));
            } else {
                DONE(eiderwagon_receiver_take(LEND(lent.state), known.bytes, known.size, WORDS(TAKE)));
            }
            CHECK(LENT(TAKE_ANSWER) == answer && memcmp(session, name, sizeof name) == 0);
            REFUSED(SESSION_DIFFERS, eiderwagon_receiver_take(LEND(lent.state), other.bytes, other.size, WORDS(TAKE)));
            REFUSED(SESSION_DIFFERS, eiderwagon_receiver_deliver(LEND(lent.state), other.bytes, other.size, WORDS(TAKE),
                                                                 PLACES(4)));
            REFUSED(SESSION_DIFFERS, eiderwagon_receiver_take(LEND(lent.state), blank.bytes, blank.size, WORDS(TAKE)));
        }

        /* Ended without a name, as a reading's receiver is before its settings: every other name is 18. */
        DONE(eiderwagon_receiver_start(LEND(unknown), 5, 100, LEND(lent.state)));
        lent.state[EIDERWAGON_RECEIVER_CODE_AT] = 0;
        REFUSED(SESSION_DIFFERS, eiderwagon_receiver_take(LEND(lent.state), blank.bytes, blank.size, WORDS(TAKE)));
        REFUSED(SESSION_ENDED, eiderwagon_receiver_take(LEND(lent.state), known.bytes, known.size, WORDS(TAKE)));
        REFUSED(SESSION_ENDED, eiderwagon_receiver_take(LEND(lent.state), other.bytes, other.size, WORDS(TAKE)));
    }
}

/* A store's call with the parts that a test changes: its name, first number, size, request, output and words. */
#define ANSWER(session, first, size, request, out, words) \
    eiderwagon_store_answer(session, first, LEND(kept_lengths), TEXT(kept), size, request, out, words)

static void refuse_at_a_store(void) {
    const Bytes count_zero = heartbeat(6);
    const uint8_t six[] = "READROOM01\0\0\0\0\0\0\0\6\0\1";
    const uint8_t eight[] = "READROOM01\0\0\0\0\0\0\0\10\0\1";
    const uint8_t five[] = "READROOM01\0\0\0\0\0\0\0\5\0\1";
    const uint8_t ten[] = "READROOM01\0\0\0\0\0\0\0\12\0\1";
    const uint8_t other[] = "READROOM02\0\0\0\0\0\0\0\5\0\1";

    /* The store's own grounds come first, and then the request's. */
    REFUSED(BAD_SETTING, ANSWER(PART(name, 9), 6, 21, PART(zeros, 0), OUT(0), FEWER(WRITE)));
    REFUSED(BAD_SETTING, ANSWER(LEND(name), 6, 65508, PART(six, 20), LEND(lent.out), WORDS(WRITE)));
    REFUSED(BAD_SETTING, ANSWER(LEND(name), 6, UINT64_MAX, PART(six, 20), LEND(lent.out), WORDS(WRITE)));
    REFUSED(BAD_SETTING, ANSWER(LEND(name), 0, 29, PART(six, 20), LEND(lent.out), WORDS(WRITE)));
    REFUSED(BAD_SETTING, ANSWER(LEND(name), UINT64_MAX - 3, 29, PART(six, 20), LEND(lent.out), WORDS(WRITE)));
    REFUSED(LENGTHS_DIFFER,
            eiderwagon_store_answer(name, 9, 6, LEND(kept_lengths), TEXT("one"), 29, zeros, 0, OUT(0), FEWER(WRITE)));
    REFUSED(REQUEST_SIZE, ANSWER(PART(name, 9), 6, 29, PART(six, 19), OUT(0), FEWER(WRITE)));
    REFUSED(REQUEST_SIZE, ANSWER(LEND(name), 6, 29, PART(six, 21), LEND(lent.out), WORDS(WRITE)));
    REFUSED(NUMBER_ZERO, ANSWER(PART(name, 9), 6, 29, PART(zeros, 20), OUT(0), FEWER(WRITE)));
    REFUSED(REQUEST_COUNT, ANSWER(PART(name, 9), 6, 29, PART(count_zero.bytes, 20), OUT(0), FEWER(WRITE)));
    /* A session that isn't ten bytes comes in the place of 53, 51 and 52. */
    REFUSED(OUTPUT_SHORT, ANSWER(PART(name, 9), 6, 29, PART(other, 20), LEND(lent.out), WORDS(WRITE)));
    REFUSED(OUTPUT_SHORT, ANSWER(TEXT("READROOM011"), 6, 29, PART(five, 20), LEND(lent.out), WORDS(WRITE)));
    REFUSED(OUTPUT_SHORT, ANSWER(PART(name, 0), 6, 26, PART(eight, 20), LEND(lent.out), WORDS(WRITE)));
    REFUSED(STORE_DIFFERS, ANSWER(LEND(name), 6, 29, PART(other, 20), OUT(0), FEWER(WRITE)));
    REFUSED(NOT_IN_STORE, ANSWER(LEND(name), 6, 29, PART(five, 20), OUT(0), FEWER(WRITE)));
    REFUSED(NOT_IN_STORE, ANSWER(LEND(name), 6, 29, PART(ten, 20), LEND(lent.out), WORDS(WRITE)));
    REFUSED(MESSAGE_LONG, ANSWER(LEND(name), 6, 26, PART(eight, 20), OUT(0), FEWER(WRITE)));
    REFUSED(OUTPUT_SHORT, ANSWER(LEND(name), 6, 29, PART(six, 20), OUT(24), WORDS(WRITE)));
    REFUSED(OUTPUT_SHORT, ANSWER(LEND(name), 6, 29, PART(six, 20), LEND(lent.out), FEWER(WRITE)));

    /* A store of no messages is good, and has no number. */
    REFUSED(NOT_IN_STORE,
            eiderwagon_store_answer(LEND(name), 6, NULL, 0, NULL, 0, 29, six, 20, LEND(lent.out), WORDS(WRITE)));
}

/* A transmitter's calls with the parts that a test changes. */
#define PACKET(session, first, size, place, out, words) \
    eiderwagon_transmitter_packet(session, first, LEND(kept_lengths), TEXT(kept), size, place, out, words)
#define START(first, size, state) eiderwagon_transmitter_start(first, LEND(kept_lengths), TEXT(kept), size, state)
#define NEXT_PACKET(session, first, size, state, out, words) \
    eiderwagon_transmitter_next(session, first, LEND(kept_lengths), TEXT(kept), size, state, out, words)

static void refuse_at_a_transmitter(void) {
    const uint16_t twelve[] = {12};

    REFUSED(BAD_SETTING, PACKET(PART(name, 9), 0, 21, 3, OUT(0), FEWER(WRITE)));
    REFUSED(BAD_SETTING, PACKET(LEND(name), 6, 65508, 0, LEND(lent.out), WORDS(WRITE)));
    REFUSED(LENGTHS_DIFFER,
            eiderwagon_transmitter_packet(name, 9, 0, LEND(kept_lengths), TEXT("one"), 22, 9, OUT(0), FEWER(WRITE)));
    REFUSED(NUMBER_ZERO, PACKET(PART(name, 9), 0, 22, 9, OUT(0), FEWER(WRITE)));
    REFUSED(NUMBERS_RUN_OUT, PACKET(PART(name, 9), UINT64_MAX - 3, 22, 9, OUT(0), FEWER(WRITE)));
    /* A message that fits no packet is refused at every place, behind the last one too. */
    REFUSED(MESSAGE_LONG, PACKET(PART(name, 9), 6, 26, 0, OUT(0), FEWER(WRITE)));
    REFUSED(MESSAGE_LONG, PACKET(LEND(name), 6, 26, 9, LEND(lent.out), WORDS(WRITE)));
    REFUSED(NO_SUCH_PACKET, PACKET(PART(name, 9), 6, 29, 3, OUT(0), FEWER(WRITE)));
    REFUSED(NO_SUCH_PACKET, PACKET(LEND(name), 6, 29, UINT64_MAX, LEND(lent.out), WORDS(WRITE)));
    REFUSED(OUTPUT_SHORT, PACKET(PART(name, 9), 6, 29, 0, LEND(lent.out), WORDS(WRITE)));
    REFUSED(OUTPUT_SHORT, PACKET(TEXT("READROOM011"), 6, 29, 0, LEND(lent.out), WORDS(WRITE)));
    REFUSED(OUTPUT_SHORT, PACKET(LEND(name), 6, 29, 0, OUT(26), WORDS(WRITE)));
    REFUSED(OUTPUT_SHORT, PACKET(LEND(name), 6, 29, 0, LEND(lent.out), FEWER(WRITE)));
    /* A run of no messages has no packet. */
    REFUSED(NO_SUCH_PACKET,
            eiderwagon_transmitter_packet(LEND(name), UINT64_MAX, NULL, 0, NULL, 0, 22, 0, LEND(lent.out),
                                          WORDS(WRITE)));

    REFUSED(BAD_SETTING, START(0, 21, STATE(0)));
    REFUSED(LENGTHS_DIFFER, eiderwagon_transmitter_start(0, LEND(kept_lengths), TEXT("one"), 22, STATE(0)));
    REFUSED(NUMBER_ZERO, START(0, 22, STATE(0)));
    REFUSED(NUMBERS_RUN_OUT, START(UINT64_MAX - 3, 22, STATE(0)));
    REFUSED(MESSAGE_LONG, START(6, 26, STATE(0)));
    REFUSED(OUTPUT_SHORT, START(6, 29, STATE(EIDERWAGON_TRANSMITTER_SIZE - 1)));

    DONE(START(6, 29, LEND(lent.state)));
    /* The size alone needs no state. */
    REFUSED(BAD_SETTING, NEXT_PACKET(PART(name, 9), 6, 21, STATE(0), OUT(0), FEWER(WRITE)));
    REFUSED(OUTPUT_SHORT, NEXT_PACKET(LEND(name), 6, 29, STATE(EIDERWAGON_TRANSMITTER_SIZE - 1), LEND(lent.out),
                                      WORDS(WRITE)));
    REFUSED(OUTPUT_SHORT, NEXT_PACKET(PART(name, 9), 6, 29, LEND(lent.state), LEND(lent.out), WORDS(WRITE)));
    REFUSED(OUTPUT_SHORT, NEXT_PACKET(LEND(name), 6, 29, LEND(lent.state), OUT(26), WORDS(WRITE)));
    REFUSED(OUTPUT_SHORT, NEXT_PACKET(LEND(name), 6, 29, LEND(lent.state), LEND(lent.out), FEWER(WRITE)));
    /* Another run than the one that was started: its next packet is looked at, and what is left of it comes first. */
    REFUSED(LENGTHS_DIFFER,
            eiderwagon_transmitter_next(name, 9, 0, LEND(twelve), TEXT("one"), 34, LEND(lent.state), OUT(0),
                                        FEWER(WRITE)));
    REFUSED(NUMBER_ZERO, NEXT_PACKET(PART(name, 9), 0, 24, LEND(lent.state), OUT(0), FEWER(WRITE)));
    REFUSED(NUMBERS_RUN_OUT, NEXT_PACKET(PART(name, 9), UINT64_MAX, 29, LEND(lent.state), OUT(0), FEWER(WRITE)));
    REFUSED(MESSAGE_LONG, NEXT_PACKET(PART(name, 9), 6, 24, LEND(lent.state), OUT(0), FEWER(WRITE)));
    DONE(NEXT_PACKET(LEND(name), 6, 29, LEND(lent.state), LEND(lent.out), WORDS(WRITE)));
    REFUSED(NO_SUCH_PACKET,
            eiderwagon_transmitter_next(name, 9, 0, LEND(twelve), TEXT("one"), 29, LEND(lent.state), OUT(0),
                                        FEWER(WRITE)));
    memset(lent.state, 0, sizeof lent.state);
    REFUSED(NO_SUCH_PACKET, NEXT_PACKET(PART(name, 9), 0, 29, LEND(lent.state), OUT(0), FEWER(WRITE)));
}

static void refuse_packets(void) {
    REFUSED(OUTPUT_SHORT, eiderwagon_soup_read(TEXT("\0\1H"), EIDERWAGON_SOUP_FROM_SERVER, FEWER(SOUP_READ)));
    REFUSED(OUTPUT_SHORT, eiderwagon_soup_read(zeros, 0, EIDERWAGON_SOUP_FROM_SERVER, FEWER(SOUP_READ)));
    REFUSED(LENGTH_ZERO, eiderwagon_soup_read(zeros, 2, EIDERWAGON_SOUP_FROM_SERVER, FEWER(SOUP_READ)));
    REFUSED(PAYLOAD_LONG, eiderwagon_soup_read(TEXT("\x10\2"), EIDERWAGON_SOUP_FROM_SERVER, WORDS(SOUP_READ)));
    REFUSED(LETTER_NOT_SENT, eiderwagon_soup_read(TEXT("\0\1H"), EIDERWAGON_SOUP_FROM_CLIENT, WORDS(SOUP_READ)));
    REFUSED(LETTER_NOT_SENT, eiderwagon_soup_read(TEXT("\0\1H"), 255, WORDS(SOUP_READ)));
    REFUSED(LENGTH_WRONG, eiderwagon_soup_read(TEXT("\0\2H"), EIDERWAGON_SOUP_FROM_SERVER, WORDS(SOUP_READ)));
    REFUSED(FIELD_BAD, eiderwagon_soup_read(TEXT("\0\2JX"), EIDERWAGON_SOUP_FROM_SERVER, WORDS(SOUP_READ)));

    /* A scan isn't refused by what stopped it: the number stands in its answer. */
    REFUSED(OUTPUT_SHORT, eiderwagon_soup_scan(TEXT("\0\1H"), EIDERWAGON_SOUP_FROM_SERVER, FEWER(SCAN)));
    DONE(eiderwagon_soup_scan(TEXT("\0\1H\0\2JX"), EIDERWAGON_SOUP_FROM_SERVER, WORDS(SCAN)));
    CHECK(LENT(SCAN_COUNT) == 1 && LENT(SCAN_SIZE) == 3 && LENT(SCAN_REFUSAL) == EIDERWAGON_REFUSED_FIELD_BAD);
}

/* A writer of bytes, and one of a packet that has none: each lacks words, then an output; too many bytes come first. */
typedef uint32_t (*PayloadWriter)(const uint8_t *, size_t, uint8_t *, size_t, uint64_t *, size_t);
typedef uint32_t (*BareWriter)(uint8_t *, size_t, uint64_t *, size_t);

static void refuse_payload(PayloadWriter write) {
    REFUSED(OUTPUT_SHORT, write(zeros, 4096, LEND(lent.out), FEWER(WRITE)));
    REFUSED(OUTPUT_SHORT, write(zeros, 4096, OUT(EIDERWAGON_LARGEST_PACKET - 1), WORDS(WRITE)));
    REFUSED(PAYLOAD_LONG, write(zeros, 4097, OUT(0), FEWER(WRITE)));
}

static void refuse_bare(BareWriter write) {
    REFUSED(OUTPUT_SHORT, write(OUT(3), FEWER(WRITE)));
    REFUSED(OUTPUT_SHORT, write(OUT(2), WORDS(WRITE)));
}

static void refuse_written_packets(void) {
    refuse_payload(eiderwagon_soup_write_debug);
    refuse_payload(eiderwagon_soup_write_sequenced);
    refuse_payload(eiderwagon_soup_write_unsequenced);
    refuse_bare(eiderwagon_soup_write_server_heartbeat);
    refuse_bare(eiderwagon_soup_write_end);
    refuse_bare(eiderwagon_soup_write_client_heartbeat);
    refuse_bare(eiderwagon_soup_write_logout);

    REFUSED(FIELD_NOT_WRITTEN, eiderwagon_soup_write_accepted(name, 9, 1, LEND(lent.out), WORDS(WRITE)));
    REFUSED(FIELD_NOT_WRITTEN, eiderwagon_soup_write_accepted(TEXT("READROOM011"), 1, LEND(lent.out), WORDS(WRITE)));
    REFUSED(OUTPUT_SHORT, eiderwagon_soup_write_accepted(LEND(name), 1, LEND(lent.out), FEWER(WRITE)));
    REFUSED(OUTPUT_SHORT, eiderwagon_soup_write_accepted(LEND(name), 1, OUT(32), WORDS(WRITE)));
    REFUSED(FIELD_NOT_WRITTEN, eiderwagon_soup_write_accepted(LEND(name), 0, OUT(32), FEWER(WRITE)));
    REFUSED(FIELD_NOT_WRITTEN, eiderwagon_soup_write_accepted(TEXT(any_session), 1, OUT(32), WORDS(WRITE)));

    REFUSED(OUTPUT_SHORT, eiderwagon_soup_write_rejected('A', LEND(lent.out), FEWER(WRITE)));
    REFUSED(OUTPUT_SHORT, eiderwagon_soup_write_rejected('A', OUT(3), WORDS(WRITE)));
    REFUSED(FIELD_NOT_WRITTEN, eiderwagon_soup_write_rejected('X', OUT(3), FEWER(WRITE)));

    /* A field of another size, shorter or longer, is one that isn't written. */
    REFUSED(FIELD_NOT_WRITTEN,
            eiderwagon_soup_write_login(TEXT("clerk"), TEXT("desk5     "), LEND(name), 1,
                                        LEND(lent.out), WORDS(WRITE)));
    REFUSED(FIELD_NOT_WRITTEN,
            eiderwagon_soup_write_login(TEXT("clerk  "), TEXT("desk5     "), LEND(name), 1,
                                        LEND(lent.out), WORDS(WRITE)));
    REFUSED(FIELD_NOT_WRITTEN,
            eiderwagon_soup_write_login(TEXT("clerk "), TEXT("desk5    "), LEND(name), 1,
                                        LEND(lent.out), WORDS(WRITE)));
    REFUSED(FIELD_NOT_WRITTEN,
            eiderwagon_soup_write_login(TEXT("clerk "), TEXT("desk5      "), LEND(name), 1,
                                        LEND(lent.out), WORDS(WRITE)));
    REFUSED(FIELD_NOT_WRITTEN,
            eiderwagon_soup_write_login(TEXT("clerk "), TEXT("desk5     "), name, 9, 1, LEND(lent.out), WORDS(WRITE)));
    REFUSED(FIELD_NOT_WRITTEN,
            eiderwagon_soup_write_login(TEXT("clerk "), TEXT("desk5     "), TEXT("READROOM011"), 1,
                                        LEND(lent.out), WORDS(WRITE)));
    REFUSED(OUTPUT_SHORT,
            eiderwagon_soup_write_login(TEXT("clerk "), TEXT("desk5     "), LEND(name), 1,
                                        LEND(lent.out), FEWER(WRITE)));
    REFUSED(OUTPUT_SHORT,
            eiderwagon_soup_write_login(TEXT("clerk "), TEXT("desk5     "), LEND(name), 1, OUT(48), WORDS(WRITE)));
    REFUSED(FIELD_NOT_WRITTEN,
            eiderwagon_soup_write_login(TEXT("      "), TEXT("desk5     "), LEND(name), 1, OUT(48), WORDS(WRITE)));
    REFUSED(FIELD_NOT_WRITTEN,
            eiderwagon_soup_write_login(TEXT("clerk "), zeros, 10, LEND(name), 1, OUT(48), FEWER(WRITE)));
}

/* One step of the server, or the client, that is kept in lent.state. */
#define SERVER_STEP(stream) \
    eiderwagon_server_step(STATE(EIDERWAGON_SERVER_SIZE), TEXT(accounts), TEXT(stream), WORDS(SERVER_STEP))
#define CLIENT_STEP(stream) eiderwagon_client_step(STATE(EIDERWAGON_CLIENT_SIZE), TEXT(stream), WORDS(SERVER_STEP))

#define LOGIN "\0\x2F" "Lclerk desk5               " "                   1"
#define ACCEPTED "\0\x1F" "AREADROOM01" "18446744073709551615"

static void refuse_at_a_server(void) {
    REFUSED(BAD_SETTING, eiderwagon_server_start(name, 9, 0, STATE(EIDERWAGON_SERVER_SIZE)));
    REFUSED(BAD_SETTING, eiderwagon_server_start(TEXT("READROOM011"), 0, STATE(EIDERWAGON_SERVER_SIZE)));
    REFUSED(OUTPUT_SHORT, eiderwagon_server_start(LEND(name), 0, STATE(EIDERWAGON_SERVER_SIZE - 1)));
    REFUSED(BAD_SETTING, eiderwagon_server_start(LEND(name), UINT64_MAX, STATE(EIDERWAGON_SERVER_SIZE - 1)));
    REFUSED(BAD_SETTING, eiderwagon_server_start(TEXT(any_session), 0, LEND(lent.state)));

    DONE(eiderwagon_server_start(LEND(name), 5, LEND(lent.state)));
    /* That a number falls is the state's own ground, and that it is too high isn't. */
    REFUSED(BAD_SETTING, eiderwagon_server_set_last(STATE(EIDERWAGON_SERVER_SIZE - 1), UINT64_MAX));
    REFUSED(OUTPUT_SHORT, eiderwagon_server_set_last(STATE(EIDERWAGON_SERVER_SIZE - 1), 4));
    REFUSED(BAD_SETTING, eiderwagon_server_set_last(LEND(lent.state), 4));
    REFUSED(BAD_SETTING, eiderwagon_server_set_last(LEND(lent.state), UINT64_MAX));

    DONE(eiderwagon_server_start(LEND(name), 0, LEND(lent.state)));
    /* 19 and 21 to 25 need no state; 32 and 31 do, and come behind a short one, but before too few words. */
    REFUSED(LENGTH_ZERO,
            eiderwagon_server_step(STATE(EIDERWAGON_SERVER_SIZE - 1), TEXT(accounts), zeros, 2, FEWER(SERVER_STEP)));
    REFUSED(OUTPUT_SHORT,
            eiderwagon_server_step(STATE(EIDERWAGON_SERVER_SIZE - 1), TEXT(accounts), TEXT("\0\1U"),
                                   WORDS(SERVER_STEP)));
    REFUSED(PACKET_NOT_TAKEN,
            eiderwagon_server_step(STATE(EIDERWAGON_SERVER_SIZE), TEXT(accounts), TEXT("\0\1U"), FEWER(SERVER_STEP)));
    /* more is needed: a short state and too few words are refused all the same */
    REFUSED(OUTPUT_SHORT,
            eiderwagon_server_step(STATE(EIDERWAGON_SERVER_SIZE - 1), TEXT(accounts), zeros, 1, WORDS(SERVER_STEP)));
    REFUSED(OUTPUT_SHORT,
            eiderwagon_server_step(STATE(EIDERWAGON_SERVER_SIZE), TEXT(accounts), zeros, 1, FEWER(SERVER_STEP)));
    REFUSED(BAD_SETTING, eiderwagon_server_step(STATE(0), zeros, 1025 * EIDERWAGON_ACCOUNT_SIZE, zeros, 0,
                                                FEWER(SERVER_STEP)));
    REFUSED(LENGTH_ZERO, SERVER_STEP("\0\0"));
    REFUSED(PACKET_NOT_TAKEN, SERVER_STEP("\0\1U"));
    DONE(SERVER_STEP(LOGIN));
    CHECK(LENT(SERVER_STEP_ANSWER) == EIDERWAGON_SESSION_ACCEPTED);
    REFUSED(PACKET_NOT_TAKEN, SERVER_STEP(LOGIN));
    DONE(SERVER_STEP("\0\1O"));
    REFUSED(STATE_CLOSED, SERVER_STEP("\0\1+"));
}

/* A reply that can't be written undoes its step: the login is still in front. */
static void refuse_a_reply(void) {
    DONE(eiderwagon_server_start(LEND(name), 0, LEND(lent.state)));
    REFUSED(BAD_SETTING,
            eiderwagon_server_reply(STATE(0), zeros, 1025 * EIDERWAGON_ACCOUNT_SIZE, TEXT(LOGIN), OUT(0),
                                    FEWER(SERVER_REPLY)));
    REFUSED(LENGTH_ZERO,
            eiderwagon_server_reply(STATE(0), TEXT(accounts), zeros, 2, OUT(0), FEWER(SERVER_REPLY)));
    REFUSED(OUTPUT_SHORT,
            eiderwagon_server_reply(STATE(EIDERWAGON_SERVER_SIZE - 1), TEXT(accounts), TEXT(LOGIN), LEND(lent.out),
                                    WORDS(SERVER_REPLY)));
    REFUSED(PACKET_NOT_TAKEN,
            eiderwagon_server_reply(LEND(lent.state), TEXT(accounts), TEXT("\0\1U"), OUT(0), FEWER(SERVER_REPLY)));
    REFUSED(OUTPUT_SHORT,
            eiderwagon_server_reply(LEND(lent.state), TEXT(accounts), TEXT(LOGIN), OUT(EIDERWAGON_LARGEST_REPLY - 1),
                                    WORDS(SERVER_REPLY)));
    REFUSED(OUTPUT_SHORT,
            eiderwagon_server_reply(LEND(lent.state), TEXT(accounts), TEXT(LOGIN), LEND(lent.out),
                                    FEWER(SERVER_REPLY)));
    REFUSED(OUTPUT_SHORT,
            eiderwagon_server_reply(LEND(lent.state), zeros, 0, TEXT(LOGIN), OUT(3), WORDS(SERVER_REPLY)));
    /* by hand alone a server has a session that can't stand in 'A' */
    memset(lent.state + EIDERWAGON_SERVER_SESSION_AT, ' ', EIDERWAGON_SESSION_SIZE);
    REFUSED(FIELD_NOT_WRITTEN,
            eiderwagon_server_reply(LEND(lent.state), TEXT(accounts), TEXT(LOGIN), OUT(0), FEWER(SERVER_REPLY)));
    DONE(eiderwagon_server_reply(LEND(lent.state), zeros, 0, TEXT(LOGIN), OUT(4), WORDS(SERVER_REPLY)));
    CHECK(LENT(SERVER_REPLY_ANSWER) == EIDERWAGON_SESSION_REJECTED && LENT(SERVER_REPLY_WRITTEN) == 4);
    REFUSED(STATE_CLOSED,
            eiderwagon_server_reply(LEND(lent.state), TEXT(accounts), TEXT(LOGIN), OUT(0), FEWER(SERVER_REPLY)));
}

static void refuse_at_a_client(void) {
    REFUSED(BAD_SETTING, eiderwagon_client_start(name, 9, 1, STATE(EIDERWAGON_CLIENT_SIZE)));
    REFUSED(BAD_SETTING, eiderwagon_client_start(TEXT("READROOM011"), 1, STATE(EIDERWAGON_CLIENT_SIZE)));
    REFUSED(OUTPUT_SHORT, eiderwagon_client_start(LEND(name), 1, STATE(EIDERWAGON_CLIENT_SIZE - 1)));
    REFUSED(BAD_SETTING, eiderwagon_client_start(zeros, 10, 1, STATE(0)));

    DONE(eiderwagon_client_start(LEND(name), 1, LEND(lent.state)));
    REFUSED(LENGTH_ZERO, eiderwagon_client_step(STATE(EIDERWAGON_CLIENT_SIZE - 1), zeros, 2, FEWER(CLIENT_STEP)));
    REFUSED(OUTPUT_SHORT,
            eiderwagon_client_step(STATE(EIDERWAGON_CLIENT_SIZE - 1), TEXT("\0\1S"), WORDS(CLIENT_STEP)));
    REFUSED(PACKET_NOT_TAKEN,
            eiderwagon_client_step(STATE(EIDERWAGON_CLIENT_SIZE), TEXT("\0\1S"), FEWER(CLIENT_STEP)));
    REFUSED(OUTPUT_SHORT, eiderwagon_client_step(STATE(EIDERWAGON_CLIENT_SIZE), zeros, 1, FEWER(CLIENT_STEP)));
    REFUSED(LENGTH_ZERO, CLIENT_STEP("\0\0"));
    REFUSED(PACKET_NOT_TAKEN, CLIENT_STEP("\0\1S"));
    REFUSED(LOGIN_NOT_ASKED, CLIENT_STEP(ACCEPTED));

    DONE(eiderwagon_client_start(LEND(name), 0, LEND(lent.state)));
    DONE(CLIENT_STEP(ACCEPTED));
    REFUSED(NUMBERS_USED_UP, CLIENT_STEP("\0\1S"));
    DONE(CLIENT_STEP("\0\1Z"));
    REFUSED(STATE_CLOSED, CLIENT_STEP("\0\1H"));
}

static void refuse_captures(void) {
    REFUSED(OUTPUT_SHORT, eiderwagon_capture_start(STATE(EIDERWAGON_CAPTURE_SIZE - 1)));
    DONE(eiderwagon_capture_start(LEND(lent.state)));
    REFUSED(OUTPUT_SHORT, eiderwagon_capture_feed(STATE(EIDERWAGON_CAPTURE_SIZE - 1), SLOTS, TEXT("bad"), WORDS(FEED)));
    REFUSED(OUTPUT_SHORT, eiderwagon_capture_feed(LEND(lent.state), SLOTS, TEXT("bad"), FEWER(FEED)));
    REFUSED(OUTPUT_SHORT, eiderwagon_capture_finish(STATE(EIDERWAGON_CAPTURE_SIZE - 1), SLOTS, TEXT("bad")));
    /* slots of another size, behind a short state and before too few words */
    REFUSED(OUTPUT_SHORT,
            eiderwagon_capture_feed(STATE(EIDERWAGON_CAPTURE_SIZE - 1), SLOTS_OF(0), TEXT("bad"), FEWER(FEED)));
    REFUSED(BAD_SETTING, eiderwagon_capture_feed(LEND(lent.state), SLOTS_OF(0), TEXT("bad"), FEWER(FEED)));
    REFUSED(OUTPUT_SHORT, eiderwagon_capture_finish(STATE(EIDERWAGON_CAPTURE_SIZE - 1), SLOTS_OF(0), TEXT("bad")));
    REFUSED(BAD_SETTING,
            eiderwagon_capture_finish(LEND(lent.state), SLOTS_OF(EIDERWAGON_SLOTS_SIZE - 1), TEXT("bad")));
    REFUSED(OUTPUT_SHORT, eiderwagon_capture_write(STATE(EIDERWAGON_CAPTURE_SIZE - 1), LEND(lent.out), WORDS(WRITE)));
    REFUSED(OUTPUT_SHORT, eiderwagon_capture_write(LEND(lent.state), LEND(lent.out), FEWER(WRITE)));
    REFUSED(OUTPUT_SHORT, eiderwagon_capture_write(LEND(lent.state), OUT(16), WORDS(WRITE)));
    REFUSED(OUTPUT_SHORT, eiderwagon_capture_report(TEXT("bad"), LEND(lent.out), FEWER(WRITE)));
    REFUSED(OUTPUT_SHORT, eiderwagon_capture_report(TEXT("bad"), OUT(16), WORDS(WRITE)));
}

static void refuse_what_is_missing(void) {
    const size_t few = EIDERWAGON_MISSING_EDGES - 1;
    REFUSED(OUTPUT_SHORT, eiderwagon_missing_start(STATE(EIDERWAGON_MISSING_SIZE - 1)));
    DONE(eiderwagon_missing_start(LEND(lent.state)));
    REFUSED(OUTPUT_SHORT, eiderwagon_missing_feed(STATE(EIDERWAGON_MISSING_SIZE - 1), EDGES_OF(few), zeros, 57,
                                                  FEWER(FEED)));
    REFUSED(BAD_SETTING, eiderwagon_missing_feed(LEND(lent.state), EDGES_OF(few), zeros, 57, FEWER(FEED)));
    REFUSED(OUTPUT_SHORT, eiderwagon_missing_feed(LEND(lent.state), EDGES, zeros, 57, FEWER(FEED)));
    REFUSED(OUTPUT_SHORT, eiderwagon_missing_finish(STATE(EIDERWAGON_MISSING_SIZE - 1), EDGES_OF(few), zeros, 57));
    REFUSED(BAD_SETTING, eiderwagon_missing_finish(LEND(lent.state), EDGES_OF(few), zeros, 57));
    REFUSED(OUTPUT_SHORT, eiderwagon_missing_count(STATE(EIDERWAGON_MISSING_SIZE - 1), EDGES_OF(few),
                                                   FEWER(MISSING_COUNT)));
    REFUSED(BAD_SETTING, eiderwagon_missing_count(LEND(lent.state), EDGES_OF(few), FEWER(MISSING_COUNT)));
    REFUSED(OUTPUT_SHORT, eiderwagon_missing_count(LEND(lent.state), EDGES, FEWER(MISSING_COUNT)));
    REFUSED(OUTPUT_SHORT, eiderwagon_missing_range(STATE(EIDERWAGON_MISSING_SIZE - 1), EDGES_OF(few), 0,
                                                   FEWER(MISSING_RANGE)));
    REFUSED(BAD_SETTING, eiderwagon_missing_range(LEND(lent.state), EDGES_OF(few), 0, FEWER(MISSING_RANGE)));
    REFUSED(OUTPUT_SHORT, eiderwagon_missing_range(LEND(lent.state), EDGES, 0, FEWER(MISSING_RANGE)));
    REFUSED(OUTPUT_SHORT, eiderwagon_missing_write(STATE(EIDERWAGON_MISSING_SIZE - 1), EDGES_OF(few),
                                                   LEND(lent.text), FEWER(WRITE)));
    REFUSED(BAD_SETTING, eiderwagon_missing_write(LEND(lent.state), EDGES_OF(few), LEND(lent.text), FEWER(WRITE)));
    REFUSED(OUTPUT_SHORT, eiderwagon_missing_write(LEND(lent.state), EDGES, LEND(lent.text), FEWER(WRITE)));
    REFUSED(OUTPUT_SHORT, eiderwagon_missing_write(LEND(lent.state), EDGES, PART(lent.text, sizeof lent.text - 1),
                                                   WORDS(WRITE)));
}

/* ---- 5. What isn't named stays ----------------------------------------------------------------------------------- */

static int untouched(const void *place, size_t size) {
    const uint8_t *bytes = place;
    for (size_t at = 0; at < size; at++) {
        if (bytes[at] != 0xA5) {
            return 0;
        }
    }
    return 1;
}

/* A writer that is lent more than it needs: it writes so many bytes, and one word. */
#define WRITES(written, call)                                                           \
    do {                                                                                \
        memset(&lent, 0xA5, sizeof lent);                                               \
        DONE(call);                                                                     \
        CHECK(LENT(WRITE_SIZE) == (written));                                           \
        CHECK(untouched(&LENT(WRITE_WORDS), sizeof lent.words - sizeof lent.words[0])); \
        CHECK(untouched(lent.out + (written), sizeof lent.out - (written)));            \
    } while (0)

/* A call that is lent a state of EIDERWAGON_CAPTURE_SIZE bytes: it uses the first `size`. */
#define USES(size, call)                                                   \
    do {                                                                   \
        DONE(call);                                                        \
        CHECK(untouched(lent.state + (size), sizeof lent.state - (size))); \
        CHECK(untouched(lent.out, sizeof lent.out));                       \
    } while (0)

static void write_no_more_than_is_said(void) {
    const uint16_t lengths[] = {3};
    WRITES(25, eiderwagon_mold_write_data(LEND(name), 1, LEND(lengths), TEXT("one"), LEND(lent.out), LEND(lent.words)));
    WRITES(20, eiderwagon_mold_write_heartbeat(LEND(name), 1, LEND(lent.out), LEND(lent.words)));
    WRITES(20, eiderwagon_mold_write_end(LEND(name), 1, LEND(lent.out), LEND(lent.words)));
    WRITES(20, eiderwagon_mold_write_request(LEND(name), 1, 1, LEND(lent.out), LEND(lent.words)));
    WRITES(27,
           ANSWER(LEND(name), 6, 29, TEXT("READROOM01\0\0\0\0\0\0\0\6\0\11"), LEND(lent.out), LEND(lent.words)));
    WRITES(27, PACKET(LEND(name), 6, 29, 0, LEND(lent.out), LEND(lent.words)));
    WRITES(8, eiderwagon_soup_write_debug(TEXT("hello"), LEND(lent.out), LEND(lent.words)));
    WRITES(33, eiderwagon_soup_write_accepted(LEND(name), 1, LEND(lent.out), LEND(lent.words)));
    WRITES(4, eiderwagon_soup_write_rejected('S', LEND(lent.out), LEND(lent.words)));
    WRITES(8, eiderwagon_soup_write_sequenced(TEXT("hello"), LEND(lent.out), LEND(lent.words)));
    WRITES(3, eiderwagon_soup_write_server_heartbeat(LEND(lent.out), LEND(lent.words)));
    WRITES(3, eiderwagon_soup_write_end(LEND(lent.out), LEND(lent.words)));
    WRITES(49,
           eiderwagon_soup_write_login(TEXT("clerk "), TEXT("desk5     "), LEND(name), 1,
                                       LEND(lent.out), LEND(lent.words)));
    WRITES(8, eiderwagon_soup_write_unsequenced(TEXT("hello"), LEND(lent.out), LEND(lent.words)));
    WRITES(3, eiderwagon_soup_write_client_heartbeat(LEND(lent.out), LEND(lent.words)));
    WRITES(3, eiderwagon_soup_write_logout(LEND(lent.out), LEND(lent.words)));
    WRITES(17, eiderwagon_capture_report(TEXT("bad"), LEND(lent.out), LEND(lent.words)));
}

static void use_no_more_of_a_state_than_its_size(void) {
    const Bytes end = end_of_session(5);
    memset(&lent, 0xA5, sizeof lent);
    USES(EIDERWAGON_RECEIVER_SIZE, eiderwagon_receiver_start(LEND(name), 5, 100, LEND(lent.state)));
    USES(EIDERWAGON_RECEIVER_SIZE, eiderwagon_receiver_take(LEND(lent.state), end.bytes, end.size, LEND(lent.words)));
    CHECK(LENT(TAKE_ANSWER) == EIDERWAGON_RECEIVER_ENDED && LENT(TAKE_FIRST) == 0);
    CHECK(LENT(TAKE_COUNT) == 0 && LENT(TAKE_SKIPPED) == 0);
    CHECK(untouched(&LENT(TAKE_WORDS), sizeof lent.words - EIDERWAGON_TAKE_WORDS * sizeof lent.words[0]));

    CHECK(untouched(lent.places, sizeof lent.places));

    memset(&lent, 0xA5, sizeof lent);
    USES(EIDERWAGON_EARLY_SIZE, eiderwagon_early_start(LEND(name), 5, 100, LEND(lent.state)));
    USES(EIDERWAGON_EARLY_SIZE, eiderwagon_early_take(LEND(lent.state), SLOTS, end.bytes, end.size, LEND(lent.words)));
    CHECK(LENT(EARLY_TAKE_ANSWER) == EIDERWAGON_EARLY_ENDED && LENT(EARLY_TAKE_ASKS) == 0);
    CHECK(untouched(lent.slots, sizeof lent.slots));

    memset(&lent, 0xA5, sizeof lent);
    USES(EIDERWAGON_SERVER_SIZE, eiderwagon_server_start(LEND(name), 0, LEND(lent.state)));
    USES(EIDERWAGON_SERVER_SIZE,
         eiderwagon_server_step(LEND(lent.state), TEXT(accounts), TEXT(LOGIN), LEND(lent.words)));
    CHECK(LENT(SERVER_STEP_ANSWER) == EIDERWAGON_SESSION_ACCEPTED && LENT(SERVER_STEP_NUMBER) == 1);
    CHECK(LENT(SERVER_STEP_LENGTH) == 0 && LENT(SERVER_STEP_WORDS - 1) == 0);
    CHECK(untouched(&LENT(SERVER_STEP_WORDS), sizeof lent.words[0]));
    USES(EIDERWAGON_SERVER_SIZE, eiderwagon_server_set_last(LEND(lent.state), 9));
    USES(EIDERWAGON_SERVER_SIZE,
         eiderwagon_server_reply(LEND(lent.state), TEXT(accounts), TEXT("\0\1R"), LEND(lent.out), LEND(lent.words)));

    memset(&lent, 0xA5, sizeof lent);
    DONE(eiderwagon_server_start(LEND(name), 0, LEND(lent.state)));
    DONE(eiderwagon_server_reply(LEND(lent.state), TEXT(accounts), TEXT(LOGIN), LEND(lent.out), LEND(lent.words)));
    CHECK(LENT(SERVER_REPLY_WRITTEN) == EIDERWAGON_LARGEST_REPLY && LENT(SERVER_REPLY_WRITTEN - 1) == 0);
    CHECK(untouched(lent.out + EIDERWAGON_LARGEST_REPLY, sizeof lent.out - EIDERWAGON_LARGEST_REPLY));

    memset(&lent, 0xA5, sizeof lent);
    USES(EIDERWAGON_MISSING_SIZE, eiderwagon_missing_start(LEND(lent.state)));
    USES(EIDERWAGON_MISSING_SIZE, eiderwagon_missing_finish(LEND(lent.state), EDGES, zeros, 0));
    CHECK(untouched(lent.edges, sizeof lent.edges));
    DONE(eiderwagon_missing_write(LEND(lent.state), EDGES, LEND(lent.text), LEND(lent.words)));
    CHECK(same(lent.text, LENT(WRITE_SIZE), "settings=refused\n"));
    CHECK(untouched(lent.text + 17, sizeof lent.text - 17) && untouched(&LENT(WRITE_WORDS), sizeof lent.words[0]));

    memset(&lent, 0xA5, sizeof lent);
    USES(EIDERWAGON_CLIENT_SIZE, eiderwagon_client_start(LEND(name), 0, LEND(lent.state)));
    USES(EIDERWAGON_CLIENT_SIZE, eiderwagon_client_step(LEND(lent.state), TEXT(ACCEPTED), LEND(lent.words)));
    CHECK(LENT(CLIENT_STEP_ANSWER) == EIDERWAGON_SESSION_ACCEPTED && LENT(CLIENT_STEP_NUMBER) == UINT64_MAX);
}

/* Lays so many words of places, of a receiver that expects number 5. */
static void lays(size_t laid, Bytes datagram, uint64_t answer) {
    memset(&lent, 0xA5, sizeof lent);
    DONE(eiderwagon_receiver_start(LEND(name), 5, 100, LEND(lent.state)));
    USES(EIDERWAGON_RECEIVER_SIZE, eiderwagon_receiver_deliver(LEND(lent.state), datagram.bytes, datagram.size,
                                                               LEND(lent.words), LEND(lent.places)));
    CHECK(LENT(TAKE_ANSWER) == answer);
    CHECK(untouched(&LENT(TAKE_WORDS), sizeof lent.words - EIDERWAGON_TAKE_WORDS * sizeof lent.words[0]));
    CHECK(untouched(lent.places + laid, sizeof lent.places - laid * sizeof lent.places[0]));
}

static void lay_no_more_places_than_messages(void) {
    const uint16_t lengths[] = {4, 0, 3};
    lays(6, data(5, 3, lengths, "foursix"), EIDERWAGON_RECEIVER_DELIVER);
    CHECK(lent.places[0] == 22 && lent.places[1] == 4);
    CHECK(lent.places[2] == 28 && lent.places[3] == 0);
    CHECK(lent.places[4] == 30 && lent.places[5] == 3);
    lays(2, data(3, 3, lengths, "foursix"), EIDERWAGON_RECEIVER_DELIVER);
    CHECK(lent.places[0] == 30 && lent.places[1] == 3);
    lays(0, data(2, 3, lengths, "foursix"), EIDERWAGON_RECEIVER_OLD);
    lays(0, data(6, 3, lengths, "foursix"), EIDERWAGON_RECEIVER_ASK);
    lays(0, heartbeat(5), EIDERWAGON_RECEIVER_QUIET);
    lays(0, heartbeat(6), EIDERWAGON_RECEIVER_ASK);
    lays(0, end_of_session(5), EIDERWAGON_RECEIVER_ENDED);
}

/* The most messages that a datagram has, all of them empty: so many words are needed for their places. */
static void have_places_for_the_most_messages(void) {
    static uint8_t datagram[EIDERWAGON_LARGEST_DATAGRAM];
    static uint64_t places[EIDERWAGON_MOST_PLACES];
    const size_t most = EIDERWAGON_MOST_PLACES / EIDERWAGON_PLACE_WORDS;
    const size_t last = EIDERWAGON_MOST_PLACES - EIDERWAGON_PLACE_WORDS;
    DONE(eiderwagon_mold_write_data(LEND(name), 1, too_many_lengths, most, zeros, 0, LEND(datagram), WORDS(WRITE)));
    const size_t size = LENT(WRITE_SIZE);
    CHECK(size == EIDERWAGON_LARGEST_DATAGRAM - 1);
    REFUSED(DATAGRAM_LONG, eiderwagon_mold_write_data(LEND(name), 1, too_many_lengths, most + 1, zeros, 0,
                                                      LEND(datagram), WORDS(WRITE)));
    DONE(eiderwagon_receiver_start(LEND(name), 1, 100, LEND(lent.state)));
    REFUSED(OUTPUT_SHORT, eiderwagon_receiver_deliver(LEND(lent.state), datagram, size, WORDS(TAKE), places,
                                                      EIDERWAGON_MOST_PLACES - 1));
    CHECK(places[0] == 0 && places[last] == 0);
    DONE(eiderwagon_receiver_deliver(LEND(lent.state), datagram, size, WORDS(TAKE), LEND(places)));
    CHECK(LENT(TAKE_COUNT) == most && places[EIDERWAGON_PLACE_OFFSET] == 22);
    CHECK(places[last + EIDERWAGON_PLACE_OFFSET] == size && places[last + EIDERWAGON_PLACE_LENGTH] == 0);
}

/* The same at a receiver that keeps early messages: three words for each of them, and of the 64 that it may hold. */
static void have_early_places_for_the_most_messages(void) {
    static uint8_t datagram[EIDERWAGON_LARGEST_DATAGRAM];
    static uint64_t places[EIDERWAGON_EARLY_MOST_PLACES];
    const size_t most = EIDERWAGON_MOST_PLACES / EIDERWAGON_PLACE_WORDS;
    CHECK(EIDERWAGON_EARLY_MOST_PLACES == EIDERWAGON_EARLY_PLACE_WORDS * (most + 64));
    DONE(eiderwagon_mold_write_data(LEND(name), 1, too_many_lengths, most, zeros, 0, LEND(datagram), WORDS(WRITE)));
    const size_t size = LENT(WRITE_SIZE);
    /* at a receiver made by hand, all of whose slots are held: they are carried by the datagram too */
    DONE(eiderwagon_early_start(LEND(name), 1, 100, LEND(lent.state)));
    memset(lent.state + EIDERWAGON_EARLY_HELD_AT, 0xFF, 8);
    REFUSED(OUTPUT_SHORT, eiderwagon_early_deliver(LEND(lent.state), SLOTS, datagram, size, WORDS(EARLY_TAKE), places,
                                                   EIDERWAGON_EARLY_PLACE_WORDS * most - 1));
    DONE(eiderwagon_early_deliver(LEND(lent.state), SLOTS, datagram, size, WORDS(EARLY_TAKE), LEND(places)));
    CHECK(LENT(EARLY_TAKE_COUNT) == most && places[EIDERWAGON_EARLY_PLACE_OFFSET] == 22);
    CHECK(places[EIDERWAGON_EARLY_PLACE_WORDS] == 1); /* the second one is held, and had from the slots */
}

/* Each part of a state stands where the header says. */
static void keep_parts_in_their_places(void) {
    const Bytes capture = sample_capture();
    const Bytes gappy = gappy_capture();
    memset(&lent, 0xA5, sizeof lent);

    DONE(eiderwagon_receiver_start(LEND(name), 258, 772, LEND(lent.state)));
    CHECK(memcmp(lent.state + EIDERWAGON_RECEIVER_SESSION_AT, name, sizeof name) == 0);
    CHECK(number_in(lent.state, EIDERWAGON_RECEIVER_NEXT_AT, 8) == 258);
    CHECK(number_in(lent.state, EIDERWAGON_RECEIVER_LIMIT_AT, 2) == 772);
    CHECK(lent.state[EIDERWAGON_RECEIVER_CODE_AT] == EIDERWAGON_RECEIVER_OPEN);

    DONE(eiderwagon_early_start(LEND(name), 258, 772, LEND(lent.state)));
    CHECK(lent.state[EIDERWAGON_EARLY_CODE_AT] == EIDERWAGON_EARLY_OPEN);
    CHECK(memcmp(lent.state + EIDERWAGON_EARLY_SESSION_AT, name, sizeof name) == 0);
    CHECK(number_in(lent.state, EIDERWAGON_EARLY_NEXT_AT, 8) == 258);
    CHECK(number_in(lent.state, EIDERWAGON_EARLY_LIMIT_AT, 2) == 772);
    CHECK(number_in(lent.state, EIDERWAGON_EARLY_HELD_AT, 8) == 0);
    for (size_t at = EIDERWAGON_EARLY_LENGTHS_AT; at < EIDERWAGON_EARLY_SIZE; at++) {
        CHECK(lent.state[at] == 0);
    }
    CHECK(untouched(lent.state + EIDERWAGON_EARLY_SIZE, sizeof lent.state - EIDERWAGON_EARLY_SIZE));

    DONE(eiderwagon_server_start(LEND(name), 258, LEND(lent.state)));
    CHECK(lent.state[EIDERWAGON_SERVER_CODE_AT] == EIDERWAGON_SERVER_OPEN);
    CHECK(memcmp(lent.state + EIDERWAGON_SERVER_SESSION_AT, name, sizeof name) == 0);
    CHECK(number_in(lent.state, EIDERWAGON_SERVER_LAST_AT, 8) == 258);
    CHECK(lent.state[EIDERWAGON_SERVER_PHASE_AT] == EIDERWAGON_SERVER_WAITING);
    DONE(eiderwagon_server_set_last(LEND(lent.state), 0x0102030405060708));
    CHECK(number_in(lent.state, EIDERWAGON_SERVER_LAST_AT, 8) == 0x0102030405060708);
    DONE(SERVER_STEP(LOGIN));
    CHECK(lent.state[EIDERWAGON_SERVER_PHASE_AT] == EIDERWAGON_SERVER_IN);

    DONE(eiderwagon_client_start(TEXT(any_session), 0, LEND(lent.state)));
    CHECK(lent.state[EIDERWAGON_CLIENT_CODE_AT] == EIDERWAGON_CLIENT_OPEN);
    CHECK(number_in(lent.state, EIDERWAGON_CLIENT_NUMBER_AT, 8) == 0);
    CHECK(lent.state[EIDERWAGON_CLIENT_PHASE_AT] == EIDERWAGON_CLIENT_ASKED);
    DONE(CLIENT_STEP(ACCEPTED));
    CHECK(memcmp(lent.state + EIDERWAGON_CLIENT_SESSION_AT, name, sizeof name) == 0);
    CHECK(number_in(lent.state, EIDERWAGON_CLIENT_NUMBER_AT, 8) == UINT64_MAX);
    CHECK(lent.state[EIDERWAGON_CLIENT_PHASE_AT] == EIDERWAGON_CLIENT_IN);

    DONE(eiderwagon_capture_start(LEND(lent.state)));
    DONE(eiderwagon_capture_feed(LEND(lent.state), SLOTS, capture.bytes, capture.size, WORDS(FEED)));
    CHECK(lent.state[EIDERWAGON_CAPTURE_CODE_AT] == EIDERWAGON_CAPTURE_OPEN);
    CHECK(number_in(lent.state, EIDERWAGON_CAPTURE_RECEIVER_AT + EIDERWAGON_EARLY_NEXT_AT, 8) == 6);
    CHECK(lent.state[EIDERWAGON_CAPTURE_STAGE_AT] == EIDERWAGON_CAPTURE_RECORDS);
    CHECK(number_in(lent.state, EIDERWAGON_CAPTURE_RECORDS_AT, 8) == 9);
    CHECK(number_in(lent.state, EIDERWAGON_CAPTURE_DELIVERED_AT, 8) == 5);
    CHECK(number_in(lent.state, EIDERWAGON_CAPTURE_OLD_AT, 8) == 2);
    CHECK(number_in(lent.state, EIDERWAGON_CAPTURE_QUIET_AT, 8) == 1);
    CHECK(number_in(lent.state, EIDERWAGON_CAPTURE_ASKED_AT, 8) == 2);
    CHECK(number_in(lent.state, EIDERWAGON_CAPTURE_REFUSED_AT, 8) == 1);

    DONE(eiderwagon_missing_start(LEND(lent.state)));
    CHECK(lent.state[EIDERWAGON_MISSING_REFUSED_AT] == 1 && memcmp(lent.state + 2, "          ", 10) == 0);
    DONE(eiderwagon_missing_feed(LEND(lent.state), EDGES, gappy.bytes, gappy.size, WORDS(FEED)));
    CHECK(lent.state[EIDERWAGON_MISSING_CODE_AT] == EIDERWAGON_MISSING_OPEN);
    CHECK(lent.state[EIDERWAGON_MISSING_STAGE_AT] == EIDERWAGON_CAPTURE_RECORDS);
    CHECK(memcmp(lent.state + EIDERWAGON_MISSING_SESSION_AT, name, sizeof name) == 0);
    CHECK(number_in(lent.state, EIDERWAGON_MISSING_HIGHEST_AT, 8) == 9);
    CHECK(number_in(lent.state, EIDERWAGON_MISSING_LEFT_AT, 8) == UINT32_MAX - 6);
    CHECK(number_in(lent.state, EIDERWAGON_MISSING_CLOSED_AT, 8) == 1);
    CHECK(lent.state[EIDERWAGON_MISSING_REFUSED_AT] == 0);
    CHECK(lent.edges[0] == 2 && lent.edges[1] == 3 && lent.edges[2] == 5);

    DONE(eiderwagon_mold_walk(capture.bytes, 0, LEND(lent.cursor)));
    CHECK(lent.cursor[EIDERWAGON_CURSOR_CODE_AT] == EIDERWAGON_CURSOR_OPEN);
}

/* Just as many bytes as the header says are enough. */
static void take_sizes_as_they_are_said(void) {
    static const char login[] = "clerk desk5     ";
    memset(&lent, 0xA5, sizeof lent);
    CHECK(sizeof login - 1 == EIDERWAGON_ACCOUNT_SIZE);
    DONE(eiderwagon_soup_write_login((const uint8_t *)login, EIDERWAGON_USERNAME_SIZE,
                                     (const uint8_t *)login + EIDERWAGON_USERNAME_SIZE, EIDERWAGON_PASSWORD_SIZE,
                                     LEND(name), 1, LEND(lent.out), WORDS(WRITE)));
    REFUSED(FIELD_NOT_WRITTEN,
            eiderwagon_soup_write_login((const uint8_t *)login, EIDERWAGON_USERNAME_SIZE,
                                        (const uint8_t *)login + EIDERWAGON_USERNAME_SIZE, EIDERWAGON_PASSWORD_SIZE - 1,
                                        LEND(name), 1, LEND(lent.out), WORDS(WRITE)));
    DONE(eiderwagon_soup_write_debug(zeros, 4096, OUT(EIDERWAGON_LARGEST_PACKET), WORDS(WRITE)));
    CHECK(LENT(WRITE_SIZE) == EIDERWAGON_LARGEST_PACKET);

    /* Of the table, bytes left over are no record. */
    DONE(eiderwagon_server_start(LEND(name), 0, LEND(lent.state)));
    DONE(eiderwagon_server_step(LEND(lent.state), zeros, 1025 * EIDERWAGON_ACCOUNT_SIZE - 1, zeros, 0,
                                WORDS(SERVER_STEP)));
    CHECK(LENT(SERVER_STEP_ANSWER) == EIDERWAGON_SESSION_NEED_MORE);

    DONE(eiderwagon_soup_read(TEXT("\0\2JS"), EIDERWAGON_SOUP_FROM_SERVER, WORDS(SOUP_READ)));
    CHECK(LENT(SOUP_READ_LETTER) == 'J' && LENT(SOUP_READ_SIZE) == 4 && LENT(SOUP_READ_REASON) == 'S');

    /* The longest report: each count, and the next number, at 2^64 - 1. */
    memset(lent.state, 0xFF, sizeof lent.state);
    lent.state[EIDERWAGON_CAPTURE_STAGE_AT] = EIDERWAGON_CAPTURE_DONE;
    DONE(eiderwagon_capture_write(LEND(lent.state), OUT(EIDERWAGON_LARGEST_REPORT), WORDS(WRITE)));
    CHECK(LENT(WRITE_SIZE) <= EIDERWAGON_LARGEST_REPORT);
}

/* Bytes of zero are never open: a closed session, an ended receiver, a capture whose settings are refused, a cursor
 * with no messages left. */
static void take_bytes_of_zero_as_states(void) {
    const Bytes one = data(1, 1, (const uint16_t[]){3}, "one");
    const uint8_t heartbeat_of_zeros[EIDERWAGON_MOLD_HEADER_SIZE] = {[17] = 1};
    memset(&lent, 0, sizeof lent);
    REFUSED(STATE_CLOSED, SERVER_STEP("\0\1+"));
    REFUSED(STATE_CLOSED, CLIENT_STEP("\0\1+"));
    REFUSED(SESSION_DIFFERS, eiderwagon_receiver_take(LEND(lent.state), one.bytes, one.size, LEND(lent.words)));
    REFUSED(SESSION_ENDED, eiderwagon_receiver_take(LEND(lent.state), LEND(heartbeat_of_zeros), LEND(lent.words)));
    REFUSED(SESSION_DIFFERS, eiderwagon_receiver_deliver(LEND(lent.state), one.bytes, one.size, LEND(lent.words),
                                                         LEND(lent.places)));
    REFUSED(SESSION_ENDED, eiderwagon_receiver_deliver(LEND(lent.state), LEND(heartbeat_of_zeros), LEND(lent.words),
                                                       LEND(lent.places)));

    REFUSED(SESSION_DIFFERS, eiderwagon_early_take(LEND(lent.state), SLOTS, one.bytes, one.size, LEND(lent.words)));
    REFUSED(SESSION_ENDED, eiderwagon_early_take(LEND(lent.state), SLOTS, LEND(heartbeat_of_zeros), LEND(lent.words)));
    DONE(eiderwagon_early_next(LEND(lent.walk), LEND(lent.state), SLOTS, one.bytes, one.size, LEND(lent.words)));
    CHECK(LENT(PART_FOUND) == 0 && LENT(PART_HELD) == 0 && LENT(PART_OFFSET) == 0 && LENT(PART_LENGTH) == 0);

    DONE(eiderwagon_capture_feed(LEND(lent.state), SLOTS, TEXT("more"), LEND(lent.words)));
    CHECK(LENT(FEED_USED) == 4 && LENT(FEED_OVER) == 1);
    DONE(eiderwagon_capture_write(LEND(lent.state), LEND(lent.out), LEND(lent.words)));
    CHECK(same(lent.out, LENT(WRITE_SIZE), "settings=refused\n"));

    DONE(eiderwagon_missing_feed(LEND(lent.state), EDGES, TEXT("more"), LEND(lent.words)));
    CHECK(LENT(FEED_USED) == 4 && LENT(FEED_OVER) == 1);
    DONE(eiderwagon_missing_count(LEND(lent.state), EDGES, LEND(lent.words)));
    CHECK(LENT(MISSING_COUNT_LISTED) == 0 && LENT(MISSING_COUNT_RANGES) == 0 && LENT(MISSING_COUNT_NUMBERS) == 0);

    DONE(eiderwagon_mold_next(LEND(lent.cursor), one.bytes, one.size, LEND(lent.words)));
    CHECK(LENT(NEXT_FOUND) == 0 && LENT(NEXT_OFFSET) == 0 && LENT(NEXT_LENGTH) == 0);
}

/* A refused start leaves what was there: a host that starts a state anew clears it first. */
static void leave_the_old_state_at_a_refused_start(void) {
    const Bytes one = data(1, 1, (const uint16_t[]){3}, "one");
    memset(&lent, 0, sizeof lent);
    DONE(eiderwagon_receiver_start(LEND(name), 1, 100, LEND(lent.state)));
    REFUSED(BAD_SETTING, eiderwagon_receiver_start(LEND(name), 1, 0, LEND(lent.state)));
    DONE(eiderwagon_receiver_take(LEND(lent.state), one.bytes, one.size, LEND(lent.words)));
    CHECK(LENT(TAKE_ANSWER) == EIDERWAGON_RECEIVER_DELIVER);

    memset(lent.state, 0, sizeof lent.state);
    REFUSED(BAD_SETTING, eiderwagon_receiver_start(LEND(name), 1, 0, LEND(lent.state)));
    REFUSED(SESSION_DIFFERS, eiderwagon_receiver_take(LEND(lent.state), one.bytes, one.size, LEND(lent.words)));
}

/* Where the datagram ends before the skipped messages do, a walk's cursor stands behind the last whole one. */
static void walk_past_the_end(void) {
    const Bytes one_two = data(1, 2, (const uint16_t[]){3, 3}, "onetwo");
    for (size_t cut = 0; cut <= 1; cut++) {
        size_t size = one_two.size - cut;
        DONE(eiderwagon_receiver_walk(one_two.bytes, size, 3, 5, LEND(lent.cursor)));
        CHECK(number_in(lent.cursor, EIDERWAGON_CURSOR_PLACE_AT, 8) == (cut ? 25 : 30));
        CHECK(number_in(lent.cursor, EIDERWAGON_CURSOR_LEFT_AT, 2) == (cut ? 7 : 6));
        memcpy(&before, &lent, sizeof lent);
        DONE(eiderwagon_mold_next(LEND(lent.cursor), one_two.bytes, size, WORDS(NEXT)));
        CHECK(LENT(NEXT_FOUND) == 0 && memcmp(before.cursor, lent.cursor, sizeof lent.cursor) == 0);
    }
    DONE(eiderwagon_receiver_walk(one_two.bytes, one_two.size, 65535, 1, LEND(lent.cursor)));
    CHECK(number_in(lent.cursor, EIDERWAGON_CURSOR_PLACE_AT, 8) == 20);
    CHECK(number_in(lent.cursor, EIDERWAGON_CURSOR_LEFT_AT, 2) == 0);
}

/* The receiver in lent.state is ended, its name ten spaces, its next number and its limit 1. */
static void has_no_receiver(void) {
    const uint8_t *receiver = lent.state + EIDERWAGON_CAPTURE_RECEIVER_AT;
    CHECK(same(receiver + EIDERWAGON_RECEIVER_SESSION_AT, EIDERWAGON_SESSION_SIZE, any_session));
    CHECK(number_in(receiver, EIDERWAGON_RECEIVER_NEXT_AT, 8) == 1);
    CHECK(number_in(receiver, EIDERWAGON_RECEIVER_LIMIT_AT, 2) == 1);
    CHECK(receiver[EIDERWAGON_RECEIVER_CODE_AT] == 0);
}

/* Once the reading in lent.state is over a feed uses all of its bytes, and changes no byte of it. */
static void uses_all(void) {
    for (size_t size = 0; size <= 70000; size += 17500) {
        static const uint8_t many[70000];
        memcpy(&before, &lent, sizeof lent);
        DONE(eiderwagon_capture_feed(LEND(lent.state), SLOTS, many, size, WORDS(FEED)));
        CHECK(LENT(FEED_USED) == size && LENT(FEED_OVER) == 1);
        CHECK(memcmp(before.state, lent.state, sizeof lent.state) == 0);
    }
}

static void end_a_capture(void) {
    static const char good[] = "session=READROOM01\nnext=1\nlimit=100\n";
    uint8_t *records = lent.state + EIDERWAGON_CAPTURE_RECORDS_AT;

    /* By settings that are bad, in a feed and at the end. */
    memset(&lent, 0xA5, sizeof lent);
    DONE(eiderwagon_capture_start(LEND(lent.state)));
    has_no_receiver();
    CHECK(lent.state[EIDERWAGON_CAPTURE_STAGE_AT] == EIDERWAGON_CAPTURE_SETTINGS);
    DONE(eiderwagon_capture_feed(LEND(lent.state), SLOTS, zeros, 56, WORDS(FEED)));
    CHECK(LENT(FEED_USED) == 0 && LENT(FEED_OVER) == 0);
    DONE(eiderwagon_capture_feed(LEND(lent.state), SLOTS, zeros, 57, WORDS(FEED)));
    CHECK(LENT(FEED_USED) == 57 && LENT(FEED_OVER) == 1);
    has_no_receiver();
    CHECK(lent.state[EIDERWAGON_CAPTURE_STAGE_AT] == EIDERWAGON_CAPTURE_BAD);
    uses_all();
    DONE(eiderwagon_capture_start(LEND(lent.state)));
    DONE(eiderwagon_capture_finish(LEND(lent.state), SLOTS, zeros, 0));
    has_no_receiver();
    CHECK(lent.state[EIDERWAGON_CAPTURE_STAGE_AT] == EIDERWAGON_CAPTURE_BAD);
    uses_all();

    /* By the end of a good one. */
    DONE(eiderwagon_capture_start(LEND(lent.state)));
    DONE(eiderwagon_capture_finish(LEND(lent.state), SLOTS, TEXT(good)));
    CHECK(memcmp(lent.state + EIDERWAGON_CAPTURE_RECEIVER_AT + EIDERWAGON_RECEIVER_SESSION_AT, name, 10) == 0);
    CHECK(lent.state[EIDERWAGON_CAPTURE_STAGE_AT] == EIDERWAGON_CAPTURE_DONE);
    uses_all();

    /* By 2^32 - 1 records: those that were read before, and one more. */
    memset(records, 0, 8);
    for (int more = 0; more < 2; more++) {
        lent.state[EIDERWAGON_CAPTURE_CODE_AT] = EIDERWAGON_CAPTURE_OPEN;
        lent.state[EIDERWAGON_CAPTURE_STAGE_AT] = EIDERWAGON_CAPTURE_RECORDS;
        records[0] = (uint8_t)(0xFF - more);
        records[1] = records[2] = records[3] = 0xFF;
        DONE(eiderwagon_capture_feed(LEND(lent.state), SLOTS, zeros, 4, WORDS(FEED)));
        CHECK(LENT(FEED_USED) == 4 && LENT(FEED_OVER) == 1);
        CHECK(lent.state[EIDERWAGON_CAPTURE_STAGE_AT] == EIDERWAGON_CAPTURE_DONE);
        uses_all();
    }
    CHECK(number_in(lent.state, EIDERWAGON_CAPTURE_RECORDS_AT, 8) == UINT32_MAX);
    CHECK(number_in(lent.state, EIDERWAGON_CAPTURE_REFUSED_AT, 8) == 1);
}

/* ---- 6. States --------------------------------------------------------------------------------------------------- */

/* What each kind's functions make of the bytes in a buffer: whether they take them for open. */
typedef struct {
    int cursor, receiver, server, client, capture, transmitter, early, walk, missing;
} Open;

static Open open_as(const uint8_t *state) {
    const Bytes one = data(1, 1, (const uint16_t[]){3}, "one");
    uint8_t copy[EIDERWAGON_CAPTURE_SIZE];
    uint64_t words[EIDERWAGON_EARLY_TAKE_WORDS];
    Open open;
    memcpy(copy, state, sizeof copy);
    DONE(eiderwagon_mold_next(LEND(copy), one.bytes, one.size, LEND(words)));
    open.cursor = WORD(NEXT_FOUND) == 1;
    memcpy(copy, state, sizeof copy);
    open.receiver = eiderwagon_receiver_take(LEND(copy), one.bytes, one.size, LEND(words)) == EIDERWAGON_OK;
    memcpy(copy, state, sizeof copy);
    open.server = eiderwagon_server_step(LEND(copy), zeros, 0, TEXT("\0\1+"), LEND(words)) == EIDERWAGON_OK;
    memcpy(copy, state, sizeof copy);
    open.client = eiderwagon_client_step(LEND(copy), TEXT("\0\1+"), LEND(words)) == EIDERWAGON_OK;
    memcpy(copy, state, sizeof copy);
    DONE(eiderwagon_capture_feed(LEND(copy), SLOTS, zeros, 0, LEND(words)));
    open.capture = WORD(FEED_OVER) == 0;
    memcpy(copy, state, sizeof copy);
    open.transmitter = EIDERWAGON_NUMBER(NEXT_PACKET(LEND(name), 6, 29, LEND(copy), PART(NULL, 0), LEND(words))) !=
                       EIDERWAGON_REFUSED_NO_SUCH_PACKET;
    memcpy(copy, state, sizeof copy);
    open.early = eiderwagon_early_take(LEND(copy), SLOTS, one.bytes, one.size, LEND(words)) == EIDERWAGON_OK;
    memcpy(copy, state, sizeof copy);
    DONE(eiderwagon_early_next(LEND(copy), PART(zeros, EIDERWAGON_EARLY_SIZE), SLOTS, one.bytes, one.size,
                               LEND(words)));
    open.walk = WORD(PART_FOUND) == 1;
    memcpy(copy, state, sizeof copy);
    DONE(eiderwagon_missing_feed(LEND(copy), EDGES, zeros, 0, LEND(words)));
    open.missing = WORD(FEED_OVER) == 0;
    return open;
}

static int opens(Open open) {
    return open.cursor + open.receiver + open.server + open.client + open.capture + open.transmitter + open.early +
           open.walk + open.missing;
}

/* The bytes of each kind are open for its own functions, and for no others; so is one first byte of all. */
#define OPEN_ONLY_AS(kind, code)                                          \
    do {                                                                  \
        for (unsigned first = 0; first <= 0xFF; first++) {                \
            lent.state[0] = (uint8_t)first;                               \
            CHECK(open_as(lent.state).kind == (first == (unsigned)code)); \
        }                                                                 \
        lent.state[0] = (uint8_t)(code);                                  \
        CHECK(opens(open_as(lent.state)) == 1);                           \
    } while (0)

static void be_open_as_one_kind_alone(void) {
    const Bytes one = data(1, 1, (const uint16_t[]){3}, "one");
    memset(&lent, 0, sizeof lent);
    CHECK(opens(open_as(lent.state)) == 0);
    DONE(eiderwagon_mold_walk(one.bytes, one.size, LEND(lent.state)));
    OPEN_ONLY_AS(cursor, EIDERWAGON_CURSOR_OPEN);
    DONE(eiderwagon_receiver_start(LEND(name), 1, 100, LEND(lent.state)));
    OPEN_ONLY_AS(receiver, EIDERWAGON_RECEIVER_OPEN);
    DONE(eiderwagon_server_start(LEND(name), 1, LEND(lent.state)));
    OPEN_ONLY_AS(server, EIDERWAGON_SERVER_OPEN);
    DONE(eiderwagon_client_start(LEND(name), 1, LEND(lent.state)));
    OPEN_ONLY_AS(client, EIDERWAGON_CLIENT_OPEN);
    DONE(eiderwagon_capture_start(LEND(lent.state)));
    OPEN_ONLY_AS(capture, EIDERWAGON_CAPTURE_OPEN);
    DONE(START(6, 29, LEND(lent.state)));
    OPEN_ONLY_AS(transmitter, EIDERWAGON_TRANSMITTER_OPEN);
    DONE(eiderwagon_early_start(LEND(name), 1, 100, LEND(lent.state)));
    OPEN_ONLY_AS(early, EIDERWAGON_EARLY_OPEN);
    memcpy(before.state, lent.state, sizeof before.state);
    DONE(eiderwagon_early_walk(LEND(before.state), SLOTS, one.bytes, one.size, LEND(lent.state)));
    OPEN_ONLY_AS(walk, EIDERWAGON_WALK_OPEN);
    DONE(eiderwagon_missing_start(LEND(lent.state)));
    OPEN_ONLY_AS(missing, EIDERWAGON_MISSING_OPEN);
}

/* The bytes in lent.state, lent for a cursor: no message is there, and none of them changes. */
static void has_no_message(const uint8_t *datagram, size_t size) {
    memcpy(&before, &lent, sizeof lent);
    DONE(eiderwagon_mold_next(LEND(lent.state), datagram, size, WORDS(NEXT)));
    CHECK(LENT(NEXT_FOUND) == 0 && LENT(NEXT_OFFSET) == 0 && LENT(NEXT_LENGTH) == 0);
    CHECK(memcmp(before.state, lent.state, sizeof lent.state) == 0);
}

/* Where no message is there no byte changes: at a datagram that lacks some of it, at the end, and with every first byte
 * but the code. */
static void change_no_byte_of_a_cursor_without_a_message(void) {
    const Bytes one = data(1, 1, (const uint16_t[]){3}, "one");
    memset(&lent, 0xA5, sizeof lent);
    DONE(eiderwagon_mold_walk(one.bytes, one.size, LEND(lent.state)));
    has_no_message(one.bytes, one.size - 1);
    has_no_message(NULL, 0);
    for (unsigned first = 0; first <= 0xFF; first++) {
        lent.state[EIDERWAGON_CURSOR_CODE_AT] = (uint8_t)first;
        if (first != EIDERWAGON_CURSOR_OPEN) {
            has_no_message(one.bytes, one.size);
        }
    }
    lent.state[EIDERWAGON_CURSOR_CODE_AT] = EIDERWAGON_CURSOR_OPEN;
    DONE(eiderwagon_mold_next(LEND(lent.state), one.bytes, one.size, WORDS(NEXT)));
    CHECK(LENT(NEXT_FOUND) == 1);
    has_no_message(one.bytes, one.size);
}

/* So the bytes of another kind, lent for a cursor, stay what they are. */
static void change_no_byte_of_another_kind(void) {
    const Bytes one = data(1, 1, (const uint16_t[]){3}, "one");
    DONE(eiderwagon_receiver_start(LEND(name), 1, 100, LEND(lent.state)));
    has_no_message(one.bytes, one.size);
    DONE(eiderwagon_server_start(LEND(name), 1, LEND(lent.state)));
    has_no_message(one.bytes, one.size);
    DONE(eiderwagon_client_start(LEND(name), 1, LEND(lent.state)));
    has_no_message(one.bytes, one.size);
    DONE(eiderwagon_capture_start(LEND(lent.state)));
    has_no_message(one.bytes, one.size);
    DONE(START(6, 29, LEND(lent.state)));
    has_no_message(one.bytes, one.size);
}

/* Where more is needed no byte changes, whatever the state was made of by hand. */
static void change_no_byte_where_more_is_needed(void) {
    for (unsigned byte = 0; byte <= 0xFF; byte++) {
        memset(&lent, (int)byte, sizeof lent);
        memcpy(&before, &lent, sizeof lent);
        DONE(eiderwagon_server_step(LEND(lent.state), TEXT(accounts), zeros, 1, WORDS(SERVER_STEP)));
        DONE(eiderwagon_server_reply(LEND(lent.state), TEXT(accounts), zeros, 1, OUT(0), WORDS(SERVER_REPLY)));
        DONE(eiderwagon_client_step(LEND(lent.state), zeros, 1, WORDS(CLIENT_STEP)));
        CHECK(memcmp(before.state, lent.state, sizeof lent.state) == 0);

        /* a reading of fewer than the most records */
        lent.state[EIDERWAGON_CAPTURE_CODE_AT] = EIDERWAGON_CAPTURE_OPEN;
        memset(lent.state + EIDERWAGON_CAPTURE_RECORDS_AT, 0, 8);
        memcpy(&before, &lent, sizeof lent);
        DONE(eiderwagon_capture_feed(LEND(lent.state), SLOTS, zeros, 1, WORDS(FEED)));
        CHECK(LENT(FEED_USED) == 0 && LENT(FEED_OVER) == 0);
        CHECK(memcmp(before.state, lent.state, sizeof lent.state) == 0);

        /* one for what is missing, with records left */
        lent.state[EIDERWAGON_MISSING_CODE_AT] = EIDERWAGON_MISSING_OPEN;
        lent.state[EIDERWAGON_MISSING_LEFT_AT] = 1;
        memcpy(&before, &lent, sizeof lent);
        DONE(eiderwagon_missing_feed(LEND(lent.state), EDGES, zeros, 1, WORDS(FEED)));
        CHECK(LENT(FEED_USED) == 0 && LENT(FEED_OVER) == 0);
        CHECK(memcmp(before.state, lent.state, sizeof lent.state) == 0);
        CHECK(memcmp(before.edges, lent.edges, sizeof lent.edges) == 0);
    }
}

/* The receiver inside a reading can be lent, with its slots, to the functions of the one that keeps early messages. */
static void lend_the_receiver_of_a_reading(void) {
    const Bytes capture = sample_capture();
    const Bytes six = data(6, 1, (const uint16_t[]){3}, "six");
    uint8_t *receiver = lent.state + EIDERWAGON_CAPTURE_RECEIVER_AT;
    DONE(eiderwagon_capture_start(LEND(lent.state)));
    /* all but the end of session */
    DONE(eiderwagon_capture_feed(LEND(lent.state), SLOTS, capture.bytes, capture.size - 1, WORDS(FEED)));
    DONE(eiderwagon_early_take(receiver, EIDERWAGON_EARLY_SIZE, SLOTS, six.bytes, six.size, WORDS(EARLY_TAKE)));
    CHECK(LENT(EARLY_TAKE_ANSWER) == EIDERWAGON_EARLY_DELIVER && LENT(EARLY_TAKE_FIRST) == 6);
}

/* ---- 7. No elements, at NULL ------------------------------------------------------------------------------------- */

/* A buffer with no elements. Each function gets it in the place of each of its buffers, and of all of them. */
#define NONE NULL, 0

static void lend_no_bytes_to_datagrams(void) {
    const Bytes one = data(1, 1, (const uint16_t[]){3}, "one");
    const Bytes quiet = heartbeat(1);
    const uint16_t three[] = {3};
    const uint16_t nothing[] = {0};
    memset(&lent, 0xA5, sizeof lent);

    REFUSED(DATAGRAM_SHORT, eiderwagon_mold_read(NONE, WORDS(MOLD_READ)));
    REFUSED(OUTPUT_SHORT, eiderwagon_mold_read(one.bytes, one.size, NONE));
    REFUSED(DATAGRAM_SHORT, eiderwagon_mold_read(NONE, NONE));

    DONE(eiderwagon_mold_locate(NONE, 0, WORDS(LOCATE)));
    CHECK(LENT(LOCATE_FOUND) == 0 && LENT(LOCATE_OFFSET) == 0 && LENT(LOCATE_LENGTH) == 0);
    REFUSED(OUTPUT_SHORT, eiderwagon_mold_locate(one.bytes, one.size, 0, NONE));
    REFUSED(OUTPUT_SHORT, eiderwagon_mold_locate(NONE, 0, NONE));

    DONE(eiderwagon_mold_walk(NONE, LEND(lent.cursor)));
    CHECK(number_in(lent.cursor, EIDERWAGON_CURSOR_PLACE_AT, 8) == 20);
    CHECK(number_in(lent.cursor, EIDERWAGON_CURSOR_LEFT_AT, 2) == 0);
    REFUSED(OUTPUT_SHORT, eiderwagon_mold_walk(one.bytes, one.size, NONE));
    REFUSED(OUTPUT_SHORT, eiderwagon_mold_walk(NONE, NONE));

    DONE(eiderwagon_mold_walk(one.bytes, one.size, LEND(lent.cursor)));
    REFUSED(OUTPUT_SHORT, eiderwagon_mold_next(NONE, one.bytes, one.size, WORDS(NEXT)));
    DONE(eiderwagon_mold_next(LEND(lent.cursor), NONE, WORDS(NEXT)));
    CHECK(LENT(NEXT_FOUND) == 0 && number_in(lent.cursor, EIDERWAGON_CURSOR_LEFT_AT, 2) == 1);
    REFUSED(OUTPUT_SHORT, eiderwagon_mold_next(LEND(lent.cursor), one.bytes, one.size, NONE));
    REFUSED(OUTPUT_SHORT, eiderwagon_mold_next(NONE, NONE, NONE));

    REFUSED(OUTPUT_SHORT, eiderwagon_mold_write_data(NONE, 1, LEND(three), TEXT("one"), LEND(lent.out), WORDS(WRITE)));
    REFUSED(LENGTHS_DIFFER, eiderwagon_mold_write_data(LEND(name), 1, NONE, TEXT("one"), LEND(lent.out), WORDS(WRITE)));
    REFUSED(LENGTHS_DIFFER, eiderwagon_mold_write_data(LEND(name), 1, LEND(three), NONE, LEND(lent.out), WORDS(WRITE)));
    DONE(eiderwagon_mold_write_data(LEND(name), 1, LEND(nothing), NONE, LEND(lent.out), WORDS(WRITE)));
    CHECK(LENT(WRITE_SIZE) == 22);
    DONE(eiderwagon_mold_write_data(LEND(name), 1, NONE, NONE, LEND(lent.out), WORDS(WRITE)));
    CHECK(LENT(WRITE_SIZE) == 20);
    REFUSED(OUTPUT_SHORT, eiderwagon_mold_write_data(LEND(name), 1, LEND(three), TEXT("one"), NONE, WORDS(WRITE)));
    REFUSED(OUTPUT_SHORT, eiderwagon_mold_write_data(LEND(name), 1, NONE, NONE, NONE, WORDS(WRITE)));
    REFUSED(OUTPUT_SHORT, eiderwagon_mold_write_data(LEND(name), 1, LEND(three), TEXT("one"), LEND(lent.out), NONE));
    REFUSED(OUTPUT_SHORT, eiderwagon_mold_write_data(NONE, 1, NONE, NONE, NONE, NONE));

    REFUSED(OUTPUT_SHORT, eiderwagon_mold_write_heartbeat(NONE, 1, LEND(lent.out), WORDS(WRITE)));
    REFUSED(OUTPUT_SHORT, eiderwagon_mold_write_heartbeat(LEND(name), 1, NONE, WORDS(WRITE)));
    REFUSED(OUTPUT_SHORT, eiderwagon_mold_write_heartbeat(LEND(name), 1, LEND(lent.out), NONE));
    REFUSED(OUTPUT_SHORT, eiderwagon_mold_write_heartbeat(NONE, 1, NONE, NONE));

    REFUSED(OUTPUT_SHORT, eiderwagon_mold_write_end(NONE, 1, LEND(lent.out), WORDS(WRITE)));
    REFUSED(OUTPUT_SHORT, eiderwagon_mold_write_end(LEND(name), 1, NONE, WORDS(WRITE)));
    REFUSED(OUTPUT_SHORT, eiderwagon_mold_write_end(LEND(name), 1, LEND(lent.out), NONE));
    REFUSED(OUTPUT_SHORT, eiderwagon_mold_write_end(NONE, 1, NONE, NONE));

    REFUSED(REQUEST_SIZE, eiderwagon_mold_read_request(NONE, WORDS(READ_REQUEST)));
    REFUSED(OUTPUT_SHORT, eiderwagon_mold_read_request(one.bytes, 20, NONE));
    REFUSED(REQUEST_SIZE, eiderwagon_mold_read_request(NONE, NONE));

    REFUSED(OUTPUT_SHORT, eiderwagon_mold_write_request(NONE, 1, 1, LEND(lent.out), WORDS(WRITE)));
    REFUSED(OUTPUT_SHORT, eiderwagon_mold_write_request(LEND(name), 1, 1, NONE, WORDS(WRITE)));
    REFUSED(OUTPUT_SHORT, eiderwagon_mold_write_request(LEND(name), 1, 1, LEND(lent.out), NONE));
    REFUSED(OUTPUT_SHORT, eiderwagon_mold_write_request(NONE, 1, 1, NONE, NONE));

    REFUSED(BAD_SETTING, eiderwagon_receiver_start(NONE, 1, 1, LEND(lent.state)));
    REFUSED(OUTPUT_SHORT, eiderwagon_receiver_start(LEND(name), 1, 1, NONE));
    REFUSED(BAD_SETTING, eiderwagon_receiver_start(NONE, 1, 1, NONE));

    DONE(eiderwagon_receiver_start(LEND(name), 1, 1, LEND(lent.state)));
    REFUSED(OUTPUT_SHORT, eiderwagon_receiver_take(NONE, one.bytes, one.size, WORDS(TAKE)));
    REFUSED(DATAGRAM_SHORT, eiderwagon_receiver_take(LEND(lent.state), NONE, WORDS(TAKE)));
    REFUSED(OUTPUT_SHORT, eiderwagon_receiver_take(LEND(lent.state), one.bytes, one.size, NONE));
    REFUSED(DATAGRAM_SHORT, eiderwagon_receiver_take(NONE, NONE, NONE));

    REFUSED(OUTPUT_SHORT, eiderwagon_receiver_deliver(NONE, one.bytes, one.size, WORDS(TAKE), LEND(lent.places)));
    REFUSED(DATAGRAM_SHORT, eiderwagon_receiver_deliver(LEND(lent.state), NONE, WORDS(TAKE), LEND(lent.places)));
    REFUSED(OUTPUT_SHORT, eiderwagon_receiver_deliver(LEND(lent.state), one.bytes, one.size, NONE, LEND(lent.places)));
    REFUSED(OUTPUT_SHORT, eiderwagon_receiver_deliver(LEND(lent.state), one.bytes, one.size, WORDS(TAKE), NONE));
    REFUSED(DATAGRAM_SHORT, eiderwagon_receiver_deliver(NONE, NONE, NONE, NONE));
    /* What delivers nothing needs no place. */
    DONE(eiderwagon_receiver_deliver(LEND(lent.state), quiet.bytes, quiet.size, WORDS(TAKE), NONE));
    CHECK(LENT(TAKE_ANSWER) == EIDERWAGON_RECEIVER_QUIET);

    DONE(eiderwagon_receiver_walk(NONE, 2, 1, LEND(lent.cursor)));
    CHECK(number_in(lent.cursor, EIDERWAGON_CURSOR_PLACE_AT, 8) == 20);
    CHECK(number_in(lent.cursor, EIDERWAGON_CURSOR_LEFT_AT, 2) == 3);
    REFUSED(OUTPUT_SHORT, eiderwagon_receiver_walk(one.bytes, one.size, 1, 0, NONE));
    REFUSED(OUTPUT_SHORT, eiderwagon_receiver_walk(NONE, 1, 0, NONE));
}

static void lend_no_bytes_to_stores_and_transmitters(void) {
    const char six[] = "READROOM01\0\0\0\0\0\0\0\6\0\1";
    memset(&lent, 0xA5, sizeof lent);

    REFUSED(OUTPUT_SHORT, ANSWER(NONE, 6, 29, PART((const uint8_t *)six, 20), LEND(lent.out), WORDS(WRITE)));
    REFUSED(REQUEST_SIZE, ANSWER(LEND(name), 6, 29, NONE, LEND(lent.out), WORDS(WRITE)));
    REFUSED(OUTPUT_SHORT, ANSWER(LEND(name), 6, 29, PART((const uint8_t *)six, 20), NONE, WORDS(WRITE)));
    REFUSED(OUTPUT_SHORT, ANSWER(LEND(name), 6, 29, PART((const uint8_t *)six, 20), LEND(lent.out), NONE));
    REFUSED(LENGTHS_DIFFER,
            eiderwagon_store_answer(LEND(name), 6, NONE, TEXT(kept), 29, NONE, LEND(lent.out), WORDS(WRITE)));
    REFUSED(BAD_SETTING, eiderwagon_store_answer(NONE, 0, NONE, NONE, 0, NONE, NONE, NONE));

    REFUSED(OUTPUT_SHORT, PACKET(NONE, 6, 29, 0, LEND(lent.out), WORDS(WRITE)));
    REFUSED(OUTPUT_SHORT, PACKET(LEND(name), 6, 29, 0, NONE, WORDS(WRITE)));
    REFUSED(OUTPUT_SHORT, PACKET(LEND(name), 6, 29, 0, LEND(lent.out), NONE));
    REFUSED(BAD_SETTING, eiderwagon_transmitter_packet(NONE, 0, NONE, NONE, 0, 0, NONE, NONE));
    REFUSED(OUTPUT_SHORT, START(6, 29, NONE));
    DONE(eiderwagon_transmitter_start(1, NONE, NONE, 22, LEND(lent.state)));
    REFUSED(NO_SUCH_PACKET,
            eiderwagon_transmitter_next(LEND(name), 1, NONE, NONE, 22, LEND(lent.state), LEND(lent.out),
                                        WORDS(WRITE)));
    DONE(START(6, 29, LEND(lent.state)));
    REFUSED(OUTPUT_SHORT, NEXT_PACKET(LEND(name), 6, 29, NONE, LEND(lent.out), WORDS(WRITE)));
    REFUSED(OUTPUT_SHORT, NEXT_PACKET(NONE, 6, 29, LEND(lent.state), LEND(lent.out), WORDS(WRITE)));
    REFUSED(BAD_SETTING, eiderwagon_transmitter_next(NONE, 0, NONE, NONE, 0, NONE, NONE, NONE));
}

static void write_no_payload(PayloadWriter write) {
    DONE(write(NONE, LEND(lent.out), WORDS(WRITE)));
    CHECK(LENT(WRITE_SIZE) == 3);
    REFUSED(OUTPUT_SHORT, write(NONE, NONE, WORDS(WRITE)));
    REFUSED(OUTPUT_SHORT, write(TEXT("hello"), NONE, WORDS(WRITE)));
    REFUSED(OUTPUT_SHORT, write(TEXT("hello"), LEND(lent.out), NONE));
    REFUSED(OUTPUT_SHORT, write(NONE, NONE, NONE));
}

static void write_into_nothing(BareWriter write) {
    REFUSED(OUTPUT_SHORT, write(NONE, WORDS(WRITE)));
    REFUSED(OUTPUT_SHORT, write(LEND(lent.out), NONE));
    REFUSED(OUTPUT_SHORT, write(NONE, NONE));
}

#define USERNAME TEXT("clerk ")
#define PASSWORD TEXT("desk5     ")

static void lend_no_bytes_to_packets(void) {
    memset(&lent, 0xA5, sizeof lent);

    DONE(eiderwagon_soup_read(NONE, EIDERWAGON_SOUP_FROM_SERVER, WORDS(SOUP_READ)));
    CHECK(LENT(SOUP_READ_LETTER) == 0 && LENT(SOUP_READ_SIZE) == 0 && LENT(SOUP_READ_NUMBER) == 0);
    REFUSED(OUTPUT_SHORT, eiderwagon_soup_read(TEXT("\0\1H"), EIDERWAGON_SOUP_FROM_SERVER, NONE));
    REFUSED(OUTPUT_SHORT, eiderwagon_soup_read(NONE, EIDERWAGON_SOUP_FROM_SERVER, NONE));

    DONE(eiderwagon_soup_scan(NONE, EIDERWAGON_SOUP_FROM_SERVER, WORDS(SCAN)));
    CHECK(LENT(SCAN_COUNT) == 0 && LENT(SCAN_SIZE) == 0 && LENT(SCAN_REFUSAL) == 0);
    REFUSED(OUTPUT_SHORT, eiderwagon_soup_scan(TEXT("\0\1H"), EIDERWAGON_SOUP_FROM_SERVER, NONE));
    REFUSED(OUTPUT_SHORT, eiderwagon_soup_scan(NONE, EIDERWAGON_SOUP_FROM_SERVER, NONE));

    write_no_payload(eiderwagon_soup_write_debug);
    write_no_payload(eiderwagon_soup_write_sequenced);
    write_no_payload(eiderwagon_soup_write_unsequenced);
    write_into_nothing(eiderwagon_soup_write_server_heartbeat);
    write_into_nothing(eiderwagon_soup_write_end);
    write_into_nothing(eiderwagon_soup_write_client_heartbeat);
    write_into_nothing(eiderwagon_soup_write_logout);

    REFUSED(FIELD_NOT_WRITTEN, eiderwagon_soup_write_accepted(NONE, 1, LEND(lent.out), WORDS(WRITE)));
    REFUSED(OUTPUT_SHORT, eiderwagon_soup_write_accepted(LEND(name), 1, NONE, WORDS(WRITE)));
    REFUSED(OUTPUT_SHORT, eiderwagon_soup_write_accepted(LEND(name), 1, LEND(lent.out), NONE));
    REFUSED(FIELD_NOT_WRITTEN, eiderwagon_soup_write_accepted(NONE, 1, NONE, NONE));

    REFUSED(OUTPUT_SHORT, eiderwagon_soup_write_rejected('A', NONE, WORDS(WRITE)));
    REFUSED(OUTPUT_SHORT, eiderwagon_soup_write_rejected('A', LEND(lent.out), NONE));
    REFUSED(OUTPUT_SHORT, eiderwagon_soup_write_rejected('A', NONE, NONE));

    REFUSED(FIELD_NOT_WRITTEN,
            eiderwagon_soup_write_login(NONE, PASSWORD, LEND(name), 1, LEND(lent.out), WORDS(WRITE)));
    REFUSED(FIELD_NOT_WRITTEN,
            eiderwagon_soup_write_login(USERNAME, NONE, LEND(name), 1, LEND(lent.out), WORDS(WRITE)));
    REFUSED(FIELD_NOT_WRITTEN,
            eiderwagon_soup_write_login(USERNAME, PASSWORD, NONE, 1, LEND(lent.out), WORDS(WRITE)));
    REFUSED(OUTPUT_SHORT, eiderwagon_soup_write_login(USERNAME, PASSWORD, LEND(name), 1, NONE, WORDS(WRITE)));
    REFUSED(OUTPUT_SHORT, eiderwagon_soup_write_login(USERNAME, PASSWORD, LEND(name), 1, LEND(lent.out), NONE));
    REFUSED(FIELD_NOT_WRITTEN, eiderwagon_soup_write_login(NONE, NONE, NONE, 1, NONE, NONE));
}

static void lend_no_bytes_to_sessions(void) {
    memset(&lent, 0xA5, sizeof lent);

    REFUSED(BAD_SETTING, eiderwagon_server_start(NONE, 0, LEND(lent.state)));
    REFUSED(OUTPUT_SHORT, eiderwagon_server_start(LEND(name), 0, NONE));
    REFUSED(BAD_SETTING, eiderwagon_server_start(NONE, 0, NONE));

    REFUSED(OUTPUT_SHORT, eiderwagon_server_set_last(NONE, 0));
    REFUSED(BAD_SETTING, eiderwagon_server_set_last(NONE, UINT64_MAX));

    DONE(eiderwagon_server_start(LEND(name), 0, LEND(lent.state)));
    REFUSED(OUTPUT_SHORT, eiderwagon_server_step(NONE, TEXT(accounts), TEXT(LOGIN), WORDS(SERVER_STEP)));
    DONE(eiderwagon_server_step(LEND(lent.state), TEXT(accounts), NONE, WORDS(SERVER_STEP)));
    CHECK(LENT(SERVER_STEP_ANSWER) == EIDERWAGON_SESSION_NEED_MORE && LENT(SERVER_STEP_SIZE) == 0);
    DONE(eiderwagon_server_step(LEND(lent.state), NONE, NONE, WORDS(SERVER_STEP)));
    CHECK(LENT(SERVER_STEP_ANSWER) == EIDERWAGON_SESSION_NEED_MORE && LENT(SERVER_STEP_SIZE) == 0);
    REFUSED(OUTPUT_SHORT, eiderwagon_server_step(LEND(lent.state), TEXT(accounts), TEXT(LOGIN), NONE));
    REFUSED(OUTPUT_SHORT, eiderwagon_server_step(NONE, NONE, NONE, NONE));
    DONE(eiderwagon_server_step(LEND(lent.state), NONE, TEXT(LOGIN), WORDS(SERVER_STEP)));
    CHECK(LENT(SERVER_STEP_ANSWER) == EIDERWAGON_SESSION_REJECTED && LENT(SERVER_STEP_REASON) == 'A');

    DONE(eiderwagon_server_start(LEND(name), 0, LEND(lent.state)));
    REFUSED(OUTPUT_SHORT,
            eiderwagon_server_reply(NONE, TEXT(accounts), TEXT(LOGIN), LEND(lent.out), WORDS(SERVER_REPLY)));
    DONE(eiderwagon_server_reply(LEND(lent.state), TEXT(accounts), NONE, NONE, WORDS(SERVER_REPLY)));
    CHECK(LENT(SERVER_REPLY_ANSWER) == EIDERWAGON_SESSION_NEED_MORE && LENT(SERVER_REPLY_WRITTEN) == 0);
    REFUSED(OUTPUT_SHORT,
            eiderwagon_server_reply(LEND(lent.state), TEXT(accounts), TEXT(LOGIN), NONE, WORDS(SERVER_REPLY)));
    REFUSED(OUTPUT_SHORT,
            eiderwagon_server_reply(LEND(lent.state), TEXT(accounts), TEXT(LOGIN), LEND(lent.out), NONE));
    REFUSED(OUTPUT_SHORT, eiderwagon_server_reply(NONE, NONE, NONE, NONE, NONE));
    DONE(eiderwagon_server_reply(LEND(lent.state), NONE, TEXT(LOGIN), LEND(lent.out), WORDS(SERVER_REPLY)));
    CHECK(LENT(SERVER_REPLY_ANSWER) == EIDERWAGON_SESSION_REJECTED && LENT(SERVER_REPLY_WRITTEN) == 4);

    REFUSED(BAD_SETTING, eiderwagon_client_start(NONE, 0, LEND(lent.state)));
    REFUSED(OUTPUT_SHORT, eiderwagon_client_start(LEND(name), 0, NONE));
    REFUSED(BAD_SETTING, eiderwagon_client_start(NONE, 0, NONE));

    DONE(eiderwagon_client_start(LEND(name), 0, LEND(lent.state)));
    REFUSED(OUTPUT_SHORT, eiderwagon_client_step(NONE, TEXT(ACCEPTED), WORDS(CLIENT_STEP)));
    DONE(eiderwagon_client_step(LEND(lent.state), NONE, WORDS(CLIENT_STEP)));
    CHECK(LENT(CLIENT_STEP_ANSWER) == EIDERWAGON_SESSION_NEED_MORE && LENT(CLIENT_STEP_SIZE) == 0);
    REFUSED(OUTPUT_SHORT, eiderwagon_client_step(LEND(lent.state), TEXT(ACCEPTED), NONE));
    REFUSED(OUTPUT_SHORT, eiderwagon_client_step(NONE, NONE, NONE));
}

static void lend_no_bytes_to_early_receivers(void) {
    const Bytes one = data(1, 1, (const uint16_t[]){3}, "one");
    memset(&lent, 0xA5, sizeof lent);
    REFUSED(BAD_SETTING, eiderwagon_early_start(NONE, 1, 100, NONE));
    REFUSED(OUTPUT_SHORT, eiderwagon_early_start(LEND(name), 1, 100, NONE));
    DONE(eiderwagon_early_start(LEND(name), 1, 100, LEND(lent.state)));
    REFUSED(DATAGRAM_SHORT, eiderwagon_early_take(NONE, NONE, NONE, NONE));
    REFUSED(OUTPUT_SHORT, eiderwagon_early_take(NONE, NONE, one.bytes, one.size, NONE));
    REFUSED(BAD_SETTING, eiderwagon_early_take(LEND(lent.state), NONE, one.bytes, one.size, NONE));
    REFUSED(OUTPUT_SHORT, eiderwagon_early_take(LEND(lent.state), SLOTS, one.bytes, one.size, NONE));
    REFUSED(DATAGRAM_SHORT, eiderwagon_early_deliver(NONE, NONE, NONE, NONE, NONE));
    REFUSED(BAD_SETTING, eiderwagon_early_deliver(LEND(lent.state), NONE, one.bytes, one.size, NONE, NONE));
    REFUSED(OUTPUT_SHORT,
            eiderwagon_early_deliver(LEND(lent.state), SLOTS, one.bytes, one.size, WORDS(EARLY_TAKE), NONE));
    REFUSED(OUTPUT_SHORT, eiderwagon_early_count(NONE, NONE, NONE, NONE));
    REFUSED(BAD_SETTING, eiderwagon_early_count(LEND(lent.state), NONE, NONE, NONE));
    DONE(eiderwagon_early_count(LEND(lent.state), SLOTS, NONE, WORDS(EARLY_COUNT)));
    CHECK(LENT(EARLY_COUNT_COUNT) == 0);
    REFUSED(OUTPUT_SHORT, eiderwagon_early_locate(NONE, NONE, NONE, 0, NONE));
    DONE(eiderwagon_early_locate(LEND(lent.state), SLOTS, NONE, 0, WORDS(PART)));
    CHECK(LENT(PART_FOUND) == 0);
    REFUSED(OUTPUT_SHORT, eiderwagon_early_walk(NONE, NONE, NONE, NONE));
    REFUSED(OUTPUT_SHORT, eiderwagon_early_walk(LEND(lent.state), SLOTS, NONE, NONE));
    DONE(eiderwagon_early_walk(LEND(lent.state), SLOTS, NONE, LEND(lent.walk)));
    CHECK(number_in(lent.walk, EIDERWAGON_WALK_LEFT_AT, 2) == 0);
    CHECK(number_in(lent.walk, EIDERWAGON_WALK_PLACE_AT, 8) == EIDERWAGON_MOLD_HEADER_SIZE);
    CHECK(number_in(lent.walk, EIDERWAGON_WALK_BLOCKS_AT, 2) == 0);
    CHECK(lent.walk[EIDERWAGON_WALK_CODE_AT] == EIDERWAGON_WALK_OPEN);
    REFUSED(OUTPUT_SHORT, eiderwagon_early_next(NONE, NONE, NONE, NONE, NONE));
    DONE(eiderwagon_early_next(LEND(lent.walk), LEND(lent.state), SLOTS, NONE, WORDS(PART)));
    CHECK(LENT(PART_FOUND) == 0);
}

static void lend_no_bytes_to_captures(void) {
    memset(&lent, 0xA5, sizeof lent);

    REFUSED(OUTPUT_SHORT, eiderwagon_capture_start(NONE));

    DONE(eiderwagon_capture_start(LEND(lent.state)));
    REFUSED(OUTPUT_SHORT, eiderwagon_capture_feed(NONE, SLOTS, zeros, 57, WORDS(FEED)));
    DONE(eiderwagon_capture_feed(LEND(lent.state), SLOTS, NONE, WORDS(FEED)));
    CHECK(LENT(FEED_USED) == 0 && LENT(FEED_OVER) == 0);
    REFUSED(OUTPUT_SHORT, eiderwagon_capture_feed(LEND(lent.state), SLOTS, zeros, 57, NONE));
    REFUSED(OUTPUT_SHORT, eiderwagon_capture_feed(NONE, SLOTS, NONE, NONE));

    REFUSED(OUTPUT_SHORT, eiderwagon_capture_finish(NONE, SLOTS, zeros, 57));
    REFUSED(OUTPUT_SHORT, eiderwagon_capture_finish(NONE, SLOTS, NONE));
    REFUSED(OUTPUT_SHORT, eiderwagon_capture_finish(NONE, NONE, NONE));
    REFUSED(BAD_SETTING, eiderwagon_capture_feed(LEND(lent.state), NONE, NONE, NONE));
    REFUSED(BAD_SETTING, eiderwagon_capture_finish(LEND(lent.state), NONE, NONE));
    DONE(eiderwagon_capture_finish(LEND(lent.state), SLOTS, NONE));
    CHECK(lent.state[EIDERWAGON_CAPTURE_STAGE_AT] == EIDERWAGON_CAPTURE_BAD);
    /* between records and when it is done, too */
    for (uint8_t stage = EIDERWAGON_CAPTURE_RECORDS; stage <= EIDERWAGON_CAPTURE_DONE; stage++) {
        lent.state[EIDERWAGON_CAPTURE_CODE_AT] = stage == EIDERWAGON_CAPTURE_DONE ? 0 : EIDERWAGON_CAPTURE_OPEN;
        lent.state[EIDERWAGON_CAPTURE_STAGE_AT] = stage;
        DONE(eiderwagon_capture_feed(LEND(lent.state), SLOTS, NONE, WORDS(FEED)));
        CHECK(LENT(FEED_USED) == 0 && LENT(FEED_OVER) == (stage == EIDERWAGON_CAPTURE_DONE));
        DONE(eiderwagon_capture_finish(LEND(lent.state), SLOTS, NONE));
        CHECK(lent.state[EIDERWAGON_CAPTURE_STAGE_AT] == EIDERWAGON_CAPTURE_DONE);
        CHECK(number_in(lent.state, EIDERWAGON_CAPTURE_REFUSED_AT, 8) == 0);
    }

    REFUSED(OUTPUT_SHORT, eiderwagon_capture_write(NONE, LEND(lent.out), WORDS(WRITE)));
    REFUSED(OUTPUT_SHORT, eiderwagon_capture_write(LEND(lent.state), NONE, WORDS(WRITE)));
    REFUSED(OUTPUT_SHORT, eiderwagon_capture_write(LEND(lent.state), LEND(lent.out), NONE));
    REFUSED(OUTPUT_SHORT, eiderwagon_capture_write(NONE, NONE, NONE));

    DONE(eiderwagon_capture_report(NONE, LEND(lent.out), WORDS(WRITE)));
    CHECK(same(lent.out, LENT(WRITE_SIZE), "settings=refused\n"));
    REFUSED(OUTPUT_SHORT, eiderwagon_capture_report(TEXT("bad"), NONE, WORDS(WRITE)));
    REFUSED(OUTPUT_SHORT, eiderwagon_capture_report(TEXT("bad"), LEND(lent.out), NONE));
    REFUSED(OUTPUT_SHORT, eiderwagon_capture_report(NONE, NONE, NONE));
}

static void lend_no_bytes_to_what_is_missing(void) {
    memset(&lent, 0xA5, sizeof lent);
    REFUSED(OUTPUT_SHORT, eiderwagon_missing_start(NONE));
    DONE(eiderwagon_missing_start(LEND(lent.state)));
    REFUSED(OUTPUT_SHORT, eiderwagon_missing_feed(NONE, NONE, NONE, NONE));
    REFUSED(BAD_SETTING, eiderwagon_missing_feed(LEND(lent.state), NONE, NONE, NONE));
    REFUSED(OUTPUT_SHORT, eiderwagon_missing_feed(LEND(lent.state), EDGES, NONE, NONE));
    DONE(eiderwagon_missing_feed(LEND(lent.state), EDGES, NONE, WORDS(FEED)));
    CHECK(LENT(FEED_USED) == 0 && LENT(FEED_OVER) == 0);
    REFUSED(OUTPUT_SHORT, eiderwagon_missing_finish(NONE, NONE, NONE));
    REFUSED(BAD_SETTING, eiderwagon_missing_finish(LEND(lent.state), NONE, NONE));
    REFUSED(OUTPUT_SHORT, eiderwagon_missing_count(NONE, NONE, NONE));
    REFUSED(BAD_SETTING, eiderwagon_missing_count(LEND(lent.state), NONE, NONE));
    REFUSED(OUTPUT_SHORT, eiderwagon_missing_count(LEND(lent.state), EDGES, NONE));
    REFUSED(OUTPUT_SHORT, eiderwagon_missing_range(NONE, NONE, 0, NONE));
    REFUSED(BAD_SETTING, eiderwagon_missing_range(LEND(lent.state), NONE, 0, NONE));
    REFUSED(OUTPUT_SHORT, eiderwagon_missing_range(LEND(lent.state), EDGES, 0, NONE));
    REFUSED(OUTPUT_SHORT, eiderwagon_missing_write(NONE, NONE, NONE, NONE));
    REFUSED(BAD_SETTING, eiderwagon_missing_write(LEND(lent.state), NONE, NONE, NONE));
    REFUSED(OUTPUT_SHORT, eiderwagon_missing_write(LEND(lent.state), EDGES, NONE, NONE));
    DONE(eiderwagon_missing_finish(LEND(lent.state), EDGES, NONE));
    CHECK(lent.state[EIDERWAGON_MISSING_STAGE_AT] == EIDERWAGON_CAPTURE_BAD);
}

/* ---- 8. The version, codes and grounds --------------------------------------------------------------------------- */

static void be_of_this_version(void) {
    CHECK(eiderwagon_version() == EIDERWAGON_VERSION);
    CHECK(EIDERWAGON_VERSION == (0u << 16 | 1u << 8 | 0u));
}

static void say_the_grounds(void) {
    unsigned known = 0;
    for (uint32_t number = 1; number <= 0xFF; number++) {
        const char *ground = eiderwagon_ground(number);
        CHECK(strlen(ground) > 0 && strcmp(ground, eiderwagon_ground(EIDERWAGON_OK)) != 0);
        known += strcmp(ground, eiderwagon_ground(1)) != 0;
        /* a place above the number changes neither */
        CHECK(EIDERWAGON_NUMBER(0xABCDEF00u | number) == number && eiderwagon_ground(0xABCDEF00u | number) == ground);
    }
    CHECK(known == 29);
    CHECK(strcmp(eiderwagon_ground(EIDERWAGON_REFUSED_DATAGRAM_SHORT), "a Mold datagram under 20 bytes") == 0);
    CHECK(strcmp(eiderwagon_ground(EIDERWAGON_REFUSED_REQUEST_COUNT), "a request whose count is 0 or 65,535") == 0);
    CHECK(strcmp(eiderwagon_ground(EIDERWAGON_OK), "no refusal") == 0);
}

int main(void) {
    follow_a_feed();
    keep_early_messages();
    serve_from_a_store();
    send_a_run();
    read_a_datagram();

    log_in_and_out();
    be_rejected();

    report_captures();
    list_what_is_missing();

    memset(&lent, 0xA5, sizeof lent);
    refuse_datagrams();
    refuse_written_datagrams();
    refuse_requests();
    refuse_at_a_receiver();
    refuse_to_deliver();
    refuse_at_an_early_receiver();
    learn_a_name();
    refuse_at_a_store();
    refuse_at_a_transmitter();
    refuse_packets();
    refuse_written_packets();
    refuse_at_a_server();
    refuse_a_reply();
    refuse_at_a_client();
    refuse_captures();
    refuse_what_is_missing();

    write_no_more_than_is_said();
    use_no_more_of_a_state_than_its_size();
    lay_no_more_places_than_messages();
    have_places_for_the_most_messages();
    have_early_places_for_the_most_messages();
    keep_parts_in_their_places();
    take_sizes_as_they_are_said();
    take_bytes_of_zero_as_states();
    leave_the_old_state_at_a_refused_start();
    walk_past_the_end();
    end_a_capture();

    be_open_as_one_kind_alone();
    change_no_byte_of_a_cursor_without_a_message();
    change_no_byte_of_another_kind();
    change_no_byte_where_more_is_needed();
    lend_the_receiver_of_a_reading();

    lend_no_bytes_to_datagrams();
    lend_no_bytes_to_early_receivers();
    lend_no_bytes_to_stores_and_transmitters();
    lend_no_bytes_to_packets();
    lend_no_bytes_to_sessions();
    lend_no_bytes_to_captures();
    lend_no_bytes_to_what_is_missing();

    be_of_this_version();
    say_the_grounds();

    printf("test.c: %lu checks passed\n", checks);
    return 0;
}
