/* What is missing from a day's capture: the gaps of a session, each as a range of numbers, and a request for each.
 *
 *   cc -I ../../include missing.c ../../target/staticlib/libeiderwagon.a -o missing && ./missing
 *
 * A real host reads a file. Here the capture is written in main, and handed on in pieces as a file would come.
 */
#include "eiderwagon.h"

#include <inttypes.h>
#include <stdio.h>
#include <stdlib.h>
#include <string.h>

static const uint8_t session[EIDERWAGON_SESSION_SIZE] = {'R', 'E', 'A', 'D', 'R', 'O', 'O', 'M', '0', '1'};

/* ---- The reading ------------------------------------------------------------------------------------------------- */

/* The reading, and beside it the edges of its ranges: they belong together, and go from call to call. */
static uint8_t reading[EIDERWAGON_MISSING_SIZE];
static uint64_t edges[EIDERWAGON_MISSING_EDGES];

/* Bytes that came and weren't used yet: at most a record less one byte, and the piece behind it. */
static uint8_t kept[65536 + 64];
static size_t kept_size = 0;

/* Takes the next piece, of at most 64 bytes. */
static void take(const uint8_t *piece, size_t size) {
    uint64_t words[EIDERWAGON_FEED_WORDS];
    memcpy(kept + kept_size, piece, size);
    kept_size += size;
    uint32_t code = eiderwagon_missing_feed(reading, sizeof reading, edges, EIDERWAGON_MISSING_EDGES, kept, kept_size,
                                            words, EIDERWAGON_FEED_WORDS);
    if (EIDERWAGON_NUMBER(code) != EIDERWAGON_OK) {
        fprintf(stderr, "no feed: %s\n", eiderwagon_ground(code));
        exit(1);
    }
    kept_size -= (size_t)words[EIDERWAGON_FEED_USED];
    memmove(kept, kept + words[EIDERWAGON_FEED_USED], kept_size);
}

/* Writes a request for a missing range, or for its front: one request asks for at most 65,534 messages. */
static void ask(uint64_t from, uint64_t to) {
    uint64_t wanted = to - from < 65534 ? to - from + 1 : 65534;
    uint8_t request[EIDERWAGON_MOLD_HEADER_SIZE];
    uint64_t words[EIDERWAGON_WRITE_WORDS];
    eiderwagon_mold_write_request(session, sizeof session, from, (uint16_t)wanted, request, sizeof request, words,
                                  EIDERWAGON_WRITE_WORDS);
    printf("%" PRIu64 " to %" PRIu64 " are missing: a request of %" PRIu64 " bytes for %" PRIu64 " messages\n", from,
           to, words[EIDERWAGON_WRITE_SIZE], wanted);
}

/* Lists the ranges. Where there are none to list, the text says why. */
static void list(void) {
    static uint8_t text[EIDERWAGON_MISSING_TEXT];
    uint64_t count[EIDERWAGON_MISSING_COUNT_WORDS];
    uint64_t range[EIDERWAGON_MISSING_RANGE_WORDS];
    uint64_t words[EIDERWAGON_WRITE_WORDS];
    eiderwagon_missing_count(reading, sizeof reading, edges, EIDERWAGON_MISSING_EDGES, count,
                             EIDERWAGON_MISSING_COUNT_WORDS);
    for (uint64_t place = 0; place < count[EIDERWAGON_MISSING_COUNT_RANGES]; place++) {
        eiderwagon_missing_range(reading, sizeof reading, edges, EIDERWAGON_MISSING_EDGES, place, range,
                                 EIDERWAGON_MISSING_RANGE_WORDS);
        ask(range[EIDERWAGON_MISSING_RANGE_FROM], range[EIDERWAGON_MISSING_RANGE_TO]);
    }
    eiderwagon_missing_write(reading, sizeof reading, edges, EIDERWAGON_MISSING_EDGES, text, sizeof text, words,
                             EIDERWAGON_WRITE_WORDS);
    printf("%.*s", (int)words[EIDERWAGON_WRITE_SIZE], (const char *)text);
}

/* ---- In place of a file ------------------------------------------------------------------------------------------ */

/* A record: a length of two bytes, the high one first, and a datagram. */
static void record(const uint8_t *datagram, size_t size) {
    const uint8_t length[2] = {(uint8_t)(size >> 8), (uint8_t)size};
    take(length, sizeof length);
    take(datagram, size);
}

/* Two messages, from number `first` on. */
static void data(uint64_t first) {
    const uint16_t lengths[] = {5, 4};
    uint8_t datagram[64];
    uint64_t words[EIDERWAGON_WRITE_WORDS];
    eiderwagon_mold_write_data(session, sizeof session, first, lengths, 2, (const uint8_t *)"offersale", 9, datagram,
                               sizeof datagram, words, EIDERWAGON_WRITE_WORDS);
    record(datagram, (size_t)words[EIDERWAGON_WRITE_SIZE]);
}

static void end_of_session(uint64_t next) {
    uint8_t datagram[EIDERWAGON_MOLD_HEADER_SIZE];
    uint64_t words[EIDERWAGON_WRITE_WORDS];
    eiderwagon_mold_write_end(session, sizeof session, next, datagram, sizeof datagram, words, EIDERWAGON_WRITE_WORDS);
    record(datagram, (size_t)words[EIDERWAGON_WRITE_SIZE]);
}

int main(void) {
    static const char settings[] = "session=READROOM01\nnext=1\nlimit=100\n";
    uint32_t code;
    if (eiderwagon_version() != EIDERWAGON_VERSION) {
        fprintf(stderr, "the library is of another version than its header\n");
        return 1;
    }
    code = eiderwagon_missing_start(reading, sizeof reading);
    if (EIDERWAGON_NUMBER(code) != EIDERWAGON_OK) {
        fprintf(stderr, "no reading: %s\n", eiderwagon_ground(code));
        return 1;
    }
    take((const uint8_t *)settings, sizeof settings - 1);
    data(1);
    data(7); /* 3 to 6 are missing */
    data(5); /* late: 3 and 4 still are */
    end_of_session(70000);
    code = eiderwagon_missing_finish(reading, sizeof reading, edges, EIDERWAGON_MISSING_EDGES, kept, kept_size);
    if (EIDERWAGON_NUMBER(code) != EIDERWAGON_OK) {
        fprintf(stderr, "no end: %s\n", eiderwagon_ground(code));
        return 1;
    }
    list();
    return 0;
}
