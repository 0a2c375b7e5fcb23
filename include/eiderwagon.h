/* Eiderwagon: MoldUDP64 and SoupBinTCP, at both ends, for hosts in C and in every language that calls C.
 *
 * Link with libeiderwagon.a, which `tools/host_library.sh` builds for x86-64 Linux. Nothing here allocates, blocks,
 * reads a clock, touches a socket or keeps anything between two calls: a state is bytes that you keep, and lend to each
 * call. hosts/c has five examples, feed.c, early.c, missing.c, login.c and branch.c.
 *
 * What is lent
 *   A buffer is a pointer and, behind it, how many elements it has. With no elements it may be any pointer, NULL too.
 *   No buffer that is written overlaps another one of the same call. Any bytes, of any length, may be lent: nothing
 *   needs to be checked beforehand.
 *
 * What comes back
 *   Each function but eiderwagon_version returns a code: 0, or a refusal. Compare EIDERWAGON_NUMBER(code) with
 *   EIDERWAGON_REFUSED_...: the number is in the low 8 bits, and a later library may put a place above them. On 0, the
 *   answer stands in `words`, at the positions that the function's enum names. Each of its words is set, those that an
 *   answer has no value for to 0, and no further one is touched. Lend as many as its _WORDS says: a later library may
 *   have more. A refusal changes no word, and no byte of a lent output, a state, a cursor, slots or edges.
 *
 * Refusals have an order
 *   Where several grounds apply, the first in the function's list is given. First come those that need no state; then
 *   41 for a state or a cursor with fewer bytes than its size; then the state's own; and last 41 for too few words or
 *   an output that is too short. So 41 stands in a list once, or twice: before the state's own grounds, and at the end.
 *   An input of a fixed size (a session, a username, a password) that is shorter or longer is refused, and never cut:
 *   with 19 at a start, and where it is slots or edges, with 46 at a SoupBinTCP writer, and with 41, behind its other
 *   grounds, at a MoldUDP64 writer and at the transmitter; at the store with 41 in the place of 53. Of a state, a
 *   cursor or `words` with more elements than are needed only the first are used.
 *
 * States and cursors
 *   Their layout is given below (_AT and _SIZE), and any bytes are one: a state can be stored, copied, compared and
 *   made by hand. Numbers are little-endian, but for the lengths of held messages. A state is open exactly when its
 *   first byte is its kind's code (_OPEN). No two kinds have the same code, and none is 0: a state that is lent to a
 *   function of another kind isn't open there.
 *   (It may be laid over, though: a start, a walk, eiderwagon_server_set_last, and a feed and a finish of a capture lay
 *   their own.)
 *   With every other first byte, 0 too, a receiver of either kind is ended, a session is closed or ended, a reading is
 *   done or its settings are refused, a cursor and a walk have no messages left and a transmitter no packet. So bytes
 *   of zero are never open.
 *   Where more is needed no byte of a state changes, none by a feed that uses no byte and isn't over, and none of a
 *   cursor or a walk where no message is there. Every other success lays the state in one form, its first byte 0 if it
 *   isn't open, also where its meaning doesn't change; a cursor, a walk and a transmitter are always laid with their
 *   code. The lengths of held messages are no part of that form: a step changes those of the messages that it holds.
 *   Start every state before its first use. A refused start changes no byte: so clear a state, all bytes 0, before you
 *   start it anew. Otherwise the old one is still there, and perhaps open, where the start is refused.
 */
#ifndef EIDERWAGON_H
#define EIDERWAGON_H

#include <stddef.h>
#include <stdint.h>

#ifdef __cplusplus
extern "C" {
#endif

/* ---- The version ------------------------------------------------------------------------------------------------- */

/* The version that this header describes, 0.1.0: a byte each for the three numbers. */
#define EIDERWAGON_VERSION 0x000100u

/* The version of the library. Compare it with EIDERWAGON_VERSION before the first other call: a library of another one
 * may have other functions, words and layouts. It takes nothing, and refuses nothing. */
uint32_t eiderwagon_version(void);

/* ---- Refusals ---------------------------------------------------------------------------------------------------- */

enum {
    EIDERWAGON_OK = 0,
    EIDERWAGON_REFUSED_DATAGRAM_SHORT = 11,     /* a Mold datagram under 20 bytes */
    EIDERWAGON_REFUSED_DATAGRAM_LONG = 12,      /* a Mold datagram over 65,507 bytes, or a writer's total */
    EIDERWAGON_REFUSED_NUMBER_ZERO = 13,        /* the number is 0 */
    EIDERWAGON_REFUSED_NUMBERS_RUN_OUT = 14,    /* for data, number + count is above 2^64 - 1 */
    EIDERWAGON_REFUSED_BLOCK_PAST_END = 15,     /* a block runs past the end */
    EIDERWAGON_REFUSED_BYTES_AFTER_BLOCKS = 16, /* bytes stand after the last block */
    EIDERWAGON_REFUSED_SESSION_DIFFERS = 17,    /* the session differs */
    EIDERWAGON_REFUSED_SESSION_ENDED = 18,      /* the session has already ended */
    EIDERWAGON_REFUSED_BAD_SETTING = 19,        /* a bad starting setting, an account table over 1,024, or a packet's
                                                   size, a store's numbers, slots or edges out of bounds */
    EIDERWAGON_REFUSED_END_BELOW_EXPECTED = 20, /* an end of session below the expected number */
    EIDERWAGON_REFUSED_LENGTH_ZERO = 21,        /* a packet's length is 0 */
    EIDERWAGON_REFUSED_PAYLOAD_LONG = 22,       /* a payload above 4,096 bytes */
    EIDERWAGON_REFUSED_LETTER_NOT_SENT = 23,    /* the letter is unknown, or of the wrong sender */
    EIDERWAGON_REFUSED_LENGTH_WRONG = 24,       /* the length is wrong for the letter */
    EIDERWAGON_REFUSED_FIELD_BAD = 25,          /* a bad session, number or reason field */
    EIDERWAGON_REFUSED_PACKET_NOT_TAKEN = 31,   /* the packet isn't taken in this state */
    EIDERWAGON_REFUSED_STATE_CLOSED = 32,       /* the state is ended or closed */
    EIDERWAGON_REFUSED_LOGIN_NOT_ASKED = 33,    /* a login accepted doesn't match what was asked */
    EIDERWAGON_REFUSED_NUMBERS_USED_UP = 34,    /* a sequenced message at 2^64 - 1 */
    EIDERWAGON_REFUSED_OUTPUT_SHORT = 41,       /* the lent output is shorter than needed */
    EIDERWAGON_REFUSED_TOO_MANY_MESSAGES = 42,  /* over 65,534 messages */
    EIDERWAGON_REFUSED_LENGTHS_DIFFER = 44,     /* the lengths don't add up to the data */
    EIDERWAGON_REFUSED_FIELD_NOT_WRITTEN = 46,  /* a writer is given an unsound username or password, a bad session
                                                   or reason, or A number 0 */
    EIDERWAGON_REFUSED_REQUEST_SIZE = 47,       /* a request that isn't 20 bytes */
    EIDERWAGON_REFUSED_REQUEST_COUNT = 48,      /* a request whose count is 0 or 65,535 */
    EIDERWAGON_REFUSED_NOT_IN_STORE = 51,       /* the wanted number isn't in the store */
    EIDERWAGON_REFUSED_MESSAGE_LONG = 52,       /* a message alone doesn't fit the packet's size */
    EIDERWAGON_REFUSED_STORE_DIFFERS = 53,      /* a request's session isn't the store's */
    EIDERWAGON_REFUSED_NO_SUCH_PACKET = 54      /* a run has no packet at that place */
};

/* The number of a refusal in a returned code, or EIDERWAGON_OK. */
#define EIDERWAGON_NUMBER(code) ((code) & 0xFFu)

/* The ground of a returned code in words. Never NULL. */
static inline const char *eiderwagon_ground(uint32_t code) {
    switch (EIDERWAGON_NUMBER(code)) {
    case EIDERWAGON_OK:
        return "no refusal";
    case EIDERWAGON_REFUSED_DATAGRAM_SHORT:
        return "a Mold datagram under 20 bytes";
    case EIDERWAGON_REFUSED_DATAGRAM_LONG:
        return "a Mold datagram over 65,507 bytes, or a writer's total";
    case EIDERWAGON_REFUSED_NUMBER_ZERO:
        return "the number is 0";
    case EIDERWAGON_REFUSED_NUMBERS_RUN_OUT:
        return "for data, number + count is above 2^64 - 1";
    case EIDERWAGON_REFUSED_BLOCK_PAST_END:
        return "a block runs past the end";
    case EIDERWAGON_REFUSED_BYTES_AFTER_BLOCKS:
        return "bytes stand after the last block";
    case EIDERWAGON_REFUSED_SESSION_DIFFERS:
        return "the session differs";
    case EIDERWAGON_REFUSED_SESSION_ENDED:
        return "the session has already ended";
    case EIDERWAGON_REFUSED_BAD_SETTING:
        return "a bad starting setting, an account table over 1,024, or a packet's size, a store's numbers, slots or edges out of bounds";
    case EIDERWAGON_REFUSED_END_BELOW_EXPECTED:
        return "an end of session below the expected number";
    case EIDERWAGON_REFUSED_LENGTH_ZERO:
        return "a packet's length is 0";
    case EIDERWAGON_REFUSED_PAYLOAD_LONG:
        return "a payload above 4,096 bytes";
    case EIDERWAGON_REFUSED_LETTER_NOT_SENT:
        return "the letter is unknown, or of the wrong sender";
    case EIDERWAGON_REFUSED_LENGTH_WRONG:
        return "the length is wrong for the letter";
    case EIDERWAGON_REFUSED_FIELD_BAD:
        return "a bad session, number or reason field";
    case EIDERWAGON_REFUSED_PACKET_NOT_TAKEN:
        return "the packet isn't taken in this state";
    case EIDERWAGON_REFUSED_STATE_CLOSED:
        return "the state is ended or closed";
    case EIDERWAGON_REFUSED_LOGIN_NOT_ASKED:
        return "a login accepted doesn't match what was asked";
    case EIDERWAGON_REFUSED_NUMBERS_USED_UP:
        return "a sequenced message at 2^64 - 1";
    case EIDERWAGON_REFUSED_OUTPUT_SHORT:
        return "the lent output is shorter than needed";
    case EIDERWAGON_REFUSED_TOO_MANY_MESSAGES:
        return "over 65,534 messages";
    case EIDERWAGON_REFUSED_LENGTHS_DIFFER:
        return "the lengths don't add up to the data";
    case EIDERWAGON_REFUSED_FIELD_NOT_WRITTEN:
        return "a writer is given an unsound username or password, a bad session or reason, or A number 0";
    case EIDERWAGON_REFUSED_REQUEST_SIZE:
        return "a request that isn't 20 bytes";
    case EIDERWAGON_REFUSED_REQUEST_COUNT:
        return "a request whose count is 0 or 65,535";
    case EIDERWAGON_REFUSED_NOT_IN_STORE:
        return "the wanted number isn't in the store";
    case EIDERWAGON_REFUSED_MESSAGE_LONG:
        return "a message alone doesn't fit the packet's size";
    case EIDERWAGON_REFUSED_STORE_DIFFERS:
        return "a request's session isn't the store's";
    case EIDERWAGON_REFUSED_NO_SUCH_PACKET:
        return "a run has no packet at that place";
    default:
        return "a refusal that this header doesn't know";
    }
}

/* ---- Sizes, in bytes --------------------------------------------------------------------------------------------- */

enum {
    EIDERWAGON_SESSION_SIZE = 10,        /* the name of a session */
    EIDERWAGON_USERNAME_SIZE = 6,        /* a username */
    EIDERWAGON_PASSWORD_SIZE = 10,       /* a password */
    EIDERWAGON_ACCOUNT_SIZE = 16,        /* an account: username, then password, each padded with spaces on the right */
    EIDERWAGON_MOLD_HEADER_SIZE = 20,    /* the header of a datagram, and a whole request */
    EIDERWAGON_LARGEST_DATAGRAM = 65507, /* the largest datagram */
    EIDERWAGON_LARGEST_PACKET = 4099,    /* the largest packet: 2 bytes of length, a letter, 4,096 of payload */
    EIDERWAGON_LARGEST_REPLY = 33,       /* the largest reply to a login, 'A'; 'J' has 4 bytes */
    EIDERWAGON_LARGEST_REPORT = 256,     /* a buffer that every capture's report fits */
    EIDERWAGON_SLOT_SIZE = 1024,         /* a slot, and the longest message that is held in one */
    EIDERWAGON_SLOTS_SIZE = 65536,       /* the 64 slots of a receiver that keeps early messages */
    EIDERWAGON_MISSING_TEXT = 204898     /* the buffer that the text of what is missing needs, however short that is */
};

/* ---- States and cursors: where each part stands, and how many bytes it has --------------------------------------- */

/* A cursor over the messages of a datagram. */
enum {
    EIDERWAGON_CURSOR_CODE_AT = 0,  /* its code, or no messages are left (1) */
    EIDERWAGON_CURSOR_PLACE_AT = 1, /* place in the datagram (8) */
    EIDERWAGON_CURSOR_LEFT_AT = 9,  /* messages left (2) */
    EIDERWAGON_CURSOR_SIZE = 11,    /* a cursor */
    EIDERWAGON_CURSOR_OPEN = 0xE1   /* the code of a cursor */
};

/* A receiver. Its session still matters once it is ended: 17 is given as before, and 18 to every other datagram. */
enum {
    EIDERWAGON_RECEIVER_CODE_AT = 0,    /* its code, or it is ended (1) */
    EIDERWAGON_RECEIVER_SESSION_AT = 1, /* session, ten spaces while it isn't known (10) */
    EIDERWAGON_RECEIVER_NEXT_AT = 11,   /* number of the next message (8) */
    EIDERWAGON_RECEIVER_LIMIT_AT = 19,  /* asking limit (2) */
    EIDERWAGON_RECEIVER_SIZE = 21,      /* a receiver */
    EIDERWAGON_RECEIVER_OPEN = 0xE2     /* the code of a receiver that isn't ended */
};

/* A receiver that keeps early messages. The messages themselves are in its slots, one with number k from the first byte
 * of slot k modulo 64 on. */
enum {
    EIDERWAGON_EARLY_CODE_AT = 0,     /* its code, or it is ended (1) */
    EIDERWAGON_EARLY_SESSION_AT = 1,  /* session, ten spaces while it isn't known (10) */
    EIDERWAGON_EARLY_NEXT_AT = 11,    /* number of the next message (8) */
    EIDERWAGON_EARLY_LIMIT_AT = 19,   /* asking limit (2) */
    EIDERWAGON_EARLY_HELD_AT = 21,    /* the held numbers, a bit each: the lowest stands for the next number + 1 (8) */
    EIDERWAGON_EARLY_LENGTHS_AT = 29, /* length of the message in each slot, its most significant byte first (64 x 2) */
    EIDERWAGON_EARLY_SIZE = 157,      /* a receiver that keeps early messages */
    EIDERWAGON_EARLY_OPEN = 0xE7      /* the code of one that isn't ended */
};

/* A walk over the messages that a datagram will deliver to a receiver that keeps early ones. */
enum {
    EIDERWAGON_WALK_CODE_AT = 0,    /* its code, or no messages are left (1) */
    EIDERWAGON_WALK_NUMBER_AT = 1,  /* number of the message to come (8) */
    EIDERWAGON_WALK_LEFT_AT = 9,    /* messages left (2) */
    EIDERWAGON_WALK_PLACE_AT = 11,  /* place in the datagram (8) */
    EIDERWAGON_WALK_BLOCKS_AT = 19, /* the datagram's own messages that are left from there on (2) */
    EIDERWAGON_WALK_SIZE = 21,      /* a walk */
    EIDERWAGON_WALK_OPEN = 0xE8     /* the code of a walk */
};

/* A transmitter: how far its packets have come. The run itself isn't in it. */
enum {
    EIDERWAGON_TRANSMITTER_CODE_AT = 0,     /* its code, or no packet is left (1) */
    EIDERWAGON_TRANSMITTER_MESSAGES_AT = 1, /* messages that went out (8) */
    EIDERWAGON_TRANSMITTER_BYTES_AT = 9,    /* the bytes of their data (8) */
    EIDERWAGON_TRANSMITTER_SIZE = 17,       /* a transmitter */
    EIDERWAGON_TRANSMITTER_OPEN = 0xE6      /* the code of a transmitter */
};

/* The server's end of a session. */
enum {
    EIDERWAGON_SERVER_CODE_AT = 0,    /* its code, or it is closed (1) */
    EIDERWAGON_SERVER_SESSION_AT = 1, /* session (10) */
    EIDERWAGON_SERVER_LAST_AT = 11,   /* number of the last message, 0 if there is none (8) */
    EIDERWAGON_SERVER_PHASE_AT = 19,  /* its phase (1); with the code only 2 is in, and every other is waiting */
    EIDERWAGON_SERVER_SIZE = 20,      /* a server */
    EIDERWAGON_SERVER_OPEN = 0xE3,    /* the code of a server that isn't closed */
    EIDERWAGON_SERVER_CLOSED = 0,     /* takes no packet any more */
    EIDERWAGON_SERVER_WAITING = 1,    /* waits for a login */
    EIDERWAGON_SERVER_IN = 2          /* the client is in */
};

/* The client's end of a session. */
enum {
    EIDERWAGON_CLIENT_CODE_AT = 0,    /* its code, or it is ended or closed (1) */
    EIDERWAGON_CLIENT_SESSION_AT = 1, /* session (10) */
    EIDERWAGON_CLIENT_NUMBER_AT = 11, /* number asked for, and then that of the next message (8) */
    EIDERWAGON_CLIENT_PHASE_AT = 19,  /* its phase (1); with the code only 2 is in and every other byte asked, without
                                         it only 3 is ended and every other closed */
    EIDERWAGON_CLIENT_SIZE = 20,      /* a client */
    EIDERWAGON_CLIENT_OPEN = 0xE4,    /* the code of a client that is neither ended nor closed */
    EIDERWAGON_CLIENT_CLOSED = 0,     /* takes no packet any more */
    EIDERWAGON_CLIENT_ASKED = 1,      /* has asked, and waits for the answer */
    EIDERWAGON_CLIENT_IN = 2,         /* is in */
    EIDERWAGON_CLIENT_ENDED = 3       /* the server has ended the session */
};

/* The reading of a capture. A count stops at 2^64 - 1. Its receiver can be lent, with its slots, to the functions of
 * the receiver that keeps early messages. */
enum {
    EIDERWAGON_CAPTURE_CODE_AT = 0,        /* its code, or it is over (1) */
    EIDERWAGON_CAPTURE_STAGE_AT = 1,       /* its stage (1); with the code only 2 is records and every other byte
                                              settings, without it only 3 is done and every other settings refused */
    EIDERWAGON_CAPTURE_RECEIVER_AT = 2,    /* a receiver that keeps early messages (EIDERWAGON_EARLY_SIZE) */
    EIDERWAGON_CAPTURE_RECORDS_AT = 159,   /* records read (8; above 2^32 - 1 counts as that) */
    EIDERWAGON_CAPTURE_DELIVERED_AT = 167, /* messages delivered (8) */
    EIDERWAGON_CAPTURE_OLD_AT = 175,       /* answers old (8) */
    EIDERWAGON_CAPTURE_QUIET_AT = 183,     /* answers quiet (8) */
    EIDERWAGON_CAPTURE_ASKED_AT = 191,     /* requests drawn, beside whatever answer (8) */
    EIDERWAGON_CAPTURE_REFUSED_AT = 199,   /* refusals (8) */
    EIDERWAGON_CAPTURE_SIZE = 207,         /* a reading */
    EIDERWAGON_CAPTURE_OPEN = 0xE5,        /* the code of a reading that isn't over */
    EIDERWAGON_CAPTURE_BAD = 0,            /* settings refused */
    EIDERWAGON_CAPTURE_SETTINGS = 1,       /* settings come next */
    EIDERWAGON_CAPTURE_RECORDS = 2,        /* records come next */
    EIDERWAGON_CAPTURE_DONE = 3            /* done */
};

/* The reading of a capture for what is missing. The ranges themselves are in its edges. */
enum {
    EIDERWAGON_MISSING_CODE_AT = 0,     /* its code, or it is over (1) */
    EIDERWAGON_MISSING_STAGE_AT = 1,    /* its stage (1), as EIDERWAGON_CAPTURE_STAGE_AT has it */
    EIDERWAGON_MISSING_SESSION_AT = 2,  /* session (10) */
    EIDERWAGON_MISSING_HIGHEST_AT = 12, /* the highest next number so far (8) */
    EIDERWAGON_MISSING_LEFT_AT = 20,    /* records that may still be read (8; above 2^32 - 1 counts as that); 0 is laid
                                           unless records come next */
    EIDERWAGON_MISSING_CLOSED_AT = 28,  /* ranges that have both edges (8; above 4,096 the ranges are refused) */
    EIDERWAGON_MISSING_REFUSED_AT = 36, /* 0, or the ranges were refused (1; 1 is laid) */
    EIDERWAGON_MISSING_SIZE = 37,       /* a reading for what is missing */
    EIDERWAGON_MISSING_OPEN = 0xE9,     /* the code of one that isn't over */
    EIDERWAGON_MISSING_EDGES = 8193     /* the words of its edges: two for each of 4,096 ranges, and one */
};

/* ---- Writers ----------------------------------------------------------------------------------------------------- */

/* The words of every function that writes into `out`. */
enum {
    EIDERWAGON_WRITE_SIZE = 0, /* how many bytes of `out` were written */
    EIDERWAGON_WRITE_WORDS = 1 /* how many words */
};

/* ---- MoldUDP64 --------------------------------------------------------------------------------------------------- */

/* What a datagram is. */
enum {
    EIDERWAGON_MOLD_DATA = 1,          /* data */
    EIDERWAGON_MOLD_HEARTBEAT = 2,     /* a heartbeat */
    EIDERWAGON_MOLD_END_OF_SESSION = 3 /* an end of session */
};

/* The words of eiderwagon_mold_read. */
enum {
    EIDERWAGON_MOLD_READ_KIND = 0,   /* what the datagram is */
    EIDERWAGON_MOLD_READ_NUMBER = 1, /* its sequence number */
    EIDERWAGON_MOLD_READ_COUNT = 2,  /* how many messages it has, 0 unless it is data */
    EIDERWAGON_MOLD_READ_WORDS = 3   /* how many words */
};

/* Reads a datagram. Its session is its first ten bytes.
 *   words:     EIDERWAGON_MOLD_READ_WORDS
 *   refusals:  11, 12, 13, 14, 15, 16, 41 */
uint32_t eiderwagon_mold_read(const uint8_t *datagram, size_t datagram_size,
                              uint64_t *words, size_t words_size);

/* The words of eiderwagon_mold_locate. */
enum {
    EIDERWAGON_LOCATE_FOUND = 0,  /* 1 if the message is there, else 0 */
    EIDERWAGON_LOCATE_OFFSET = 1, /* the offset of its first byte in the datagram */
    EIDERWAGON_LOCATE_LENGTH = 2, /* its length, perhaps 0 */
    EIDERWAGON_LOCATE_WORDS = 3   /* how many words */
};

/* Finds one message of a datagram by its place, from 0. In a datagram that would be refused there is none. To visit
 * several, walk.
 *   words:     EIDERWAGON_LOCATE_WORDS
 *   refusals:  41 */
uint32_t eiderwagon_mold_locate(const uint8_t *datagram, size_t datagram_size, uint16_t place,
                                uint64_t *words, size_t words_size);

/* Sets a cursor to the first message of a datagram: place 20, and as many left as it has, none in one that would be
 * refused.
 *   cursor:    EIDERWAGON_CURSOR_SIZE bytes, written
 *   refusals:  41 */
uint32_t eiderwagon_mold_walk(const uint8_t *datagram, size_t datagram_size,
                              uint8_t *cursor, size_t cursor_size);

/* The words of eiderwagon_mold_next. */
enum {
    EIDERWAGON_NEXT_FOUND = 0,  /* 1 if a message is there, else 0 */
    EIDERWAGON_NEXT_OFFSET = 1, /* the offset of its first byte in the datagram */
    EIDERWAGON_NEXT_LENGTH = 2, /* its length, perhaps 0 */
    EIDERWAGON_NEXT_WORDS = 3   /* how many words */
};

/* Answers the message at a cursor, and moves the cursor to the next one. Where none is left, the one at the cursor
 * doesn't end within the datagram, or the bytes aren't an open cursor, no message is there and no byte of the cursor
 * changes. Lend the datagram that the cursor was set for; any other is safe too, and then the answer is about that
 * one's bytes.
 *   cursor:    EIDERWAGON_CURSOR_SIZE bytes, read, and written where a message is there
 *   words:     EIDERWAGON_NEXT_WORDS
 *   refusals:  41 */
uint32_t eiderwagon_mold_next(uint8_t *cursor, size_t cursor_size, const uint8_t *datagram, size_t datagram_size,
                              uint64_t *words, size_t words_size);

/* Writes data: messages from their lengths and their joined bytes, the first with number `first`. No lengths make a
 * heartbeat.
 *   session:   EIDERWAGON_SESSION_SIZE bytes
 *   words:     EIDERWAGON_WRITE_WORDS
 *   refusals:  42, 44, 13, 14, 12, 41. 41 also for a session that isn't ten bytes */
uint32_t eiderwagon_mold_write_data(const uint8_t *session, size_t session_size, uint64_t first,
                                    const uint16_t *lengths, size_t lengths_size,
                                    const uint8_t *joined, size_t joined_size,
                                    uint8_t *out, size_t out_size, uint64_t *words, size_t words_size);

/* Writes a heartbeat: `next` is the number of the next message.
 *   session:   EIDERWAGON_SESSION_SIZE bytes
 *   words:     EIDERWAGON_WRITE_WORDS
 *   refusals:  13, 41. 41 also for a session that isn't ten bytes */
uint32_t eiderwagon_mold_write_heartbeat(const uint8_t *session, size_t session_size, uint64_t next,
                                         uint8_t *out, size_t out_size, uint64_t *words, size_t words_size);

/* Writes an end of session: `next` is one past the number of the last message.
 *   session:   EIDERWAGON_SESSION_SIZE bytes
 *   words:     EIDERWAGON_WRITE_WORDS
 *   refusals:  13, 41. 41 also for a session that isn't ten bytes */
uint32_t eiderwagon_mold_write_end(const uint8_t *session, size_t session_size, uint64_t next,
                                   uint8_t *out, size_t out_size, uint64_t *words, size_t words_size);

/* The words of eiderwagon_mold_read_request. */
enum {
    EIDERWAGON_READ_REQUEST_FIRST = 0, /* the first number wanted */
    EIDERWAGON_READ_REQUEST_COUNT = 1, /* how many messages */
    EIDERWAGON_READ_REQUEST_WORDS = 2  /* how many words */
};

/* Reads a request. Its session is its first ten bytes.
 *   words:     EIDERWAGON_READ_REQUEST_WORDS
 *   refusals:  47, 13, 48, 41 */
uint32_t eiderwagon_mold_read_request(const uint8_t *request, size_t request_size,
                                      uint64_t *words, size_t words_size);

/* Writes a request for `count` messages from number `first` on.
 *   session:   EIDERWAGON_SESSION_SIZE bytes
 *   words:     EIDERWAGON_WRITE_WORDS
 *   refusals:  13, 48, 41. 41 also for a session that isn't ten bytes */
uint32_t eiderwagon_mold_write_request(const uint8_t *session, size_t session_size, uint64_t first, uint16_t count,
                                       uint8_t *out, size_t out_size, uint64_t *words, size_t words_size);

/* ---- The MoldUDP64 receiver -------------------------------------------------------------------------------------- */

/* Starts a receiver of a session at the number of the next message, 1 or more. It asks for at most `limit` messages at
 * once, 1 to 65,534. A session that isn't known yet is ten spaces: the receiver then takes that of the first datagram
 * that it doesn't refuse, whatever it answers, and keeps it. It stands in the state (EIDERWAGON_RECEIVER_SESSION_AT).
 *   session:   EIDERWAGON_SESSION_SIZE bytes
 *   state:     EIDERWAGON_RECEIVER_SIZE bytes, written
 *   refusals:  19, 41. 19 also for a session that isn't ten bytes */
uint32_t eiderwagon_receiver_start(const uint8_t *session, size_t session_size, uint64_t next, uint16_t limit,
                                   uint8_t *state, size_t state_size);

/* What a receiver answers. */
enum {
    EIDERWAGON_RECEIVER_DELIVER = 1, /* deliver messages of this datagram */
    EIDERWAGON_RECEIVER_OLD = 2,     /* nothing new */
    EIDERWAGON_RECEIVER_QUIET = 3,   /* a heartbeat, and nothing is missing */
    EIDERWAGON_RECEIVER_ASK = 4,     /* messages are missing: send a request, if none is under way */
    EIDERWAGON_RECEIVER_ENDED = 5    /* the session is over, and nothing is missing */
};

/* The words of eiderwagon_receiver_take and of eiderwagon_receiver_deliver. */
enum {
    EIDERWAGON_TAKE_ANSWER = 0,  /* what to do */
    EIDERWAGON_TAKE_FIRST = 1,   /* number of the first message delivered, or to ask for */
    EIDERWAGON_TAKE_COUNT = 2,   /* how many are delivered, or to ask for */
    EIDERWAGON_TAKE_SKIPPED = 3, /* how many of the datagram's messages are skipped before those delivered */
    EIDERWAGON_TAKE_WORDS = 4    /* how many words */
};

/* Takes one datagram as it came; eiderwagon_receiver_walk finds the messages that it delivers. Requests are paced by
 * the host: this receiver keeps no datagram that is ahead, and each one asks again, so that one loss is answered by
 * many EIDERWAGON_RECEIVER_ASK. Send the first, and another only where its first number differs or a while has passed.
 * Where packets swap places, eiderwagon_early_take keeps what is ahead and asks for less.
 *   state:     EIDERWAGON_RECEIVER_SIZE bytes, read and written
 *   words:     EIDERWAGON_TAKE_WORDS
 *   refusals:  11, 12, 13, 14, 15, 16, 41, 17, 18, 20, 41. 17 for another session than the receiver's, and, while that
 *              isn't known, for ten spaces alone */
uint32_t eiderwagon_receiver_take(uint8_t *state, size_t state_size, const uint8_t *datagram, size_t datagram_size,
                                  uint64_t *words, size_t words_size);

/* The words of a place, where eiderwagon_receiver_deliver lays one for each delivered message. */
enum {
    EIDERWAGON_PLACE_OFFSET = 0,   /* the offset of the message's first byte in the datagram */
    EIDERWAGON_PLACE_LENGTH = 1,   /* its length, perhaps 0 */
    EIDERWAGON_PLACE_WORDS = 2,    /* how many words a place has */
    EIDERWAGON_MOST_PLACES = 65486 /* how many words are enough for the places of every datagram */
};

/* Takes one datagram as eiderwagon_receiver_take does, with the same words and the same answers, and lays a place for
 * each message that an EIDERWAGON_RECEIVER_DELIVER answer delivers, in order. It is the fastest way to all messages of
 * a datagram: one call, and no cursor. Words behind the last place aren't touched. Any other answer needs no place
 * and lays none.
 *   state:     EIDERWAGON_RECEIVER_SIZE bytes, read and written
 *   words:     EIDERWAGON_TAKE_WORDS
 *   places:    EIDERWAGON_PLACE_WORDS for each delivered message, written; EIDERWAGON_MOST_PLACES are always enough
 *   refusals:  11, 12, 13, 14, 15, 16, 41, 17, 18, 20, 41. The last 41 for too few words, and for too few places for
 *              what is delivered: nothing has changed, so lend more and call again */
uint32_t eiderwagon_receiver_deliver(uint8_t *state, size_t state_size, const uint8_t *datagram, size_t datagram_size,
                                     uint64_t *words, size_t words_size, uint64_t *places, size_t places_size);

/* Sets a cursor to the first message that an EIDERWAGON_RECEIVER_DELIVER answer delivers: `count` and `skipped` are
 * EIDERWAGON_TAKE_COUNT and EIDERWAGON_TAKE_SKIPPED of the answer to this datagram. eiderwagon_mold_next then answers
 * exactly the delivered messages, in order. Other numbers are safe too: the walk ends with the datagram. Where the
 * datagram ends before the skipped messages do, the cursor stands behind the last whole one, at place 20 if there is
 * none, with count + skipped less those that it passed left; no message is there. Where the two add up to more than
 * 65,535 it stands at place 20 with none left.
 *   cursor:    EIDERWAGON_CURSOR_SIZE bytes, written
 *   refusals:  41 */
uint32_t eiderwagon_receiver_walk(const uint8_t *datagram, size_t datagram_size, uint16_t count, uint16_t skipped,
                                  uint8_t *cursor, size_t cursor_size);

/* ---- The receiver that keeps early messages ---------------------------------------------------------------------- */

/* It is the receiver above with 64 slots of 1,024 bytes, in which it holds messages that come before their turn: those
 * of the next 64 numbers behind the one that it expects, of at most 1,024 bytes. A datagram's messages are taken one at
 * a time: the expected one is delivered, of any length, and then every held one that follows without a gap. So what a
 * datagram delivers may lie partly in the datagram and partly in the slots.
 *
 * The slots are EIDERWAGON_SLOTS_SIZE bytes that you keep beside the state, of any bytes at first. Lend them to each
 * call as the one before left them, and let nothing else write there; those of another size are refused with 19.
 *
 * Find the messages of a datagram before you take it: eiderwagon_early_walk and eiderwagon_early_next, or
 * eiderwagon_early_locate by place, say where each one lies that it will deliver. eiderwagon_early_deliver does it all
 * in one call. A step that delivers changes no slot, so its messages lie there after it too, until the next one. */

/* Starts a receiver as eiderwagon_receiver_start does, with nothing held. No slots are needed yet.
 *   session:   EIDERWAGON_SESSION_SIZE bytes, ten spaces where it isn't known yet
 *   state:     EIDERWAGON_EARLY_SIZE bytes, written; the word of held numbers and all lengths are 0
 *   refusals:  19, 41. 19 also for a session that isn't ten bytes */
uint32_t eiderwagon_early_start(const uint8_t *session, size_t session_size, uint64_t next, uint16_t limit,
                                uint8_t *state, size_t state_size);

/* What a receiver that keeps early messages answers, by the number that it expects before the step. Each but ended may
 * draw a request too. */
enum {
    EIDERWAGON_EARLY_DELIVER = 1, /* deliver messages, of this datagram and of the slots */
    EIDERWAGON_EARLY_OLD = 2,     /* nothing new */
    EIDERWAGON_EARLY_QUIET = 3,   /* a heartbeat at the expected number */
    EIDERWAGON_EARLY_AHEAD = 4,   /* messages are missing before this datagram; what fits the slots is held */
    EIDERWAGON_EARLY_ENDED = 5    /* the session is over, and nothing is missing */
};

/* The words of eiderwagon_early_take and of eiderwagon_early_deliver. */
enum {
    EIDERWAGON_EARLY_TAKE_ANSWER = 0,  /* what to do */
    EIDERWAGON_EARLY_TAKE_FIRST = 1,   /* of deliver: the number of the first message delivered */
    EIDERWAGON_EARLY_TAKE_COUNT = 2,   /* of deliver: how many are delivered, those of the slots too */
    EIDERWAGON_EARLY_TAKE_SKIPPED = 3, /* of deliver: how many of the datagram's messages are skipped before those */
    EIDERWAGON_EARLY_TAKE_ASKS = 4,    /* 1 if messages are missing: send a request, if none is under way; else 0 */
    EIDERWAGON_EARLY_TAKE_FROM = 5,    /* where it asks: the first number wanted */
    EIDERWAGON_EARLY_TAKE_WANTED = 6,  /* where it asks: how many */
    EIDERWAGON_EARLY_TAKE_WORDS = 7    /* how many words */
};

/* Takes one datagram as it came. After the step it asks exactly where something is held or the datagram's number is
 * above the expected one: from the expected number to just below the lowest held one, or, where nothing is held, the
 * datagram's, within the limit. Requests are paced by the host, as those of eiderwagon_receiver_take: each datagram
 * that is ahead asks again for what is missing and, while something is held, so does every other one.
 *   state:     EIDERWAGON_EARLY_SIZE bytes, read and written
 *   slots:     EIDERWAGON_SLOTS_SIZE bytes, read, and written where a message is held: from the first byte of its slot
 *              on as many as it has, and no other
 *   words:     EIDERWAGON_EARLY_TAKE_WORDS
 *   refusals:  11, 12, 13, 14, 15, 16, 41, 17, 18, 19, 20, 41. 17 as at eiderwagon_receiver_take; 19 for slots of
 *              another size */
uint32_t eiderwagon_early_take(uint8_t *state, size_t state_size, uint8_t *slots, size_t slots_size,
                               const uint8_t *datagram, size_t datagram_size, uint64_t *words, size_t words_size);

/* The words of eiderwagon_early_count. */
enum {
    EIDERWAGON_EARLY_COUNT_COUNT = 0, /* how many messages the datagram will deliver */
    EIDERWAGON_EARLY_COUNT_WORDS = 1  /* how many words */
};

/* Says how many messages a datagram will deliver: 0 where it would be refused.
 *   state:     EIDERWAGON_EARLY_SIZE bytes, read
 *   slots:     EIDERWAGON_SLOTS_SIZE bytes, read
 *   words:     EIDERWAGON_EARLY_COUNT_WORDS
 *   refusals:  41, 19, 41 */
uint32_t eiderwagon_early_count(const uint8_t *state, size_t state_size, const uint8_t *slots, size_t slots_size,
                                const uint8_t *datagram, size_t datagram_size, uint64_t *words, size_t words_size);

/* The words of eiderwagon_early_locate and of eiderwagon_early_next. */
enum {
    EIDERWAGON_PART_FOUND = 0,  /* 1 if a message is there, else 0 */
    EIDERWAGON_PART_HELD = 1,   /* 1 if it lies in the slots, 0 if in the datagram */
    EIDERWAGON_PART_OFFSET = 2, /* the offset of its first byte there */
    EIDERWAGON_PART_LENGTH = 3, /* its length, perhaps 0 */
    EIDERWAGON_PART_WORDS = 4   /* how many words */
};

/* Finds one of the messages that a datagram will deliver by its place, from 0. It lies in the slots if it is held
 * there, though the datagram has it too. To visit several, walk.
 *   state:     EIDERWAGON_EARLY_SIZE bytes, read
 *   slots:     EIDERWAGON_SLOTS_SIZE bytes, read
 *   words:     EIDERWAGON_PART_WORDS
 *   refusals:  41, 19, 41 */
uint32_t eiderwagon_early_locate(const uint8_t *state, size_t state_size, const uint8_t *slots, size_t slots_size,
                                 const uint8_t *datagram, size_t datagram_size, uint16_t place,
                                 uint64_t *words, size_t words_size);

/* Sets a walk to the first message that a datagram will deliver: the number is the expected one, and the place stands
 * behind those of the datagram's messages that have lower numbers. Where it will deliver none, none are left; in a
 * datagram that eiderwagon_mold_read refuses the place is 20, with no messages there.
 *   state:     EIDERWAGON_EARLY_SIZE bytes, read
 *   slots:     EIDERWAGON_SLOTS_SIZE bytes, read
 *   cursor:    EIDERWAGON_WALK_SIZE bytes, written
 *   refusals:  41, 19, 41. First 41 for the state, last for the cursor */
uint32_t eiderwagon_early_walk(const uint8_t *state, size_t state_size, const uint8_t *slots, size_t slots_size,
                               const uint8_t *datagram, size_t datagram_size, uint8_t *cursor, size_t cursor_size);

/* Answers the message at a walk, and moves the walk to the next one. Lend the state, the slots and the datagram that
 * the walk was set for, before the datagram is taken; any others are safe too, and then the answer is about theirs.
 * Where none is left, or the message to come is neither held nor at the walk's place, no message is there and no byte
 * of the walk changes.
 *   cursor:    EIDERWAGON_WALK_SIZE bytes, read, and written where a message is there
 *   state:     EIDERWAGON_EARLY_SIZE bytes, read
 *   slots:     EIDERWAGON_SLOTS_SIZE bytes, read
 *   words:     EIDERWAGON_PART_WORDS
 *   refusals:  41, 19, 41. First 41 for the cursor and for the state */
uint32_t eiderwagon_early_next(uint8_t *cursor, size_t cursor_size, const uint8_t *state, size_t state_size,
                               const uint8_t *slots, size_t slots_size, const uint8_t *datagram, size_t datagram_size,
                               uint64_t *words, size_t words_size);

/* The words of a place, where eiderwagon_early_deliver lays one for each delivered message. */
enum {
    EIDERWAGON_EARLY_PLACE_HELD = 0,     /* 1 if the message lies in the slots, 0 if in the datagram */
    EIDERWAGON_EARLY_PLACE_OFFSET = 1,   /* the offset of its first byte there */
    EIDERWAGON_EARLY_PLACE_LENGTH = 2,   /* its length, perhaps 0 */
    EIDERWAGON_EARLY_PLACE_WORDS = 3,    /* how many words a place has */
    EIDERWAGON_EARLY_MOST_PLACES = 98421 /* how many words are enough for the places of every datagram: three for each
                                            of the 32,743 messages that it may have, and of the 64 that are held */
};

/* Takes one datagram as eiderwagon_early_take does, with the same words and the same answers, and lays a place for each
 * message that an EIDERWAGON_EARLY_DELIVER answer delivers, in order. It is the fastest way to all messages of a
 * datagram: one call, and no walk before it. Words behind the last place aren't touched. Any other answer needs no
 * place and lays none.
 *   state:     EIDERWAGON_EARLY_SIZE bytes, read and written
 *   slots:     EIDERWAGON_SLOTS_SIZE bytes, read and written as by eiderwagon_early_take; the delivered messages lie
 *              there as before
 *   words:     EIDERWAGON_EARLY_TAKE_WORDS
 *   places:    EIDERWAGON_EARLY_PLACE_WORDS for each delivered message, written; EIDERWAGON_EARLY_MOST_PLACES are
 *              always enough
 *   refusals:  11, 12, 13, 14, 15, 16, 41, 17, 18, 19, 20, 41. The last 41 for too few words, and for too few places
 *              for what is delivered: nothing has changed, so lend more and call again */
uint32_t eiderwagon_early_deliver(uint8_t *state, size_t state_size, uint8_t *slots, size_t slots_size,
                                  const uint8_t *datagram, size_t datagram_size, uint64_t *words, size_t words_size,
                                  uint64_t *places, size_t places_size);

/* ---- A branch store ---------------------------------------------------------------------------------------------- */

/* A packet's `size`, here and at the transmitter, is the most bytes that it may have, its header included: 22 to
 * 65,507. A message of k bytes fits alone where 22 + k is at most that. */

/* Answers a request with one packet, to send as it is: from the wanted number on the most whole messages that fit
 * `size`, up to the count wanted and to the store's end. A request that goes on past the end is no refusal. The store
 * is lent: a session, the number of its first message, 1 or more, the lengths of its messages and their joined bytes.
 * It may have any number of messages, none too, while `first` and how many they are add up to at most 2^64 - 1.
 *
 * An answer costs one pass over all lengths, wherever the wanted number is. A host that keeps more than it wants to
 * pass each time lends a part of its store: some messages in a row, with the first one's number. Then 51 means that the
 * wanted number isn't in the part.
 *   session:   EIDERWAGON_SESSION_SIZE bytes
 *   request:   any bytes, as they came
 *   words:     EIDERWAGON_WRITE_WORDS
 *   refusals:  19, 44, 47, 13, 48, 41, 53, 51, 52, 41. 19 for the size and for the store's numbers; the first 41 for a
 *              session that isn't ten bytes; 52 where the first wanted message alone doesn't fit. An output needs to
 *              hold the packet that is written, not all of `size` */
uint32_t eiderwagon_store_answer(const uint8_t *session, size_t session_size, uint64_t first,
                                 const uint16_t *lengths, size_t lengths_size,
                                 const uint8_t *joined, size_t joined_size, uint64_t size,
                                 const uint8_t *request, size_t request_size,
                                 uint8_t *out, size_t out_size, uint64_t *words, size_t words_size);

/* ---- Our own transmitter ----------------------------------------------------------------------------------------- */

/* A run of messages is cut into packets of at most `size` bytes, in order, each message once and none split, each
 * packet taking the most that fit. No cutting under the same size has fewer packets. The run is lent: the number of its
 * first message, the lengths of its messages and their joined bytes. A run of no messages has no packet. */

/* Writes the packet at a place, from 0. The whole run is checked and walked up to that place by each call, so that all
 * of a run by place costs the square of its packets. To send a whole run, start once and call
 * eiderwagon_transmitter_next until it is refused with 54.
 *   session:   EIDERWAGON_SESSION_SIZE bytes
 *   words:     EIDERWAGON_WRITE_WORDS
 *   refusals:  19, 44, 13, 14, 52, 54, 41. All but 54 and 41 are over the whole run, whichever packet is asked for: 19
 *              is the size alone, and 52 is for any message of the run. 41 also for a session that isn't ten bytes */
uint32_t eiderwagon_transmitter_packet(const uint8_t *session, size_t session_size, uint64_t first,
                                       const uint16_t *lengths, size_t lengths_size,
                                       const uint8_t *joined, size_t joined_size, uint64_t size, uint64_t place,
                                       uint8_t *out, size_t out_size, uint64_t *words, size_t words_size);

/* Starts a run, whose packets eiderwagon_transmitter_next then writes one after another, and checks all of it, once. No
 * session is needed yet.
 *   state:     EIDERWAGON_TRANSMITTER_SIZE bytes, written
 *   refusals:  19, 44, 13, 14, 52, 41 */
uint32_t eiderwagon_transmitter_start(uint64_t first, const uint16_t *lengths, size_t lengths_size,
                                      const uint8_t *joined, size_t joined_size, uint64_t size,
                                      uint8_t *state, size_t state_size);

/* Writes the next packet of a run, and moves the transmitter on; a refusal leaves it, and the next call writes the same
 * packet. It costs a walk over this packet's messages alone. Lend the very run that was started, the same lengths,
 * joined bytes, `first` and `size`, at each call: then the packets are those of eiderwagon_transmitter_packet at the
 * places from 0 on, behind the last one it is 54, and no other refusal but 41 is met. With another run nothing undefined
 * happens, and 44, 13, 14 and 52 are about this packet alone: but its data begins where the state says, which need not
 * be where a message of that run begins.
 *   session:   EIDERWAGON_SESSION_SIZE bytes
 *   state:     EIDERWAGON_TRANSMITTER_SIZE bytes, read, and written on success
 *   words:     EIDERWAGON_WRITE_WORDS
 *   refusals:  19, 41, 44, 13, 14, 52, 54, 41. Here 54, that no message is left, comes before 44. The last 41 also for
 *              a session that isn't ten bytes */
uint32_t eiderwagon_transmitter_next(const uint8_t *session, size_t session_size, uint64_t first,
                                     const uint16_t *lengths, size_t lengths_size,
                                     const uint8_t *joined, size_t joined_size, uint64_t size,
                                     uint8_t *state, size_t state_size,
                                     uint8_t *out, size_t out_size, uint64_t *words, size_t words_size);

/* ---- SoupBinTCP packets ------------------------------------------------------------------------------------------ */

/* A session is spaces, then letters or digits; all spaces only in 'L' and at eiderwagon_client_start. A username or a
 * password is sound when it is one or more letters or digits, and then only spaces; never zero bytes. */

/* Who sends a stream: 0 is the server, every other number the client. */
enum {
    EIDERWAGON_SOUP_FROM_SERVER = 0, /* the server sends it */
    EIDERWAGON_SOUP_FROM_CLIENT = 1  /* the client sends it */
};

/* The words of eiderwagon_soup_read. */
enum {
    EIDERWAGON_SOUP_READ_LETTER = 0, /* its letter ('+' 'A' 'J' 'S' 'H' 'Z' 'L' 'U' 'R' 'O'), or 0: more is needed */
    EIDERWAGON_SOUP_READ_SIZE = 1,   /* its size in bytes */
    EIDERWAGON_SOUP_READ_NUMBER = 2, /* the number of 'A' and 'L' */
    EIDERWAGON_SOUP_READ_REASON = 2, /* the reason of 'J' */
    EIDERWAGON_SOUP_READ_WORDS = 3   /* how many words */
};

/* Reads the packet at the front of a stream. Its payload is what stands from byte 3 up to its size: of 'A' the session
 * (10) and the number (20), of 'L' the username (6), the password (10), the session (10) and the number (20), of 'J'
 * the reason (1).
 *   words:     EIDERWAGON_SOUP_READ_WORDS
 *   refusals:  21, 22, 23, 24, 25, 41. More is needed before 21 with under 2 bytes, before 23 with under 3, and before
 *              25 until the packet is whole */
uint32_t eiderwagon_soup_read(const uint8_t *stream, size_t stream_size, uint8_t sender,
                              uint64_t *words, size_t words_size);

/* The words of eiderwagon_soup_scan. */
enum {
    EIDERWAGON_SCAN_COUNT = 0,   /* how many packets */
    EIDERWAGON_SCAN_SIZE = 1,    /* how many bytes they take */
    EIDERWAGON_SCAN_REFUSAL = 2, /* the number of the refusal of the packet behind them, or 0: more is needed */
    EIDERWAGON_SCAN_WORDS = 3    /* how many words */
};

/* Passes all good packets at the front of a stream, up to the first one that is refused or not whole.
 *   words:     EIDERWAGON_SCAN_WORDS
 *   refusals:  41 */
uint32_t eiderwagon_soup_scan(const uint8_t *stream, size_t stream_size, uint8_t sender,
                              uint64_t *words, size_t words_size);

/* The writers. Each has EIDERWAGON_WRITE_WORDS. */

/* Debug, '+', of either end.
 *   refusals:  22, 41 */
uint32_t eiderwagon_soup_write_debug(const uint8_t *payload, size_t payload_size,
                                     uint8_t *out, size_t out_size, uint64_t *words, size_t words_size);

/* Login accepted, 'A', of the server: the session (EIDERWAGON_SESSION_SIZE bytes) and the number of the next message, 1
 * or more.
 *   refusals:  46, 41. 46 also for a session that isn't ten bytes */
uint32_t eiderwagon_soup_write_accepted(const uint8_t *session, size_t session_size, uint64_t number,
                                        uint8_t *out, size_t out_size, uint64_t *words, size_t words_size);

/* Login rejected, 'J', of the server: the reason is 'A' (not authorized) or 'S' (session not available).
 *   refusals:  46, 41 */
uint32_t eiderwagon_soup_write_rejected(uint8_t reason,
                                        uint8_t *out, size_t out_size, uint64_t *words, size_t words_size);

/* Sequenced message, 'S', of the server.
 *   refusals:  22, 41 */
uint32_t eiderwagon_soup_write_sequenced(const uint8_t *payload, size_t payload_size,
                                         uint8_t *out, size_t out_size, uint64_t *words, size_t words_size);

/* Heartbeat of the server, 'H'.
 *   refusals:  41 */
uint32_t eiderwagon_soup_write_server_heartbeat(uint8_t *out, size_t out_size, uint64_t *words, size_t words_size);

/* End of session, 'Z', of the server.
 *   refusals:  41 */
uint32_t eiderwagon_soup_write_end(uint8_t *out, size_t out_size, uint64_t *words, size_t words_size);

/* Login request, 'L', of the client: username (EIDERWAGON_USERNAME_SIZE bytes) and password (EIDERWAGON_PASSWORD_SIZE),
 * padded with spaces on the right; session (EIDERWAGON_SESSION_SIZE), padded with spaces on the left, all spaces for
 * any; the number of the next message wanted, 0 for the most recent one.
 *   refusals:  46, 41. 46 also for a username, a password or a session of another size */
uint32_t eiderwagon_soup_write_login(const uint8_t *username, size_t username_size,
                                     const uint8_t *password, size_t password_size,
                                     const uint8_t *session, size_t session_size, uint64_t number,
                                     uint8_t *out, size_t out_size, uint64_t *words, size_t words_size);

/* Unsequenced message, 'U', of the client.
 *   refusals:  22, 41 */
uint32_t eiderwagon_soup_write_unsequenced(const uint8_t *payload, size_t payload_size,
                                           uint8_t *out, size_t out_size, uint64_t *words, size_t words_size);

/* Heartbeat of the client, 'R'.
 *   refusals:  41 */
uint32_t eiderwagon_soup_write_client_heartbeat(uint8_t *out, size_t out_size, uint64_t *words, size_t words_size);

/* Logout, 'O', of the client.
 *   refusals:  41 */
uint32_t eiderwagon_soup_write_logout(uint8_t *out, size_t out_size, uint64_t *words, size_t words_size);

/* ---- SoupBinTCP sessions ----------------------------------------------------------------------------------------- */

/* What a session answers to the front of a stream. */
enum {
    EIDERWAGON_SESSION_NEED_MORE = 0,   /* no whole packet yet: read on */
    EIDERWAGON_SESSION_ACCEPTED = 1,    /* a login is accepted: the server sends 'A', its session and this number */
    EIDERWAGON_SESSION_REJECTED = 2,    /* a login is rejected: the server sends 'J' and this reason; it is closed */
    EIDERWAGON_SESSION_SEQUENCED = 3,   /* a message for the client's program */
    EIDERWAGON_SESSION_UNSEQUENCED = 4, /* a message for the server's program */
    EIDERWAGON_SESSION_HEARTBEAT = 5,   /* the other end is alive */
    EIDERWAGON_SESSION_DEBUG = 6,       /* a debug packet, to be ignored */
    EIDERWAGON_SESSION_LOGGED_OUT = 7,  /* the client logs out; the session is closed */
    EIDERWAGON_SESSION_OVER = 8         /* the server ends the session */
};

/* Starts a server's end of one connection: a session as in 'A', and the highest message number, 0 if there is none, at
 * most 2^64 - 2.
 *   session:   EIDERWAGON_SESSION_SIZE bytes
 *   state:     EIDERWAGON_SERVER_SIZE bytes, written
 *   refusals:  19, 41. 19 also for a session that isn't ten bytes */
uint32_t eiderwagon_server_start(const uint8_t *session, size_t session_size, uint64_t last,
                                 uint8_t *state, size_t state_size);

/* Moves the last number of a server, as messages are added. A login looks at it, and no step changes it. A closed
 * server's moves too: bytes that aren't an open server are laid as a closed one.
 *   state:     EIDERWAGON_SERVER_SIZE bytes, read and written
 *   refusals:  19, 41, 19. First 19 for a number above 2^64 - 2, last 19 for one below the one that is there */
uint32_t eiderwagon_server_set_last(uint8_t *state, size_t state_size, uint64_t last);

/* The words of eiderwagon_server_step. */
enum {
    EIDERWAGON_SERVER_STEP_ANSWER = 0, /* what it answers */
    EIDERWAGON_SERVER_STEP_SIZE = 1,   /* how many bytes it took, 0 where more are needed */
    EIDERWAGON_SERVER_STEP_NUMBER = 2, /* of accepted: the number to write in 'A' */
    EIDERWAGON_SERVER_STEP_REASON = 2, /* of rejected, to write in 'J': 'A' the account, 'S' the session or number */
    EIDERWAGON_SERVER_STEP_OFFSET = 2, /* of unsequenced: the offset of the message in the stream */
    EIDERWAGON_SERVER_STEP_LENGTH = 3, /* of unsequenced: its length */
    EIDERWAGON_SERVER_STEP_WORDS = 5   /* how many words; the last one is 0 */
};

/* Takes the packet at the front of a client's stream. Go on with the stream from EIDERWAGON_SERVER_STEP_SIZE on. A
 * packet that is refused stays in front and is refused again: close the connection, unless it is 19 or 41, which are
 * about what you lent. It writes nothing: eiderwagon_server_reply is the same step with its reply.
 *   state:     EIDERWAGON_SERVER_SIZE bytes, read and written
 *   accounts:  EIDERWAGON_ACCOUNT_SIZE bytes a record, at most 1,024 records; bytes left over are no record. A record
 *              whose username or password isn't sound is skipped, one padded with zero bytes too. The first other
 *              record with the username decides; letters compare without case
 *   words:     EIDERWAGON_SERVER_STEP_WORDS
 *   refusals:  19, 21, 22, 23, 24, 25, 41, 32, 31, 41. More is needed is answered behind the first 41, and before 32 */
uint32_t eiderwagon_server_step(uint8_t *state, size_t state_size, const uint8_t *accounts, size_t accounts_size,
                                const uint8_t *stream, size_t stream_size, uint64_t *words, size_t words_size);

/* The words of eiderwagon_server_reply: those of eiderwagon_server_step, and one more. */
enum {
    EIDERWAGON_SERVER_REPLY_ANSWER = 0,  /* what it answers */
    EIDERWAGON_SERVER_REPLY_SIZE = 1,    /* how many bytes it took, 0 where more are needed */
    EIDERWAGON_SERVER_REPLY_NUMBER = 2,  /* of accepted: the number in 'A' */
    EIDERWAGON_SERVER_REPLY_REASON = 2,  /* of rejected: the reason in 'J' */
    EIDERWAGON_SERVER_REPLY_OFFSET = 2,  /* of unsequenced: the offset of the message in the stream */
    EIDERWAGON_SERVER_REPLY_LENGTH = 3,  /* of unsequenced: its length */
    EIDERWAGON_SERVER_REPLY_WRITTEN = 5, /* how many bytes of `out` were written: the reply to send, or 0 */
    EIDERWAGON_SERVER_REPLY_WORDS = 6    /* how many words; the fifth one is 0 */
};

/* The same step, which also writes the reply: 'A' with the server's session and the granted number, or 'J' with its
 * reason; and nothing for another answer. Where the reply can't be written, nothing has changed and the login is still
 * in front: after 41 lend more, and call again.
 *   state:     EIDERWAGON_SERVER_SIZE bytes, read and written
 *   accounts:  as at eiderwagon_server_step
 *   out:       EIDERWAGON_LARGEST_REPLY bytes are enough
 *   words:     EIDERWAGON_SERVER_REPLY_WORDS
 *   refusals:  19, 21, 22, 23, 24, 25, 41, 32, 31, 46, 41. 46 only at a state made by hand, whose session can't stand
 *              in 'A' */
uint32_t eiderwagon_server_reply(uint8_t *state, size_t state_size, const uint8_t *accounts, size_t accounts_size,
                                 const uint8_t *stream, size_t stream_size, uint8_t *out, size_t out_size,
                                 uint64_t *words, size_t words_size);

/* Starts a client's end of one connection, with the session and the number that its login request asks for.
 *   session:   EIDERWAGON_SESSION_SIZE bytes, all spaces for any
 *   state:     EIDERWAGON_CLIENT_SIZE bytes, written; from an accepted login on, its session is the server's and its
 *              number the next message's
 *   refusals:  19, 41. 19 also for a session that isn't ten bytes */
uint32_t eiderwagon_client_start(const uint8_t *session, size_t session_size, uint64_t number,
                                 uint8_t *state, size_t state_size);

/* The words of eiderwagon_client_step. */
enum {
    EIDERWAGON_CLIENT_STEP_ANSWER = 0, /* what it answers */
    EIDERWAGON_CLIENT_STEP_SIZE = 1,   /* how many bytes it took, 0 where more are needed */
    EIDERWAGON_CLIENT_STEP_NUMBER = 2, /* of accepted: the number of the next message; of sequenced: of this one */
    EIDERWAGON_CLIENT_STEP_REASON = 2, /* of rejected */
    EIDERWAGON_CLIENT_STEP_OFFSET = 3, /* of sequenced: the offset of the message in the stream */
    EIDERWAGON_CLIENT_STEP_LENGTH = 4, /* of sequenced: its length */
    EIDERWAGON_CLIENT_STEP_WORDS = 5   /* how many words */
};

/* Takes the packet at the front of a server's stream. Go on with the stream from EIDERWAGON_CLIENT_STEP_SIZE on. A
 * packet that is refused stays in front and is refused again: close the connection, unless it is 41, which is about
 * what you lent.
 *   state:     EIDERWAGON_CLIENT_SIZE bytes, read and written
 *   words:     EIDERWAGON_CLIENT_STEP_WORDS
 *   refusals:  21, 22, 23, 24, 25, 41, 32, 31, 33, 34, 41. More is needed is answered behind the
 *              first 41, and before 32 */
uint32_t eiderwagon_client_step(uint8_t *state, size_t state_size, const uint8_t *stream, size_t stream_size,
                                uint64_t *words, size_t words_size);

/* ---- Captures ---------------------------------------------------------------------------------------------------- */

/* A capture is three lines, `session=` with ten bytes from 0x20 to 0x7E that aren't all spaces, `next=` with 1 to
 * 2^64 - 1 and `limit=` with 1 to 65534, each ended by one line feed, numbers without leading zeros; and then records,
 * each a length of 2 bytes, big-endian, and so many bytes: one datagram as it came. A receiver that keeps early
 * messages takes them. Its report is eight lines: `session=`, `next=`, `ended=` (yes or no), `delivered=` (messages),
 * `old=`, `quiet=` (answers), `asked=` (requests drawn, those beside another answer too) and `refused=`; or the one
 * line `settings=refused`, which is no refusal of these functions. */

/* Starts the reading of a capture in pieces. Until settings are read its receiver is an ended one, its name ten spaces,
 * its next number and its limit 1, with nothing held; bad settings leave it as it is. No slots are needed yet.
 *   state:     EIDERWAGON_CAPTURE_SIZE bytes, written
 *   refusals:  41 */
uint32_t eiderwagon_capture_start(uint8_t *state, size_t state_size);

/* The words of eiderwagon_capture_feed and of eiderwagon_missing_feed. */
enum {
    EIDERWAGON_FEED_USED = 0, /* how many bytes were used */
    EIDERWAGON_FEED_OVER = 1, /* 1 once the reading is over, so that nothing that follows changes it, else 0 */
    EIDERWAGON_FEED_WORDS = 2 /* how many words */
};

/* Feeds some bytes, after which more may come. Settings that are read start the report anew. Keep the bytes that were
 * not used, at most 65,536, and feed them again in front of the next piece. While the settings are due, fewer than 57
 * bytes are too few to tell: none are used then. Once the reading is over, by bad settings, by 2^32 - 1 records or by
 * eiderwagon_capture_finish, a feed uses all of its bytes, and so does the one that ends it.
 *   state:     EIDERWAGON_CAPTURE_SIZE bytes, read and written
 *   slots:     EIDERWAGON_SLOTS_SIZE bytes, as eiderwagon_early_take has them: of any bytes at first, and lent to each
 *              call as the one before left them
 *   words:     EIDERWAGON_FEED_WORDS
 *   refusals:  41, 19, 41. 19 for slots of another size */
uint32_t eiderwagon_capture_feed(uint8_t *state, size_t state_size, uint8_t *slots, size_t slots_size,
                                 const uint8_t *bytes, size_t bytes_size, uint64_t *words, size_t words_size);

/* Feeds the last bytes: those that were kept, with what came behind them. A record that is cut short counts as one
 * refusal.
 *   state:     EIDERWAGON_CAPTURE_SIZE bytes, read and written
 *   slots:     EIDERWAGON_SLOTS_SIZE bytes, as at eiderwagon_capture_feed
 *   refusals:  41, 19. 19 for slots of another size */
uint32_t eiderwagon_capture_finish(uint8_t *state, size_t state_size, uint8_t *slots, size_t slots_size,
                                   const uint8_t *bytes, size_t bytes_size);

/* Writes what was read so far as a report, or `settings=refused` while no settings were read.
 *   state:     EIDERWAGON_CAPTURE_SIZE bytes, read
 *   out:       EIDERWAGON_LARGEST_REPORT bytes are enough
 *   words:     EIDERWAGON_WRITE_WORDS
 *   refusals:  41 */
uint32_t eiderwagon_capture_write(const uint8_t *state, size_t state_size,
                                  uint8_t *out, size_t out_size, uint64_t *words, size_t words_size);

/* Writes the report of a whole capture. The call keeps the slots and lengths of its receiver on the stack, 65,664
 * bytes: run it where the stack has room for them.
 *   out:       EIDERWAGON_LARGEST_REPORT bytes are enough
 *   words:     EIDERWAGON_WRITE_WORDS
 *   refusals:  41 */
uint32_t eiderwagon_capture_report(const uint8_t *capture, size_t capture_size,
                                   uint8_t *out, size_t out_size, uint64_t *words, size_t words_size);

/* ---- What is missing from a capture ------------------------------------------------------------------------------ */

/* A capture, as above, is read for the numbers from its `next=` to just below the highest next number that no datagram
 * carries, however early or late it came. Data carries the numbers of its messages, and its next number is the one
 * behind them; a heartbeat and an end of session carry none and state their own. A datagram counts where
 * eiderwagon_mold_read takes it and its session is that of the settings, after an end of session too. The text is
 * `session=`, for each missing range `from=` and `to=`, both missing themselves, rising and joined where they touch,
 * and `missing=`, how many numbers; or one line, `settings=refused` or `ranges=refused`, which are no refusals of these
 * functions. A record after which more than 4,096 ranges are missing gives the latter, though what follows could close
 * a gap.
 *
 * The edges are EIDERWAGON_MISSING_EDGES words that you keep beside the state, of any numbers at first. Lend them to
 * each call as the one before left them, and let nothing else write there; fewer or more are refused with 19. Once
 * settings were read the first 2 k + 1 rise, k being the ranges that have both edges (EIDERWAGON_MISSING_CLOSED_AT):
 * the range at place i is from edge 2 i to just below edge 2 i + 1, and from edge 2 k on nothing is carried. With words
 * of your own nothing undefined happens, and what is said is about those. */

/* Starts the reading of a capture for what is missing. Until settings are read its session is ten spaces, all of its
 * numbers are 0, and its ranges are refused. No edges are needed yet.
 *   state:     EIDERWAGON_MISSING_SIZE bytes, written
 *   refusals:  41 */
uint32_t eiderwagon_missing_start(uint8_t *state, size_t state_size);

/* Feeds some bytes, after which more may come: the words, which bytes are used and when it is over are as at
 * eiderwagon_capture_feed, with eiderwagon_missing_finish for its end. Settings that are read start it anew. Ranges that
 * are refused don't end it: bytes are used as before, and nothing more is noted.
 *   state:     EIDERWAGON_MISSING_SIZE bytes, read and written
 *   edges:     EIDERWAGON_MISSING_EDGES words, read and written
 *   words:     EIDERWAGON_FEED_WORDS
 *   refusals:  41, 19, 41 */
uint32_t eiderwagon_missing_feed(uint8_t *state, size_t state_size, uint64_t *edges, size_t edges_size,
                                 const uint8_t *bytes, size_t bytes_size, uint64_t *words, size_t words_size);

/* Feeds the last bytes: those that were kept, with what came behind them. A record that is cut short says nothing.
 *   state:     EIDERWAGON_MISSING_SIZE bytes, read and written
 *   edges:     EIDERWAGON_MISSING_EDGES words, read and written
 *   refusals:  41, 19 */
uint32_t eiderwagon_missing_finish(uint8_t *state, size_t state_size, uint64_t *edges, size_t edges_size,
                                   const uint8_t *bytes, size_t bytes_size);

/* The words of eiderwagon_missing_count. */
enum {
    EIDERWAGON_MISSING_COUNT_LISTED = 0,  /* 1 if settings were read and the ranges weren't refused, else 0 */
    EIDERWAGON_MISSING_COUNT_RANGES = 1,  /* how many ranges are missing so far */
    EIDERWAGON_MISSING_COUNT_NUMBERS = 2, /* how many numbers they have */
    EIDERWAGON_MISSING_COUNT_WORDS = 3    /* how many words */
};

/* Says how many ranges are missing so far, and how many numbers. Where none are listed both are 0.
 *   state:     EIDERWAGON_MISSING_SIZE bytes, read
 *   edges:     EIDERWAGON_MISSING_EDGES words, read
 *   words:     EIDERWAGON_MISSING_COUNT_WORDS
 *   refusals:  41, 19, 41 */
uint32_t eiderwagon_missing_count(const uint8_t *state, size_t state_size, const uint64_t *edges, size_t edges_size,
                                  uint64_t *words, size_t words_size);

/* The words of eiderwagon_missing_range. */
enum {
    EIDERWAGON_MISSING_RANGE_FOUND = 0, /* 1 if a range is there, else 0 */
    EIDERWAGON_MISSING_RANGE_FROM = 1,  /* its first number */
    EIDERWAGON_MISSING_RANGE_TO = 2,    /* its last number */
    EIDERWAGON_MISSING_RANGE_WORDS = 3  /* how many words */
};

/* Finds one of the missing ranges by its place, from 0. Where none are listed there is none.
 *   state:     EIDERWAGON_MISSING_SIZE bytes, read
 *   edges:     EIDERWAGON_MISSING_EDGES words, read
 *   words:     EIDERWAGON_MISSING_RANGE_WORDS
 *   refusals:  41, 19, 41 */
uint32_t eiderwagon_missing_range(const uint8_t *state, size_t state_size, const uint64_t *edges, size_t edges_size,
                                  uint64_t place, uint64_t *words, size_t words_size);

/* Writes what is missing so far as text, or `settings=refused` while no settings were read.
 *   state:     EIDERWAGON_MISSING_SIZE bytes, read
 *   edges:     EIDERWAGON_MISSING_EDGES words, read
 *   out:       EIDERWAGON_MISSING_TEXT bytes or more, whatever the text
 *   words:     EIDERWAGON_WRITE_WORDS
 *   refusals:  41, 19, 41 */
uint32_t eiderwagon_missing_write(const uint8_t *state, size_t state_size, const uint64_t *edges, size_t edges_size,
                                  uint8_t *out, size_t out_size, uint64_t *words, size_t words_size);

#ifdef __cplusplus
}
#endif

#endif
