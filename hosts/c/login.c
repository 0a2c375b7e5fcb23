/* A login: both ends of a SoupBinTCP session, from the login request to the logout.
 *
 *   cc -I ../../include login.c ../../target/staticlib/libeiderwagon.a -o login && ./login
 *
 * A real host has a connection and a clock, for the heartbeats. Here each end writes into the other one's stream.
 */
#include "eiderwagon.h"

#include <inttypes.h>
#include <stdio.h>
#include <string.h>

/* The bytes that came and were not taken yet. */
typedef struct {
    uint8_t bytes[4 * EIDERWAGON_LARGEST_PACKET];
    size_t size;
} Stream;

/* The room behind them: where the other end's next packet goes. */
#define ROOM(stream) (stream)->bytes + (stream)->size, sizeof((stream)->bytes) - (stream)->size
#define TEXT(literal) (const uint8_t *)(literal), sizeof(literal) - 1

static Stream to_server, to_client;
static uint8_t server[EIDERWAGON_SERVER_SIZE], client[EIDERWAGON_CLIENT_SIZE];

/* Two accounts: username (6) and password (10), padded with spaces on the right. */
static const char accounts[] = "readeropensesame"
                               "clerk desk5     ";

/* The session's messages so far, and the number of the last one. */
static const char *const messages[] = {"offer", "sale"};
#define LAST (sizeof messages / sizeof messages[0])

/* A writer has written a packet into a stream's room, or refused. */
static void wrote(Stream *stream, uint32_t code, const uint64_t *words) {
    if (EIDERWAGON_NUMBER(code) == EIDERWAGON_OK) {
        stream->size += (size_t)words[EIDERWAGON_WRITE_SIZE];
    } else {
        printf("not written: %s\n", eiderwagon_ground(code));
    }
}

/* A packet was taken off a stream's front. */
static void taken(Stream *stream, uint64_t size) {
    stream->size -= (size_t)size;
    memmove(stream->bytes, stream->bytes + size, stream->size);
}

/* ---- The server's end -------------------------------------------------------------------------------------------- */

/* Sends the messages from a number on. */
static void send_from(uint64_t number) {
    uint64_t words[EIDERWAGON_WRITE_WORDS];
    for (size_t at = (size_t)number - 1; at < LAST; at++) {
        uint32_t code = eiderwagon_soup_write_sequenced((const uint8_t *)messages[at], strlen(messages[at]),
                                                        ROOM(&to_client), words, EIDERWAGON_WRITE_WORDS);
        wrote(&to_client, code, words);
    }
}

/* Takes what came: one packet a step, until more bytes are needed. The step writes the reply to a login. */
static void serve(void) {
    uint64_t step[EIDERWAGON_SERVER_REPLY_WORDS];
    for (;;) {
        uint32_t code = eiderwagon_server_reply(server, sizeof server, TEXT(accounts), to_server.bytes, to_server.size,
                                                ROOM(&to_client), step, EIDERWAGON_SERVER_REPLY_WORDS);
        if (EIDERWAGON_NUMBER(code) != EIDERWAGON_OK) {
            printf("server: %s; it closes the connection\n", eiderwagon_ground(code));
            to_server.size = 0;
            return;
        }
        to_client.size += (size_t)step[EIDERWAGON_SERVER_REPLY_WRITTEN];
        switch (step[EIDERWAGON_SERVER_REPLY_ANSWER]) {
        case EIDERWAGON_SESSION_NEED_MORE:
            return;
        case EIDERWAGON_SESSION_ACCEPTED:
            printf("server: accepted from message %" PRIu64 " on\n", step[EIDERWAGON_SERVER_REPLY_NUMBER]);
            send_from(step[EIDERWAGON_SERVER_REPLY_NUMBER]);
            break;
        case EIDERWAGON_SESSION_REJECTED:
            printf("server: rejected, %c\n", (int)step[EIDERWAGON_SERVER_REPLY_REASON]);
            break;
        case EIDERWAGON_SESSION_UNSEQUENCED:
            printf("server: the client says %.*s\n", (int)step[EIDERWAGON_SERVER_REPLY_LENGTH],
                   (const char *)to_server.bytes + step[EIDERWAGON_SERVER_REPLY_OFFSET]);
            break;
        case EIDERWAGON_SESSION_LOGGED_OUT:
            printf("server: the client logs out\n");
            break;
        default: /* EIDERWAGON_SESSION_HEARTBEAT, EIDERWAGON_SESSION_DEBUG */
            break;
        }
        taken(&to_server, step[EIDERWAGON_SERVER_REPLY_SIZE]);
    }
}

/* ---- The client's end -------------------------------------------------------------------------------------------- */

/* Takes what came, as the server does. */
static void follow(void) {
    uint64_t step[EIDERWAGON_CLIENT_STEP_WORDS];
    for (;;) {
        uint32_t code = eiderwagon_client_step(client, sizeof client, to_client.bytes, to_client.size, step,
                                               EIDERWAGON_CLIENT_STEP_WORDS);
        if (EIDERWAGON_NUMBER(code) != EIDERWAGON_OK) {
            printf("client: %s; it closes the connection\n", eiderwagon_ground(code));
            to_client.size = 0;
            return;
        }
        switch (step[EIDERWAGON_CLIENT_STEP_ANSWER]) {
        case EIDERWAGON_SESSION_NEED_MORE:
            return;
        case EIDERWAGON_SESSION_ACCEPTED:
            printf("client: in %.10s\n", (const char *)client + EIDERWAGON_CLIENT_SESSION_AT);
            break;
        case EIDERWAGON_SESSION_REJECTED:
            printf("client: rejected, %c\n", (int)step[EIDERWAGON_CLIENT_STEP_REASON]);
            break;
        case EIDERWAGON_SESSION_SEQUENCED:
            printf("client: %" PRIu64 " %.*s\n", step[EIDERWAGON_CLIENT_STEP_NUMBER],
                   (int)step[EIDERWAGON_CLIENT_STEP_LENGTH],
                   (const char *)to_client.bytes + step[EIDERWAGON_CLIENT_STEP_OFFSET]);
            break;
        case EIDERWAGON_SESSION_OVER:
            printf("client: the session is over\n");
            break;
        default: /* EIDERWAGON_SESSION_HEARTBEAT, EIDERWAGON_SESSION_DEBUG */
            break;
        }
        taken(&to_client, step[EIDERWAGON_CLIENT_STEP_SIZE]);
    }
}

/* ---- One connection after the other ------------------------------------------------------------------------------ */

/* The client logs in, to any session, from message 1 on. */
static void log_in(const char *username, const char *password) {
    static const char any[] = "          ";
    uint64_t words[EIDERWAGON_WRITE_WORDS];
    uint32_t code;
    /* A refused start changes no byte: what an earlier connection left is cleared first. */
    memset(server, 0, sizeof server);
    memset(client, 0, sizeof client);
    code = eiderwagon_server_start(TEXT("READROOM01"), 0, server, sizeof server);
    /* The messages are added while it waits for the login. */
    for (uint64_t last = 1; EIDERWAGON_NUMBER(code) == EIDERWAGON_OK && last <= LAST; last++) {
        code = eiderwagon_server_set_last(server, sizeof server, last);
    }
    if (EIDERWAGON_NUMBER(code) == EIDERWAGON_OK) {
        code = eiderwagon_client_start(TEXT(any), 1, client, sizeof client);
    }
    if (EIDERWAGON_NUMBER(code) != EIDERWAGON_OK) {
        printf("not started: %s\n", eiderwagon_ground(code));
        return;
    }
    code = eiderwagon_soup_write_login((const uint8_t *)username, strlen(username), (const uint8_t *)password,
                                       strlen(password), TEXT(any), 1, ROOM(&to_server), words,
                                       EIDERWAGON_WRITE_WORDS);
    wrote(&to_server, code, words);
    serve();
    follow();
}

int main(void) {
    uint64_t words[EIDERWAGON_WRITE_WORDS];
    uint32_t code;
    if (eiderwagon_version() != EIDERWAGON_VERSION) {
        fprintf(stderr, "the library is of another version than its header\n");
        return 1;
    }
    log_in("clerk ", "desk      "); /* the wrong password */
    log_in("Clerk ", "DESK5     "); /* letters compare without case */
    code = eiderwagon_soup_write_unsequenced(TEXT("hello"), ROOM(&to_server), words, EIDERWAGON_WRITE_WORDS);
    wrote(&to_server, code, words);
    code = eiderwagon_soup_write_logout(ROOM(&to_server), words, EIDERWAGON_WRITE_WORDS);
    wrote(&to_server, code, words);
    serve();
    return 0;
}
