/*
 * A cabinet's firmware in small: it takes three records and prints their replies.
 *
 *     gcc -Wall -Wextra -Werror -I include -o firmware examples/c/firmware.c target/staticlib/libreplica.a
 *
 * The first record brings host 2 up. The second, of process 5, waits for a tuple (name 7, a whole number) to add one
 * to it; the third, of process 6, puts (name 7, 41) and so wakes it. Exit status 0 where the replies are as expected.
 */
#include <stdio.h>
#include <string.h>

#include "replica.h"

static const uint8_t host_up[] = {
    'R', 'V', 0, 1, 0, 0, 0, 1, /* mark, body length, position */
    2,                          /* host */
};

static const uint8_t add_one[] = {
    'A', 'G', 0, 35, 0, 0, 0, 2,
    2, 0, 5, 1,                    /* host, process, one branch */
    1, 0, 0, 2,                    /* guard: in, space 0, two fields */
    0, 1, 0, 0, 0, 7,              /*   the name 7 */
    1, 0, 0,                       /*   a whole number, into variable 0 */
    1,                             /* one operation */
    5, 0, 0, 2,                    /* out, space 0, two fields */
    0, 1, 0, 0, 0, 7,              /*   the name 7 */
    3, 0, 0, 0, 0, 0, 1,           /*   variable 0 plus the whole number 1 */
};

static const uint8_t put_41[] = {
    'A', 'G', 0, 22, 0, 0, 0, 3,
    2, 0, 6, 1,                    /* host, process, one branch */
    0,                             /* guard: true */
    1,                             /* one operation */
    5, 0, 0, 2,                    /* out, space 0, two fields */
    0, 1, 0, 0, 0, 7,              /*   the name 7 */
    0, 0, 0, 0, 0, 41,             /*   the whole number 41 */
};

static const char expected[] =
    "1 2 0 0 0 0:0:00000001\n"
    "3 2 6 0 1\n"
    "2 2 5 0 1 0:0:00000029\n";

/* Firmware lends buffers of its own; they need not be cleared. */
static uint8_t state[REPLICA_STATE_BYTES];
static uint8_t reply[REPLICA_REPLY_BYTES];

static unsigned long number(const uint8_t *bytes, size_t count)
{
    unsigned long sum = 0;
    for (size_t i = 0; i < count; i++)
        sum = sum << 8 | bytes[i];
    return sum;
}

/* Writes the line of one reply to the text, and returns the reply's length. */
static size_t print_reply(const uint8_t *bytes, char *text, size_t room)
{
    size_t values = bytes[11], at = REPLICA_REPLY_HEAD, used;
    used = (size_t)snprintf(text, room, "%lu %u %lu %u %u", number(bytes + 2, 4), bytes[6], number(bytes + 7, 2),
                            bytes[9], bytes[10]);
    for (size_t i = 0; i < values && used < room; i++, at += REPLICA_REPLY_VALUE)
        used += (size_t)snprintf(text + used, room - used, " %u:%u:%08lX", bytes[at], bytes[at + 1],
                                 number(bytes + at + 2, 4));
    if (used < room)
        snprintf(text + used, room - used, "\n");
    return REPLICA_REPLY_HEAD + values * REPLICA_REPLY_VALUE;
}

/* Hands in one record and appends the lines of its replies to the text; 0 where it was turned back. */
static int take(const uint8_t *record, size_t length, char *text, size_t room)
{
    uint64_t count = replica_take(state, sizeof state, record, length, reply, sizeof reply);
    if (REPLICA_NOT_A_STATE <= count && count <= REPLICA_POSITION_GAP) {
        fprintf(stderr, "refused %u\n", (unsigned)count);
        return 0;
    }
    for (size_t at = 0; at < count;) {
        size_t used = strlen(text);
        at += print_reply(reply + at, text + used, room - used);
    }
    return 1;
}

int main(void)
{
    char text[1000] = "";
    if (replica_layout() != REPLICA_LAYOUT)
        return 1; /* header and library are of two minds on the bytes */
    if (replica_fresh(state, sizeof state) != 0)
        return 1;
    if (!take(host_up, sizeof host_up, text, sizeof text) || !take(add_one, sizeof add_one, text, sizeof text) ||
        !take(put_41, sizeof put_41, text, sizeof text))
        return 1;
    fputs(text, stdout);
    return strcmp(text, expected) == 0 ? 0 : 1;
}
