/*
 * A desk's driver in small: it builds two statements with the writer, hands them to a replica and prints the replies.
 *
 *     gcc -Wall -Wextra -Werror -I include -o desk examples/c/desk.c target/staticlib/libreplica.a
 *
 * The statements are those of firmware.c: process 5 waits for a tuple (name 7, a whole number) to add one to it, and
 * process 6 puts (name 7, 41). Exit status 0 where the replies are as expected.
 */
#include <stdio.h>
#include <string.h>

#include "replica.h"

enum { HOST = 2, HEAD = 8 }; /* a record's body stands behind mark, body length, position */

static const char expected[] =
    "1 2 0 0 0 0:0:00000001\n"
    "3 2 6 0 1\n"
    "2 2 5 0 1 0:0:00000029\n";

static const replica_addition always = {.code = REPLICA_CODE_TRUE};

static uint8_t state[REPLICA_STATE_BYTES];
static uint8_t reply[REPLICA_REPLY_BYTES];
static uint8_t record[HEAD + REPLICA_BODY_BYTES];

/* The writer works in the record's buffer, behind its head. */
static uint8_t *const body = record + HEAD;
static size_t fill;

/* An operation on the tuples (name 7, second field) of space 0. */
static replica_addition on_name_7(uint8_t code, replica_field second)
{
    replica_addition addition = {.code = code, .from = 0, .count = 2};
    addition.fields[0] = (replica_field){.form = REPLICA_FORM_ACTUAL, .kind = REPLICA_KIND_NAME, .bits = 7};
    addition.fields[1] = second;
    return addition;
}

static int begin(uint16_t process, replica_addition guard)
{
    return replica_begin(body, REPLICA_BODY_BYTES, &fill, HOST, process, guard) == 0;
}

static int operation(replica_addition addition)
{
    return replica_operation(body, REPLICA_BODY_BYTES, &fill, addition) == 0;
}

/* in(0, name 7, whole into 0) then out(0, name 7, variable 0 plus 1): 35 bytes. */
static int write_add_one(void)
{
    replica_field into_0 = {.form = REPLICA_FORM_FORMAL, .kind = REPLICA_KIND_WHOLE, .variable = 0};
    replica_field plus_1 = {.form = REPLICA_FORM_SUM, .kind = REPLICA_KIND_WHOLE, .variable = 0, .bits = 1};
    return begin(5, on_name_7(REPLICA_CODE_IN, into_0)) && operation(on_name_7(REPLICA_CODE_OUT, plus_1)) &&
           fill == 35;
}

/* true then out(0, name 7, 41): 22 bytes. */
static int write_put_41(void)
{
    replica_field number_41 = {.form = REPLICA_FORM_ACTUAL, .kind = REPLICA_KIND_WHOLE, .bits = 41};
    return begin(6, always) && operation(on_name_7(REPLICA_CODE_OUT, number_41)) && fill == 22;
}

/* A variable that no earlier operation binds: refused, and the body stands as before. */
static int refuses_unbound(void)
{
    replica_field minus_1 = {.form = REPLICA_FORM_DIFFERENCE, .kind = REPLICA_KIND_WHOLE, .variable = 3, .bits = 1};
    replica_addition out = on_name_7(REPLICA_CODE_OUT, minus_1);
    size_t before = fill;
    return replica_operation(body, REPLICA_BODY_BYTES, &fill, out) == REPLICA_MALFORMED && fill == before;
}

/* Puts the head of a record before the filled bytes, and returns the record's length. */
static size_t head(char first, char second, uint32_t position)
{
    const uint8_t bytes[HEAD] = {
        (uint8_t)first,           (uint8_t)second,          (uint8_t)(fill >> 8),    (uint8_t)fill,
        (uint8_t)(position >> 24), (uint8_t)(position >> 16), (uint8_t)(position >> 8), (uint8_t)position,
    };
    memcpy(record, bytes, HEAD);
    return HEAD + fill;
}

static unsigned long number(const uint8_t *bytes, size_t count)
{
    unsigned long sum = 0;
    for (size_t i = 0; i < count; i++)
        sum = sum << 8 | bytes[i];
    return sum;
}

/* Appends the line of one reply to the text, and returns the reply's length. */
static size_t append_line(const uint8_t *bytes, char *text, size_t room)
{
    size_t values = bytes[11], at = REPLICA_REPLY_HEAD, used = strlen(text);
    used += (size_t)snprintf(text + used, room - used, "%lu %u %lu %u %u", number(bytes + 2, 4), bytes[6],
                             number(bytes + 7, 2), bytes[9], bytes[10]);
    for (size_t i = 0; i < values && used < room; i++, at += REPLICA_REPLY_VALUE)
        used += (size_t)snprintf(text + used, room - used, " %u:%u:%08lX", bytes[at], bytes[at + 1],
                                 number(bytes + at + 2, 4));
    if (used < room)
        snprintf(text + used, room - used, "\n");
    return REPLICA_REPLY_HEAD + values * REPLICA_REPLY_VALUE;
}

/* Hands in the record and appends the lines of its replies to the text; 0 where it was turned back. */
static int take(size_t length, char *text, size_t room)
{
    uint64_t count = replica_take(state, sizeof state, record, length, reply, sizeof reply);
    if (REPLICA_NOT_A_STATE <= count && count <= REPLICA_POSITION_GAP)
        return 0;
    for (size_t at = 0; at < count;)
        at += append_line(reply + at, text, room);
    return 1;
}

int main(void)
{
    char text[1000] = "";
    if (replica_layout() != REPLICA_LAYOUT)
        return 1;
    if (replica_fresh(state, sizeof state) != 0)
        return 1;
    body[0] = HOST;
    fill = 1;
    if (!take(head('R', 'V', 1), text, sizeof text))
        return 1;
    if (!write_add_one() || !refuses_unbound() || !take(head('A', 'G', 2), text, sizeof text))
        return 1;
    if (!write_put_41() || !refuses_unbound() || !take(head('A', 'G', 3), text, sizeof text))
        return 1;
    fputs(text, stdout);
    return strcmp(text, expected) == 0 ? 0 : 1;
}
