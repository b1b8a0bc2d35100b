/*
 * A drive that waits for a position near the mark: a statement with a range, and a check before the show whether two
 * drives can ever compete for one tuple.
 *
 *     gcc -Wall -Wextra -Werror -I include -o drive examples/c/drive.c target/staticlib/libreplica.a
 *
 * Process 5 waits for (name 7, metres from 3.4 to 3.6) and puts (name 8, those metres plus 0.5). The encoder, process
 * 6, puts (name 7, 3.625), which is too far, then (name 7, 3.5078125), which wakes it. Exit status 0 where answers and
 * replies are as expected.
 */
#include <stdio.h>
#include <string.h>

#include "replica.h"

enum { HOST = 2, HEAD = 8, FRONT = 4 }; /* a guard stands behind host, process, count of branches */

static const char expected[] =
    "near 3.5 and near 3.6: 1\n"
    "near 3.5 and near 4.0: 0\n"
    "near 3.5 and any of name 8: 0\n"
    "near 3.5 and what variable 0 holds: 19\n"
    "near 3.5, cut short: 6\n"
    "1 2 0 0 0 0:0:00000001\n"
    "3 2 6 0 1\n"
    "4 2 6 0 1\n"
    "2 2 5 0 1 0:2:40608000\n";

static const replica_addition always = {.code = REPLICA_CODE_TRUE};

static uint8_t state[REPLICA_STATE_BYTES];
static uint8_t reply[REPLICA_REPLY_BYTES];
static uint8_t record[HEAD + REPLICA_BODY_BYTES];
static char text[1000];

static uint8_t *const body = record + HEAD;
static size_t fill;

/* The bits of metres, without a conversion. */
static uint32_t bits_of(float metres)
{
    uint32_t bits;
    memcpy(&bits, &metres, sizeof bits);
    return bits;
}

/* Metres from the lowest to the highest, both included, into variable 0. */
static replica_field range(float lowest, float highest)
{
    return (replica_field){.form = REPLICA_FORM_RANGE,
                           .kind = REPLICA_KIND_METRES,
                           .bits = bits_of(lowest),
                           .highest = bits_of(highest),
                           .variable = 0};
}

/* An operation on the tuples (name, second field) of space 0. */
static replica_addition on(uint8_t code, uint32_t name, replica_field second)
{
    replica_addition addition = {.code = code, .from = 0, .count = 2};
    addition.fields[0] = (replica_field){.form = REPLICA_FORM_ACTUAL, .kind = REPLICA_KIND_NAME, .bits = name};
    addition.fields[1] = second;
    return addition;
}

/* ---- Before the show */

/* A template as bytes. */
typedef struct {
    uint8_t bytes[REPLICA_BODY_BYTES];
    size_t length;
} template_bytes;

/* The writer makes the bytes: they are the guard of a body that has nothing else. */
static template_bytes as_bytes(replica_addition guard)
{
    template_bytes made = {.length = 0};
    uint8_t whole[REPLICA_BODY_BYTES];
    size_t filled = 0;
    if (replica_begin(whole, sizeof whole, &filled, 0, 0, guard) == 0) {
        made.length = filled - FRONT - 1; /* without the count of operations, which is last */
        memcpy(made.bytes, whole + FRONT, made.length);
    }
    return made;
}

static void say(const char *what, uint64_t answer)
{
    size_t used = strlen(text);
    snprintf(text + used, sizeof text - used, "%s: %u\n", what, (unsigned)answer);
}

static uint64_t can_meet(const template_bytes *first, const template_bytes *second)
{
    return replica_can_meet(first->bytes, first->length, second->bytes, second->length);
}

static void check_before_the_show(void)
{
    static const template_bytes variable = {{REPLICA_CODE_RD, 0, 0, 1, REPLICA_FORM_REFERENCE, 0}, 6};
    replica_field any_metres = {.form = REPLICA_FORM_ANONYMOUS, .kind = REPLICA_KIND_METRES};
    template_bytes near_35 = as_bytes(on(REPLICA_CODE_IN, 7, range(3.4f, 3.6f)));
    template_bytes near_36 = as_bytes(on(REPLICA_CODE_IN, 7, range(3.6f, 3.8f))); /* 3.6 lies in both */
    template_bytes near_40 = as_bytes(on(REPLICA_CODE_IN, 7, range(3.9f, 4.1f)));
    template_bytes other = as_bytes(on(REPLICA_CODE_RD, 8, any_metres));
    template_bytes cut = near_35;
    cut.length--;
    say("near 3.5 and near 3.6", can_meet(&near_35, &near_36));
    say("near 3.5 and near 4.0", can_meet(&near_35, &near_40));
    say("near 3.5 and any of name 8", can_meet(&near_35, &other));
    say("near 3.5 and what variable 0 holds", can_meet(&near_35, &variable));
    say("near 3.5, cut short", can_meet(&cut, &near_36));
}

/* ---- The show */

/* in(0, name 7, 3.4 to 3.6 into 0) then out(0, name 8, variable 0 plus 0.5). */
static int write_wait(void)
{
    replica_field further = {
        .form = REPLICA_FORM_SUM, .kind = REPLICA_KIND_METRES, .variable = 0, .bits = bits_of(0.5f)};
    replica_addition guard = on(REPLICA_CODE_IN, 7, range(3.4f, 3.6f));
    return replica_begin(body, REPLICA_BODY_BYTES, &fill, HOST, 5, guard) == 0 &&
           replica_operation(body, REPLICA_BODY_BYTES, &fill, on(REPLICA_CODE_OUT, 8, further)) == 0 && fill == 43;
}

/* true then out(0, name 7, metres). */
static int write_position(float metres)
{
    replica_field here = {.form = REPLICA_FORM_ACTUAL, .kind = REPLICA_KIND_METRES, .bits = bits_of(metres)};
    return replica_begin(body, REPLICA_BODY_BYTES, &fill, HOST, 6, always) == 0 &&
           replica_operation(body, REPLICA_BODY_BYTES, &fill, on(REPLICA_CODE_OUT, 7, here)) == 0;
}

/* A range whose lowest value is above its highest is refused, and so is one of names. */
static int refuses_wrong_ranges(void)
{
    replica_field names = {.form = REPLICA_FORM_RANGE, .kind = REPLICA_KIND_NAME, .bits = 1, .highest = 2};
    return replica_branch(body, REPLICA_BODY_BYTES, &fill, on(REPLICA_CODE_IN, 7, range(3.6f, 3.4f))) ==
               REPLICA_MALFORMED &&
           replica_branch(body, REPLICA_BODY_BYTES, &fill, on(REPLICA_CODE_IN, 7, names)) == REPLICA_MALFORMED;
}

/* Puts the head of a record before the filled bytes, and returns the record's length. */
static size_t head(char first, char second, uint32_t position)
{
    const uint8_t bytes[HEAD] = {
        (uint8_t)first,            (uint8_t)second,           (uint8_t)(fill >> 8),    (uint8_t)fill,
        (uint8_t)(position >> 24), (uint8_t)(position >> 16), (uint8_t)(position >> 8), (uint8_t)position,
    };
    memcpy(record, bytes, HEAD);
    return HEAD + fill;
}

static unsigned long number(const uint8_t *bytes, size_t count)
{
    unsigned long sum = 0;
    for (size_t i = 0; i < count; i++)
        sum = sum << 8 | bytes[i];
    return sum;
}

/* Appends the line of one reply to the text, and returns the reply's length. */
static size_t append_line(const uint8_t *bytes)
{
    size_t values = bytes[11], at = REPLICA_REPLY_HEAD, used = strlen(text);
    used += (size_t)snprintf(text + used, sizeof text - used, "%lu %u %lu %u %u", number(bytes + 2, 4), bytes[6],
                             number(bytes + 7, 2), bytes[9], bytes[10]);
    for (size_t i = 0; i < values && used < sizeof text; i++, at += REPLICA_REPLY_VALUE)
        used += (size_t)snprintf(text + used, sizeof text - used, " %u:%u:%08lX", bytes[at], bytes[at + 1],
                                 number(bytes + at + 2, 4));
    if (used < sizeof text)
        snprintf(text + used, sizeof text - used, "\n");
    return REPLICA_REPLY_HEAD + values * REPLICA_REPLY_VALUE;
}

/* Hands in the record and appends the lines of its replies to the text; 0 where it was turned back. */
static int take(size_t length)
{
    uint64_t count = replica_take(state, sizeof state, record, length, reply, sizeof reply);
    if (REPLICA_NOT_A_STATE <= count && count <= REPLICA_POSITION_GAP)
        return 0;
    for (size_t at = 0; at < count;)
        at += append_line(reply + at);
    return 1;
}

int main(void)
{
    if (replica_layout() != REPLICA_LAYOUT)
        return 1;
    if (replica_fresh(state, sizeof state) != 0)
        return 1;
    check_before_the_show();
    body[0] = HOST;
    fill = 1;
    if (!take(head('R', 'V', 1)))
        return 1;
    if (!write_wait() || !refuses_wrong_ranges() || !take(head('A', 'G', 2)))
        return 1;
    if (!write_position(3.625f) || !take(head('A', 'G', 3)))
        return 1;
    if (!write_position(3.5078125f) || !take(head('A', 'G', 4)))
        return 1;
    fputs(text, stdout);
    return strcmp(text, expected) == 0 ? 0 : 1;
}
