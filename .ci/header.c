/*
 * What a compiler can hold the header to, as C99 and as C++: the places of the structs' parts, which the library takes
 * for granted, and that the library is called as the header declares it. Exit status 0 where its answers are right.
 */
#include <string.h>

#include "replica.h"

#define IS(name, truth) typedef char name[(truth) ? 1 : -1]

IS(form, offsetof(replica_field, form) == 0);
IS(kind, offsetof(replica_field, kind) == 1);
IS(variable, offsetof(replica_field, variable) == 2);
IS(bits, offsetof(replica_field, bits) == 4);
IS(highest, offsetof(replica_field, highest) == 8);
IS(field, sizeof(replica_field) == 12);

IS(code, offsetof(replica_addition, code) == 0);
IS(from, offsetof(replica_addition, from) == 2);
IS(to, offsetof(replica_addition, to) == 4);
IS(count, offsetof(replica_addition, count) == 8);
IS(fields, offsetof(replica_addition, fields) == 16);
IS(six, sizeof(((replica_addition *)0)->fields) == 6 * sizeof(replica_field));
IS(addition, sizeof(replica_addition) == 88);

/* Two branches: true, then move from 256 to 65,535 of any name alone; rd(3, metres 1.0, whole into 9, metres from -2.0 to
 * 0.5 into 10). */
static int writer(void)
{
    static const uint8_t expected[] = {2, 1, 4, 2, 0, 1, 6, 1, 0, 255, 255, 1, 5, 1, 3, 0, 3, 3, 0, 2, 0x3F, 0x80, 0, 0, 1, 0, 9,
                                       6, 2, 0xC0, 0, 0, 0, 0x3F, 0, 0, 0, 10, 0};
    uint8_t body[REPLICA_BODY_BYTES];
    size_t fill = 0;
    replica_addition first, move, rd;
    memset(&first, 0, sizeof first);
    memset(&move, 0, sizeof move);
    memset(&rd, 0, sizeof rd);
    first.code = REPLICA_CODE_TRUE;
    move.code = REPLICA_CODE_MOVE;
    move.from = 256;
    move.to = 65535;
    move.count = 1;
    move.fields[0].form = REPLICA_FORM_ANONYMOUS;
    move.fields[0].kind = REPLICA_KIND_NAME;
    rd.code = REPLICA_CODE_RD;
    rd.from = 3;
    rd.count = 3;
    rd.fields[0].form = REPLICA_FORM_ACTUAL;
    rd.fields[0].kind = REPLICA_KIND_METRES;
    rd.fields[0].bits = 0x3F800000;
    rd.fields[1].form = REPLICA_FORM_FORMAL;
    rd.fields[1].kind = REPLICA_KIND_WHOLE;
    rd.fields[1].variable = 9;
    rd.fields[2].form = REPLICA_FORM_RANGE;
    rd.fields[2].kind = REPLICA_KIND_METRES;
    rd.fields[2].bits = 0xC0000000;
    rd.fields[2].highest = 0x3F000000;
    rd.fields[2].variable = 10;
    return replica_begin(body, sizeof body, &fill, 2, 260, first) == 0 &&
           replica_operation(body, sizeof body, &fill, move) == 0 &&
           replica_branch(body, sizeof body, &fill, rd) == 0 && fill == sizeof expected &&
           memcmp(body, expected, sizeof expected) == 0;
}

/* in(0, whole from 1 to 3 into 0), rd(0, whole 3), rd(0, whole 4), rd(0, the value of variable 0). */
static int templates(void)
{
    static const uint8_t range[] = {1, 0, 0, 1, 6, 0, 0, 0, 0, 1, 0, 0, 0, 3, 0};
    static const uint8_t three[] = {3, 0, 0, 1, 0, 0, 0, 0, 0, 3}, four[] = {3, 0, 0, 1, 0, 0, 0, 0, 0, 4};
    static const uint8_t variable[] = {3, 0, 0, 1, 2, 0};
    return replica_can_meet(range, sizeof range, three, sizeof three) == REPLICA_MEET &&
           replica_can_meet(range, sizeof range, four, sizeof four) == REPLICA_APART &&
           replica_can_meet(range, sizeof range, variable, sizeof variable) == REPLICA_VARIABLE &&
           replica_can_meet(variable, sizeof variable, range, sizeof range - 1) == REPLICA_MALFORMED;
}

int main(void)
{
    return replica_layout() == REPLICA_LAYOUT && writer() && templates() ? 0 : 1;
}
