/*
 * replica.h - one replica of the replicated tuple space, for cabinet firmware in C.
 *
 * Link with libreplica.a. The library keeps nothing between calls: it has no variables of its own, takes no memory,
 * starts no thread, calls no function but memcpy, memmove and memset, and always returns.
 *
 * A replica lives in a state buffer that the caller lends. Records arrive numbered 1, 2, 3, .. and are handed in one
 * by one; each gives the replies to be sent. Replicas that took the same records have the same state, byte for byte.
 *
 * The writer makes the body of a statement's record in a buffer that the caller lends, one addition at a time. Of two
 * templates the library says whether a tuple can exist that both match.
 *
 * For all functions:
 *  - A buffer is a pointer and its length in bytes. It needs no alignment.
 *  - The buffers of one call must not overlap, but for those of replica_can_meet, which only reads; the number behind a
 *    pointer fill must not lie in the body.
 *  - A null pointer is allowed where its length is 0, and is then an empty buffer: an empty state is turned back with
 *    REPLICA_NOT_A_STATE, an empty reply buffer with REPLICA_REPLY_SHORT, an empty record with REPLICA_NO_RECORD; in
 *    an empty body nothing can be begun; an empty template is REPLICA_MALFORMED. A pointer fill is never null, and is
 *    aligned as a size_t is.
 *  - Calls on one state or one body must not run at once. Calls on different ones may.
 *  - A call needs at most REPLICA_STACK_BYTES bytes of stack.
 *  - The floating-point mode (MXCSR) may be any, also that of a program linked with -ffast-math, and another for each
 *    replica: no call reads it, sets it or raises an exception in it. Sums of metres are computed by integers, and round
 *    to nearest; metres are compared by their bits, and no subnormal one is taken for zero. (Tried:
 *    harness/tests/metres.rs and ranges.rs make calls in each rounding, with denormals flushed or taken as zero, with
 *    exceptions unmasked, and all at once; harness/tests/instructions.rs finds no instruction in the archive that
 *    computes with floats.)
 *
 * Conditions of use. The compiler sees to the first alone; no call can notice that another is broken:
 *  - x86-64 with the System V calling convention, which is not that of Windows, and with pointers of 8 bytes. (That a
 *    file is compiled with -mabi=ms, the header cannot see.)
 *  - SSE is on, and whatever interrupts a call keeps the xmm registers for it.
 *  - The stack pointer is aligned to 16 bytes at each call, as that convention asks. A start-up file or a task switch
 *    of your own has to see to it.
 *  - The 128 bytes below the stack pointer (the red zone) belong to the call while it runs: no interrupt may share the
 *    stack. On Linux the kernel leaves them alone; on bare metal give interrupts a stack of their own.
 *  - memcpy, memmove and memset are yours, of a C library or written by you, and do what C says. The stack is measured
 *    with those of glibc; what yours need beyond theirs comes on top.
 */
#ifndef REPLICA_H
#define REPLICA_H

#if !defined(__x86_64__) || defined(__ILP32__) || defined(_WIN32) || defined(__CYGWIN__)
#error "libreplica.a is for x86-64 with the System V calling convention and pointers of 8 bytes alone"
#endif

#include <stddef.h>
#include <stdint.h>

#ifdef __cplusplus
extern "C" {
#endif

/*
 * The number of the bytes and of their meaning. Whatever changes a byte of a record, a reply or a state, or what one
 * means, raises it; 1 is document 01's, 2 has space numbers of two bytes, 3 owes failure tuples that find no room, 4
 * has ranges in templates. replica_layout returns the library's own: at a fit-up compare it with the header's, and
 * between cabinets and desks. A desk must not write for cabinets of another number, nor may cabinets whose numbers
 * differ read one stream or copy a state from each other: a record of layout 1 can pass for another one of layout 2, a
 * crash that layout 2 refuses is done by layout 3, a statement with a range is malformed for layout 3 and not for
 * layout 4, and a state in which one waits is no state for layout 3.
 */
#define REPLICA_LAYOUT 4
uint64_t replica_layout(void);

#define REPLICA_STATE_BYTES 25312 /* a state buffer has exactly this length */
#define REPLICA_REPLY_BYTES 3564  /* a reply buffer has at least this length; no call replies more */
#define REPLICA_STACK_BYTES 28672 /* a call used at most 22,816, measured by painting; the rest is reserve */

/*
 * What replica_take returns where it turned the call back: no byte of any buffer has changed. They are tried in this
 * order. A count of reply bytes is never one of them: it is 0, or at least 12.
 */
#define REPLICA_NOT_A_STATE 1   /* the state buffer does not have REPLICA_STATE_BYTES, or its bytes are not a state */
#define REPLICA_REPLY_SHORT 2   /* the reply buffer is shorter than REPLICA_REPLY_BYTES */
#define REPLICA_NO_RECORD 3     /* the mark is unknown, or the record's size is not 8 + its body length */
#define REPLICA_POSITION_PAST 4 /* the position is 0, or was taken already: drop the record */
#define REPLICA_POSITION_GAP 5  /* a record before it is missing: hand that in first, then this one again */

/*
 * Writes the fresh state: position 0, no host up, space 0 alone.
 * Returns 0, or REPLICA_NOT_A_STATE where the length is not REPLICA_STATE_BYTES; then no byte has changed.
 */
uint64_t replica_fresh(uint8_t *state, size_t state_length);

/*
 * Takes one record: a mark of two letters (RV, CR, MO, MS, DS or AG), body length (2 bytes), position (4 bytes), body.
 * Numbers are big-endian.
 *
 * Where the record is taken, the state is the one after it, its position has moved on by one, and the return is the
 * count of reply bytes, which stand at the start of the reply buffer; the bytes past them have not changed. The count
 * is 0 where a statement waits. The record's own reply comes first, then one for each statement that it woke.
 * Else the return is one of the numbers 1 to 5 above. The record is never changed.
 *
 *   mark  body
 *   RV    host (1, 0 to 15): the host is up
 *   CR    host (1): it has crashed; its waiting statements are dropped, and a tuple (name 1, whole monitor number, whole
 *         host) in space 0 tells each monitor. One that finds 512 tuples is owed: it is laid down after the record, or
 *         the woken statement, that makes room, before the next waiting statement is looked for; the lowest monitor
 *         first, then the lowest host. A pair is owed once, RV cancels nothing, and no reply tells of it
 *   MO    host (1), process (2): a new monitor number
 *   MS    host (1), process (2), kind (1, or absent: shared): opens the next space number, 1 to 65,535
 *   DS    host (1), process (2), space (2): closes the space, with its tuples
 *   AG    a statement of at most REPLICA_BODY_BYTES, as the writer below makes them: host (1), process (2), count of
 *         branches (1), branches. A branch is a guard, a count of operations (1), and these. A guard or operation is
 *         a code (1); then space (2) for codes 1 to 5, from (2) and to (2) for 6 and 7; then, but for 0, a count of
 *         fields (1), and these. A field is a form (1), then the parts of the form in the order in which they are
 *         named below: kind (1), variable (1), bits (4), highest (4). A range, so, is form, kind, lowest, highest and
 *         variable, 11 bytes
 *
 * Positions go from 1 to 4,294,967,295; after the last no record is taken.
 *
 * A call that was cut (power lost, task stopped) may leave any bytes, and most of what it leaves passes as a state: a
 * call that wakes a statement was stopped after each of its 26,708 instructions, and at 72 percent of them the buffer
 * would have been taken for a state, though it was neither the one before nor the one after. Do not go on from it.
 * Only two restarts are right: replica_fresh, or a whole copy of a state that another replica held between calls.
 */
uint64_t replica_take(uint8_t *state, size_t state_length, const uint8_t *record, size_t record_length,
                      uint8_t *reply, size_t reply_length);

/* Kinds of a space, as MS has them. */
#define REPLICA_SPACE_SHARED 0
#define REPLICA_SPACE_PRIVATE 1 /* to the process that opened it */

/* Kinds of a value. */
#define REPLICA_KIND_WHOLE 0  /* a signed number of 32 bits */
#define REPLICA_KIND_NAME 1   /* 0 to 65,535 */
#define REPLICA_KIND_METRES 2 /* an IEEE 754 number of 32 bits, finite and not negative zero */

/*
 * A reply is REPLICA_REPLY_HEAD bytes, then REPLICA_REPLY_VALUE bytes for each value; the next begins where it ends.
 *
 *   at  bytes  what
 *    0    2    'R' 'P'
 *    2    4    position of the record answered (of a woken statement: of its own record)
 *    6    1    host
 *    7    2    process; 0 for RV and CR
 *    9    1    outcome, below
 *   10    1    branch that ran, from 1; 0 for other records and where none was chosen
 *   11    1    count of values
 *   12         values: variable (1), kind (1), 4 bytes
 *
 * Values come with outcome 0 alone. MO and MS give their number, RV and CR the count of hosts now up, each as variable
 * 0, a whole number; DS gives none; a statement gives its bound variables in rising number.
 */
#define REPLICA_REPLY_HEAD 12
#define REPLICA_REPLY_VALUE 6

/*
 * Outcomes, with the marks whose records they answer. Where one of 6 to 18 answers a record, its position is taken and
 * nothing else changes. A woken statement ends in 0, 12, 16 or 17, and leaves the queue whatever its outcome.
 */
#define REPLICA_OUTCOME_DONE 0            /* all: done */
#define REPLICA_OUTCOME_MALFORMED 6       /* all: the body is malformed; the reply shows host 255, process 65535 */
#define REPLICA_OUTCOME_HOST_DOWN 7       /* all but RV: the host is not up */
#define REPLICA_OUTCOME_HOST_UP 8         /* RV: the host is up already */
#define REPLICA_OUTCOME_PROCESS_WAITS 9   /* MO MS DS AG: the process has a statement waiting */
#define REPLICA_OUTCOME_SPACE_NOT_OPEN 10 /* DS AG: a space that is named is not open */
#define REPLICA_OUTCOME_SPACE_DENIED 11   /* DS AG: a space that is named is private to another process */
#define REPLICA_OUTCOME_TUPLES_FULL 12    /* AG: there would be more than 512 tuples */
#define REPLICA_OUTCOME_WAITING_FULL 13   /* AG: the statement would wait, and 32 wait */
#define REPLICA_OUTCOME_USED_UP 14        /* MO MS: 8 monitors, 32 open spaces, or space number 65,535, are used up */
#define REPLICA_OUTCOME_SPACE_IN_USE 15   /* DS: it is space 0, or a waiting statement names it */
#define REPLICA_OUTCOME_NO_MATCH 16       /* AG: an in or rd of the body has no match */
#define REPLICA_OUTCOME_OFF_RANGE 17      /* AG: a sum or difference is off the range, or not finite */
#define REPLICA_OUTCOME_NO_GUARD 18       /* AG: no guard held, and none of them waits */

/* ---- The writer */

#define REPLICA_BODY_BYTES 250 /* a legal body has at most this length; a buffer of it is never short */
#define REPLICA_FIELDS 6       /* an operation has at most so many fields */

/*
 * What the writer's functions return: 0 where the addition is done, else one of these, tried in this order.
 */
#define REPLICA_MALFORMED 6  /* the addition would not leave a legal body, by the rules of outcome 6 */
#define REPLICA_BODY_SHORT 2 /* the body would be legal, and the buffer is shorter than it */

/*
 * Forms of a field, with the parts that each has and the codes that allow it. Parts that a form does not have are not
 * looked at. A form above 6 is REPLICA_MALFORMED.
 */
#define REPLICA_FORM_ACTUAL 0     /* kind, bits: this value; 1 to 7 */
#define REPLICA_FORM_FORMAL 1     /* kind, variable: any value of the kind, which is bound to the variable; 1 to 4 */
#define REPLICA_FORM_REFERENCE 2  /* variable: the variable's value; 1 to 7 */
#define REPLICA_FORM_SUM 3        /* variable, kind, bits: the variable's value plus this value; 5 */
#define REPLICA_FORM_DIFFERENCE 4 /* variable, kind, bits: the variable's value minus this value; 5 */
#define REPLICA_FORM_ANONYMOUS 5  /* kind: any value of the kind; 1 to 4, 6, 7 */
#define REPLICA_FORM_RANGE 6      /* kind, bits, highest, variable: a value from bits to highest, both included, which */
                                  /* is bound to the variable; 1 to 4 */

/*
 * A field. Variables are 0 to 15. The bits are the value's four bytes as a number: (uint32_t)-1 is the whole number -1,
 * 7 the name 7, 0x40400000 the metres 3.0. A variable is bound once in a branch, and used in later operations of that
 * branch; a sum or difference needs it bound with its own kind, which is not name.
 *
 * A range is of whole numbers or of metres: bits is its lowest value and highest its highest. Both are legal values of
 * the kind, and may be equal; a lowest above the highest, and a range of names, are REPLICA_MALFORMED. Whole numbers
 * are in the order of the signed numbers, metres in that of the numbers and not of their bytes: -2.0 (0xC0000000) lies
 * below -1.0 (0xBF800000), that below 0.0 (0). No other form looks at highest.
 */
typedef struct {
    uint8_t form, kind, variable;
    uint32_t bits;
    uint32_t highest;
} replica_field;

typedef char replica_field_has_12_bytes[sizeof(replica_field) == 12 ? 1 : -1];

/*
 * Codes of an addition, with what each can be and the parts that it has. Parts that a code does not have and fields
 * past the count are not looked at. Any other code is REPLICA_MALFORMED.
 */
#define REPLICA_CODE_TRUE 0 /* guard: none */
#define REPLICA_CODE_IN 1   /* guard, operation: from, count 1 to 6 */
#define REPLICA_CODE_INP 2  /* guard: from, count 1 to 6 */
#define REPLICA_CODE_RD 3   /* guard, operation: from, count 1 to 6 */
#define REPLICA_CODE_RDP 4  /* guard: from, count 1 to 6 */
#define REPLICA_CODE_OUT 5  /* operation: from, count 1 to 6 */
#define REPLICA_CODE_MOVE 6 /* operation: from, to, count 0 to 6 */
#define REPLICA_CODE_COPY 7 /* operation: from, to, count 0 to 6 */

/*
 * An addition: a guard or an operation. from is the space of codes 1 to 5. Spaces are 0 to 65,535, open or not; a count
 * that its code does not have is REPLICA_MALFORMED.
 */
typedef struct {
    uint8_t code;
    uint16_t from, to;
    size_t count;
    replica_field fields[REPLICA_FIELDS];
} replica_addition;

typedef char replica_addition_has_88_bytes[sizeof(replica_addition) == 88 ? 1 : -1];

/*
 * replica_begin begins a body: host (0 to 15), process, and a first branch with this guard and no operation yet. What
 * *fill was is not looked at. replica_operation adds an operation at the end of the last branch, which has at most 8.
 * replica_branch adds a branch with this guard and no operation yet; there are at most 4.
 *
 * *fill is the count of filled bytes, which stand at the start of the buffer and are a legal body. Where the return is
 * 0, it is the new count, and the bytes past it have not changed. Else no byte of the body has changed; *fill has not
 * changed either, but for replica_begin, which then leaves it 0.
 *
 * Between calls the bytes and *fill are the caller's: a *fill past the buffer's length, or filled bytes that are not a
 * legal body (as after a refused replica_begin), are REPLICA_MALFORMED.
 *
 * The record is 'A', 'G', the fill (2 bytes), the position (4 bytes), then the filled bytes. A body that is begun 8
 * bytes from the start of the record's buffer need not be copied. replica_take never answers it with outcome 6.
 */
uint64_t replica_begin(uint8_t *body, size_t body_length, size_t *fill, uint8_t host, uint16_t process,
                       replica_addition guard);
uint64_t replica_operation(uint8_t *body, size_t body_length, size_t *fill, replica_addition operation);
uint64_t replica_branch(uint8_t *body, size_t body_length, size_t *fill, replica_addition guard);

/* ---- Templates */

/*
 * What replica_can_meet returns, beside REPLICA_MALFORMED: nothing else.
 */
#define REPLICA_APART 0     /* no tuple exists that both templates match */
#define REPLICA_MEET 1      /* one exists */
#define REPLICA_VARIABLE 19 /* a field is of form 2: what it matches hangs on what is bound before */

/*
 * Whether two templates can ever meet: whether one tuple of legal values can exist that both match. So a desk can check
 * before a show whether two drives can ever compete for one tuple. No state is looked at; the space need not be open.
 *
 * A template is the bytes of one operation of codes 1 to 4, as they stand in a statement and nothing more: code (1),
 * space (2), count of fields (1), fields. The writer makes them: after replica_begin with the template as guard they
 * stand 4 bytes from the start of the body, and are *fill - 5 bytes.
 *
 * Tried in this order, each of both templates:
 *   REPLICA_MALFORMED  a buffer is empty, or its bytes are no such operation, or a byte is missing or left over; the
 *                      count is not 1 to 6; a form is not 0, 1, 2, 5 or 6; a kind, a value, a variable or a range is
 *                      not legal; a variable is bound twice in the template. Of a form 2 only the variable is looked
 *                      at, which is 0 to 15, as if all had been bound before
 *   REPLICA_VARIABLE   a field is of form 2, also where its variable is bound beside it
 *   REPLICA_MEET       spaces and counts are the same, and in each place the kinds are the same and some value is
 *                      matched by both fields; two ranges that have one value in common meet
 *   REPLICA_APART      else
 *
 * The codes play no part: in and rd of the same fields meet. The answer is the same with the two exchanged. Neither
 * buffer is changed; they may overlap, and may be the same.
 */
uint64_t replica_can_meet(const uint8_t *first, size_t first_length, const uint8_t *second, size_t second_length);

#ifdef __cplusplus
}
#endif

#endif
