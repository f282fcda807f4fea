/* Entangle, for C: the report of an input, the explanation of its fault, the check of a report; rooms, in which scripts
 * wait until those come whom they need; and drivers, which keep tables between calls and make single runs.
 *
 * These are the calls of the static library libent_c.a, of the crate ent_c; docs/EMBEDDING.md says how to build and
 * link it. docs/LANGUAGE.md has the language of inputs, docs/REPORTS.md the reports, docs/ERRORS.md faults and
 * statuses.
 *
 * A text goes into the caller's buffer. Its length, and a fault, go into a struct entangle_told:
 *
 *   - At most `capacity` bytes are written, from the buffer's start. If the text is longer, its beginning is written.
 *     No zero byte is added.
 *   - `told->needed` is the length of the whole text. If it is more than `capacity`, call again with a larger buffer:
 *     the same bytes give the same text, as long as memory doesn't run out. To ask for the length alone, give a
 *     capacity of 0; the buffer may be null then. The work is done for that call, too.
 *   - All members of the struct are written, unless the call answers ENTANGLE_MISUSED; then don't read them.
 *
 * The library can't test these conditions, which hold for every call:
 *
 *   - `input`, `script`, `report`, `name`, `text` and `drained` point to `length` bytes that can be read (`name` to
 *     `name_length`, where a call has that), and `buffer` to `capacity` bytes that can be written. Each pointer `told`,
 *     `number`, `reply`, `position`, `limits`, `refusal`, `ticket`, `step`, `state`, `submission` or `epoch` points to
 *     one object of its type, aligned as C requires. During the call nothing else reads or writes what the call writes,
 *     nothing writes what it reads, and none of these overlap. Lengths and the capacity are below 2 to the power of 63.
 *   - malloc, realloc and free come from one allocator, and malloc aligns as C requires.
 *   - The call isn't made from a signal handler, nor from a forked child of a process that has threads.
 *   - The thread that makes the call has enough stack for it: ENTANGLE_STACK_BYTES are enough.
 *   - The library is the one of this header: a program that loads it as a shared object asks
 *     entangle_is_of_this_header() first.
 *
 * Calls without a room or a driver keep nothing and free what they allocate. Any number of threads may make them
 * concurrently.
 *
 * The caller keeps a room as an `entangle_room *` in one place, null at first, and so it keeps rows as an
 * `entangle_rows *`, values as an `entangle_values *`, and a driver as an `entangle_driver *`. Each of their calls
 * takes the address of that place. These conditions are added:
 *
 *   - The pointer is null, or a call of this header wrote it there. The caller neither copies nor dereferences it, and
 *     its place doesn't overlap what a call writes.
 *   - One room takes one call at a time, from any thread, and so do rows, values and a driver; if threads share them,
 *     order their calls with a lock. They are independent of each other.
 *   - Give what a call opened to entangle_room_free, entangle_rows_free, entangle_values_free or entangle_free in the
 *     end, or its memory is lost. If a call says that memory ran out, the room, the rows, the values or the driver is
 *     still there; but entangle_room_open takes rows in any case.
 *
 * A room is open (by entangle_room_open) or null. A driver is open (by entangle_open or entangle_renew), closed (by
 * entangle_close) or null. A call that requires another one of these states answers ENTANGLE_MISUSED, and changes
 * nothing.
 */
#ifndef ENTANGLE_H
#define ENTANGLE_H

#include <stdbool.h>
#include <stddef.h>
#include <stdint.h>
#include <string.h>

#ifdef __cplusplus
extern "C" {
#endif

/* The version of this header, and of the library that belongs to it. */
#define ENTANGLE_VERSION "0.9.0"

/* How many bytes of stack are enough for any call; docs/EMBEDDING.md says how this was measured. */
#define ENTANGLE_STACK_BYTES 524288

/* What a call answers: the exit statuses of the program. */
enum entangle_status {
    ENTANGLE_DONE = 0,          /* the call did its work: the report is written; there is no fault to explain; the check
                                   says yes */
    ENTANGLE_REFUSED = 1,       /* the input, the script or the call is refused; the check says no, or the report is too
                                   long */
    ENTANGLE_MISUSED = 2,       /* a pointer is null, the version of a report is neither 1 nor 2, there is no such move
                                   or patience, or the room or the driver isn't in the state that the call requires */
    ENTANGLE_OUT_OF_MEMORY = 3, /* E900 */
    ENTANGLE_UNREADABLE = 4     /* no call answers this, since bytes in memory can always be read */
};

/* What a call tells beside a text: the text's length, and the fault. */
struct entangle_told {
    size_t needed;  /* the length of the whole text in bytes; 0 if there is no text */
    size_t offset;  /* where the fault is, in bytes from the input's start; 0 if it has no place */
    size_t line;    /* the fault's line, from 1; 0 if it has no place */
    size_t column;  /* the fault's column in characters, from 1; 0 if it has no place */
    uint16_t code;  /* the fault's number, such as 302; 0 if there is no fault */
    bool has_place; /* whether the fault has a place */
};
typedef struct entangle_told entangle_told;

/* ---- what the calls of rooms take and tell */

/* A room, rows of tables, and values for host variables. C code doesn't see what they have. */
typedef struct entangle_room entangle_room;
typedef struct entangle_rows entangle_rows;
typedef struct entangle_values entangle_values;

struct entangle_limits {
    uint64_t most_waiters; /* how many scripts may wait */
    uint64_t most_ended;   /* of how many tickets that ended it is kept how they ended: the last so many */
};
typedef struct entangle_limits entangle_limits;

/* For how long a script waits, where it is neither of the first two: in how many batches that count, from 1 to the
 * third. */
#define ENTANGLE_AS_WRITTEN (-1)    /* in as many as its WITHIN says */
#define ENTANGLE_UNTIL_WITHDRAWN 0
#define ENTANGLE_MOST_BATCHES 1000

/* Why a call of a room, of rows or of values is refused. */
enum entangle_room_refusal {
    ENTANGLE_ROOM_FAULTY = 1,          /* the text has a fault, which is told */
    ENTANGLE_ROOM_FULL = 2,            /* as many wait as there may be, or no ticket is left */
    ENTANGLE_ROOM_BOUND_LEAST = 3,     /* the number is -9223372036854775808, which no script can spell */
    ENTANGLE_ROOM_BOUND_TOO_LONG = 4,  /* the text has more than 255 bytes */
    ENTANGLE_ROOM_BOUND_NOT_UTF8 = 5,  /* the text isn't UTF-8 */
    ENTANGLE_ROOM_BOUND_CONTROL = 6,   /* the text has a control character */
    ENTANGLE_ROOM_BOUND_TWICE = 7,     /* the name of an earlier value is the same; this and the two below tell in
                                          `told->offset` which value it is, from 0, and no place */
    ENTANGLE_ROOM_BOUND_SET_BY_SCRIPT = 8, /* the script itself gives the host variable a value */
    ENTANGLE_ROOM_BOUND_UNUSED = 9,    /* the script doesn't use the host variable */
    ENTANGLE_ROOM_BOUND_NO_NAME = 10,  /* the name is no word of the language */
    ENTANGLE_ROOM_USED = 11,           /* the ticket can't come in again */
    ENTANGLE_ROOM_ABSENT = 12,         /* nobody waits under the ticket; no table has the name (E401) */
    ENTANGLE_ROOM_BUSY = 13,           /* the ticket is in a batch that isn't over; a batch is on */
    ENTANGLE_ROOM_TOO_MANY_ROWS = 14,  /* E407: the tables have more than 65,536 rows together: those that aren't
                                          drained; or those of an input with the given ones */
    ENTANGLE_ROOM_NO_NUMBER = 15,      /* the epoch, or the next group, has the greatest number that there is */
    ENTANGLE_ROOM_NOT_A_ROW = 16,      /* a given row doesn't fit: there is no such table (E301), it has another number
                                          of values than that has columns (E303), or a value of another kind (E304);
                                          `told->offset` is which row it is, from 0, and no place is told */
    ENTANGLE_ROOM_TOO_MANY_VALUES = 17 /* the row has 16 values already, and no table has more columns */
};

/* What a step did. */
enum entangle_step {
    ENTANGLE_IDLE = 1,     /* there was nothing to do */
    ENTANGLE_SEARCHED = 2, /* those who wait were looked through, and no run was made; there is more to look at */
    ENTANGLE_RAN = 3       /* at least one run was made */
};

/* How a ticket stands. */
enum entangle_ticket_kind {
    ENTANGLE_TICKET_UNKNOWN = 0,    /* never given out, or how it ended isn't kept any more */
    ENTANGLE_TICKET_WAITS = 1,
    ENTANGLE_TICKET_LONELY = 2,     /* it waits, and nobody who waits may offer what it demands */
    ENTANGLE_TICKET_NO_MEETING = 3, /* it waits, and no meeting of it was found among those who wait */
    ENTANGLE_TICKET_IN_BATCH = 4,
    ENTANGLE_TICKET_COMMITTED = 5,  /* this one and those up to 9 are how it ended */
    ENTANGLE_TICKET_ROLLED_BACK = 6,
    ENTANGLE_TICKET_FAILED = 7,
    ENTANGLE_TICKET_GAVE_UP = 8,
    ENTANGLE_TICKET_WITHDRAWN = 9,
    ENTANGLE_TICKET_CUT = 10        /* it waits, and a bound was reached: see entangle_room_further */
};

struct entangle_ticket_state {
    uint64_t batches; /* in how many batches that count it was, if it WAITS; else 0 */
    uint64_t demand;  /* which of its demands nobody who waits may offer, from 0, if it is LONELY; else 0 */
    uint64_t epoch;   /* in which epoch it COMMITTED; else 0 */
    uint64_t number;  /* its commit number in that epoch, from 1, if it COMMITTED; else 0 */
    uint32_t kind;    /* an enum entangle_ticket_kind */
    uint32_t failure; /* why it FAILED: 1 or 2, for F1 or F2 of docs/REPORTS.md; else 0 */
};
typedef struct entangle_ticket_state entangle_ticket_state;

/* The transaction that a script became once. */
struct entangle_submission {
    uint64_t epoch;
    uint64_t tx; /* its number in the report of that epoch */
};
typedef struct entangle_submission entangle_submission;

/* ---- what the calls of drivers take and tell */

/* The state of a transaction. */
enum entangle_kind {
    ENTANGLE_DORMANT = 1,   /* it waits for a run */
    ENTANGLE_READY = 2,     /* a member of the present run, which may begin its next statement, or end */
    ENTANGLE_OUT = 3,       /* a member whose statement's job is out */
    ENTANGLE_POSTED = 4,    /* a member whose entangled statement waits for an answer */
    ENTANGLE_PREPARED = 5,  /* a member that reached its COMMIT, and waits for the others of its group */
    ENTANGLE_COMMITTED = 6, /* this one and the three below are fates */
    ENTANGLE_GAVE_UP = 7,
    ENTANGLE_ROLLED_BACK = 8,
    ENTANGLE_FAILED = 9
};

struct entangle_position {
    uint64_t runs;    /* in how many runs it took part, if it is dormant or has a fate; else 0 */
    uint64_t number;  /* its commit number, from 1; 0 if it hasn't committed */
    uint32_t kind;    /* an enum entangle_kind */
    uint32_t failure; /* why it failed: 1 or 2, for F1 or F2 of docs/REPORTS.md; else 0 */
};
typedef struct entangle_position entangle_position;

/* The moves of entangle_make. A move is one event of a driver, with the result of the job that the event lends. */
enum entangle_move {
    ENTANGLE_START_RUN = 1,   /* a run starts */
    ENTANGLE_BEGIN = 2,       /* a transaction begins its next statement, or its COMMIT or ROLLBACK */
    ENTANGLE_PICK = 3,        /* a component of posted statements is answered */
    ENTANGLE_BREAK_CYCLE = 4, /* a deadlock is broken, if there is one */
    ENTANGLE_END_RUN = 5      /* the run ends, if nothing can move in it */
};

/* The reply to a move, as crates/ent_play_scenarios/CALLING.md has them. The last three change nothing. */
enum entangle_reply {
    ENTANGLE_REPLY_STARTED = 1,
    ENTANGLE_REPLY_BLOCKED = 2,     /* it doesn't move: another transaction blocks it */
    ENTANGLE_REPLY_HELD_BACK = 3,   /* it doesn't move: a demand would meet offers of two statements */
    ENTANGLE_REPLY_POSTED = 4,      /* its entangled statement waits for an answer */
    ENTANGLE_REPLY_PREPARED = 5,    /* it waits for the others of its group */
    ENTANGLE_REPLY_COMMITTED = 6,   /* its group committed */
    ENTANGLE_REPLY_ROLLED_BACK = 7, /* its script ends with ROLLBACK, and its group is rolled back */
    ENTANGLE_REPLY_STEPPED = 8,     /* its statement is answered */
    ENTANGLE_REPLY_FAILED = 9,      /* its statement failed, and its group is rolled back */
    ENTANGLE_REPLY_NOTHING = 10,    /* there is no component to answer */
    ENTANGLE_REPLY_ANSWERED = 11,   /* the component is answered */
    ENTANGLE_REPLY_NO_CHOICE = 12,  /* the tables have no joint answer for the component */
    ENTANGLE_REPLY_BROKEN = 13,     /* there was a deadlock, and a group is rolled back to break it */
    ENTANGLE_REPLY_NO_CYCLE = 14,   /* there is no deadlock */
    ENTANGLE_REPLY_ENDED = 15,
    ENTANGLE_REPLY_ABSENT = 16,     /* E401: it is no member of the run; or no transaction waits for a run */
    ENTANGLE_REPLY_NOT_NOW = 17,    /* E402 */
    ENTANGLE_REPLY_BUSY = 18        /* E404: the run can't end yet */
};

/* A driver. C code doesn't see what it has. */
typedef struct entangle_driver entangle_driver;

/* The structs are laid out as the library has them. */
#if defined(__cplusplus) && __cplusplus >= 201103L
#define ENTANGLE_ASSERT(holds, words) static_assert(holds, words)
#elif !defined(__cplusplus) && defined(__STDC_VERSION__) && __STDC_VERSION__ >= 201112L
#define ENTANGLE_ASSERT(holds, words) _Static_assert(holds, words)
#endif
#ifdef ENTANGLE_ASSERT
ENTANGLE_ASSERT(sizeof(size_t) == 8 && sizeof(bool) == 1, "the library is for machines of 64 bits");
ENTANGLE_ASSERT(sizeof(entangle_told) == 40, "entangle_told is laid out otherwise than in the library");
ENTANGLE_ASSERT(offsetof(entangle_told, code) == 32 && offsetof(entangle_told, has_place) == 34,
                "entangle_told is laid out otherwise than in the library");
ENTANGLE_ASSERT(sizeof(entangle_position) == 24, "entangle_position is laid out otherwise than in the library");
ENTANGLE_ASSERT(offsetof(entangle_position, kind) == 16 && offsetof(entangle_position, failure) == 20,
                "entangle_position is laid out otherwise than in the library");
ENTANGLE_ASSERT(sizeof(entangle_limits) == 16 && sizeof(entangle_submission) == 16,
                "entangle_limits or entangle_submission is laid out otherwise than in the library");
ENTANGLE_ASSERT(sizeof(entangle_ticket_state) == 40 && offsetof(entangle_ticket_state, kind) == 32 &&
                    offsetof(entangle_ticket_state, failure) == 36,
                "entangle_ticket_state is laid out otherwise than in the library");
#undef ENTANGLE_ASSERT
#endif

/* The exports of the library, for languages that can't use the inline functions below. They have the conditions above,
 * and one more: no pointer is null, not even if its length or capacity is 0. */
int32_t ent_c_version(uint8_t *buffer, size_t capacity, entangle_told *told);
size_t ent_c_size_of_told(void);
size_t ent_c_size_of_position(void);
size_t ent_c_size_of_limits(void);
size_t ent_c_size_of_ticket_state(void);
size_t ent_c_size_of_submission(void);
int32_t ent_c_report(const uint8_t *input, size_t length, uint32_t version, uint8_t *buffer, size_t capacity,
                     entangle_told *told);
int32_t ent_c_explain(const uint8_t *input, size_t length, uint8_t *buffer, size_t capacity, entangle_told *told);
int32_t ent_c_check(const uint8_t *report, size_t length, uint8_t *buffer, size_t capacity, entangle_told *told);
int32_t ent_c_open(entangle_driver **driver, const uint8_t *input, size_t length, entangle_told *told);
int32_t ent_c_submit(entangle_driver **driver, const uint8_t *script, size_t length, uint64_t *number,
                     entangle_told *told);
int32_t ent_c_explain_script(entangle_driver **driver, const uint8_t *script, size_t length, uint8_t *buffer,
                             size_t capacity, entangle_told *told);
int32_t ent_c_run(entangle_driver **driver);
int32_t ent_c_make(entangle_driver **driver, uint32_t move, uint64_t number, uint32_t *reply);
int32_t ent_c_why(entangle_driver **driver, uint64_t number, uint8_t *buffer, size_t capacity, entangle_told *told);
int32_t ent_c_standing(entangle_driver **driver, uint64_t number, entangle_position *position);
int32_t ent_c_answers(entangle_driver **driver, uint64_t number, uint8_t *buffer, size_t capacity,
                      entangle_told *told);
int32_t ent_c_table(entangle_driver **driver, const uint8_t *name, size_t length, uint8_t *buffer, size_t capacity,
                    entangle_told *told);
int32_t ent_c_close(entangle_driver **driver);
int32_t ent_c_renew(entangle_driver **driver);
int32_t ent_c_closed_report(entangle_driver **driver, uint32_t version, uint8_t *buffer, size_t capacity,
                            entangle_told *told);
void ent_c_free(entangle_driver **driver);
int32_t ent_c_values_int(entangle_values **values, const uint8_t *name, size_t name_length, int64_t number,
                         uint32_t *refusal);
int32_t ent_c_values_text(entangle_values **values, const uint8_t *name, size_t name_length, const uint8_t *text,
                          size_t length, uint32_t *refusal);
void ent_c_values_free(entangle_values **values);
int32_t ent_c_rows_begin(entangle_rows **rows, const uint8_t *table, size_t length, uint32_t *refusal);
int32_t ent_c_rows_int(entangle_rows **rows, int64_t number, uint32_t *refusal);
int32_t ent_c_rows_text(entangle_rows **rows, const uint8_t *text, size_t length, uint32_t *refusal);
void ent_c_rows_free(entangle_rows **rows);
int32_t ent_c_room_open(entangle_room **room, const uint8_t *input, size_t length, entangle_rows **rows,
                        uint64_t epoch, uint64_t next, uint64_t next_group, const entangle_limits *limits,
                        uint32_t *refusal, entangle_told *told);
int32_t ent_c_room_put(entangle_room **room, const uint8_t *script, size_t length, entangle_values **values,
                       int64_t patience, uint64_t *ticket, uint32_t *refusal, entangle_told *told);
int32_t ent_c_room_explain(entangle_room **room, const uint8_t *script, size_t length, entangle_values **values,
                           uint8_t *buffer, size_t capacity, entangle_told *told);
int32_t ent_c_room_restore(entangle_room **room, uint64_t ticket, const uint8_t *script, size_t length,
                           entangle_values **values, int64_t patience, uint64_t batches, uint32_t *refusal,
                           entangle_told *told);
int32_t ent_c_room_withdraw(entangle_room **room, uint64_t ticket, uint32_t *refusal);
int32_t ent_c_room_step(entangle_room **room, uint32_t *step, uint32_t *refusal);
int32_t ent_c_room_further(entangle_room **room, uint32_t *refusal);
int32_t ent_c_room_state(entangle_room **room, uint64_t ticket, entangle_ticket_state *state);
int32_t ent_c_room_why(entangle_room **room, uint64_t ticket, uint8_t *buffer, size_t capacity, entangle_told *told);
int32_t ent_c_room_waiting(entangle_room **room, uint64_t from, uint64_t *ticket);
int32_t ent_c_room_ended(entangle_room **room, uint64_t back, uint64_t *ticket);
int32_t ent_c_room_submission(entangle_room **room, uint64_t ticket, uint64_t place, entangle_submission *submission);
int32_t ent_c_room_groups(entangle_room **room, uint64_t number, uint8_t *buffer, size_t capacity,
                          entangle_told *told);
int32_t ent_c_room_next_group(entangle_room **room, uint64_t *number);
int32_t ent_c_room_settled_through(entangle_room **room, uint64_t number);
int32_t ent_c_room_table(entangle_room **room, const uint8_t *name, size_t length, uint8_t *buffer, size_t capacity,
                         entangle_told *told);
int32_t ent_c_room_epoch(entangle_room **room, uint64_t *epoch);
int32_t ent_c_room_turn(entangle_room **room, const uint8_t *drained, size_t length, uint32_t *refusal,
                        entangle_told *told);
int32_t ent_c_room_report(entangle_room **room, uint32_t version, uint8_t *buffer, size_t capacity, uint64_t *epoch,
                          entangle_told *told);
void ent_c_room_free(entangle_room **room);

/* Pointers that the library takes, where the caller's may be null: behind a null one no byte is read or written. */
static inline const uint8_t *entangle_bytes(const void *text) {
    static const uint8_t none = 0;
    return text ? (const uint8_t *)text : &none;
}
static inline uint8_t *entangle_buffer(void *buffer) {
    static uint8_t none;
    return buffer ? (uint8_t *)buffer : &none;
}

/* Whether a pointer is null that must not be. */
static inline bool entangle_is_misused(const void *text, size_t length, const void *buffer, size_t capacity,
                                       const void *told) {
    return !told || (!text && length) || (!buffer && capacity);
}

/* Gives the version of the library, as `entangle --version` prints it behind the program's name, without the LF: its
 * number, and by what it is proved.
 *
 * ENTANGLE_DONE: the text is the version. */
static inline int32_t entangle_version(void *buffer, size_t capacity, entangle_told *told) {
    if (entangle_is_misused(NULL, 0, buffer, capacity, told)) return ENTANGLE_MISUSED;
    return ent_c_version(entangle_buffer(buffer), capacity, told);
}

/* Whether the library that the program runs with is of the version of this header, and writes structs of the sizes that
 * this header declares. If it isn't, make no call that writes a struct. */
static inline bool entangle_is_of_this_header(void) {
    char text[sizeof ENTANGLE_VERSION];
    entangle_told told;
    if (ent_c_size_of_told() != sizeof told || ent_c_size_of_position() != sizeof(entangle_position)) return false;
    if (ent_c_size_of_limits() != sizeof(entangle_limits)) return false;
    if (ent_c_size_of_ticket_state() != sizeof(entangle_ticket_state)) return false;
    if (ent_c_size_of_submission() != sizeof(entangle_submission)) return false;
    if (entangle_version(text, sizeof text, &told) != ENTANGLE_DONE || told.needed < sizeof text - 1) return false;
    return !memcmp(text, ENTANGLE_VERSION, sizeof text - 1) &&
           (told.needed == sizeof text - 1 || text[sizeof text - 1] == ',');
}

/* Gives the report of an input, in this version (1 or 2): all scripts are submitted in order and run on one thread, as
 * by `entangle run`.
 *
 * ENTANGLE_DONE: the text is the report. ENTANGLE_REFUSED, ENTANGLE_OUT_OF_MEMORY: there is no text, and the fault is
 * told. ENTANGLE_MISUSED: there is no text, and no fault is told. */
static inline int32_t entangle_report(const void *input, size_t length, uint32_t version, void *buffer,
                                      size_t capacity, entangle_told *told) {
    if (entangle_is_misused(input, length, buffer, capacity, told)) return ENTANGLE_MISUSED;
    return ent_c_report(entangle_bytes(input), length, version, entangle_buffer(buffer), capacity, told);
}

/* Gives the explanation of an input's fault, as `entangle run --explain` writes it to standard error: lines, each with
 * its LF.
 *
 * ENTANGLE_REFUSED: the text is the explanation, and the fault is told. ENTANGLE_DONE: the input has no fault, and
 * there is no text. To find this out the call runs the input's scripts, so make it only after entangle_report refused
 * the input. ENTANGLE_OUT_OF_MEMORY: E900 is told, and the text is `E900` with an LF, or there is none. */
static inline int32_t entangle_explain(const void *input, size_t length, void *buffer, size_t capacity,
                                       entangle_told *told) {
    if (entangle_is_misused(input, length, buffer, capacity, told)) return ENTANGLE_MISUSED;
    return ent_c_explain(entangle_bytes(input), length, entangle_buffer(buffer), capacity, told);
}

/* Gives the verdict on a report of version 2, as `entangle check` prints it, without the LF: `yes`, or `no` with a line
 * and the rule that is broken there.
 *
 * ENTANGLE_DONE: the text is `yes`. ENTANGLE_REFUSED: the text begins with `no`, and no fault is told; or the report is
 * too long, there is no text, and E603 is told. ENTANGLE_OUT_OF_MEMORY: E900 is told. */
static inline int32_t entangle_check(const void *report, size_t length, void *buffer, size_t capacity,
                                     entangle_told *told) {
    if (entangle_is_misused(report, length, buffer, capacity, told)) return ENTANGLE_MISUSED;
    return ent_c_check(entangle_bytes(report), length, entangle_buffer(buffer), capacity, told);
}

/* ---- rooms
 *
 * docs/ROOM.md says what a room is, and in which order those who wait are served. Each call that has a `refusal` writes
 * it, unless it answers ENTANGLE_MISUSED: an enum entangle_room_refusal if it answers ENTANGLE_REFUSED, else 0. A
 * refused call has changed nothing, nor has one for which memory ran out, but for a step. */

/* Adds a number to values, for the host variable of this name, which goes without the `@`. If the pointer is null, the
 * values begin with it.
 *
 * ENTANGLE_DONE: it is added. ENTANGLE_REFUSED: the number is the least, or the name is no word (of both: the first).
 * ENTANGLE_OUT_OF_MEMORY. In both cases the values are as they were, and a null pointer is null. */
static inline int32_t entangle_values_int(entangle_values **values, const void *name, size_t name_length,
                                          int64_t number, uint32_t *refusal) {
    if (!values || entangle_is_misused(name, name_length, NULL, 0, refusal)) return ENTANGLE_MISUSED;
    return ent_c_values_int(values, entangle_bytes(name), name_length, number, refusal);
}

/* The same for a text of UTF-8, of at most 255 bytes and without control characters. */
static inline int32_t entangle_values_text(entangle_values **values, const void *name, size_t name_length,
                                           const void *text, size_t length, uint32_t *refusal) {
    if (!values || entangle_is_misused(name, name_length, text, length, refusal)) return ENTANGLE_MISUSED;
    return ent_c_values_text(values, entangle_bytes(name), name_length, entangle_bytes(text), length, refusal);
}

/* Frees values, and sets the pointer to null; if the pointer is null, it does nothing. */
static inline void entangle_values_free(entangle_values **values) {
    if (values) ent_c_values_free(values);
}

/* Begins a row of the table of this name, for entangle_room_open, behind the rows that there are. The values that are
 * added from then on are its values, in the order of the columns. If the pointer is null, the rows begin with it.
 * Whether there is such a table is told by entangle_room_open.
 *
 * ENTANGLE_DONE: it is begun. ENTANGLE_REFUSED: the name is no word (BOUND_NO_NAME). ENTANGLE_OUT_OF_MEMORY. In both
 * cases the rows are as they were, and a null pointer is null. */
static inline int32_t entangle_rows_begin(entangle_rows **rows, const void *table, size_t length, uint32_t *refusal) {
    if (!rows || entangle_is_misused(table, length, NULL, 0, refusal)) return ENTANGLE_MISUSED;
    return ent_c_rows_begin(rows, entangle_bytes(table), length, refusal);
}

/* Adds a number, any of 64 bits, to the row that was begun last.
 *
 * ENTANGLE_DONE: it is added. ENTANGLE_REFUSED: the row has as many values as a table has columns at most, which are 16
 * (TOO_MANY_VALUES). ENTANGLE_OUT_OF_MEMORY. In both cases the rows are as they were. ENTANGLE_MISUSED: no row was
 * begun. */
static inline int32_t entangle_rows_int(entangle_rows **rows, int64_t number, uint32_t *refusal) {
    if (!rows || !refusal) return ENTANGLE_MISUSED;
    return ent_c_rows_int(rows, number, refusal);
}

/* The same for a text of UTF-8, of at most 255 bytes and without control characters; it is refused for its first fault
 * as a value is (BOUND_TOO_LONG, BOUND_NOT_UTF8, BOUND_CONTROL), else as a number is. */
static inline int32_t entangle_rows_text(entangle_rows **rows, const void *text, size_t length, uint32_t *refusal) {
    if (!rows || entangle_is_misused(text, length, NULL, 0, refusal)) return ENTANGLE_MISUSED;
    return ent_c_rows_text(rows, entangle_bytes(text), length, refusal);
}

/* Frees rows, and sets the pointer to null; if the pointer is null, it does nothing. */
static inline void entangle_rows_free(entangle_rows **rows) {
    if (rows) ent_c_rows_free(rows);
}

/* Opens a room over an input: makes its tables, loads their rows, and puts its scripts, if it has any, in order; each
 * waits for as many batches as its WITHIN says. `rows` is the address of rows that stand behind those of the input, in
 * order, or of a null pointer if there are none. The first epoch has the number `epoch`, the first script the ticket
 * `next`, and the first group the number `next_group`. Tickets and groups below these are of an earlier process: such
 * tickets may come back by entangle_room_restore. The room's pointer has to be null.
 *
 * ENTANGLE_DONE: the room is open. ENTANGLE_REFUSED, ENTANGLE_OUT_OF_MEMORY: the room's pointer is still null, and the
 * first fault is told: of the input (FAULTY); else TOO_MANY_ROWS, E407; else the first row that doesn't fit
 * (NOT_A_ROW); else more scripts stand there than may wait (FULL). In all these cases the rows are taken, and their
 * pointer is null. ENTANGLE_MISUSED: the room's pointer wasn't null, and stays as it was, and so do the rows. */
static inline int32_t entangle_room_open(entangle_room **room, const void *input, size_t length, entangle_rows **rows,
                                         uint64_t epoch, uint64_t next, uint64_t next_group,
                                         const entangle_limits *limits, uint32_t *refusal, entangle_told *told) {
    if (!room || !rows || !limits || !refusal) return ENTANGLE_MISUSED;
    if (entangle_is_misused(input, length, NULL, 0, told)) return ENTANGLE_MISUSED;
    return ent_c_room_open(room, entangle_bytes(input), length, rows, epoch, next, next_group, limits, refusal, told);
}

/* Puts a script into a room: the text of one script, from its BEGIN TRANSACTION on, and nothing else. It waits from
 * then on. In the places of host variables stand the values that are bound to their names; `values` is the address of
 * a null pointer if there are none, and the values stay as they are. `patience` is ENTANGLE_AS_WRITTEN,
 * ENTANGLE_UNTIL_WITHDRAWN, or in how many batches that count the script takes part before it gives up, from 1 to
 * ENTANGLE_MOST_BATCHES.
 *
 * ENTANGLE_DONE: `*ticket` is the script's ticket; none is given out twice. ENTANGLE_REFUSED: the first fault is told:
 * of the text, whose place counts from its start, else of the values, else of the form; or it is FULL.
 * ENTANGLE_OUT_OF_MEMORY: E900 is told. ENTANGLE_MISUSED: there is no such patience. After a refusal nothing has
 * changed, not even `*ticket`. */
static inline int32_t entangle_room_put(entangle_room **room, const void *script, size_t length,
                                        entangle_values **values, int64_t patience, uint64_t *ticket, uint32_t *refusal,
                                        entangle_told *told) {
    if (!room || !values || !ticket || !refusal) return ENTANGLE_MISUSED;
    if (entangle_is_misused(script, length, NULL, 0, told)) return ENTANGLE_MISUSED;
    return ent_c_room_put(room, entangle_bytes(script), length, values, patience, ticket, refusal, told);
}

/* Gives the explanation of the first fault for which entangle_room_put would refuse a script with these values, as
 * entangle_explain does for an input. The lines are those of this text, and hints name the room's tables. `values` is
 * the address of a null pointer if there are none; they stay as they are, and nothing is put.
 *
 * ENTANGLE_REFUSED: the text is the explanation, and the fault is told, whose place counts from the start of this text.
 * A fault of the values (BOUND_TWICE, BOUND_SET_BY_SCRIPT, BOUND_UNUSED) has no number and no place: `told->offset`
 * says which value it is, from 0, and the text is one line, with its LF, that names the host variable. ENTANGLE_DONE:
 * the script has no fault with these values, and there is no text. ENTANGLE_OUT_OF_MEMORY: E900 is told, and there is
 * no text. */
static inline int32_t entangle_room_explain(entangle_room **room, const void *script, size_t length,
                                            entangle_values **values, void *buffer, size_t capacity,
                                            entangle_told *told) {
    if (!room || !values || entangle_is_misused(script, length, buffer, capacity, told)) return ENTANGLE_MISUSED;
    return ent_c_room_explain(room, entangle_bytes(script), length, values, entangle_buffer(buffer), capacity, told);
}

/* Puts a script back that waited in a room of an earlier process, under its ticket, after it was in so many batches
 * that count. Tickets of an earlier process are those below the one with which the room was opened; they come back in
 * ascending order, before or behind other calls.
 *
 * ENTANGLE_DONE: it waits. ENTANGLE_REFUSED: as entangle_room_put; or the ticket is USED: it isn't of an earlier
 * process, or one that is no less came back before. */
static inline int32_t entangle_room_restore(entangle_room **room, uint64_t ticket, const void *script, size_t length,
                                            entangle_values **values, int64_t patience, uint64_t batches,
                                            uint32_t *refusal, entangle_told *told) {
    if (!room || !values || !refusal) return ENTANGLE_MISUSED;
    if (entangle_is_misused(script, length, NULL, 0, told)) return ENTANGLE_MISUSED;
    return ent_c_room_restore(room, ticket, entangle_bytes(script), length, values, patience, batches, refusal, told);
}

/* Takes a script back: it waits no more, and will never commit.
 *
 * ENTANGLE_DONE: it is withdrawn. ENTANGLE_REFUSED: nobody waits under this ticket (ABSENT), or it is in a batch that
 * isn't over (BUSY). */
static inline int32_t entangle_room_withdraw(entangle_room **room, uint64_t ticket, uint32_t *refusal) {
    if (!room || !refusal) return ENTANGLE_MISUSED;
    return ent_c_room_withdraw(room, ticket, refusal);
}

/* Makes a step: runs, each of an ordinary script alone or of a meeting alone, and each to its end, as many as a step's
 * work allows. Who has no fate then waits again, or gives up. What it did is told by entangle_room_groups. If memory ran
 * out in the step before, it goes on there.
 *
 * ENTANGLE_DONE: `*step` says what it did, an enum entangle_step. ENTANGLE_REFUSED: the epoch has to end first, and
 * can't: TOO_MANY_ROWS, or NO_NUMBER; or a group has no number left (NO_NUMBER), and then what was done stays done, and
 * isn't told. ENTANGLE_OUT_OF_MEMORY: what was done stays done, and another call goes on from there. */
static inline int32_t entangle_room_step(entangle_room **room, uint32_t *step, uint32_t *refusal) {
    if (!room || !step || !refusal) return ENTANGLE_MISUSED;
    return ent_c_room_step(room, step, refusal);
}

/* Has those go on who are cut (ENTANGLE_TICKET_CUT): each may try as many meetings again, in the next steps. For callers
 * who have time: without it they go on once something changes for them. ENTANGLE_DONE, or ENTANGLE_OUT_OF_MEMORY: some
 * of them go on. */
static inline int32_t entangle_room_further(entangle_room **room, uint32_t *refusal) {
    if (!room || !refusal) return ENTANGLE_MISUSED;
    return ent_c_room_further(room, refusal);
}

/* Tells how a ticket stands. ENTANGLE_DONE: `*state` has it. */
static inline int32_t entangle_room_state(entangle_room **room, uint64_t ticket, entangle_ticket_state *state) {
    if (!room || !state) return ENTANGLE_MISUSED;
    return ent_c_room_state(room, ticket, state);
}

/* Gives a line, with its LF, that says how a ticket stands; of one that is LONELY it has the demand that nobody who
 * waits may offer, as `('Minnie', _) IN ANSWER Trip`, with `_` where a value isn't known. ENTANGLE_DONE: the text is
 * the line. ENTANGLE_OUT_OF_MEMORY: E900 is told. */
static inline int32_t entangle_room_why(entangle_room **room, uint64_t ticket, void *buffer, size_t capacity,
                                        entangle_told *told) {
    if (!room || entangle_is_misused(NULL, 0, buffer, capacity, told)) return ENTANGLE_MISUSED;
    return ent_c_room_why(room, ticket, entangle_buffer(buffer), capacity, told);
}

/* Tells the first ticket from this one on under which a script waits.
 *
 * ENTANGLE_DONE: `*ticket` is it. ENTANGLE_REFUSED: nobody waits there, and `*ticket` is as it was. */
static inline int32_t entangle_room_waiting(entangle_room **room, uint64_t from, uint64_t *ticket) {
    if (!room || !ticket) return ENTANGLE_MISUSED;
    return ent_c_room_waiting(room, from, ticket);
}

/* Tells the ticket that ended last but `back` others: 0 is the last. A ticket ends at most once; so who keeps the one
 * that ended last learns with this call which ended since.
 *
 * ENTANGLE_DONE: `*ticket` is it. ENTANGLE_REFUSED: it isn't kept, and `*ticket` is as it was. */
static inline int32_t entangle_room_ended(entangle_room **room, uint64_t back, uint64_t *ticket) {
    if (!room || !ticket) return ENTANGLE_MISUSED;
    return ent_c_room_ended(room, back, ticket);
}

/* Tells the transaction at this place, from 0, of those that the script of a ticket became, in order.
 *
 * ENTANGLE_DONE: `*submission` is it. ENTANGLE_REFUSED: there is none, or it isn't kept any more, and `*submission` is
 * as it was. */
static inline int32_t entangle_room_submission(entangle_room **room, uint64_t ticket, uint64_t place,
                                               entangle_submission *submission) {
    if (!room || !submission) return ENTANGLE_MISUSED;
    return ent_c_room_submission(room, ticket, place, submission);
}

/* Gives the groups from a number on that are kept, in order, each in a line of JSON with its LF. A group is what a
 * database takes in as one transaction: scripts that committed together, and what they changed in the tables as a
 * whole; or it tells of scripts that ended without a commit. Groups count up by one, over epochs too. A step that is
 * done has told all that it did, and what a step did that isn't done is told by a later one. A withdrawal is in no
 * group, nor are rows that a turn drains.
 *
 * {"group":7,"epoch":1,"commits":[{"ticket":12,"number":3,"answers":[{"answer":{"Trip":["Mickey",122]}},{"count":1}]}],
 *  "changes":{"Bookings":{"removed":[],"added":[["Mickey",122]]}},"ended":[]}
 *
 * stands in one line. A commit has its number in the epoch, and of each statement an answer: `count`, `set` (a value),
 * `rows`, or `answer`, which has the statement's row in each of its answer relations. `changes` has the tables in which
 * a row went or came, and these rows, ascending; none is both removed and added. An ending is `rolled back`, `gave up`
 * or `failed`: {"ticket":9,"ending":"failed","failure":"F1"}, or F2. If memory ran out in a step, its commits may all
 * stand in one group. Groups are kept until entangle_room_settled_through, also those that nobody asks for.
 *
 * ENTANGLE_DONE: the text is these lines. ENTANGLE_OUT_OF_MEMORY: E900 is told. */
static inline int32_t entangle_room_groups(entangle_room **room, uint64_t number, void *buffer, size_t capacity,
                                           entangle_told *told) {
    if (!room || entangle_is_misused(NULL, 0, buffer, capacity, told)) return ENTANGLE_MISUSED;
    return ent_c_room_groups(room, number, entangle_buffer(buffer), capacity, told);
}

/* Tells the number of the next group. ENTANGLE_DONE: `*number` is it. */
static inline int32_t entangle_room_next_group(entangle_room **room, uint64_t *number) {
    if (!room || !number) return ENTANGLE_MISUSED;
    return ent_c_room_next_group(room, number);
}

/* Says that the caller has the groups up to this number: they are kept no longer, and their memory is freed. Numbers go
 * on as before. ENTANGLE_DONE. */
static inline int32_t entangle_room_settled_through(entangle_room **room, uint64_t number) {
    if (!room) return ENTANGLE_MISUSED;
    return ent_c_room_settled_through(room, number);
}

/* Gives the rows of a table, in the lines of a report: a line with its name and how many rows it has, and a line for
 * each row, ascending. After a step for which memory ran out, some changes of the table may still be rolled back.
 *
 * ENTANGLE_DONE: the text is these lines. ENTANGLE_REFUSED: no table has this name, and E401 is told.
 * ENTANGLE_OUT_OF_MEMORY: E900 is told. */
static inline int32_t entangle_room_table(entangle_room **room, const void *name, size_t length, void *buffer,
                                          size_t capacity, entangle_told *told) {
    if (!room || entangle_is_misused(name, length, buffer, capacity, told)) return ENTANGLE_MISUSED;
    return ent_c_room_table(room, entangle_bytes(name), length, entangle_buffer(buffer), capacity, told);
}

/* Tells the number of the present epoch. ENTANGLE_DONE: `*epoch` is it. */
static inline int32_t entangle_room_epoch(entangle_room **room, uint64_t *epoch) {
    if (!room || !epoch) return ENTANGLE_MISUSED;
    return ent_c_room_epoch(room, epoch);
}

/* Ends the epoch, and begins the next one over its tables, of which the drained ones are empty. `drained` is a text:
 * names of tables, separated by spaces. Who waits goes on waiting.
 *
 * ENTANGLE_DONE: the next epoch has begun. ENTANGLE_REFUSED: no table has one of the names (ABSENT, E401), a batch is
 * on (BUSY), the tables that aren't drained have too many rows (TOO_MANY_ROWS, E407), or NO_NUMBER.
 * ENTANGLE_OUT_OF_MEMORY: E900 is told. */
static inline int32_t entangle_room_turn(entangle_room **room, const void *drained, size_t length, uint32_t *refusal,
                                         entangle_told *told) {
    if (!room || !refusal || entangle_is_misused(drained, length, NULL, 0, told)) return ENTANGLE_MISUSED;
    return ent_c_room_turn(room, entangle_bytes(drained), length, refusal, told);
}

/* Gives the report of the epoch that ended last, by entangle_room_turn or by a step, in this version (1 or 2). It is
 * kept until another epoch ends.
 *
 * ENTANGLE_DONE: the text is the report, and `*epoch` the number of that epoch. ENTANGLE_REFUSED: none ended yet, and
 * `*epoch` is as it was. ENTANGLE_OUT_OF_MEMORY: E900 is told. */
static inline int32_t entangle_room_report(entangle_room **room, uint32_t version, void *buffer, size_t capacity,
                                           uint64_t *epoch, entangle_told *told) {
    if (!room || !epoch || entangle_is_misused(NULL, 0, buffer, capacity, told)) return ENTANGLE_MISUSED;
    return ent_c_room_report(room, version, entangle_buffer(buffer), capacity, epoch, told);
}

/* Frees a room, and sets the pointer to null; if the pointer is null, it does nothing. */
static inline void entangle_room_free(entangle_room **room) {
    if (room) ent_c_room_free(room);
}

/* ---- drivers */

/* Opens a driver over an input: makes its tables, loads their rows, and submits its scripts, if it has any, in order.
 * They wait for a run. The pointer has to be null.
 *
 * ENTANGLE_DONE: the driver is open. ENTANGLE_REFUSED, ENTANGLE_OUT_OF_MEMORY: the pointer is still null, and the
 * fault is told. ENTANGLE_MISUSED: the pointer wasn't null, and stays as it was. */
static inline int32_t entangle_open(entangle_driver **driver, const void *input, size_t length, entangle_told *told) {
    if (!driver || entangle_is_misused(input, length, NULL, 0, told)) return ENTANGLE_MISUSED;
    return ent_c_open(driver, entangle_bytes(input), length, told);
}

/* Submits a script: the text of one script, from its BEGIN TRANSACTION on, and nothing else. It waits for a run.
 *
 * ENTANGLE_DONE: `*number` is the number of its transaction, from 1 in order of submission. ENTANGLE_REFUSED: the fault
 * is told, whose place counts from the start of this text; or E406, if 10,000 scripts were submitted before.
 * ENTANGLE_OUT_OF_MEMORY: E900 is told. After a refusal nothing has changed, not even `*number`. */
static inline int32_t entangle_submit(entangle_driver **driver, const void *script, size_t length, uint64_t *number,
                                      entangle_told *told) {
    if (!driver || !number || entangle_is_misused(script, length, NULL, 0, told)) return ENTANGLE_MISUSED;
    return ent_c_submit(driver, entangle_bytes(script), length, number, told);
}

/* Gives the explanation of a script's fault, as entangle_explain does for an input: for a script that entangle_submit
 * refused. The lines are those of this text, and hints name the driver's tables. Nothing is submitted.
 *
 * ENTANGLE_REFUSED: the text is the explanation, and the fault is told, whose place counts from the start of this text.
 * ENTANGLE_DONE: the script has no fault, and there is no text. ENTANGLE_OUT_OF_MEMORY: E900 is told, and the text is
 * `E900` with an LF, or there is none. */
static inline int32_t entangle_explain_script(entangle_driver **driver, const void *script, size_t length,
                                              void *buffer, size_t capacity, entangle_told *told) {
    if (!driver || entangle_is_misused(script, length, buffer, capacity, told)) return ENTANGLE_MISUSED;
    return ent_c_explain_script(driver, entangle_bytes(script), length, entangle_buffer(buffer), capacity, told);
}

/* Makes one run, if any script waits for one: the first 64 scripts that wait take part, and the run ends when none of
 * them can move. Those that then have no fate wait for another run. If a run is on already, by entangle_make or since
 * memory ran out, the call makes that one to its end, and no other.
 *
 * ENTANGLE_DONE: the run was made, or no script waited. ENTANGLE_OUT_OF_MEMORY: what was done stays done, and another
 * call goes on from there. */
static inline int32_t entangle_run(entangle_driver **driver) {
    if (!driver) return ENTANGLE_MISUSED;
    return ent_c_run(driver);
}

/* Makes one move, an enum entangle_move, for a caller that orders the events of a run itself. `number` is the
 * transaction that begins; the other moves ignore it.
 *
 * ENTANGLE_DONE: `*reply` is the reply, an enum entangle_reply. ENTANGLE_OUT_OF_MEMORY: what was done stays done, the
 * move may be made again, and `*reply` is as it was. ENTANGLE_MISUSED: there is no such move, or the driver isn't
 * open. */
static inline int32_t entangle_make(entangle_driver **driver, uint32_t move, uint64_t number, uint32_t *reply) {
    if (!driver || !reply) return ENTANGLE_MISUSED;
    return ent_c_make(driver, move, number, reply);
}

/* Gives a line, with its LF, that says what keeps a transaction from moving now (docs/EXPLAIN.md). The line begins with
 * the transaction's state: dormant, ready, blocked, held back, posted, out or prepared; or it is the fate.
 *
 * ENTANGLE_DONE: the text is the line. ENTANGLE_REFUSED: no script has this number, and E401 is told.
 * ENTANGLE_OUT_OF_MEMORY: E900 is told. */
static inline int32_t entangle_why(entangle_driver **driver, uint64_t number, void *buffer, size_t capacity,
                                   entangle_told *told) {
    if (!driver || entangle_is_misused(NULL, 0, buffer, capacity, told)) return ENTANGLE_MISUSED;
    return ent_c_why(driver, number, entangle_buffer(buffer), capacity, told);
}

/* Tells the state of a transaction, and its fate, if it has one.
 *
 * ENTANGLE_DONE: `*position` has them. ENTANGLE_REFUSED: no script has this number, and `*position` is as it was. */
static inline int32_t entangle_standing(entangle_driver **driver, uint64_t number, entangle_position *position) {
    if (!driver || !position) return ENTANGLE_MISUSED;
    return ent_c_standing(driver, number, position);
}

/* Gives the answers of a transaction, in the lines of a report: all of them if it has committed; if it is a member of
 * the present run, those that it has, which it may still lose; else none.
 *
 * ENTANGLE_DONE: the text is these lines. ENTANGLE_REFUSED: no script has this number, and E401 is told.
 * ENTANGLE_OUT_OF_MEMORY: E900 is told. */
static inline int32_t entangle_answers(entangle_driver **driver, uint64_t number, void *buffer, size_t capacity,
                                       entangle_told *told) {
    if (!driver || entangle_is_misused(NULL, 0, buffer, capacity, told)) return ENTANGLE_MISUSED;
    return ent_c_answers(driver, number, entangle_buffer(buffer), capacity, told);
}

/* Gives the present rows of a table, in the lines of a report: a line with its name and how many rows it has, and a
 * line for each row, ascending. While a run is on, some changes of the table may still be rolled back.
 *
 * ENTANGLE_DONE: the text is these lines. ENTANGLE_REFUSED: no table has this name, and E401 is told.
 * ENTANGLE_OUT_OF_MEMORY: E900 is told. */
static inline int32_t entangle_table(entangle_driver **driver, const void *name, size_t length, void *buffer,
                                     size_t capacity, entangle_told *told) {
    if (!driver || entangle_is_misused(name, length, buffer, capacity, told)) return ENTANGLE_MISUSED;
    return ent_c_table(driver, entangle_bytes(name), length, entangle_buffer(buffer), capacity, told);
}

/* Closes a driver, if all its transactions have a fate and no run is on. A closed driver gives its report; it can be
 * opened again by entangle_renew, or freed.
 *
 * ENTANGLE_DONE: it is closed. ENTANGLE_REFUSED: a run is on, or a transaction waits for one (E405), and it stays open.
 * ENTANGLE_OUT_OF_MEMORY: it stays open. */
static inline int32_t entangle_close(entangle_driver **driver) {
    if (!driver) return ENTANGLE_MISUSED;
    return ent_c_close(driver);
}

/* Gives the report of a closed driver, in this version (1 or 2), as often as the caller asks.
 *
 * ENTANGLE_DONE: the text is the report. ENTANGLE_OUT_OF_MEMORY: E900 is told. */
static inline int32_t entangle_closed_report(entangle_driver **driver, uint32_t version, void *buffer,
                                             size_t capacity, entangle_told *told) {
    if (!driver || entangle_is_misused(NULL, 0, buffer, capacity, told)) return ENTANGLE_MISUSED;
    return ent_c_closed_report(driver, version, entangle_buffer(buffer), capacity, told);
}

/* Opens a closed driver again: over the same tables, with the rows that they had at the close. It has no scripts,
 * numbers begin at 1 again, and its report is gone. So a service can go on after 10,000 scripts.
 *
 * ENTANGLE_DONE: it is open. ENTANGLE_REFUSED: its tables have more than 65,536 rows together (E407), and it stays
 * closed. ENTANGLE_OUT_OF_MEMORY: it stays closed. */
static inline int32_t entangle_renew(entangle_driver **driver) {
    if (!driver) return ENTANGLE_MISUSED;
    return ent_c_renew(driver);
}

/* Frees a driver in any state, and sets the pointer to null; if the pointer is null, it does nothing. */
static inline void entangle_free(entangle_driver **driver) {
    if (driver) ent_c_free(driver);
}

#ifdef __cplusplus
}
#endif

#endif
