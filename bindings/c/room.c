/* A room from its opening to its end: two friends come, wait, meet and are booked; who waits, who ended and what the
 * tables hold is told; epochs turn; rows are given as values; and calls are refused, or misused. It ends with status 0,
 * or at the first check that fails. With -DREFUSING -Wl,--wrap=malloc,--wrap=realloc it also lets each allocation of a
 * room's life fail in turn. */
#include "entangle.h"

#include <stdio.h>
#include <stdlib.h>
#include <string.h>

#define CHECK(holds)                                                                                                   \
    do {                                                                                                               \
        if (!(holds)) {                                                                                                \
            fprintf(stderr, "line %d: %s\n", __LINE__, #holds);                                                        \
            exit(1);                                                                                                   \
        }                                                                                                              \
    } while (0)

#define TEXT(text) (text), sizeof(text) - 1

static const char TABLES[] = "CREATE TABLE Flights (fno INT, dest TEXT);\nCREATE TABLE Bookings (who TEXT, fno INT);\n"
                             "INSERT INTO Flights VALUES (122, 'LA');\nINSERT INTO Flights VALUES (136, 'Paris');\n";
static const char FRIEND[] = "BEGIN TRANSACTION;\nSELECT @me, fno AS @fno INTO ANSWER Trip\n"
                             "  WHERE fno IN (SELECT fno FROM Flights WHERE dest = 'LA')\n"
                             "    AND (@friend, fno) IN ANSWER Trip\n  CHOOSE 1;\n"
                             "INSERT INTO Bookings VALUES (@me, @fno);\nCOMMIT;\n";
static const char WRITER[] = "BEGIN TRANSACTION WITHIN 2 RUNS;\nINSERT INTO Flights VALUES (7, 'LA');\nCOMMIT;\n";
static const char UNDONE[] = "BEGIN TRANSACTION;\nINSERT INTO Flights VALUES (8, 'LA');\nROLLBACK;\n";
static const char WRONG[] = "BEGIN TRANSACTION;\nINSERT INTO Seats VALUES (1);\nCOMMIT;\n";
static const entangle_limits LIMITS = {4, 3};

/* Whether nothing but a text of so many bytes is told. */
static bool tells_text(const entangle_told *told, size_t needed) {
    return told->needed == needed && !told->offset && !told->line && !told->column && !told->code && !told->has_place;
}

/* How a ticket stands, but for what goes with it. */
static uint32_t kind_of(entangle_room **room, uint64_t ticket, entangle_ticket_state *state) {
    memset(state, 0xff, sizeof *state);
    CHECK(entangle_room_state(room, ticket, state) == ENTANGLE_DONE);
    return state->kind;
}

/* The values of one who wants to fly with a friend. */
static void friends(entangle_values **values, const char *me, const char *other) {
    uint32_t refusal = 77;
    CHECK(entangle_values_text(values, TEXT("me"), me, strlen(me), &refusal) == ENTANGLE_DONE && !refusal);
    CHECK(entangle_values_text(values, TEXT("friend"), other, strlen(other), &refusal) == ENTANGLE_DONE && !refusal);
}

/* Puts the script of one who wants to fly with a friend; its ticket. */
static uint64_t put_friend(entangle_room **room, const char *me, const char *other) {
    entangle_values *values = NULL;
    entangle_told told;
    uint64_t ticket = 0;
    uint32_t refusal = 77;
    friends(&values, me, other);
    CHECK(entangle_room_put(room, TEXT(FRIEND), &values, ENTANGLE_UNTIL_WITHDRAWN, &ticket, &refusal, &told) ==
          ENTANGLE_DONE);
    CHECK(!refusal && tells_text(&told, 0) && values);
    entangle_values_free(&values);
    CHECK(!values);
    return ticket;
}

/* Values that no script can spell, and names that are none, are refused, and change nothing. */
static void bound(void) {
    static const char control[] = "a\nb";
    char longest[256];
    entangle_values *values = NULL;
    uint32_t refusal = 77;
    memset(longest, 'x', sizeof longest);
    CHECK(entangle_values_int(&values, TEXT("n"), INT64_MIN, &refusal) == ENTANGLE_REFUSED);
    CHECK(refusal == ENTANGLE_ROOM_BOUND_LEAST && !values);
    CHECK(entangle_values_int(&values, TEXT("@n"), 1, &refusal) == ENTANGLE_REFUSED);
    CHECK(refusal == ENTANGLE_ROOM_BOUND_NO_NAME && !values);
    CHECK(entangle_values_text(&values, TEXT("n"), longest, 256, &refusal) == ENTANGLE_REFUSED);
    CHECK(refusal == ENTANGLE_ROOM_BOUND_TOO_LONG && !values);
    CHECK(entangle_values_text(&values, TEXT("n"), TEXT("\xff"), &refusal) == ENTANGLE_REFUSED);
    CHECK(refusal == ENTANGLE_ROOM_BOUND_NOT_UTF8 && !values);
    CHECK(entangle_values_text(&values, TEXT("n"), TEXT(control), &refusal) == ENTANGLE_REFUSED);
    CHECK(refusal == ENTANGLE_ROOM_BOUND_CONTROL && !values);
    CHECK(entangle_values_text(&values, TEXT("n"), longest, 255, &refusal) == ENTANGLE_DONE && !refusal && values);
    entangle_values *at = values;
    CHECK(entangle_values_text(&values, TEXT(""), TEXT("x"), &refusal) == ENTANGLE_REFUSED);
    CHECK(refusal == ENTANGLE_ROOM_BOUND_NO_NAME && values == at);
    CHECK(entangle_values_int(&values, TEXT("n"), INT64_MIN + 1, &refusal) == ENTANGLE_DONE && values == at);
    CHECK(entangle_values_int(NULL, TEXT("n"), 1, &refusal) == ENTANGLE_MISUSED);
    CHECK(entangle_values_int(&values, NULL, 1, 1, &refusal) == ENTANGLE_MISUSED);
    CHECK(entangle_values_int(&values, TEXT("n"), 1, NULL) == ENTANGLE_MISUSED);
    CHECK(entangle_values_text(&values, TEXT("n"), NULL, 1, &refusal) == ENTANGLE_MISUSED);
    entangle_values_free(&values);
    entangle_values_free(&values);
    entangle_values_free(NULL);
    CHECK(!values);
}

/* Adds a row of flights. */
static void add_flight(entangle_rows **rows, int64_t number, const char *destination) {
    uint32_t refusal = 77;
    CHECK(entangle_rows_begin(rows, TEXT("Flights"), &refusal) == ENTANGLE_DONE && !refusal && *rows);
    refusal = 77;
    CHECK(entangle_rows_int(rows, number, &refusal) == ENTANGLE_DONE && !refusal);
    refusal = 77;
    CHECK(entangle_rows_text(rows, destination, strlen(destination), &refusal) == ENTANGLE_DONE && !refusal);
}

/* Values that no table has, and names that are none, are refused, and change nothing; so is one value too many. */
static void collected(void) {
    static const char control[] = "a\nb";
    char longest[256];
    entangle_rows *rows = NULL;
    uint32_t refusal = 77;
    memset(longest, 'x', sizeof longest);
    CHECK(entangle_rows_int(&rows, 1, &refusal) == ENTANGLE_MISUSED);
    CHECK(entangle_rows_text(&rows, TEXT("x"), &refusal) == ENTANGLE_MISUSED && refusal == 77 && !rows);
    CHECK(entangle_rows_begin(&rows, TEXT("2T"), &refusal) == ENTANGLE_REFUSED);
    CHECK(refusal == ENTANGLE_ROOM_BOUND_NO_NAME && !rows);
    CHECK(entangle_rows_begin(&rows, TEXT("T"), &refusal) == ENTANGLE_DONE && !refusal && rows);
    entangle_rows *at = rows;
    CHECK(entangle_rows_begin(&rows, TEXT(""), &refusal) == ENTANGLE_REFUSED && rows == at);
    CHECK(refusal == ENTANGLE_ROOM_BOUND_NO_NAME);
    CHECK(entangle_rows_text(&rows, longest, 256, &refusal) == ENTANGLE_REFUSED);
    CHECK(refusal == ENTANGLE_ROOM_BOUND_TOO_LONG && rows == at);
    CHECK(entangle_rows_text(&rows, TEXT("\xff"), &refusal) == ENTANGLE_REFUSED);
    CHECK(refusal == ENTANGLE_ROOM_BOUND_NOT_UTF8);
    CHECK(entangle_rows_text(&rows, TEXT(control), &refusal) == ENTANGLE_REFUSED);
    CHECK(refusal == ENTANGLE_ROOM_BOUND_CONTROL);
    for (int count = 0; count < 8; count++) {
        CHECK(entangle_rows_int(&rows, INT64_MIN, &refusal) == ENTANGLE_DONE && !refusal && rows == at);
        CHECK(entangle_rows_text(&rows, longest, 255, &refusal) == ENTANGLE_DONE && !refusal && rows == at);
    }
    CHECK(entangle_rows_int(&rows, 1, &refusal) == ENTANGLE_REFUSED && refusal == ENTANGLE_ROOM_TOO_MANY_VALUES);
    refusal = 77;
    CHECK(entangle_rows_text(&rows, TEXT("x"), &refusal) == ENTANGLE_REFUSED && rows == at);
    CHECK(refusal == ENTANGLE_ROOM_TOO_MANY_VALUES);
    CHECK(entangle_rows_begin(&rows, TEXT("T"), &refusal) == ENTANGLE_DONE && !refusal && rows == at);
    CHECK(entangle_rows_text(&rows, NULL, 0, &refusal) == ENTANGLE_DONE && !refusal);
    CHECK(entangle_rows_begin(NULL, TEXT("T"), &refusal) == ENTANGLE_MISUSED);
    CHECK(entangle_rows_begin(&rows, NULL, 1, &refusal) == ENTANGLE_MISUSED);
    CHECK(entangle_rows_begin(&rows, TEXT("T"), NULL) == ENTANGLE_MISUSED);
    CHECK(entangle_rows_int(NULL, 1, &refusal) == ENTANGLE_MISUSED);
    CHECK(entangle_rows_int(&rows, 1, NULL) == ENTANGLE_MISUSED);
    CHECK(entangle_rows_text(&rows, NULL, 1, &refusal) == ENTANGLE_MISUSED);
    entangle_rows_free(&rows);
    entangle_rows_free(&rows);
    entangle_rows_free(NULL);
    CHECK(!rows);
}

/* A room that is null takes no call but open and free. */
static void closed(void) {
    char buffer[8] = "#";
    entangle_room *room = NULL;
    entangle_values *values = NULL;
    entangle_told told;
    entangle_ticket_state state = {7, 7, 7, 7, 7, 7};
    entangle_submission submission = {7, 7};
    uint64_t number = 7;
    uint32_t refusal = 77, step = 77;
    CHECK(entangle_room_put(&room, TEXT(WRITER), &values, -1, &number, &refusal, &told) == ENTANGLE_MISUSED);
    CHECK(entangle_room_restore(&room, 1, TEXT(WRITER), &values, -1, 0, &refusal, &told) == ENTANGLE_MISUSED);
    CHECK(entangle_room_explain(&room, TEXT(WRITER), &values, buffer, 8, &told) == ENTANGLE_MISUSED);
    CHECK(entangle_room_withdraw(&room, 1, &refusal) == ENTANGLE_MISUSED);
    CHECK(entangle_room_step(&room, &step, &refusal) == ENTANGLE_MISUSED);
    CHECK(entangle_room_state(&room, 1, &state) == ENTANGLE_MISUSED && state.kind == 7 && state.batches == 7);
    CHECK(entangle_room_why(&room, 1, buffer, 8, &told) == ENTANGLE_MISUSED);
    CHECK(entangle_room_waiting(&room, 0, &number) == ENTANGLE_MISUSED);
    CHECK(entangle_room_ended(&room, 0, &number) == ENTANGLE_MISUSED);
    CHECK(entangle_room_submission(&room, 1, 0, &submission) == ENTANGLE_MISUSED && submission.tx == 7);
    CHECK(entangle_room_table(&room, TEXT("T"), buffer, 8, &told) == ENTANGLE_MISUSED);
    CHECK(entangle_room_epoch(&room, &number) == ENTANGLE_MISUSED);
    CHECK(entangle_room_groups(&room, 0, buffer, 8, &told) == ENTANGLE_MISUSED);
    CHECK(entangle_room_next_group(&room, &number) == ENTANGLE_MISUSED);
    CHECK(entangle_room_settled_through(&room, 7) == ENTANGLE_MISUSED);
    CHECK(entangle_room_turn(&room, TEXT(""), &refusal, &told) == ENTANGLE_MISUSED);
    CHECK(entangle_room_report(&room, 1, buffer, 8, &number, &told) == ENTANGLE_MISUSED);
    CHECK(number == 7 && refusal == 77 && step == 77 && buffer[0] == '#' && !room && !values);
    entangle_room_free(&room);
    entangle_room_free(NULL);
}

/* An input with a fault, or with more scripts than may wait, opens no room; scripts of an input wait in order. */
static void opened(void) {
    static const char faulty[] = "CREATE TABLE T (a INT);\nINSERT INTO T VALUES ('x');\n";
    char input[sizeof TABLES + 2 * sizeof WRITER];
    entangle_limits one = {1, 1};
    entangle_room *room = NULL;
    entangle_rows *rows = NULL;
    entangle_told told;
    entangle_ticket_state state;
    uint32_t refusal = 77;
    CHECK(entangle_room_open(&room, TEXT(faulty), &rows, 1, 1, 1, &LIMITS, &refusal, &told) == ENTANGLE_REFUSED);
    CHECK(refusal == ENTANGLE_ROOM_FAULTY && told.code == 304 && told.has_place && told.line == 2 && told.offset == 46);
    CHECK(!room);
    snprintf(input, sizeof input, "%s%s%s", TABLES, WRITER, WRITER);
    size_t length = strlen(input);
    CHECK(entangle_room_open(&room, input, length, &rows, 1, 5, 1, &one, &refusal, &told) == ENTANGLE_REFUSED && !room);
    CHECK(refusal == ENTANGLE_ROOM_FULL && tells_text(&told, 0));
    CHECK(entangle_room_open(&room, input, length, &rows, 1, 5, 1, &LIMITS, &refusal, &told) == ENTANGLE_DONE && room);
    CHECK(!refusal && tells_text(&told, 0) && !rows);
    CHECK(kind_of(&room, 4, &state) == ENTANGLE_TICKET_UNKNOWN && kind_of(&room, 5, &state) == ENTANGLE_TICKET_WAITS);
    CHECK(kind_of(&room, 6, &state) == ENTANGLE_TICKET_WAITS && kind_of(&room, 7, &state) == ENTANGLE_TICKET_UNKNOWN);
    entangle_room *at = room;
    refusal = 77;
    CHECK(entangle_room_open(&room, TEXT(TABLES), &rows, 1, 1, 1, &LIMITS, &refusal, &told) == ENTANGLE_MISUSED);
    CHECK(refusal == 77 && room == at);
    CHECK(entangle_room_open(NULL, TEXT(TABLES), &rows, 1, 1, 1, &LIMITS, &refusal, &told) == ENTANGLE_MISUSED);
    CHECK(entangle_room_open(&room, TEXT(TABLES), &rows, 1, 1, 1, NULL, &refusal, &told) == ENTANGLE_MISUSED);
    entangle_room_free(&room);
    CHECK(entangle_room_open(&room, TEXT(TABLES), NULL, 1, 1, 1, &LIMITS, &refusal, &told) == ENTANGLE_MISUSED);
    CHECK(!room);
}

/* A script waits for as many batches as the header says at most, and for no more. */
static void longest_patience(void) {
    const int64_t most = ENTANGLE_MOST_BATCHES;
    entangle_room *room = NULL;
    entangle_rows *rows = NULL;
    entangle_values *none = NULL;
    entangle_told told;
    entangle_ticket_state state;
    uint64_t ticket = 77;
    uint32_t refusal = 77;
    CHECK(entangle_room_open(&room, TEXT(TABLES), &rows, 1, 5, 1, &LIMITS, &refusal, &told) == ENTANGLE_DONE);
    CHECK(entangle_room_put(&room, TEXT(WRITER), &none, most + 1, &ticket, &refusal, &told) == ENTANGLE_MISUSED);
    CHECK(entangle_room_restore(&room, 1, TEXT(WRITER), &none, most + 1, 0, &refusal, &told) == ENTANGLE_MISUSED);
    CHECK(ticket == 77 && kind_of(&room, 1, &state) == ENTANGLE_TICKET_UNKNOWN);
    CHECK(entangle_room_put(&room, TEXT(WRITER), &none, most, &ticket, &refusal, &told) == ENTANGLE_DONE);
    CHECK(ticket == 5 && kind_of(&room, 5, &state) == ENTANGLE_TICKET_WAITS);
    CHECK(entangle_room_restore(&room, 1, TEXT(WRITER), &none, most, 0, &refusal, &told) == ENTANGLE_DONE);
    CHECK(kind_of(&room, 1, &state) == ENTANGLE_TICKET_WAITS);
    entangle_room_free(&room);
}

/* Whether a table is told in these lines. */
static bool shows(entangle_room **room, const char *name, const char *lines) {
    char buffer[256];
    entangle_told told;
    memset(buffer, '#', sizeof buffer);
    CHECK(entangle_room_table(room, name, strlen(name), buffer, sizeof buffer, &told) == ENTANGLE_DONE);
    return tells_text(&told, strlen(lines)) && !memcmp(buffer, lines, strlen(lines)) && buffer[strlen(lines)] == '#';
}

/* Rows that are given stand behind those of the text, and nothing in them is quoted. The call takes them, unless it is
 * misused. */
static void given(void) {
    entangle_room *room = NULL;
    entangle_rows *rows = NULL;
    entangle_told told;
    uint32_t refusal = 77;
    add_flight(&rows, INT64_MIN, "O'Hara");
    add_flight(&rows, 122, "LA");
    CHECK(entangle_rows_begin(&rows, TEXT("Bookings"), &refusal) == ENTANGLE_DONE);
    CHECK(entangle_rows_text(&rows, TEXT("'); --"), &refusal) == ENTANGLE_DONE);
    CHECK(entangle_rows_int(&rows, 136, &refusal) == ENTANGLE_DONE);
    refusal = 77;
    CHECK(entangle_room_open(&room, TEXT(TABLES), &rows, 1, 1, 1, &LIMITS, &refusal, &told) == ENTANGLE_DONE && room);
    CHECK(!rows && !refusal && tells_text(&told, 0));
    CHECK(shows(&room, "Flights",
                "table Flights 3\n(-9223372036854775808, 'O''Hara')\n(122, 'LA')\n(136, 'Paris')\n"));
    CHECK(shows(&room, "Bookings", "table Bookings 1\n('''); --', 136)\n"));
    add_flight(&rows, 1, "LA");
    entangle_rows *at = rows;
    refusal = 77;
    CHECK(entangle_room_open(&room, TEXT(TABLES), &rows, 1, 1, 1, &LIMITS, &refusal, &told) == ENTANGLE_MISUSED);
    CHECK(rows == at && refusal == 77 && room);
    entangle_room_free(&room);
    CHECK(entangle_room_open(&room, NULL, 1, &rows, 1, 1, 1, &LIMITS, &refusal, &told) == ENTANGLE_MISUSED);
    CHECK(rows == at);
    CHECK(entangle_room_open(&room, TEXT(TABLES), &rows, 1, 1, 1, &LIMITS, &refusal, &told) == ENTANGLE_DONE && !rows);
    CHECK(shows(&room, "Flights", "table Flights 3\n(1, 'LA')\n(122, 'LA')\n(136, 'Paris')\n"));
    entangle_room_free(&room);
}

/* No room is opened over these rows, of which this one is the first that doesn't fit. */
static void not_opened(entangle_rows **rows, uint16_t code, size_t number) {
    entangle_room *room = NULL;
    entangle_told told;
    uint32_t refusal = 77;
    CHECK(entangle_room_open(&room, TEXT(TABLES), rows, 1, 1, 1, &LIMITS, &refusal, &told) == ENTANGLE_REFUSED);
    CHECK(refusal == ENTANGLE_ROOM_NOT_A_ROW && !room && !*rows);
    CHECK(told.code == code && told.offset == number && !told.has_place && !told.line && !told.column && !told.needed);
}

/* The first row that doesn't fit is told; a fault of the text, and too many rows, come before it. */
static void misfits(void) {
    static const char faulty[] = "CREATE TABLE T (a INT);\nINSERT INTO T VALUES ('x');\n";
    entangle_room *room = NULL;
    entangle_rows *rows = NULL;
    entangle_told told;
    char line[32];
    uint32_t refusal = 77;
    CHECK(entangle_rows_begin(&rows, TEXT("Seats"), &refusal) == ENTANGLE_DONE);
    add_flight(&rows, 1, "LA");
    not_opened(&rows, 301, 0);
    add_flight(&rows, 1, "LA");
    CHECK(entangle_rows_begin(&rows, TEXT("Flights"), &refusal) == ENTANGLE_DONE);
    CHECK(entangle_rows_int(&rows, 1, &refusal) == ENTANGLE_DONE);
    CHECK(entangle_rows_begin(&rows, TEXT("Seats"), &refusal) == ENTANGLE_DONE);
    not_opened(&rows, 303, 1);
    add_flight(&rows, 1, "LA");
    CHECK(entangle_rows_int(&rows, 1, &refusal) == ENTANGLE_DONE);
    not_opened(&rows, 303, 0);
    add_flight(&rows, 1, "LA");
    add_flight(&rows, 2, "LA");
    CHECK(entangle_rows_begin(&rows, TEXT("Bookings"), &refusal) == ENTANGLE_DONE);
    CHECK(entangle_rows_int(&rows, 1, &refusal) == ENTANGLE_DONE);
    CHECK(entangle_rows_text(&rows, TEXT("x"), &refusal) == ENTANGLE_DONE);
    not_opened(&rows, 304, 2);
    CHECK(entangle_rows_begin(&rows, TEXT("Seats"), &refusal) == ENTANGLE_DONE);
    CHECK(entangle_room_open(&room, TEXT(faulty), &rows, 1, 1, 1, &LIMITS, &refusal, &told) == ENTANGLE_REFUSED);
    CHECK(refusal == ENTANGLE_ROOM_FAULTY && told.code == 304 && told.has_place && told.offset == 46 && !rows);
    /* TABLES has two rows. */
    for (int64_t number = 1; number <= 65534; number++) add_flight(&rows, -number, "LA");
    CHECK(entangle_room_open(&room, TEXT(TABLES), &rows, 1, 1, 1, &LIMITS, &refusal, &told) == ENTANGLE_DONE && !rows);
    CHECK(entangle_room_table(&room, TEXT("Flights"), line, sizeof line, &told) == ENTANGLE_DONE);
    CHECK(!memcmp(line, "table Flights 65536\n(-65534, 'LA'", sizeof line));
    entangle_room_free(&room);
    CHECK(entangle_rows_begin(&rows, TEXT("Seats"), &refusal) == ENTANGLE_DONE);
    for (int64_t number = 1; number <= 65534; number++) add_flight(&rows, number, "LA");
    CHECK(entangle_room_open(&room, TEXT(TABLES), &rows, 1, 1, 1, &LIMITS, &refusal, &told) == ENTANGLE_REFUSED);
    CHECK(refusal == ENTANGLE_ROOM_TOO_MANY_ROWS && told.code == 407 && !told.has_place && !told.offset && !room);
    CHECK(!rows);
}

/* A script with a value that isn't bound in it is explained in a line, which names the host variable. */
static void explained(entangle_room **room, const char *script, entangle_values **values, size_t number,
                      const char *expected) {
    char buffer[128];
    entangle_told told;
    entangle_values *at = *values;
    memset(buffer, '#', sizeof buffer);
    CHECK(entangle_room_explain(room, script, strlen(script), values, buffer, sizeof buffer, &told) ==
          ENTANGLE_REFUSED);
    CHECK(told.needed == strlen(expected) && !memcmp(buffer, expected, told.needed) && buffer[told.needed] == '#');
    CHECK(!told.code && told.offset == number && !told.has_place && !told.line && *values == at);
}

/* What can't come in is refused with its first fault, and nothing changes. */
static void put_refused(entangle_room **room) {
    static const char said[] = "E301 at 31\nline 2, column 13: there is no table Seats\n";
    static const char sets[] = "BEGIN TRANSACTION;\nSET @n = 1;\nINSERT INTO Flights VALUES (@n, 'LA');\nCOMMIT;\n";
    static const char uses[] = "BEGIN TRANSACTION;\nINSERT INTO Flights VALUES (@n, 'LA');\nCOMMIT;\n";
    char buffer[512];
    entangle_values *values = NULL, *none = NULL;
    entangle_told told;
    uint64_t ticket = 7;
    uint32_t refusal = 77;
    CHECK(entangle_room_put(room, TEXT(WRONG), &none, -1, &ticket, &refusal, &told) == ENTANGLE_REFUSED);
    CHECK(refusal == ENTANGLE_ROOM_FAULTY && ticket == 7 && told.code == 301 && told.has_place && told.offset == 31);
    CHECK(told.line == 2 && told.column == 13 && !told.needed);
    CHECK(entangle_room_explain(room, TEXT(WRONG), &none, buffer, sizeof buffer, &told) == ENTANGLE_REFUSED);
    CHECK(told.code == 301 && told.needed > sizeof said && !memcmp(buffer, said, sizeof said - 1));
    CHECK(told.has_place && told.offset == 31 && told.line == 2 && told.column == 13);
    CHECK(entangle_room_explain(room, TEXT(WRITER), &none, buffer, sizeof buffer, &told) == ENTANGLE_DONE);
    CHECK(tells_text(&told, 0));
    CHECK(entangle_room_explain(room, TEXT(WRITER), NULL, buffer, sizeof buffer, &told) == ENTANGLE_MISUSED);
    CHECK(entangle_room_put(room, TEXT(uses), &none, -1, &ticket, &refusal, &told) == ENTANGLE_REFUSED);
    CHECK(refusal == ENTANGLE_ROOM_FAULTY && told.code == 306 && !none);
    CHECK(entangle_room_explain(room, TEXT(uses), &none, buffer, sizeof buffer, &told) == ENTANGLE_REFUSED);
    CHECK(told.code == 306 && told.has_place && !none);
    CHECK(entangle_values_text(&values, TEXT("n"), TEXT("x"), &refusal) == ENTANGLE_DONE);
    CHECK(entangle_room_put(room, TEXT(uses), &values, -1, &ticket, &refusal, &told) == ENTANGLE_REFUSED);
    CHECK(refusal == ENTANGLE_ROOM_FAULTY && told.code == 304);
    CHECK(entangle_room_explain(room, TEXT(uses), &values, buffer, sizeof buffer, &told) == ENTANGLE_REFUSED);
    CHECK(told.code == 304 && told.has_place && told.line == 2 && told.column == 29);
    CHECK(entangle_room_put(room, TEXT(sets), &values, -1, &ticket, &refusal, &told) == ENTANGLE_REFUSED);
    CHECK(refusal == ENTANGLE_ROOM_BOUND_SET_BY_SCRIPT && tells_text(&told, 0));
    explained(room, sets, &values, 0, "@n is set by the script itself, so no value is bound to it\n");
    entangle_values_free(&values);
    CHECK(entangle_values_int(&values, TEXT("n"), 1, &refusal) == ENTANGLE_DONE);
    CHECK(entangle_room_explain(room, TEXT(uses), &values, buffer, sizeof buffer, &told) == ENTANGLE_DONE);
    CHECK(tells_text(&told, 0));
    CHECK(entangle_values_int(&values, TEXT("m"), 2, &refusal) == ENTANGLE_DONE);
    explained(room, uses, &values, 1, "@m isn't used by the script, so no value is bound to it\n");
    CHECK(entangle_room_put(room, TEXT(uses), &values, -1, &ticket, &refusal, &told) == ENTANGLE_REFUSED);
    CHECK(refusal == ENTANGLE_ROOM_BOUND_UNUSED && told.offset == 1 && !told.has_place && !told.code);
    CHECK(entangle_values_int(&values, TEXT("n"), 3, &refusal) == ENTANGLE_DONE);
    CHECK(entangle_room_put(room, TEXT(sets), &values, -1, &ticket, &refusal, &told) == ENTANGLE_REFUSED);
    CHECK(refusal == ENTANGLE_ROOM_BOUND_SET_BY_SCRIPT && told.offset == 0);
    entangle_values_free(&values);
    CHECK(entangle_values_int(&values, TEXT("n"), 1, &refusal) == ENTANGLE_DONE);
    CHECK(entangle_values_int(&values, TEXT("n"), 1, &refusal) == ENTANGLE_DONE);
    CHECK(entangle_room_put(room, TEXT(uses), &values, -1, &ticket, &refusal, &told) == ENTANGLE_REFUSED);
    CHECK(refusal == ENTANGLE_ROOM_BOUND_TWICE && told.offset == 1);
    explained(room, uses, &values, 1, "@n is bound twice\n");
    entangle_values_free(&values);
    refusal = 77;
    CHECK(entangle_room_put(room, TEXT(WRITER), &none, -2, &ticket, &refusal, &told) == ENTANGLE_MISUSED);
    CHECK(entangle_room_put(room, NULL, 1, &none, -1, &ticket, &refusal, &told) == ENTANGLE_MISUSED);
    CHECK(entangle_room_put(room, TEXT(WRITER), NULL, -1, &ticket, &refusal, &told) == ENTANGLE_MISUSED);
    CHECK(entangle_room_put(room, TEXT(WRITER), &none, -1, NULL, &refusal, &told) == ENTANGLE_MISUSED);
    CHECK(entangle_room_put(room, TEXT(WRITER), &none, -1, &ticket, NULL, &told) == ENTANGLE_MISUSED);
    CHECK(entangle_room_put(room, TEXT(WRITER), &none, -1, &ticket, &refusal, NULL) == ENTANGLE_MISUSED);
    CHECK(ticket == 7 && refusal == 77 && entangle_room_waiting(room, 0, &ticket) == ENTANGLE_REFUSED && ticket == 7);
}

/* The report of the epoch that ended last is a right one, and of this epoch. */
static void reported(entangle_room **room, uint64_t ended) {
    char report[2048], verdict[32];
    entangle_told told;
    uint64_t epoch = 7;
    CHECK(entangle_room_report(room, 3, report, sizeof report, &epoch, &told) == ENTANGLE_MISUSED && epoch == 7);
    CHECK(entangle_room_report(room, 2, report, sizeof report, &epoch, &told) == ENTANGLE_DONE && epoch == ended);
    CHECK(tells_text(&told, told.needed) && told.needed < sizeof report);
    size_t length = told.needed;
    CHECK(entangle_check(report, length, verdict, sizeof verdict, &told) == ENTANGLE_DONE);
    CHECK(entangle_room_report(room, 1, report, 10, &epoch, &told) == ENTANGLE_DONE && told.needed > 10);
    CHECK(!memcmp(report, "report 1\nt", 10));
}

/* Steps until there is nothing to do; whether a run was made. */
static bool stepped(entangle_room **room) {
    bool ran = false;
    for (uint32_t step = 0, refusal = 77; step != ENTANGLE_IDLE; refusal = 77) {
        CHECK(entangle_room_step(room, &step, &refusal) == ENTANGLE_DONE && !refusal);
        CHECK(step == ENTANGLE_IDLE || step == ENTANGLE_SEARCHED || step == ENTANGLE_RAN);
        ran = ran || step == ENTANGLE_RAN;
    }
    return ran;
}

/* What the feed tells of the friends; and of those who come later. */
static const char BOOKED[] =
    "{\"group\":41,\"epoch\":3,\"commits\":["
    "{\"ticket\":10,\"number\":1,\"answers\":[{\"answer\":{\"Trip\":[\"Mickey\",122]}},{\"count\":1}]},"
    "{\"ticket\":11,\"number\":2,\"answers\":[{\"answer\":{\"Trip\":[\"Minnie\",122]}},{\"count\":1}]}],"
    "\"changes\":{\"Bookings\":{\"removed\":[],\"added\":[[\"Mickey\",122],[\"Minnie\",122]]}},\"ended\":[]}\n";
static const char LATER[] =
    "{\"group\":42,\"epoch\":5,\"commits\":[],\"changes\":{},\"ended\":[{\"ticket\":4,\"ending\":\"rolled back\"}]}\n"
    "{\"group\":43,\"epoch\":5,\"commits\":[{\"ticket\":13,\"number\":1,\"answers\":[{\"count\":1}]}],"
    "\"changes\":{\"Flights\":{\"removed\":[],\"added\":[[7,\"LA\"]]}},\"ended\":[]}\n";

/* Whether the feed tells these lines of the groups from a number on. */
static bool tells(entangle_room **room, uint64_t from, const char *lines) {
    char buffer[1024];
    entangle_told told;
    memset(buffer, '#', sizeof buffer);
    CHECK(entangle_room_groups(room, from, buffer, sizeof buffer, &told) == ENTANGLE_DONE);
    return tells_text(&told, strlen(lines)) && !memcmp(buffer, lines, strlen(lines)) && buffer[strlen(lines)] == '#';
}

/* The number of the next group. */
static uint64_t next_group(entangle_room **room) {
    uint64_t number = 7;
    CHECK(entangle_room_next_group(room, &number) == ENTANGLE_DONE);
    return number;
}

/* Mickey is lonely until Minnie comes; then both are booked, with one flight. */
static void meeting(entangle_room **room) {
    static const char lonely[] =
        "lonely: nobody who waits may offer its demand 0, ('Minnie', _) IN ANSWER Trip\n";
    entangle_ticket_state state;
    entangle_submission submission;
    entangle_told told;
    char line[128];
    uint64_t ticket = 0;
    CHECK(put_friend(room, "Mickey", "Minnie") == 10 && !stepped(room));
    CHECK(kind_of(room, 10, &state) == ENTANGLE_TICKET_LONELY && !state.demand && !state.batches && !state.failure);
    CHECK(entangle_room_why(room, 10, line, sizeof line, &told) == ENTANGLE_DONE);
    CHECK(tells_text(&told, sizeof lonely - 1) && !memcmp(line, lonely, sizeof lonely - 1));
    CHECK(entangle_room_waiting(room, 0, &ticket) == ENTANGLE_DONE && ticket == 10);
    CHECK(put_friend(room, "Minnie", "Mickey") == 11 && kind_of(room, 11, &state) == ENTANGLE_TICKET_WAITS);
    CHECK(entangle_room_ended(room, 0, &ticket) == ENTANGLE_REFUSED && ticket == 10);
    CHECK(entangle_room_submission(room, 10, 0, &submission) == ENTANGLE_REFUSED);
    CHECK(stepped(room) && kind_of(room, 10, &state) == ENTANGLE_TICKET_COMMITTED && state.epoch == 3);
    uint64_t first = state.number;
    CHECK(kind_of(room, 11, &state) == ENTANGLE_TICKET_COMMITTED && state.epoch == 3 && state.number + first == 3);
    CHECK(entangle_room_submission(room, 10, 0, &submission) == ENTANGLE_DONE && submission.epoch == 3);
    CHECK(submission.tx == 1 && entangle_room_submission(room, 10, 1, &submission) == ENTANGLE_REFUSED);
    CHECK(shows(room, "Bookings", "table Bookings 2\n('Mickey', 122)\n('Minnie', 122)\n"));
    CHECK(entangle_room_table(room, TEXT("Seats"), line, sizeof line, &told) == ENTANGLE_REFUSED && told.code == 401);
    CHECK(entangle_room_ended(room, 0, &ticket) == ENTANGLE_DONE && (ticket == 10 || ticket == 11));
    first = ticket;
    CHECK(entangle_room_ended(room, 1, &ticket) == ENTANGLE_DONE && ticket + first == 21);
    CHECK(entangle_room_ended(room, 2, &ticket) == ENTANGLE_REFUSED && ticket + first == 21);
    CHECK(entangle_room_waiting(room, 0, &ticket) == ENTANGLE_REFUSED);
    CHECK(tells(room, 0, BOOKED) && tells(room, 41, BOOKED) && tells(room, 42, "") && next_group(room) == 42);
}

/* Those who wait go over the turn, and drained tables are empty then. */
static void turning(entangle_room **room) {
    entangle_ticket_state state;
    entangle_told told;
    char buffer[64];
    uint64_t epoch = 7, ticket = 0;
    uint32_t refusal = 77;
    CHECK(entangle_room_report(room, 1, buffer, sizeof buffer, &epoch, &told) == ENTANGLE_REFUSED && epoch == 7);
    CHECK(tells_text(&told, 0) && put_friend(room, "Eve", "Finn") == 12);
    CHECK(entangle_room_turn(room, TEXT("Bookings Seats"), &refusal, &told) == ENTANGLE_REFUSED);
    CHECK(refusal == ENTANGLE_ROOM_ABSENT && told.code == 401 && !told.has_place);
    CHECK(entangle_room_epoch(room, &epoch) == ENTANGLE_DONE && epoch == 3);
    CHECK(entangle_room_turn(room, TEXT(" Bookings  Flights "), &refusal, &told) == ENTANGLE_DONE && !refusal);
    CHECK(tells_text(&told, 0) && entangle_room_epoch(room, &epoch) == ENTANGLE_DONE && epoch == 4);
    CHECK(shows(room, "Bookings", "table Bookings 0\n") && shows(room, "Flights", "table Flights 0\n"));
    reported(room, 3);
    CHECK(kind_of(room, 10, &state) == ENTANGLE_TICKET_COMMITTED && state.epoch == 3);
    CHECK(entangle_room_waiting(room, 11, &ticket) == ENTANGLE_DONE && ticket == 12);
    CHECK(entangle_room_turn(room, NULL, 0, &refusal, &told) == ENTANGLE_DONE && !refusal);
    reported(room, 4);
}

/* Tickets of an earlier process come back in their order, and each once; then they go, each in its way. */
static void restored(entangle_room **room) {
    entangle_values *values = NULL;
    entangle_ticket_state state;
    entangle_told told;
    uint64_t ticket = 0;
    uint32_t refusal = 77;
    CHECK(entangle_room_restore(room, 4, TEXT(UNDONE), &values, 1, 0, &refusal, &told) == ENTANGLE_DONE && !refusal);
    CHECK(entangle_room_restore(room, 4, TEXT(UNDONE), &values, 1, 0, &refusal, &told) == ENTANGLE_REFUSED);
    CHECK(refusal == ENTANGLE_ROOM_USED && tells_text(&told, 0));
    CHECK(entangle_room_restore(room, 10, TEXT(UNDONE), &values, 1, 0, &refusal, &told) == ENTANGLE_REFUSED);
    CHECK(refusal == ENTANGLE_ROOM_USED);
    CHECK(entangle_room_restore(room, 5, TEXT(WRONG), &values, 1, 0, &refusal, &told) == ENTANGLE_REFUSED);
    CHECK(refusal == ENTANGLE_ROOM_FAULTY && told.code == 301);
    CHECK(entangle_room_restore(room, 5, TEXT(WRITER), &values, -2, 0, &refusal, &told) == ENTANGLE_MISUSED);
    friends(&values, "Finn", "Zoe");
    CHECK(entangle_room_restore(room, 5, TEXT(FRIEND), &values, 9, 2, &refusal, &told) == ENTANGLE_DONE && !refusal);
    entangle_values_free(&values);
    CHECK(kind_of(room, 5, &state) == ENTANGLE_TICKET_WAITS && state.batches == 2);
    CHECK(entangle_room_put(room, TEXT(WRITER), &values, -1, &ticket, &refusal, &told) == ENTANGLE_DONE);
    CHECK(ticket == 13 && entangle_room_put(room, TEXT(WRITER), &values, -1, &ticket, &refusal, &told) ==
                              ENTANGLE_REFUSED);
    CHECK(refusal == ENTANGLE_ROOM_FULL && ticket == 13 && tells_text(&told, 0));
    CHECK(entangle_room_restore(room, 6, TEXT(WRITER), &values, -1, 0, &refusal, &told) == ENTANGLE_REFUSED);
    CHECK(refusal == ENTANGLE_ROOM_FULL && stepped(room) && shows(room, "Flights", "table Flights 1\n(7, 'LA')\n"));
    CHECK(kind_of(room, 4, &state) == ENTANGLE_TICKET_ROLLED_BACK);
    CHECK(kind_of(room, 13, &state) == ENTANGLE_TICKET_COMMITTED && state.epoch == 5 && state.number == 1);
    CHECK(entangle_room_withdraw(room, 13, &refusal) == ENTANGLE_REFUSED && refusal == ENTANGLE_ROOM_ABSENT);
    CHECK(entangle_room_withdraw(room, 5, &refusal) == ENTANGLE_DONE && !refusal);
    CHECK(kind_of(room, 5, &state) == ENTANGLE_TICKET_WITHDRAWN);
    CHECK(kind_of(room, 10, &state) == ENTANGLE_TICKET_UNKNOWN);
    CHECK(entangle_room_withdraw(room, 12, &refusal) == ENTANGLE_DONE && !stepped(room));
    CHECK(entangle_room_waiting(room, 0, &ticket) == ENTANGLE_REFUSED);
}

/* The feed goes on over turns, tells nothing of who is withdrawn, and keeps no group that the caller has. */
static void settled(entangle_room **room) {
    char both[sizeof BOOKED + sizeof LATER];
    entangle_told told;
    snprintf(both, sizeof both, "%s%s", BOOKED, LATER);
    CHECK(tells(room, 0, both) && tells(room, 42, LATER) && next_group(room) == 44);
    CHECK(entangle_room_groups(room, 42, NULL, 0, &told) == ENTANGLE_DONE && tells_text(&told, sizeof LATER - 1));
    CHECK(entangle_room_groups(room, 42, NULL, 1, &told) == ENTANGLE_MISUSED);
    CHECK(entangle_room_settled_through(room, 40) == ENTANGLE_DONE && tells(room, 0, both));
    CHECK(entangle_room_settled_through(room, 41) == ENTANGLE_DONE && tells(room, 0, LATER));
    CHECK(entangle_room_settled_through(room, UINT64_MAX) == ENTANGLE_DONE && tells(room, 0, ""));
    CHECK(next_group(room) == 44);
}

/* Without a number for the next group a step says so; what was done stays done. */
static void numberless(void) {
    entangle_room *room = NULL;
    entangle_rows *rows = NULL;
    entangle_values *none = NULL;
    entangle_told told;
    uint64_t ticket = 0;
    uint32_t refusal = 77, step = 77;
    CHECK(entangle_room_open(&room, TEXT(TABLES), &rows, 1, 1, UINT64_MAX, &LIMITS, &refusal, &told) == ENTANGLE_DONE);
    CHECK(!stepped(&room) && next_group(&room) == UINT64_MAX);
    CHECK(entangle_room_put(&room, TEXT(WRITER), &none, -1, &ticket, &refusal, &told) == ENTANGLE_DONE);
    for (int count = 0; count < 2; count++) {
        CHECK(entangle_room_step(&room, &step, &refusal) == ENTANGLE_REFUSED);
        CHECK(refusal == ENTANGLE_ROOM_NO_NUMBER && step == 77 && tells(&room, 0, ""));
        CHECK(shows(&room, "Flights", "table Flights 3\n(7, 'LA')\n(122, 'LA')\n(136, 'Paris')\n"));
    }
    CHECK(entangle_room_turn(&room, TEXT(""), &refusal, &told) == ENTANGLE_REFUSED && refusal == ENTANGLE_ROOM_BUSY);
    entangle_room_free(&room);
}

/* A room from its opening to its end. */
static void whole(void) {
    entangle_room *room = NULL;
    entangle_rows *rows = NULL;
    entangle_told told;
    uint32_t refusal = 77;
    CHECK(entangle_room_open(&room, TEXT(TABLES), &rows, 3, 10, 41, &LIMITS, &refusal, &told) == ENTANGLE_DONE);
    CHECK(!refusal && tells(&room, 0, "") && next_group(&room) == 41);
    put_refused(&room);
    meeting(&room);
    turning(&room);
    restored(&room);
    settled(&room);
    entangle_room_free(&room);
    CHECK(!room);
}

/* Rooms come and go, with those who wait in them. */
static void many(void) {
    for (int count = 0; count < 300; count++) {
        entangle_room *room = NULL;
        entangle_rows *rows = NULL;
        entangle_told told;
        uint32_t refusal;
        add_flight(&rows, 7, "Rome");
        if (count % 4 == 3) entangle_rows_free(&rows);
        CHECK(entangle_room_open(&room, TEXT(TABLES), &rows, 1, 10, 1, &LIMITS, &refusal, &told) == ENTANGLE_DONE);
        CHECK(put_friend(&room, "Mickey", "Minnie") == 10);
        CHECK(count % 2 || put_friend(&room, "Minnie", "Mickey") == 11);
        CHECK(count % 3 == 0 || stepped(&room) == (count % 2 == 0));
        CHECK(count % 3 != 2 || entangle_room_turn(&room, TEXT("Bookings"), &refusal, &told) == ENTANGLE_DONE);
        entangle_room_free(&room);
    }
}

#ifdef REFUSING
/* The allocation with this number fails, where it isn't below 0. */
static long until = -1;
void *__real_malloc(size_t size);
void *__real_realloc(void *block, size_t size);
void *__wrap_malloc(size_t size) { return until >= 0 && until-- == 0 ? NULL : __real_malloc(size); }
void *__wrap_realloc(void *block, size_t size) {
    return until >= 0 && until-- == 0 ? NULL : __real_realloc(block, size);
}

/* How often a call told that memory ran out. */
static long told_refusals = 0;

/* Makes a call until it answers that it is done; each time before, it has told that memory ran out, and this holds. */
#define REPEATED(call, holds)                                                                                          \
    for (int32_t status; (status = (call)) != ENTANGLE_DONE; told_refusals++)                                          \
    CHECK(status == ENTANGLE_OUT_OF_MEMORY && (holds))

/* Puts a friend; each call again if memory ran out for it. */
static void come(entangle_room **room, const char *me, const char *other, uint64_t expected) {
    entangle_values *values = NULL;
    entangle_told told;
    uint64_t ticket = 0;
    uint32_t refusal = 77;
    REPEATED(entangle_values_text(&values, TEXT("me"), me, strlen(me), &refusal), !refusal && !values);
    REPEATED(entangle_values_text(&values, TEXT("friend"), other, strlen(other), &refusal), !refusal && values);
    REPEATED(entangle_room_put(room, TEXT(FRIEND), &values, 0, &ticket, &refusal, &told),
             told.code == 900 && !refusal && !ticket);
    CHECK(ticket == expected);
    entangle_values_free(&values);
}

/* A text that takes an allocation of its own. */
static const char FAR[] = "Llanfairpwllgwyngyll";

/* Collects a flight; each call again if memory ran out for it. Whether there is a row then. */
static bool collect(entangle_rows **rows) {
    uint32_t refusal = 77;
    REPEATED(entangle_rows_begin(rows, TEXT("Flights"), &refusal), !refusal && !*rows);
    REPEATED(entangle_rows_int(rows, INT64_MIN, &refusal), !refusal && *rows);
    REPEATED(entangle_rows_text(rows, TEXT(FAR), &refusal), !refusal && *rows);
    return *rows != NULL;
}

/* Asks what is said of a script that has a fault; again if memory ran out for it. */
static void ask(entangle_room **room) {
    char buffer[512];
    entangle_values *none = NULL;
    entangle_told told;
    int32_t status;
    while ((status = entangle_room_explain(room, TEXT(WRONG), &none, buffer, sizeof buffer, &told)) !=
           ENTANGLE_REFUSED) {
        CHECK(status == ENTANGLE_OUT_OF_MEMORY && told.code == 900 && !told.needed);
        told_refusals++;
    }
    CHECK(told.code == 301 && told.needed);
}

/* Two friends come and are booked, while one allocation fails. Whether there were so many allocations. */
static bool lived(long number) {
    char buffer[2048];
    entangle_room *room = NULL;
    entangle_rows *rows = NULL;
    entangle_told told;
    entangle_ticket_state state;
    uint64_t epoch = 0;
    uint32_t refusal = 77, step = 0;
    until = number;
    collect(&rows);
    REPEATED(entangle_room_open(&room, TEXT(TABLES), &rows, 3, 10, 41, &LIMITS, &refusal, &told),
             told.code == 900 && !room && !rows && collect(&rows));
    CHECK(!rows);
    ask(&room);
    come(&room, "Mickey", "Minnie", 10);
    come(&room, "Minnie", "Mickey", 11);
    do {
        REPEATED(entangle_room_step(&room, &step, &refusal), !refusal);
    } while (step != ENTANGLE_IDLE);
    REPEATED(entangle_room_table(&room, TEXT("Bookings"), buffer, sizeof buffer, &told), told.code == 900);
    CHECK(told.needed == 49 && !memcmp(buffer, "table Bookings 2\n('Mickey', 122)\n", 33));
    REPEATED(entangle_room_groups(&room, 0, buffer, sizeof buffer, &told), told.code == 900);
    CHECK(told.needed == sizeof BOOKED - 1 && !memcmp(buffer, BOOKED, sizeof BOOKED - 1));
    CHECK(entangle_room_settled_through(&room, 41) == ENTANGLE_DONE);
    REPEATED(entangle_room_turn(&room, TEXT("Bookings"), &refusal, &told), told.code == 900 && !refusal);
    REPEATED(entangle_room_report(&room, 2, buffer, sizeof buffer, &epoch, &told), told.code == 900 && !epoch);
    bool is_reached = until < 0;
    until = -1;
    CHECK(epoch == 3 && kind_of(&room, 10, &state) == ENTANGLE_TICKET_COMMITTED);
    CHECK(shows(&room, "Bookings", "table Bookings 0\n"));
    CHECK(shows(&room, "Flights",
                "table Flights 3\n(-9223372036854775808, 'Llanfairpwllgwyngyll')\n(122, 'LA')\n(136, 'Paris')\n"));
    entangle_room_free(&room);
    return is_reached;
}

/* Each allocation of a room's life fails in turn. The library may do with less memory, and tell nothing. */
static void refusals(void) {
    long count = 0;
    while (lived(count)) count++;
    CHECK(told_refusals > 100 && told_refusals <= count);
    printf("%ld allocations of a room's calls refused, %ld of them told\n", count, told_refusals);
}
#endif

int main(void) {
    bound();
    collected();
    closed();
    opened();
    longest_patience();
    given();
    misfits();
    whole();
    numberless();
    many();
#ifdef REFUSING
    refusals();
#endif
    return 0;
}
