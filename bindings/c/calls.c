/* Makes each call in the ways that the header allows, and ends with status 0, or at the first check that fails. With
 * -DREFUSING -Wl,--wrap=malloc,--wrap=realloc it also lets each allocation of a call fail in turn. */
#include "entangle.h"

#include <stdio.h>
#include <stdlib.h>
#include <string.h>

#define CHECK(holds)                                                                                                   \
    do {                                                                                                               \
        if (!(holds)) {                                                                                                \
            fprintf(stderr, "line %d: %s\n", __LINE__, #holds);                                                        \
            exit(1);                                                                                                   \
        }                                                                                                              \
    } while (0)

static const char INPUT[] = "CREATE TABLE T (a INT);\nBEGIN TRANSACTION;\nINSERT INTO T VALUES (1);\nCOMMIT;\n";
static const char REPORT[] = "report 1\ntx 1 committed 1 after 1\n1 count 1\ntable T 1\n(1)\nend\n";
static const char WRONG[] = "CREATE TABLE T (a INT);\nINSERT INTO T VALUES ('\xe6\x9d\xb1', b);";
static const char SAID[] = "E201 at 53\nline 2, column 28: ";
static const size_t LENGTH = sizeof INPUT - 1, WHOLE = sizeof REPORT - 1, WRONG_LENGTH = sizeof WRONG - 1;

/* Whether nothing but a text of so many bytes is told. */
static bool tells_text(const entangle_told *told, size_t needed) {
    return told->needed == needed && !told->offset && !told->line && !told->column && !told->code && !told->has_place;
}

/* Whether the fault of WRONG is told beside a text of so many bytes. */
static bool tells_fault(const entangle_told *told, size_t needed) {
    return told->needed == needed && told->code == 201 && told->has_place && told->offset == 53 && told->line == 2 &&
           told->column == 28;
}

/* The version of a library that says by which logic it is proved, or that it is built without proof; its length. */
static size_t version_of(char *version, size_t size, const char *said, size_t length) {
    static const char logic[] = ENTANGLE_VERSION ", proved by logic ";
    static const char none[] = ENTANGLE_VERSION ", built without proof";
    bool is_proved = length >= sizeof logic - 1 && !memcmp(said, logic, sizeof logic - 1);
    size_t needed = is_proved ? sizeof logic - 1 + 16 : sizeof none - 1;
    CHECK(length == needed && needed < size);
    memcpy(version, is_proved ? said : none, needed);
    return needed;
}

/* The library is the one of the header, and says its version, and whether it is proved. */
static void version(void) {
    char buffer[64], expected[64];
    entangle_told told;
    CHECK(entangle_is_of_this_header());
    CHECK(ent_c_size_of_told() == sizeof told && ent_c_size_of_position() == sizeof(entangle_position));
    memset(buffer, '#', sizeof buffer);
    CHECK(entangle_version(buffer, sizeof buffer, &told) == ENTANGLE_DONE && tells_text(&told, told.needed));
    size_t length = version_of(expected, sizeof expected, buffer, told.needed);
    CHECK(!memcmp(buffer, expected, length) && buffer[length] == '#');
    CHECK(entangle_version(NULL, 0, &told) == ENTANGLE_DONE && tells_text(&told, length));
    CHECK(entangle_version(buffer, 1, NULL) == ENTANGLE_MISUSED);
    CHECK(entangle_version(NULL, 1, &told) == ENTANGLE_MISUSED);
}

/* Buffers of each length take what fits them of a report, and no byte behind that is touched. */
static void reports(void) {
    char buffer[sizeof REPORT + 8];
    for (size_t capacity = 0; capacity <= WHOLE + 4; capacity++) {
        entangle_told told;
        size_t written = capacity < WHOLE ? capacity : WHOLE;
        memset(&told, 0xff, sizeof told);
        memset(buffer, '#', sizeof buffer);
        CHECK(entangle_report(INPUT, LENGTH, 1, buffer, capacity, &told) == ENTANGLE_DONE);
        CHECK(tells_text(&told, WHOLE) && !memcmp(buffer, REPORT, written));
        for (size_t at = written; at < sizeof buffer; at++) CHECK(buffer[at] == '#');
    }
}

/* A fault is told, and what is said of it; without one there is nothing to say. */
static void faults(void) {
    char buffer[512];
    entangle_told told;
    memset(buffer, '#', sizeof buffer);
    CHECK(entangle_report(WRONG, WRONG_LENGTH, 1, buffer, sizeof buffer, &told) == ENTANGLE_REFUSED);
    CHECK(tells_fault(&told, 0) && buffer[0] == '#');
    CHECK(entangle_explain(WRONG, WRONG_LENGTH, buffer, sizeof buffer, &told) == ENTANGLE_REFUSED);
    CHECK(tells_fault(&told, told.needed) && told.needed < sizeof buffer && buffer[told.needed] == '#');
    CHECK(!memcmp(buffer, SAID, sizeof SAID - 1) && buffer[told.needed - 1] == '\n');
    CHECK(entangle_explain(INPUT, LENGTH, buffer, sizeof buffer, &told) == ENTANGLE_DONE && tells_text(&told, 0));
}

/* A report of version 2 is right; one with a line too few isn't. */
static void checks(void) {
    char report[1024], verdict[32];
    entangle_told told;
    CHECK(entangle_report(INPUT, LENGTH, 2, report, sizeof report, &told) == ENTANGLE_DONE);
    size_t length = told.needed;
    CHECK(length < sizeof report && entangle_check(report, length, verdict, 32, &told) == ENTANGLE_DONE);
    CHECK(tells_text(&told, 3) && !memcmp(verdict, "yes", 3));
    CHECK(entangle_check(report, length - 4, verdict, 32, &told) == ENTANGLE_REFUSED);
    CHECK(told.code == 0 && told.needed > 3 && !memcmp(verdict, "no ", 3));
    CHECK(entangle_check(REPORT, WHOLE, verdict, 32, &told) == ENTANGLE_REFUSED && told.code == 0);
    CHECK(tells_text(&told, 9) && !memcmp(verdict, "no 1 form", 9));
}

/* Null pointers are told, where something stands behind them; and so is a version that isn't there. */
static void misuse(void) {
    char buffer[64] = "#";
    entangle_told told;
    CHECK(entangle_report(NULL, 1, 1, buffer, 64, &told) == ENTANGLE_MISUSED);
    CHECK(entangle_report(INPUT, LENGTH, 1, NULL, 1, &told) == ENTANGLE_MISUSED);
    CHECK(entangle_report(INPUT, LENGTH, 1, buffer, 64, NULL) == ENTANGLE_MISUSED);
    CHECK(entangle_explain(NULL, 1, buffer, 64, &told) == ENTANGLE_MISUSED);
    CHECK(entangle_check(NULL, 1, buffer, 64, &told) == ENTANGLE_MISUSED && buffer[0] == '#');
    uint32_t versions[] = {0, 3, 257, UINT32_MAX};
    for (size_t at = 0; at < sizeof versions / sizeof *versions; at++)
        CHECK(entangle_report(INPUT, LENGTH, versions[at], buffer, 64, &told) == ENTANGLE_MISUSED &&
              tells_text(&told, 0) && buffer[0] == '#');
    CHECK(entangle_report(INPUT, LENGTH, 1, NULL, 0, &told) == ENTANGLE_DONE && tells_text(&told, WHOLE));
    CHECK(entangle_report(NULL, 0, 1, NULL, 0, &told) == ENTANGLE_DONE && tells_text(&told, 13));
}

static const char TABLE[] = "CREATE TABLE T (a INT);";
static const char SCRIPT[] = "BEGIN TRANSACTION;\nINSERT INTO T VALUES (1);\nCOMMIT;\n";
static const char AFTER[] = "report 1\ntx 1 committed 1 after 1\n1 count 1\ntable T 1\n(1)\nend\n";

/* The events of a run of one script, one at a time. */
static void moves(entangle_driver **driver) {
    static const uint32_t made[] = {ENTANGLE_START_RUN, ENTANGLE_BEGIN, ENTANGLE_PICK, ENTANGLE_BREAK_CYCLE,
                                    ENTANGLE_END_RUN,   ENTANGLE_BEGIN, ENTANGLE_BEGIN, ENTANGLE_END_RUN};
    static const uint32_t replied[] = {ENTANGLE_REPLY_STARTED,  ENTANGLE_REPLY_STEPPED,   ENTANGLE_REPLY_NOTHING,
                                       ENTANGLE_REPLY_NO_CYCLE, ENTANGLE_REPLY_BUSY,      ENTANGLE_REPLY_COMMITTED,
                                       ENTANGLE_REPLY_ABSENT,   ENTANGLE_REPLY_ENDED};
    static const char dormant[] = "dormant after 0, and waits for a run\n", ready[] = "ready, and nothing";
    char buffer[64];
    entangle_told told;
    uint32_t reply = 77;
    CHECK(entangle_make(driver, 6, 1, &reply) == ENTANGLE_MISUSED && reply == 77);
    CHECK(entangle_make(driver, ENTANGLE_BEGIN, 1, NULL) == ENTANGLE_MISUSED);
    CHECK(entangle_why(driver, 1, buffer, sizeof buffer, &told) == ENTANGLE_DONE);
    CHECK(tells_text(&told, sizeof dormant - 1) && !memcmp(buffer, dormant, sizeof dormant - 1));
    for (size_t at = 0; at < sizeof made / sizeof *made; at++) {
        CHECK(entangle_make(driver, made[at], 1, &reply) == ENTANGLE_DONE && reply == replied[at]);
        CHECK(entangle_why(driver, 1, buffer, sizeof buffer, &told) == ENTANGLE_DONE);
        CHECK(at > 4 || !memcmp(buffer, ready, sizeof ready - 1));
    }
    CHECK(entangle_why(driver, 2, buffer, sizeof buffer, &told) == ENTANGLE_REFUSED && told.code == 401);
}

static const char BAD_SCRIPT[] = "BEGIN TRANSACTION;\nINSERT INTO U VALUES (1);\nCOMMIT;\n";
static const char BAD_SAID[] = "E301 at 31\nline 2, column 13: there is no table U\n  INSERT INTO U VALUES (1);\n"
                               "              ^\nthe tables are T\n";

/* The fault of a script is explained in the script's own lines, as far as the buffer reaches; nothing is submitted. */
static void explained_script(entangle_driver **driver) {
    char buffer[256];
    entangle_told told;
    entangle_position position;
    size_t length = sizeof BAD_SCRIPT - 1, needed = sizeof BAD_SAID - 1;
    for (size_t capacity = 0; capacity <= needed + 4; capacity++) {
        memset(buffer, '#', sizeof buffer);
        CHECK(entangle_explain_script(driver, BAD_SCRIPT, length, buffer, capacity, &told) == ENTANGLE_REFUSED);
        CHECK(told.needed == needed && told.code == 301 && told.has_place && told.offset == 31);
        CHECK(told.line == 2 && told.column == 13);
        size_t written = capacity < needed ? capacity : needed;
        CHECK(!memcmp(buffer, BAD_SAID, written) && buffer[written] == '#');
    }
    CHECK(entangle_explain_script(driver, NULL, 0, buffer, sizeof buffer, &told) == ENTANGLE_REFUSED);
    CHECK(told.code == 201 && told.offset == 0 && !memcmp(buffer, "E201 at 0\n", 10));
    CHECK(entangle_explain_script(driver, SCRIPT, sizeof SCRIPT - 1, buffer, sizeof buffer, &told) == ENTANGLE_DONE);
    CHECK(tells_text(&told, 0) && entangle_standing(driver, 1, &position) == ENTANGLE_REFUSED);
    CHECK(entangle_explain_script(NULL, SCRIPT, 1, buffer, 1, &told) == ENTANGLE_MISUSED);
    CHECK(entangle_explain_script(driver, NULL, 1, buffer, 1, &told) == ENTANGLE_MISUSED);
    CHECK(entangle_explain_script(driver, SCRIPT, 1, NULL, 1, &told) == ENTANGLE_MISUSED);
    CHECK(entangle_explain_script(driver, SCRIPT, 1, buffer, 1, NULL) == ENTANGLE_MISUSED);
}

/* A driver from its opening to its end; the calls that want another state change nothing. */
static void drivers(void) {
    char buffer[256];
    entangle_driver *driver = NULL;
    entangle_told told;
    entangle_position position = {7, 7, 7, 7};
    uint64_t number = 7;
    CHECK(entangle_run(&driver) == ENTANGLE_MISUSED && entangle_close(&driver) == ENTANGLE_MISUSED);
    CHECK(entangle_submit(&driver, SCRIPT, sizeof SCRIPT - 1, &number, &told) == ENTANGLE_MISUSED && number == 7);
    CHECK(entangle_standing(&driver, 1, &position) == ENTANGLE_MISUSED && position.kind == 7);
    CHECK(entangle_answers(&driver, 1, buffer, sizeof buffer, &told) == ENTANGLE_MISUSED && tells_text(&told, 0));
    CHECK(entangle_explain_script(&driver, SCRIPT, sizeof SCRIPT - 1, buffer, 9, &told) == ENTANGLE_MISUSED);
    CHECK(tells_text(&told, 0) && !driver);
    CHECK(entangle_open(&driver, WRONG, WRONG_LENGTH, &told) == ENTANGLE_REFUSED && tells_fault(&told, 0) && !driver);
    CHECK(entangle_open(&driver, TABLE, sizeof TABLE - 1, &told) == ENTANGLE_DONE && driver && tells_text(&told, 0));
    entangle_driver *at = driver;
    CHECK(entangle_open(&driver, TABLE, sizeof TABLE - 1, &told) == ENTANGLE_MISUSED && driver == at);
    explained_script(&driver);
    CHECK(entangle_submit(&driver, TABLE, sizeof TABLE - 1, &number, &told) == ENTANGLE_REFUSED && number == 7);
    CHECK(told.code == 201 && told.has_place && told.offset == 0 && told.line == 1 && told.column == 1);
    CHECK(entangle_submit(&driver, SCRIPT, sizeof SCRIPT - 1, &number, &told) == ENTANGLE_DONE && number == 1);
    CHECK(entangle_standing(&driver, 2, &position) == ENTANGLE_REFUSED && position.runs == 7);
    CHECK(entangle_standing(&driver, 1, &position) == ENTANGLE_DONE && position.kind == ENTANGLE_DORMANT);
    CHECK(!position.runs && !position.number && !position.failure && entangle_close(&driver) == ENTANGLE_REFUSED);
    CHECK(entangle_run(&driver) == ENTANGLE_DONE && entangle_standing(&driver, 1, &position) == ENTANGLE_DONE);
    CHECK(position.kind == ENTANGLE_COMMITTED && position.number == 1 && position.runs == 1 && !position.failure);
    memset(buffer, '#', sizeof buffer);
    CHECK(entangle_answers(&driver, 1, buffer, 4, &told) == ENTANGLE_DONE && tells_text(&told, 10));
    CHECK(!memcmp(buffer, "1 co#", 5) && entangle_table(&driver, "T", 1, buffer, 256, &told) == ENTANGLE_DONE);
    CHECK(tells_text(&told, 14) && !memcmp(buffer, "table T 1\n(1)\n#", 15));
    CHECK(entangle_table(&driver, "U", 1, buffer, 256, &told) == ENTANGLE_REFUSED && told.code == 401);
    CHECK(entangle_closed_report(&driver, 1, buffer, 256, &told) == ENTANGLE_MISUSED && tells_text(&told, 0));
    CHECK(entangle_renew(&driver) == ENTANGLE_MISUSED);
    CHECK(entangle_close(&driver) == ENTANGLE_DONE && entangle_run(&driver) == ENTANGLE_MISUSED);
    CHECK(entangle_explain_script(&driver, SCRIPT, sizeof SCRIPT - 1, buffer, 9, &told) == ENTANGLE_MISUSED);
    CHECK(entangle_closed_report(&driver, 3, buffer, 256, &told) == ENTANGLE_MISUSED && tells_text(&told, 0));
    CHECK(entangle_closed_report(&driver, 1, buffer, 256, &told) == ENTANGLE_DONE);
    CHECK(tells_text(&told, sizeof AFTER - 1) && !memcmp(buffer, AFTER, sizeof AFTER - 1));
    CHECK(entangle_renew(&driver) == ENTANGLE_DONE && entangle_standing(&driver, 1, &position) == ENTANGLE_REFUSED);
    CHECK(entangle_table(&driver, "T", 1, buffer, 256, &told) == ENTANGLE_DONE && tells_text(&told, 14));
    CHECK(entangle_submit(&driver, SCRIPT, sizeof SCRIPT - 1, &number, &told) == ENTANGLE_DONE && number == 1);
    moves(&driver);
    CHECK(entangle_open(NULL, TABLE, 1, &told) == ENTANGLE_MISUSED && entangle_run(NULL) == ENTANGLE_MISUSED);
    CHECK(entangle_submit(&driver, NULL, 1, &number, &told) == ENTANGLE_MISUSED && driver == at);
    entangle_free(&driver);
    CHECK(!driver);
    entangle_free(&driver);
    entangle_free(NULL);
}

/* Drivers come and go, with all that they came to. */
static void many_drivers(void) {
    for (int count = 0; count < 1000; count++) {
        entangle_driver *driver = NULL;
        entangle_told told;
        uint64_t number;
        CHECK(entangle_open(&driver, TABLE, sizeof TABLE - 1, &told) == ENTANGLE_DONE);
        CHECK(entangle_submit(&driver, SCRIPT, sizeof SCRIPT - 1, &number, &told) == ENTANGLE_DONE);
        CHECK(count % 3 == 0 || entangle_run(&driver) == ENTANGLE_DONE);
        CHECK(count % 3 != 2 || entangle_close(&driver) == ENTANGLE_DONE);
        entangle_free(&driver);
    }
}

#ifdef REFUSING
/* The allocation with this number fails, where it isn't below 0. */
static long until = -1;
void *__real_malloc(size_t size);
void *__real_realloc(void *block, size_t size);
void *__wrap_malloc(size_t size) { return until >= 0 && until-- == 0 ? NULL : __real_malloc(size); }
void *__wrap_realloc(void *block, size_t size) {
    return until >= 0 && until-- == 0 ? NULL : __real_realloc(block, size);
}

/* Makes a call in which the allocation of this number fails, if there are so many. */
static int32_t refused(bool explains, long number, char *buffer, size_t capacity, entangle_told *told) {
    memset(buffer, '#', capacity);
    until = number;
    int32_t status = explains ? entangle_explain(WRONG, WRONG_LENGTH, buffer, capacity, told)
                              : entangle_report(INPUT, LENGTH, 2, buffer, capacity, told);
    until = -1;
    return status;
}

/* Each allocation of a call fails in turn: the call tells E900, and no report is begun, until none of them fails. */
static void refusals(bool explains, int32_t whole) {
    char buffer[512];
    entangle_told told;
    long count = 0;
    while (refused(explains, count, buffer, sizeof buffer, &told) != whole) {
        CHECK(told.code == 900 && (explains || (told.needed == 0 && buffer[0] == '#')));
        count++;
    }
    CHECK(count > 0 && told.code == (explains ? 201 : 0));
    printf("%ld allocations refused\n", count);
}

/* How often a call told that memory ran out. */
static long told_refusals = 0;

/* Makes a call until it answers this status; each time before, it has told that memory ran out, and this holds. */
#define REPEATED(call, wanted, holds)                                                                                  \
    for (int32_t status; (status = (call)) != (wanted); told_refusals++)                                               \
    CHECK(status == ENTANGLE_OUT_OF_MEMORY && (holds))

/* Submits a script to a driver and makes its run event by event, each call again if memory ran out for it. */
static void moved(entangle_driver **driver) {
    static const uint32_t made[] = {ENTANGLE_START_RUN, ENTANGLE_BEGIN, ENTANGLE_BEGIN, ENTANGLE_END_RUN};
    static const uint32_t replied[] = {ENTANGLE_REPLY_STARTED, ENTANGLE_REPLY_STEPPED, ENTANGLE_REPLY_COMMITTED,
                                       ENTANGLE_REPLY_ENDED};
    char buffer[64];
    entangle_told told;
    uint64_t tx = 0;
    REPEATED(entangle_submit(driver, SCRIPT, sizeof SCRIPT - 1, &tx, &told), ENTANGLE_DONE, told.code == 900 && !tx);
    for (size_t at = 0; at < sizeof made / sizeof *made; at++) {
        uint32_t reply = 0;
        REPEATED(entangle_why(driver, tx, buffer, sizeof buffer, &told), ENTANGLE_DONE, told.code == 900);
        REPEATED(entangle_make(driver, made[at], tx, &reply), ENTANGLE_DONE, !reply);
        CHECK(reply == replied[at]);
    }
}

/* Opens a driver, explains a script, makes a run, closes the driver and goes on with its tables, while one allocation
 * fails. Each call that tells so is made again, and comes to the same. Whether there were so many allocations. */
static bool driven(long number) {
    char buffer[256];
    entangle_driver *driver = NULL;
    entangle_told told;
    uint64_t tx = 0;
    until = number;
    REPEATED(entangle_open(&driver, TABLE, sizeof TABLE - 1, &told), ENTANGLE_DONE, told.code == 900 && !driver);
    REPEATED(entangle_explain_script(&driver, BAD_SCRIPT, sizeof BAD_SCRIPT - 1, buffer, 256, &told), ENTANGLE_REFUSED,
             told.code == 900 && told.needed <= 5);
    CHECK(told.needed == sizeof BAD_SAID - 1 && !memcmp(buffer, BAD_SAID, sizeof BAD_SAID - 1));
    REPEATED(entangle_submit(&driver, SCRIPT, sizeof SCRIPT - 1, &tx, &told), ENTANGLE_DONE, told.code == 900 && !tx);
    REPEATED(entangle_run(&driver), ENTANGLE_DONE, true);
    REPEATED(entangle_answers(&driver, 1, buffer, 256, &told), ENTANGLE_DONE, told.code == 900);
    REPEATED(entangle_table(&driver, "T", 1, buffer, 256, &told), ENTANGLE_DONE, told.code == 900);
    REPEATED(entangle_close(&driver), ENTANGLE_DONE, true);
    REPEATED(entangle_closed_report(&driver, 1, buffer, 256, &told), ENTANGLE_DONE, told.code == 900);
    CHECK(told.needed == sizeof AFTER - 1 && !memcmp(buffer, AFTER, sizeof AFTER - 1));
    REPEATED(entangle_renew(&driver), ENTANGLE_DONE, true);
    moved(&driver);
    bool is_reached = until < 0;
    until = -1;
    CHECK(entangle_table(&driver, "T", 1, buffer, 256, &told) == ENTANGLE_DONE && tells_text(&told, 14));
    entangle_free(&driver);
    return is_reached;
}

/* Each allocation of a driver's calls fails in turn. The library may do with less memory, and tell nothing. */
static void driven_refusals(void) {
    long count = 0;
    while (driven(count)) count++;
    CHECK(told_refusals > 100 && told_refusals <= count);
    printf("%ld allocations of a driver's calls refused, %ld of them told\n", count, told_refusals);
}
#endif

int main(void) {
    version();
    reports();
    faults();
    checks();
    misuse();
    drivers();
    many_drivers();
#ifdef REFUSING
    driven_refusals();
    refusals(false, ENTANGLE_DONE);
    refusals(true, ENTANGLE_REFUSED);
#endif
    return 0;
}
