/* Calls from threads, each on a stack of ENTANGLE_STACK_BYTES with a page below it that nothing may touch. Half of the
 * threads have drivers of their own, half share one behind a lock. It ends with status 0, or at the first check that
 * fails, and says how many bytes of its stack a thread has used at most: the stacks are filled with a byte before, and
 * what is changed of it afterwards was used.
 *
 *     cc -Iinclude bindings/c/threads.c libent_c.a liblibc_c.a -lpthread -o threads
 *     ./threads [INPUT ..]
 *
 * The calls are made for each input that is named, and for inputs that it makes itself. */
#define _GNU_SOURCE
#include "entangle.h"

#include <pthread.h>
#include <stdio.h>
#include <stdlib.h>
#include <string.h>
#include <sys/mman.h>

#define CHECK(holds)                                                                                                   \
    do {                                                                                                               \
        if (!(holds)) {                                                                                                \
            fprintf(stderr, "line %d: %s\n", __LINE__, #holds);                                                        \
            exit(1);                                                                                                   \
        }                                                                                                              \
    } while (0)

enum { THREADS = 8, MEMBERS = 64, TABLES = 16, ROWS = 2000, PAGE = 4096, FILLED = 0xa5, MOST_INPUTS = 64 };

/* An input that the calls are made for. */
struct input {
    char *text;
    size_t length;
};

static struct input inputs[MOST_INPUTS];
static size_t input_count;
static entangle_driver *shared;
static pthread_mutex_t lock = PTHREAD_MUTEX_INITIALIZER;

static void add_input(char *text, size_t length) {
    CHECK(text && input_count < MOST_INPUTS);
    inputs[input_count++] = (struct input){text, length};
}

/* ---- inputs of each kind of work */

/* A ring of as many as a run may have, in which each demands a row of the next. */
static void ring(FILE *out) {
    fputs("CREATE TABLE T (a INT);\nINSERT INTO T VALUES (1);\nINSERT INTO T VALUES (2);\n", out);
    for (int at = 0; at < MEMBERS; at++)
        fprintf(out,
                "BEGIN TRANSACTION;\nSELECT 'p%d', a AS @a INTO ANSWER R\n  WHERE a IN (SELECT a FROM T) AND ('p%d', a)"
                " IN ANSWER R CHOOSE 1;\nINSERT INTO T VALUES (@a);\nCOMMIT;\n",
                at, (at + 1) % MEMBERS);
}

/* Writers that deadlock in a ring, one who finds nobody, one who rolls back, and one who fails. */
static void deadlocks(FILE *out) {
    for (int at = 0; at < TABLES; at++) fprintf(out, "CREATE TABLE D%d (a INT);\n", at);
    for (int at = 0; at < TABLES; at++)
        fprintf(out,
                "BEGIN TRANSACTION WITHIN 100 RUNS;\nINSERT INTO D%d VALUES (1);\nINSERT INTO D%d VALUES (2);\n"
                "COMMIT;\n",
                at, (at + 1) % TABLES);
    fputs("BEGIN TRANSACTION;\nSELECT 'Eve', a INTO ANSWER R\n  WHERE a IN (SELECT a FROM D0)"
          " AND ('Finn', a) IN ANSWER R CHOOSE 1;\nCOMMIT;\nBEGIN TRANSACTION;\nDELETE FROM D1;\nROLLBACK;\n"
          "BEGIN TRANSACTION;\nSET @a = 9223372036854775807 + 1;\nCOMMIT;\n",
          out);
}

/* A table of many rows, each kind of statement over it, and a join of four sources. */
static void rows(FILE *out) {
    fputs("CREATE TABLE T (a INT, b TEXT);\nCREATE TABLE U (a INT);\n", out);
    for (int at = 0; at < ROWS; at++) fprintf(out, "INSERT INTO T VALUES (%d, 'it''s %d');\n", at * 7919 % ROWS, at);
    for (int at = 0; at < 8; at++) fprintf(out, "INSERT INTO U VALUES (%d);\n", at);
    fputs("BEGIN TRANSACTION;\nSELECT * FROM T;\nUPDATE T SET a = a + 1 WHERE a > 10;\nDELETE FROM T WHERE a > 1000;\n"
          "SELECT v.a, w.a, x.a, y.a FROM U v, U w, U x, U y WHERE v.a < w.a AND w.a < x.a AND x.a < y.a;\nCOMMIT;\n",
          out);
}

/* An input whose last script has a fault of form; the fault of an input that ends too early is found elsewhere. */
static void faulty(FILE *out) {
    rows(out);
    fputs("BEGIN TRANSACTION;\nSELECT bb FROM T WHERE a = 1;\nCOMMIT;\n", out);
}

static void unended(FILE *out) {
    rows(out);
    fputs("BEGIN TRANSACTION;\nSELECT b FROM T WHERE", out);
}

static void make_input(void (*write)(FILE *)) {
    char *text = NULL;
    size_t length = 0;
    FILE *out = open_memstream(&text, &length);
    CHECK(out);
    write(out);
    CHECK(!fclose(out));
    add_input(text, length);
}

static void read_input(const char *path) {
    FILE *file = fopen(path, "rb");
    CHECK(file && !fseek(file, 0, SEEK_END));
    long length = ftell(file);
    CHECK(length >= 0 && !fseek(file, 0, SEEK_SET));
    char *text = malloc((size_t)length + 1);
    CHECK(text && fread(text, 1, (size_t)length, file) == (size_t)length);
    fclose(file);
    add_input(text, (size_t)length);
}

/* ---- the calls */

/* The report of an input of version 2, which is checked; or the explanation of its fault. */
static void without_driver(struct input input) {
    entangle_told told;
    size_t capacity = 8 * input.length + 65536;
    char *text = malloc(capacity);
    CHECK(text);
    if (entangle_report(input.text, input.length, 2, text, capacity, &told) == ENTANGLE_DONE) {
        char verdict[32];
        CHECK(told.needed <= capacity);
        CHECK(entangle_check(text, told.needed, verdict, sizeof verdict, &told) == ENTANGLE_DONE);
    } else {
        CHECK(entangle_explain(input.text, input.length, text, capacity, &told) == ENTANGLE_REFUSED && told.needed);
    }
    CHECK(entangle_version(text, capacity, &told) == ENTANGLE_DONE && told.needed);
    free(text);
}

/* Makes a run event by event, and asks about each member between the events. */
static void events(entangle_driver **driver) {
    uint32_t reply;
    entangle_told told;
    entangle_position position;
    CHECK(entangle_make(driver, ENTANGLE_START_RUN, 0, &reply) == ENTANGLE_DONE);
    for (bool moved = reply == ENTANGLE_REPLY_STARTED; moved;) {
        moved = false;
        for (uint64_t tx = 1; tx <= MEMBERS; tx++) {
            CHECK(entangle_make(driver, ENTANGLE_BEGIN, tx, &reply) == ENTANGLE_DONE);
            moved = moved || reply == ENTANGLE_REPLY_STEPPED || reply == ENTANGLE_REPLY_POSTED ||
                    reply == ENTANGLE_REPLY_PREPARED || reply == ENTANGLE_REPLY_COMMITTED;
            if (entangle_standing(driver, tx, &position) != ENTANGLE_DONE) break;
            CHECK(entangle_why(driver, tx, NULL, 0, &told) == ENTANGLE_DONE);
            CHECK(entangle_answers(driver, tx, NULL, 0, &told) == ENTANGLE_DONE);
        }
        CHECK(entangle_make(driver, ENTANGLE_PICK, 0, &reply) == ENTANGLE_DONE);
        moved = moved || reply != ENTANGLE_REPLY_NOTHING;
        CHECK(entangle_make(driver, ENTANGLE_BREAK_CYCLE, 0, &reply) == ENTANGLE_DONE);
        moved = moved || reply == ENTANGLE_REPLY_BROKEN;
    }
    CHECK(entangle_make(driver, ENTANGLE_END_RUN, 0, &reply) == ENTANGLE_DONE);
}

/* A driver of the thread's own, from its opening to its renewal. */
static void with_driver(struct input input, bool event_by_event) {
    static const char wrong[] = "BEGIN TRANSACTION;\nSELECT bb FROM T;\nCOMMIT;", unended[] = "BEGIN TRANSACTION; SET";
    entangle_driver *driver = NULL;
    entangle_told told;
    uint64_t tx;
    if (entangle_open(&driver, input.text, input.length, &told) != ENTANGLE_DONE) return;
    CHECK(entangle_submit(&driver, wrong, sizeof wrong - 1, &tx, &told) == ENTANGLE_REFUSED);
    CHECK(entangle_explain_script(&driver, wrong, sizeof wrong - 1, NULL, 0, &told) == ENTANGLE_REFUSED);
    CHECK(entangle_explain_script(&driver, unended, sizeof unended - 1, NULL, 0, &told) == ENTANGLE_REFUSED);
    while (entangle_close(&driver) == ENTANGLE_REFUSED) {
        if (event_by_event) events(&driver);
        CHECK(entangle_run(&driver) == ENTANGLE_DONE);
    }
    CHECK(entangle_closed_report(&driver, 2, NULL, 0, &told) == ENTANGLE_DONE);
    CHECK(entangle_renew(&driver) == ENTANGLE_DONE);
    int32_t shown = entangle_table(&driver, "T", 1, NULL, 0, &told);
    CHECK(shown == ENTANGLE_DONE || told.code == 401);
    entangle_free(&driver);
}

/* The driver that the threads share. */
static void with_shared(int number) {
    char script[128];
    entangle_told told;
    entangle_position position;
    uint64_t tx;
    int length = snprintf(script, sizeof script, "BEGIN TRANSACTION; INSERT INTO T VALUES (%d); COMMIT;", number);
    CHECK(!pthread_mutex_lock(&lock));
    CHECK(entangle_submit(&shared, script, (size_t)length, &tx, &told) == ENTANGLE_DONE);
    CHECK(entangle_run(&shared) == ENTANGLE_DONE && entangle_standing(&shared, tx, &position) == ENTANGLE_DONE);
    CHECK(position.kind == ENTANGLE_COMMITTED && position.number == tx);
    CHECK(!pthread_mutex_unlock(&lock));
}

static void *work(void *given) {
    int number = *(int *)given;
    for (size_t at = 0; at < input_count; at++) {
        without_driver(inputs[at]);
        with_driver(inputs[at], number % 2 == 0);
    }
    for (int count = 0; count < 50; count++) with_shared(50 * number + count);
    return NULL;
}

/* ---- threads with stacks of this size */

static unsigned char *stack_of(size_t size) {
    unsigned char *stack = mmap(NULL, PAGE + size, PROT_READ | PROT_WRITE, MAP_PRIVATE | MAP_ANONYMOUS, -1, 0);
    CHECK(stack != MAP_FAILED && !mprotect(stack, PAGE, PROT_NONE));
    memset(stack + PAGE, FILLED, size);
    return stack + PAGE;
}

static size_t used_of(const unsigned char *stack, size_t size) {
    size_t left = 0;
    while (left < size && stack[left] == FILLED) left++;
    return size - left;
}

int main(int count, char **paths) {
    static const char table[] = "CREATE TABLE T (a INT);", counted[] = "table T 400\n";
    unsigned char *stacks[THREADS];
    pthread_t threads[THREADS];
    int numbers[THREADS];
    char text[64];
    entangle_told told;
    size_t most = 0;
    CHECK(entangle_is_of_this_header());
    make_input(ring);
    make_input(deadlocks);
    make_input(rows);
    make_input(faulty);
    make_input(unended);
    for (int at = 1; at < count; at++) read_input(paths[at]);
    CHECK(entangle_open(&shared, table, sizeof table - 1, &told) == ENTANGLE_DONE);
    for (int at = 0; at < THREADS; at++) {
        pthread_attr_t attributes;
        numbers[at] = at;
        stacks[at] = stack_of(ENTANGLE_STACK_BYTES);
        CHECK(!pthread_attr_init(&attributes));
        CHECK(!pthread_attr_setstack(&attributes, stacks[at], ENTANGLE_STACK_BYTES));
        CHECK(!pthread_create(&threads[at], &attributes, work, &numbers[at]));
        CHECK(!pthread_attr_destroy(&attributes));
    }
    for (int at = 0; at < THREADS; at++) {
        CHECK(!pthread_join(threads[at], NULL));
        size_t used = used_of(stacks[at], ENTANGLE_STACK_BYTES);
        most = used > most ? used : most;
        CHECK(!munmap(stacks[at] - PAGE, PAGE + ENTANGLE_STACK_BYTES));
    }
    CHECK(entangle_table(&shared, "T", 1, text, sizeof text, &told) == ENTANGLE_DONE);
    CHECK(!memcmp(text, counted, sizeof counted - 1));
    entangle_free(&shared);
    for (size_t at = 0; at < input_count; at++) free(inputs[at].text);
    printf("%zu bytes of stack are used at most, of %d\n", most, ENTANGLE_STACK_BYTES);
    return 0;
}
