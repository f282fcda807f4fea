/* Measures a waiting room through the library:
 *
 *     room arranged FILE    puts the scripts of an input in its order, and steps until nothing is left to do
 *     room pairs N SEED     puts N pairs of friends in random order, and steps until nothing is left to do
 *     room lonely N         N wait whom nobody may answer; then pairs come, each of which one step books
 *     room writers N        N wait for a seat; then writers come, and after each a pair
 *     room anybody N        N come whose demands anybody may meet, and whom the tables don't fit; behind them a pair
 *     room epochs N         N rounds of 2,000 pairs, after each of which the bookings are drained and the report
 *                           checked, while others wait through all of them
 *
 * Each line of its output is a name and a number. It ends with status 1 if somebody who had to commit didn't.
 */
#define _POSIX_C_SOURCE 200809L
#include "entangle.h"

#include <malloc.h>
#include <stdio.h>
#include <stdlib.h>
#include <string.h>
#include <time.h>

#define TRIES 200

static const char OPENING[] = "CREATE TABLE Flights (fno INT, dest TEXT);"
                              "CREATE TABLE Seats (flight TEXT);"
                              "CREATE TABLE Bookings (who TEXT, fno INT);"
                              "INSERT INTO Flights VALUES (122, 'LA');"
                              "INSERT INTO Flights VALUES (123, 'LA');"
                              "INSERT INTO Flights VALUES (124, 'Paris');";
static const char FRIEND[] = "BEGIN TRANSACTION;"
                             "SELECT @me, fno AS @f INTO ANSWER R"
                             " WHERE fno IN (SELECT fno FROM Flights WHERE dest = 'LA')"
                             " AND (@friend, fno) IN ANSWER R CHOOSE 1;"
                             "INSERT INTO Bookings VALUES (@me, @f);"
                             "COMMIT;";
static const char SEATED[] = "BEGIN TRANSACTION;"
                             "SELECT @me, flight AS @f INTO ANSWER S"
                             " WHERE flight IN (SELECT flight FROM Seats)"
                             " AND (@friend, flight) IN ANSWER S CHOOSE 1;"
                             "COMMIT;";
static const char ANYBODY[] = "BEGIN TRANSACTION;"
                              "SELECT @me, fno AS @f INTO ANSWER R"
                              " WHERE fno IN (SELECT fno FROM Flights WHERE dest = 'Oslo')"
                              " AND who IN (SELECT who FROM Bookings)"
                              " AND (who, fno) IN ANSWER R CHOOSE 1;"
                              "COMMIT;";
static const char WRITER[] = "BEGIN TRANSACTION; DELETE FROM Seats; COMMIT;";

static entangle_room *room;

/* Says what is wrong, and ends the program. */
static void stop(const char *words) {
    fprintf(stderr, "room: %s\n", words);
    exit(1);
}

static void check(int32_t status, const char *words) {
    if (status != ENTANGLE_DONE) stop(words);
}

static double now(clockid_t clock) {
    struct timespec time;
    clock_gettime(clock, &time);
    return (double)time.tv_sec + (double)time.tv_nsec / 1e9;
}

/* The bytes that malloc has lent. */
static size_t lent(void) {
    struct mallinfo2 info = mallinfo2();
    return info.uordblks + info.hblkhd;
}

static void open_room(const char *opening, size_t length, uint64_t most_waiters) {
    entangle_limits limits = {most_waiters, 1000};
    entangle_rows *rows = NULL;
    entangle_told told;
    uint32_t refusal;
    check(entangle_room_open(&room, opening, length, &rows, 1, 1, 1, &limits, &refusal, &told),
          "the room isn't opened");
}

/* Puts a script with the names bound in it that are given. */
static uint64_t put(const char *script, const char *me, const char *friend) {
    entangle_values *values = NULL;
    entangle_told told;
    uint32_t refusal;
    uint64_t ticket;
    if (me) check(entangle_values_text(&values, "me", 2, me, strlen(me), &refusal), "a name isn't bound");
    if (friend) {
        check(entangle_values_text(&values, "friend", 6, friend, strlen(friend), &refusal), "a name isn't bound");
    }
    check(entangle_room_put(&room, script, strlen(script), &values, ENTANGLE_UNTIL_WITHDRAWN, &ticket, &refusal, &told),
          "a script isn't put");
    entangle_values_free(&values);
    return ticket;
}

static uint32_t step(void) {
    uint32_t done, refusal;
    check(entangle_room_step(&room, &done, &refusal), "a step is refused");
    return done;
}

/* Steps until nothing is left to do; how many steps. */
static uint64_t settle(void) {
    uint64_t steps = 1;
    while (step() != ENTANGLE_IDLE) steps++;
    return steps;
}

static int committed(uint64_t ticket) {
    entangle_ticket_state state;
    check(entangle_room_state(&room, ticket, &state), "a ticket has no state");
    return state.kind == ENTANGLE_TICKET_COMMITTED;
}

static int compare(const void *left, const void *right) {
    double a = *(const double *)left, b = *(const double *)right;
    return (a > b) - (a < b);
}

/* Prints the median of some times, and the greatest, in microseconds. */
static void tell(const char *name, double *times, size_t count) {
    qsort(times, count, sizeof *times, compare);
    printf("%s median %.1f us, greatest %.1f us\n", name, times[count / 2] * 1e6, times[count - 1] * 1e6);
}

/* The numbers below a count in a random order. */
static size_t *shuffled(size_t count, uint64_t seed) {
    size_t *order = malloc(count * sizeof *order);
    if (!order) stop("out of memory");
    for (size_t i = 0; i < count; i++) order[i] = i;
    for (size_t i = count; i > 1; i--) {
        seed = seed * 6364136223846793005u + 1442695040888963407u;
        size_t j = (size_t)(seed >> 33) % i, kept = order[i - 1];
        order[i - 1] = order[j];
        order[j] = kept;
    }
    return order;
}

static void pairs(size_t count, uint64_t seed) {
    size_t *order = shuffled(2 * count, seed);
    uint64_t last = 0;
    open_room(OPENING, sizeof OPENING - 1, 1000000);
    double begun = now(CLOCK_PROCESS_CPUTIME_ID);
    for (size_t i = 0; i < 2 * count; i++) {
        char me[32], friend[32];
        snprintf(me, sizeof me, "%c%zu", order[i] % 2 ? 'B' : 'A', order[i] / 2);
        snprintf(friend, sizeof friend, "%c%zu", order[i] % 2 ? 'A' : 'B', order[i] / 2);
        last = put(FRIEND, me, friend);
    }
    double all_put = now(CLOCK_PROCESS_CPUTIME_ID);
    uint64_t steps = settle();
    double settled = now(CLOCK_PROCESS_CPUTIME_ID);
    uint64_t waiting;
    if (entangle_room_waiting(&room, 0, &waiting) == ENTANGLE_DONE) stop("somebody still waits");
    if (last != 2 * count) stop("a ticket is lost");
    printf("%zu pairs: put %.3f s, %llu steps %.3f s\n", count, all_put - begun, (unsigned long long)steps,
           settled - all_put);
    free(order);
}

static void arranged(const char *path) {
    FILE *file = fopen(path, "rb");
    if (!file) stop("the input can't be read");
    size_t capacity = 1 << 26, length;
    char *text = malloc(capacity);
    if (!text) stop("out of memory");
    length = fread(text, 1, capacity, file);
    fclose(file);
    double begun = now(CLOCK_PROCESS_CPUTIME_ID);
    open_room(text, length, 1000000);
    double all_put = now(CLOCK_PROCESS_CPUTIME_ID);
    uint64_t steps = settle(), waiting;
    printf("an input: opened %.3f s, %llu steps %.3f s\n", all_put - begun, (unsigned long long)steps,
           now(CLOCK_PROCESS_CPUTIME_ID) - all_put);
    if (entangle_room_waiting(&room, 0, &waiting) == ENTANGLE_DONE) stop("somebody still waits");
    free(text);
}

/* So many wait, each for somebody who never comes. */
static void crowd(const char *script, size_t count, int paired) {
    for (size_t i = 0; i < count; i++) {
        char me[32], friend[32];
        snprintf(me, sizeof me, "W%zu", i);
        snprintf(friend, sizeof friend, paired ? "W%zu" : "X%zu", paired ? i ^ 1 : i);
        put(script, me, friend);
    }
    settle();
}

/* A pair comes, and one step books it: the times of both puts and of the step. */
static void pair_comes(size_t number, double *first, double *second, double *stepped) {
    char one[32], two[32];
    snprintf(one, sizeof one, "A%zu", number);
    snprintf(two, sizeof two, "B%zu", number);
    double at = now(CLOCK_MONOTONIC);
    uint64_t earlier = put(FRIEND, one, two);
    double then = now(CLOCK_MONOTONIC);
    uint64_t later = put(FRIEND, two, one);
    double both = now(CLOCK_MONOTONIC);
    step();
    *stepped = now(CLOCK_MONOTONIC) - both;
    *first = then - at;
    *second = both - then;
    if (!committed(earlier) || !committed(later)) stop("a pair isn't booked by its first step");
}

static void lonely(size_t count) {
    static double first[TRIES], second[TRIES], stepped[TRIES];
    size_t before = lent();
    open_room(OPENING, sizeof OPENING - 1, 1000000);
    crowd(FRIEND, count, 0);
    printf("%zu lonely ones: %zu bytes each\n", count, (lent() - before) / count);
    for (size_t i = 0; i < TRIES; i++) {
        pair_comes(i, first + i, second + i, stepped + i);
        settle();
    }
    tell("then the first put of a pair:", first, TRIES);
    tell("the second put:", second, TRIES);
    tell("the step that books both:", stepped, TRIES);
}

static void writers(size_t count) {
    static double wrote[TRIES], first[TRIES], second[TRIES], stepped[TRIES];
    open_room(OPENING, sizeof OPENING - 1, 1000000);
    crowd(SEATED, count, 1);
    for (size_t i = 0; i < TRIES; i++) {
        uint64_t writer = put(WRITER, NULL, NULL);
        double begun = now(CLOCK_MONOTONIC);
        step();
        wrote[i] = now(CLOCK_MONOTONIC) - begun;
        if (!committed(writer)) stop("a writer doesn't commit at its first step");
        pair_comes(i, first + i, second + i, stepped + i);
    }
    printf("%zu who wait for a seat; each of %d writers commits at its first step, and so does each pair after it\n",
           count, TRIES);
    tell("the step of a writer, which wakes them:", wrote, TRIES);
    tell("the step of a pair that comes then:", stepped, TRIES);
}

static void anybody(size_t count) {
    double longest_put = 0, longest_step = 0, begun;
    uint64_t pair[2], steps = 0;
    open_room(OPENING, sizeof OPENING - 1, 1000000);
    for (size_t i = 0; i < count + 2; i++) {
        char me[32];
        snprintf(me, sizeof me, "G%zu", i);
        begun = now(CLOCK_MONOTONIC);
        if (i < count) put(ANYBODY, me, NULL);
        else pair[i - count] = put(FRIEND, i == count ? "A" : "B", i == count ? "B" : "A");
        if (now(CLOCK_MONOTONIC) - begun > longest_put) longest_put = now(CLOCK_MONOTONIC) - begun;
    }
    double first = now(CLOCK_MONOTONIC);
    while (!committed(pair[0]) || !committed(pair[1])) {
        begun = now(CLOCK_MONOTONIC);
        if (step() == ENTANGLE_IDLE) stop("a pair behind those whom anybody may meet isn't booked");
        if (now(CLOCK_MONOTONIC) - begun > longest_step) longest_step = now(CLOCK_MONOTONIC) - begun;
        steps++;
    }
    printf("%zu whose demands anybody may meet: the pair behind them is booked after %llu steps, %.2f s; the longest "
           "put %.2f ms, the longest step %.2f ms\n",
           count, (unsigned long long)steps, now(CLOCK_MONOTONIC) - first, longest_put * 1e3, longest_step * 1e3);
}

/* The report of the last epoch is one that the check accepts. */
static void check_report(void) {
    static char *text;
    static size_t capacity;
    char verdict[64];
    uint64_t epoch;
    entangle_told told = {0};
    for (;;) {
        check(entangle_room_report(&room, 2, text, capacity, &epoch, &told), "an epoch has no report");
        if (told.needed <= capacity) break;
        free(text);
        if (!(text = malloc(capacity = told.needed))) stop("out of memory");
    }
    check(entangle_check(text, told.needed, verdict, sizeof verdict, &told), "the check says no");
}

static void epochs(size_t count) {
    const size_t lonely_ones = 100;
    uint64_t waiting;
    open_room(OPENING, sizeof OPENING - 1, 1000000);
    crowd(FRIEND, lonely_ones, 0);
    double begun = now(CLOCK_PROCESS_CPUTIME_ID);
    for (size_t round = 0; round < count; round++) {
        uint32_t refusal;
        entangle_told told;
        for (size_t i = 0; i < 4000; i++) {
            char me[32], friend[32];
            snprintf(me, sizeof me, "%c%zu", i % 2 ? 'B' : 'A', i / 2);
            snprintf(friend, sizeof friend, "%c%zu", i % 2 ? 'A' : 'B', i / 2);
            put(FRIEND, me, friend);
        }
        settle();
        if (entangle_room_waiting(&room, lonely_ones + 1, &waiting) == ENTANGLE_DONE) stop("somebody still waits");
        check(entangle_room_turn(&room, "Bookings", 8, &refusal, &told), "the epoch doesn't end");
        check_report();
        if (entangle_room_waiting(&room, 0, &waiting) != ENTANGLE_DONE) stop("nobody waits any more");
    }
    printf("%zu scripts and as many bookings in %zu epochs, each with a report that is checked, while %zu wait: "
           "%.2f s\n",
           4000 * count, count, lonely_ones, now(CLOCK_PROCESS_CPUTIME_ID) - begun);
}

int main(int count, char **words) {
    if (count == 3 && !strcmp(words[1], "arranged")) arranged(words[2]);
    else if (count == 4 && !strcmp(words[1], "pairs")) pairs(strtoul(words[2], NULL, 10), strtoul(words[3], NULL, 10));
    else if (count == 3 && !strcmp(words[1], "lonely")) lonely(strtoul(words[2], NULL, 10));
    else if (count == 3 && !strcmp(words[1], "writers")) writers(strtoul(words[2], NULL, 10));
    else if (count == 3 && !strcmp(words[1], "epochs")) epochs(strtoul(words[2], NULL, 10));
    else if (count == 3 && !strcmp(words[1], "anybody")) anybody(strtoul(words[2], NULL, 10));
    else return 2;
    entangle_room_free(&room);
    return 0;
}
