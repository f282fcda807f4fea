/* Reads an input, and writes its report; where it is refused, what is said of its fault goes to standard error. It ends
 * with the status of the call:
 *
 *     report < examples/friends.sql
 */
#include "entangle.h"

#include <stdio.h>
#include <stdlib.h>

/* All of standard input, and how long it is; null where memory runs out. */
static char *read_whole(size_t *length) {
    size_t capacity = 1 << 16;
    char *bytes = malloc(capacity);
    *length = 0;
    while (bytes) {
        *length += fread(bytes + *length, 1, capacity - *length, stdin);
        if (*length < capacity) return bytes;
        char *more = realloc(bytes, capacity *= 2);
        if (!more) free(bytes);
        bytes = more;
    }
    return NULL;
}

/* Makes a call for a report, and again with as large a buffer as it needs; the text, or null where memory runs out. */
static char *report_of(const char *input, size_t length, int32_t *status, entangle_told *told) {
    size_t capacity = 4 * length + 4096;
    char *text = malloc(capacity);
    while (text) {
        *status = entangle_report(input, length, 1, text, capacity, told);
        if (told->needed <= capacity) return text;
        free(text);
        text = malloc(capacity = told->needed);
    }
    return NULL;
}

/* Says what is said of the fault of an input; the line that names it, if memory runs out for more. */
static void explain(const char *input, size_t length, const entangle_told *fault) {
    size_t capacity = 4096;
    char *text = malloc(capacity);
    while (text) {
        entangle_told told;
        int32_t status = entangle_explain(input, length, text, capacity, &told);
        if (status == ENTANGLE_REFUSED && told.needed <= capacity) {
            fwrite(text, 1, told.needed, stderr);
            free(text);
            return;
        }
        free(text);
        text = status == ENTANGLE_REFUSED ? malloc(capacity = told.needed) : NULL;
    }
    fprintf(stderr, fault->has_place ? "E%d at %zu\n" : "E%d\n", fault->code, fault->offset);
}

int main(void) {
    size_t length;
    int32_t status = ENTANGLE_OUT_OF_MEMORY;
    entangle_told told = {0};
    char *input = read_whole(&length);
    char *text = input ? report_of(input, length, &status, &told) : NULL;
    if (!text)
        fputs("E900\n", stderr);
    else if (status == ENTANGLE_DONE)
        fwrite(text, 1, told.needed, stdout);
    else
        explain(input, length, &told);
    free(text);
    free(input);
    return status;
}
