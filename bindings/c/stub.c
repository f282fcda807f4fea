/* A library that isn't the one of the header: it answers another version, or says that its structs are of other sizes,
 * or, with -DWITHOUT_EXPLAIN, lacks a call. `tools/check bindings` shows with it that the Rust crate, the Python
 * package and entangle_is_of_this_header() refuse such a library. It is compiled without the header, since its calls
 * take nothing:
 *
 *     cc -DSTUB_VERSION='"0.1.0, proved by nobody"' -DSTUB_TOLD=40 -c bindings/c/stub.c
 */
#include <stdbool.h>
#include <stddef.h>
#include <stdint.h>
#include <string.h>

struct told {
    size_t needed, offset, line, column;
    uint16_t code;
    bool has_place;
};

int32_t ent_c_version(uint8_t *buffer, size_t capacity, struct told *told) {
    static const char version[] = STUB_VERSION;
    size_t length = sizeof version - 1;
    memcpy(buffer, version, length < capacity ? length : capacity);
    *told = (struct told){length, 0, 0, 0, 0, false};
    return 0;
}

size_t ent_c_size_of_told(void) { return STUB_TOLD; }
size_t ent_c_size_of_position(void) { return 24; }
size_t ent_c_size_of_limits(void) { return 16; }
size_t ent_c_size_of_ticket_state(void) { return 40; }
size_t ent_c_size_of_submission(void) { return 16; }

/* The other calls do nothing: nobody comes to them. */
#define CALL(name)                                                                                                     \
    int32_t name(void) { return 2; }
CALL(ent_c_report)
#ifndef WITHOUT_EXPLAIN
CALL(ent_c_explain)
#endif
CALL(ent_c_check)
CALL(ent_c_open)
CALL(ent_c_submit)
CALL(ent_c_explain_script)
CALL(ent_c_run)
CALL(ent_c_make)
CALL(ent_c_why)
CALL(ent_c_standing)
CALL(ent_c_answers)
CALL(ent_c_table)
CALL(ent_c_close)
CALL(ent_c_renew)
CALL(ent_c_closed_report)
CALL(ent_c_free)
CALL(ent_c_values_int)
CALL(ent_c_values_text)
CALL(ent_c_values_free)
CALL(ent_c_rows_begin)
CALL(ent_c_rows_int)
CALL(ent_c_rows_text)
CALL(ent_c_rows_free)
CALL(ent_c_room_open)
CALL(ent_c_room_put)
CALL(ent_c_room_explain)
CALL(ent_c_room_restore)
CALL(ent_c_room_withdraw)
CALL(ent_c_room_step)
CALL(ent_c_room_further)
CALL(ent_c_room_state)
CALL(ent_c_room_why)
CALL(ent_c_room_waiting)
CALL(ent_c_room_ended)
CALL(ent_c_room_submission)
CALL(ent_c_room_groups)
CALL(ent_c_room_next_group)
CALL(ent_c_room_settled_through)
CALL(ent_c_room_table)
CALL(ent_c_room_epoch)
CALL(ent_c_room_turn)
CALL(ent_c_room_report)
CALL(ent_c_room_free)
