/* The exports of the proved library crates/pybuf_c, as bindings/check_exports.py writes them. */
#ifndef PYBUF_EXPORTS_H
#define PYBUF_EXPORTS_H

#include "pybuf.h"

/* As the proved library lays a handle out, that of a world and that of a format. One of zeros holds nothing. */
typedef struct {
    void *at;
    bool full;
} proved_handle;

/* Bytes that are lent to be read, and to be written. */
typedef struct {
    const uint8_t *at;
    size_t length;
} proved_lent;

typedef struct {
    uint8_t *at;
    size_t length;
} proved_lent_to_write;

uint32_t pybuf_proved_append(proved_handle *handle, uint64_t subject, uint64_t magnitude, bool negative);
uint32_t pybuf_proved_extend(proved_handle *handle, uint64_t subject, const uint8_t *bytes, size_t bytes_length);
uint32_t pybuf_proved_extend_by(proved_handle *handle, uint64_t subject, uint64_t other);
uint32_t pybuf_proved_insert(proved_handle *handle, uint64_t subject, int64_t index, uint64_t magnitude, bool negative);
uint32_t pybuf_proved_pop(proved_handle *handle, uint64_t subject, int64_t index);
uint32_t pybuf_proved_pop_last(proved_handle *handle, uint64_t subject);
uint32_t pybuf_proved_remove(proved_handle *handle, uint64_t subject, uint64_t magnitude, bool negative);
uint32_t pybuf_proved_clear(proved_handle *handle, uint64_t subject);
uint32_t pybuf_proved_reverse(proved_handle *handle, uint64_t subject);
uint32_t pybuf_proved_delete(proved_handle *handle, uint64_t subject, int64_t index);
uint32_t pybuf_proved_delete_slice(proved_handle *handle, uint64_t subject, const pybuf_slice *words);
uint32_t pybuf_proved_repeat(proved_handle *handle, uint64_t subject, int64_t count);
uint32_t pybuf_proved_copy(proved_handle *handle, uint64_t subject);
uint32_t pybuf_proved_take(proved_handle *handle, uint64_t subject);
uint32_t pybuf_proved_format_parse(proved_handle *handle, const uint8_t *text, size_t text_length);
void pybuf_proved_format_free(proved_handle *handle);
uint32_t pybuf_proved_format_layout(proved_handle *handle, size_t *size, size_t *count);
uint32_t pybuf_proved_format_clear(proved_handle *handle);
uint32_t pybuf_proved_format_put_number(proved_handle *handle, uint64_t magnitude, bool negative);
uint32_t pybuf_proved_format_put_bytes(proved_handle *handle, const uint8_t *bytes, size_t bytes_length);
uint32_t pybuf_proved_format_pack(proved_handle *handle, uint8_t *room, size_t room_length, size_t *count);
uint32_t pybuf_proved_format_unpack(proved_handle *handle, const uint8_t *bytes, size_t bytes_length);
uint32_t pybuf_proved_format_value(proved_handle *handle, size_t index, uint32_t *kind, uint64_t *magnitude, bool *negative);
uint32_t pybuf_proved_format_value_bytes(proved_handle *handle, size_t index, uint8_t *room, size_t room_length, size_t *count);
uint32_t pybuf_proved_lend(proved_handle *handle, uint64_t view, proved_lent *out);
uint32_t pybuf_proved_lend_to_write(proved_handle *handle, uint64_t view, proved_lent_to_write *out);
uint32_t pybuf_proved_new(proved_handle *handle, uint32_t kind, const uint8_t *bytes, size_t bytes_length);
uint32_t pybuf_proved_view(proved_handle *handle, uint64_t subject);
uint32_t pybuf_proved_to_readonly(proved_handle *handle, uint64_t subject);
uint32_t pybuf_proved_to_contiguous(proved_handle *handle, uint64_t subject);
uint32_t pybuf_proved_cast(proved_handle *handle, uint64_t subject, const uint8_t *format, size_t format_length);
uint32_t pybuf_proved_cast_to_shape(proved_handle *handle, uint64_t subject, const uint8_t *format, size_t format_length, const int64_t *shape, size_t shape_length);
uint32_t pybuf_proved_get(proved_handle *handle, uint64_t subject, int64_t index);
uint32_t pybuf_proved_get_number(proved_handle *handle, uint64_t subject, int64_t index, uint64_t *magnitude, bool *negative);
uint32_t pybuf_proved_get_at(proved_handle *handle, uint64_t subject, const int64_t *indices, size_t indices_length);
uint32_t pybuf_proved_get_slice(proved_handle *handle, uint64_t subject, const pybuf_slice *words);
uint32_t pybuf_proved_set(proved_handle *handle, uint64_t subject, int64_t index, uint64_t magnitude, bool negative);
uint32_t pybuf_proved_set_at(proved_handle *handle, uint64_t subject, const int64_t *indices, size_t indices_length, uint64_t magnitude, bool negative);
uint32_t pybuf_proved_set_slice(proved_handle *handle, uint64_t subject, const pybuf_slice *words, const uint8_t *bytes, size_t bytes_length);
uint32_t pybuf_proved_set_slice_of(proved_handle *handle, uint64_t subject, const pybuf_slice *words, uint64_t other);
uint32_t pybuf_proved_release(proved_handle *handle, uint64_t subject);
uint32_t pybuf_proved_length(proved_handle *handle, uint64_t subject);
uint32_t pybuf_proved_bytes(proved_handle *handle, uint64_t subject);
uint32_t pybuf_proved_items(proved_handle *handle, uint64_t subject);
uint32_t pybuf_proved_property(proved_handle *handle, uint64_t subject, uint32_t name);
uint32_t pybuf_proved_compare(proved_handle *handle, uint64_t subject, uint32_t operator, const uint8_t *bytes, size_t bytes_length);
uint32_t pybuf_proved_compare_with(proved_handle *handle, uint64_t subject, uint32_t operator, uint64_t other);
uint32_t pybuf_proved_contains(proved_handle *handle, uint64_t subject, const uint8_t *bytes, size_t bytes_length);
uint32_t pybuf_proved_contains_byte(proved_handle *handle, uint64_t subject, uint64_t magnitude, bool negative);
uint32_t pybuf_proved_iterate(proved_handle *handle, uint64_t subject);
uint32_t pybuf_proved_next(proved_handle *handle, uint64_t subject);
uint32_t pybuf_proved_shown(proved_handle *handle, uint64_t subject);
uint32_t pybuf_proved_last_kind(proved_handle *handle, uint32_t *kind);
uint32_t pybuf_proved_last_objects(proved_handle *handle, uint64_t *exporter, uint64_t *view);
uint32_t pybuf_proved_last_number(proved_handle *handle, uint64_t *magnitude, bool *negative);
uint32_t pybuf_proved_last_part_count(proved_handle *handle, size_t *count);
uint32_t pybuf_proved_last_part(proved_handle *handle, size_t index, uint64_t *magnitude, bool *negative);
uint32_t pybuf_proved_last_bytes(proved_handle *handle, uint8_t *room, size_t room_length, size_t *count);
uint32_t pybuf_proved_world_new(proved_handle *handle);
void pybuf_proved_world_free(proved_handle *handle);
uint32_t pybuf_proved_world_run(proved_handle *handle, const uint8_t *text, size_t text_length, size_t *count, uint64_t *line);
uint32_t pybuf_proved_world_reply(proved_handle *handle, size_t index, uint8_t *room, size_t room_length, size_t *count);

#endif
