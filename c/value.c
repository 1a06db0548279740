/* Values at the end of a path. */
#define _GNU_SOURCE
#include "shim.h"
#include <errno.h>
#include <stdarg.h>
#include <stdlib.h>
#include <string.h>

#define FEW_WORDS 32

/* Copies the number of a value that is no text, bytes, map or array. */
static void set_number(const struct mmdb_c_item *item, MMDB_entry_data_s *data) {
    uint32_t low32 = (uint32_t)item->low;
    switch (item->kind) {
    case MMDB_DATA_TYPE_BOOLEAN: data->boolean = item->low != 0; break;
    case MMDB_DATA_TYPE_UINT128: data->uint128 = (mmdb_uint128_t)item->high << 64 | item->low; break;
    case MMDB_DATA_TYPE_DOUBLE: memcpy(&data->double_value, &item->low, sizeof data->double_value); break;
    case MMDB_DATA_TYPE_FLOAT: memcpy(&data->float_value, &low32, sizeof data->float_value); break;
    case MMDB_DATA_TYPE_UINT16: data->uint16 = (uint16_t)low32; break;
    case MMDB_DATA_TYPE_UINT32: data->uint32 = low32; break;
    case MMDB_DATA_TYPE_INT32: data->int32 = (int32_t)low32; break;
    default: data->uint64 = item->low; break;
    }
}

static void set_data(const MMDB_s *m, const struct mmdb_c_item *item, MMDB_entry_data_s *data) {
    memset(data, 0, sizeof *data);
    data->has_data = true;
    data->offset = (uint32_t)item->offset;
    data->offset_to_next = (uint32_t)item->next;
    data->type = item->kind;
    switch (item->kind) {
    case MMDB_DATA_TYPE_UTF8_STRING:
        data->utf8_string = item->size ? (const char *)m->data_section + item->body : "";
        data->data_size = item->size;
        break;
    case MMDB_DATA_TYPE_BYTES:
        data->bytes = m->data_section + item->body;
        data->data_size = item->size;
        break;
    case MMDB_DATA_TYPE_MAP:
    case MMDB_DATA_TYPE_ARRAY: data->data_size = item->size; break;
    default: set_number(item, data); break;
    }
}

/* The value at an offset, or where the one pointer that stands there leads. */
static int read_value(const MMDB_s *m, size_t offset, struct mmdb_c_item *item) {
    if (!mmdb_c_value(m->data_section, m->data_section_size, offset, item)) return MMDB_INVALID_DATA_ERROR;
    if (item->kind != MMDB_DATA_TYPE_POINTER) return MMDB_SUCCESS;
    size_t next = item->next, target = (size_t)item->low;
    if (!mmdb_c_value(m->data_section, m->data_section_size, target, item)) return MMDB_INVALID_DATA_ERROR;
    if (item->kind == MMDB_DATA_TYPE_POINTER) return MMDB_INVALID_DATA_ERROR;
    if (item->kind != MMDB_DATA_TYPE_MAP && item->kind != MMDB_DATA_TYPE_ARRAY) item->next = next;
    return MMDB_SUCCESS;
}

/* The element that a word of a path names: a decimal number, counted from the back where it is negative. */
static int index_of(const char *word, uint32_t size, size_t *index) {
    char *end;
    int saved = errno;
    errno = 0;
    long n = strtol(word, &end, 10);
    int out_of_range = errno == ERANGE;
    errno = saved;
    if (out_of_range) return MMDB_INVALID_LOOKUP_PATH_ERROR;
    if (n < 0) n += (long)size;
    if (n < 0 || *end || (unsigned long)n >= size) return MMDB_LOOKUP_PATH_DOES_NOT_MATCH_DATA_ERROR;
    *index = (size_t)n;
    return MMDB_SUCCESS;
}

/* Where a word leads from a map or an array. */
static int take_step(const MMDB_s *m, const struct mmdb_c_item *from, const char *word, size_t *to) {
    const uint8_t *section = m->data_section;
    size_t len = m->data_section_size, index = 0;
    int status;
    switch (from->kind) {
    case MMDB_DATA_TYPE_MAP:
        status = (int)mmdb_c_to_key(section, len, from->offset, word, strlen(word), to);
        return status == MMDB_C_NOT_UTF8 ? MMDB_LOOKUP_PATH_DOES_NOT_MATCH_DATA_ERROR : status;
    case MMDB_DATA_TYPE_ARRAY:
        status = index_of(word, from->size, &index);
        return status ? status : (int)mmdb_c_to_element(section, len, from->offset, index, to);
    default: return MMDB_LOOKUP_PATH_DOES_NOT_MATCH_DATA_ERROR;
    }
}

int MMDB_aget_value(MMDB_entry_s *const start, MMDB_entry_data_s *const data, const char *const *const path) {
    const MMDB_s *m = start->mmdb;
    struct mmdb_c_item item;
    memset(data, 0, sizeof *data);
    int status = read_value(m, start->offset, &item);
    for (const char *const *word = path; !status && *word; word++) {
        size_t to = 0;
        status = take_step(m, &item, *word, &to);
        if (!status) status = read_value(m, to, &item);
    }
    if (!status) set_data(m, &item, data);
    return status;
}

int MMDB_vget_value(MMDB_entry_s *const start, MMDB_entry_data_s *const data, va_list words) {
    const char *few[FEW_WORDS], **path = few;
    size_t n = 0;
    va_list copy;
    va_copy(copy, words);
    while (va_arg(copy, char *)) n++;
    va_end(copy);
    if (n >= FEW_WORDS && !(path = calloc(n + 1, sizeof *path))) return MMDB_OUT_OF_MEMORY_ERROR;
    for (size_t k = 0; k < n; k++) path[k] = va_arg(words, char *);
    path[n] = NULL;
    int status = MMDB_aget_value(start, data, path);
    if (path != few) free(path);
    return status;
}

int MMDB_get_value(MMDB_entry_s *const start, MMDB_entry_data_s *const data, ...) {
    va_list words;
    va_start(words, data);
    int status = MMDB_vget_value(start, data, words);
    va_end(words);
    return status;
}
