/* Lists of a value and all that it holds. */
#define _GNU_SOURCE
#include "shim.h"
#include <stdlib.h>
#include <string.h>

#define FIRST_ROOM 128
#define MOST_ROOM 65536 /* as many parts as the reader takes of one value */

#define SAME_PLACE(theirs, ours) \
    (offsetof(MMDB_entry_data_list_s, theirs) == offsetof(struct mmdb_c_part, ours))

_Static_assert(sizeof(MMDB_entry_data_list_s) == sizeof(struct mmdb_c_part) &&
                   SAME_PLACE(entry_data.uint64, low) && SAME_PLACE(entry_data.offset, offset) &&
                   SAME_PLACE(entry_data.offset_to_next, next) && SAME_PLACE(entry_data.data_size, size) &&
                   SAME_PLACE(entry_data.type, kind) && SAME_PLACE(next, link) && SAME_PLACE(pool, pool),
               "a part is laid out as an element of the list");

/* Memory of `malloc`, which has no type yet: the proved code writes parts into it, and reads none; C reads the elements
 * of the list, which are those that were written. */
union parts {
    MMDB_entry_data_list_s *list;
    struct mmdb_c_part *part;
};

/* Puts addresses in the place of offsets, and links the elements. */
static void link_parts(const MMDB_s *m, union parts at, size_t n) {
    for (size_t i = 0; i < n; i++) {
        MMDB_entry_data_s *data = &at.list[i].entry_data;
        uint64_t begins = at.part[i].low;
        if (data->type == MMDB_DATA_TYPE_UTF8_STRING)
            data->utf8_string = data->data_size ? (const char *)m->data_section + begins : "";
        else if (data->type == MMDB_DATA_TYPE_BYTES)
            data->bytes = m->data_section + begins;
        at.list[i].next = i + 1 < n ? &at.list[i + 1] : NULL;
    }
    at.list[0].pool = at.list;
}

/* Fills as much room as is needed, 128 parts at first and then eight times more at a time. */
static int fill_parts(const MMDB_entry_s *start, union parts *at, size_t *n) {
    const MMDB_s *m = start->mmdb;
    for (size_t room = FIRST_ROOM; room <= MOST_ROOM; room *= 8) {
        at->part = malloc(room * sizeof *at->part);
        if (!at->part) return MMDB_OUT_OF_MEMORY_ERROR;
        int status = (int)mmdb_c_list(m->data_section, m->data_section_size, start->offset, at->part, room, n);
        if (status != MMDB_OUT_OF_MEMORY_ERROR) return status;
        free(at->part);
    }
    at->part = NULL;
    return MMDB_INVALID_DATA_ERROR;
}

/* After an error the list has one element without data, if it has any, since callers free it all the same. */
int MMDB_get_entry_data_list(MMDB_entry_s *start, MMDB_entry_data_list_s **const list) {
    union parts at = {.part = NULL};
    size_t n = 0;
    int status = fill_parts(start, &at, &n);
    *list = at.list;
    if (!at.list) return status;
    if (status) {
        memset(at.list, 0, sizeof *at.list);
        n = 1;
    }
    link_parts(start->mmdb, at, n);
    return status;
}

void MMDB_free_entry_data_list(MMDB_entry_data_list_s *const list) {
    if (list) free(list->pool);
}
