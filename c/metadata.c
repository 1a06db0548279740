/* The texts of the metadata, which MMDB_s has as C's strings. */
#define _GNU_SOURCE
#include "shim.h"
#include <stdlib.h>
#include <string.h>

MMDB_s metadata_as_data(const MMDB_s *m) {
    return (MMDB_s){.data_section = m->metadata_section, .data_section_size = m->metadata_section_size};
}

static char *text_of(const MMDB_entry_data_s *d) {
    return d->type == MMDB_DATA_TYPE_UTF8_STRING ? strndup(d->utf8_string, d->data_size) : NULL;
}

static int fill_type(MMDB_metadata_s *metadata, MMDB_entry_s *top) {
    MMDB_entry_data_s d;
    int status = MMDB_get_value(top, &d, "database_type", NULL);
    if (status) return status;
    metadata->database_type = text_of(&d);
    return metadata->database_type ? MMDB_SUCCESS : MMDB_OUT_OF_MEMORY_ERROR;
}

/* The list of what a field of the metadata holds. */
static int list_field(MMDB_entry_s *top, const char *field, MMDB_entry_data_list_s **list) {
    MMDB_entry_data_s d;
    int status = MMDB_get_value(top, &d, field, NULL);
    if (status) return status;
    MMDB_entry_s at = {.mmdb = top->mmdb, .offset = d.offset};
    status = MMDB_get_entry_data_list(&at, list);
    if (status) MMDB_free_entry_data_list(*list);
    return status;
}

static int copy_languages(MMDB_metadata_s *metadata, const MMDB_entry_data_list_s *list) {
    size_t n = list->entry_data.data_size;
    metadata->languages.names = calloc(n + 1, sizeof(char *));
    if (!metadata->languages.names) return MMDB_OUT_OF_MEMORY_ERROR;
    for (size_t i = 0; i < n; i++) {
        list = list->next;
        if (!(metadata->languages.names[i] = text_of(&list->entry_data))) return MMDB_OUT_OF_MEMORY_ERROR;
        metadata->languages.count = i + 1;
    }
    return MMDB_SUCCESS;
}

static int copy_descriptions(MMDB_metadata_s *metadata, const MMDB_entry_data_list_s *list) {
    size_t n = list->entry_data.data_size;
    metadata->description.descriptions = calloc(n + 1, sizeof(MMDB_description_s *));
    if (!metadata->description.descriptions) return MMDB_OUT_OF_MEMORY_ERROR;
    for (size_t i = 0; i < n; i++) {
        MMDB_description_s *one = calloc(1, sizeof *one);
        if (!one) return MMDB_OUT_OF_MEMORY_ERROR;
        metadata->description.descriptions[i] = one;
        metadata->description.count = i + 1;
        list = list->next;
        one->language = text_of(&list->entry_data);
        list = list->next;
        one->description = text_of(&list->entry_data);
        if (!one->language || !one->description) return MMDB_OUT_OF_MEMORY_ERROR;
    }
    return MMDB_SUCCESS;
}

int fill_texts(MMDB_s *m) {
    MMDB_s fake = metadata_as_data(m);
    MMDB_entry_s top = {.mmdb = &fake, .offset = 0};
    MMDB_entry_data_list_s *list;
    int status = fill_type(&m->metadata, &top);
    if (status || (status = list_field(&top, "languages", &list))) return status;
    status = copy_languages(&m->metadata, list);
    MMDB_free_entry_data_list(list);
    if (status || (status = list_field(&top, "description", &list))) return status;
    status = copy_descriptions(&m->metadata, list);
    MMDB_free_entry_data_list(list);
    return status;
}

void free_texts(MMDB_metadata_s *metadata) {
    free((void *)metadata->database_type);
    for (size_t i = 0; i < metadata->languages.count; i++) free((void *)metadata->languages.names[i]);
    free(metadata->languages.names);
    for (size_t i = 0; i < metadata->description.count; i++) {
        MMDB_description_s *one = metadata->description.descriptions[i];
        free((void *)one->language);
        free((void *)one->description);
        free(one);
    }
    free(metadata->description.descriptions);
    memset(metadata, 0, sizeof *metadata);
}

int MMDB_get_metadata_as_entry_data_list(const MMDB_s *const m, MMDB_entry_data_list_s **const list) {
    MMDB_s fake = metadata_as_data(m);
    MMDB_entry_s top = {.mmdb = &fake, .offset = 0};
    return MMDB_get_entry_data_list(&top, list);
}
