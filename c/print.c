/* The printing of lists, and the texts of status codes. */
#define _GNU_SOURCE
#include "shim.h"
#include <inttypes.h>
#include <stdio.h>

typedef const MMDB_entry_data_list_s *element;

struct printer {
    FILE *out;
    int status;
};

static element print_value(struct printer *p, element at, int indent);

static void print_text(FILE *out, const MMDB_entry_data_s *data) {
    fputc('"', out);
    fwrite(data->utf8_string, 1, data->data_size, out);
    fputc('"', out);
}

static void print_bytes(FILE *out, const MMDB_entry_data_s *data) {
    for (uint32_t i = 0; i < data->data_size; i++) fprintf(out, "%02X", data->bytes[i]);
    fputs(" <bytes>\n", out);
}

static void print_uint128(FILE *out, const MMDB_entry_data_s *data) {
    uint64_t high = (uint64_t)(data->uint128 >> 64), low = (uint64_t)data->uint128;
    fprintf(out, "0x%016" PRIX64 "%016" PRIX64 " <uint128>\n", high, low);
}

static void print_scalar(struct printer *p, const MMDB_entry_data_s *data, int indent) {
    FILE *out = p->out;
    fprintf(out, "%*s", indent, "");
    switch (data->type) {
    case MMDB_DATA_TYPE_UTF8_STRING:
        print_text(out, data);
        fputs(" <utf8_string>\n", out);
        break;
    case MMDB_DATA_TYPE_BYTES: print_bytes(out, data); break;
    case MMDB_DATA_TYPE_DOUBLE: fprintf(out, "%f <double>\n", data->double_value); break;
    case MMDB_DATA_TYPE_FLOAT: fprintf(out, "%f <float>\n", (double)data->float_value); break;
    case MMDB_DATA_TYPE_UINT16: fprintf(out, "%u <uint16>\n", data->uint16); break;
    case MMDB_DATA_TYPE_UINT32: fprintf(out, "%" PRIu32 " <uint32>\n", data->uint32); break;
    case MMDB_DATA_TYPE_INT32: fprintf(out, "%" PRId32 " <int32>\n", data->int32); break;
    case MMDB_DATA_TYPE_UINT64: fprintf(out, "%" PRIu64 " <uint64>\n", data->uint64); break;
    case MMDB_DATA_TYPE_UINT128: print_uint128(out, data); break;
    case MMDB_DATA_TYPE_BOOLEAN: fprintf(out, "%s <boolean>\n", data->boolean ? "true" : "false"); break;
    default: p->status = MMDB_INVALID_DATA_ERROR; break;
    }
}

/* A pair's key stands on a line of its own, its value below it. */
static element print_pair(struct printer *p, element at, int indent) {
    if (at->entry_data.type != MMDB_DATA_TYPE_UTF8_STRING) {
        p->status = MMDB_INVALID_DATA_ERROR;
        return NULL;
    }
    fprintf(p->out, "%*s", indent, "");
    print_text(p->out, &at->entry_data);
    fputs(": \n", p->out);
    return at->next ? print_value(p, at->next, indent + 2) : NULL;
}

static element print_parts(struct printer *p, element at, int indent) {
    int is_map = at->entry_data.type == MMDB_DATA_TYPE_MAP;
    uint32_t left = at->entry_data.data_size;
    fprintf(p->out, "%*s%s\n", indent, "", is_map ? "{" : "[");
    at = at->next;
    for (; left > 0 && at && !p->status; left--)
        at = is_map ? print_pair(p, at, indent + 2) : print_value(p, at, indent + 2);
    if (!p->status) fprintf(p->out, "%*s%s\n", indent, "", is_map ? "}" : "]");
    return at;
}

/* Prints the value at an element, and gives the element after it. */
static element print_value(struct printer *p, element at, int indent) {
    uint32_t type = at->entry_data.type;
    if (type == MMDB_DATA_TYPE_MAP || type == MMDB_DATA_TYPE_ARRAY) return print_parts(p, at, indent);
    print_scalar(p, &at->entry_data, indent);
    return at->next;
}

int MMDB_dump_entry_data_list(FILE *const stream, MMDB_entry_data_list_s *const list, int indent) {
    struct printer p = {.out = stream, .status = MMDB_SUCCESS};
    for (element at = list; at && !p.status;) at = print_value(&p, at, indent);
    return p.status;
}

const char *MMDB_strerror(int error_code) {
    switch (error_code) {
    case MMDB_SUCCESS: return "no error";
    case MMDB_FILE_OPEN_ERROR: return "the file can't be opened";
    case MMDB_CORRUPT_SEARCH_TREE_ERROR: return "the search tree leads outside the data section";
    case MMDB_INVALID_METADATA_ERROR: return "the file has no metadata of a MaxMind DB, or they are not valid";
    case MMDB_IO_ERROR: return "the file can't be read, or has 4 GiB or more";
    case MMDB_OUT_OF_MEMORY_ERROR: return "out of memory";
    case MMDB_UNKNOWN_DATABASE_FORMAT_ERROR: return "the version of the file's format, or its record size, is not known";
    case MMDB_INVALID_DATA_ERROR: return "the data section has bytes that are no valid value";
    case MMDB_INVALID_LOOKUP_PATH_ERROR: return "a word of the path is no valid number";
    case MMDB_LOOKUP_PATH_DOES_NOT_MATCH_DATA_ERROR: return "nothing stands at the end of the path";
    case MMDB_INVALID_NODE_NUMBER_ERROR: return "the search tree has no node of this number";
    case MMDB_IPV6_LOOKUP_IN_IPV4_DATABASE_ERROR: return "an IPv6 address was looked up in a database of IPv4";
    default: return "unknown status code";
    }
}
