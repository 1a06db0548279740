/* compare FILE N: prints all that libmaxminddb's interface says of a file: its metadata, its first nodes,
 * and for N pseudo-random addresses their records, as lists, printed and by paths. Two libraries that print the same
 * agree. */
#define _GNU_SOURCE
#include <arpa/inet.h>
#include <inttypes.h>
#include <maxminddb.h>
#include <stdio.h>
#include <stdlib.h>
#include <string.h>

#define MOST_NODES 3000

static uint64_t seed = 0x9E3779B97F4A7C15;

static uint64_t next_number(void) {
    seed ^= seed >> 12;
    seed ^= seed << 25;
    seed ^= seed >> 27;
    return seed * 0x2545F4914F6CDD1D;
}

static uint64_t mixed(uint64_t sum, uint64_t number) { return (sum ^ number) * 1099511628211u; }

static int has_size(uint32_t type) {
    return type == MMDB_DATA_TYPE_UTF8_STRING || type == MMDB_DATA_TYPE_BYTES || type == MMDB_DATA_TYPE_MAP ||
           type == MMDB_DATA_TYPE_ARRAY;
}

/* A sum of a list as it is printed. */
static void show_printed(MMDB_entry_data_list_s *list) {
    char *text = NULL;
    size_t len = 0;
    FILE *out = open_memstream(&text, &len);
    int status = MMDB_dump_entry_data_list(out, list, 2);
    fclose(out);
    uint64_t sum = 14695981039346656037u;
    for (size_t i = 0; i < len; i++) sum = mixed(sum, (unsigned char)text[i]);
    printf(" printed %d %zu %016" PRIx64, status, len, sum);
    free(text);
}

static void show_list(MMDB_entry_s *entry) {
    MMDB_entry_data_list_s *list = NULL;
    int status = MMDB_get_entry_data_list(entry, &list);
    printf(" list %d", status);
    if (!status) {
        uint64_t sum = 0, n = 0;
        for (MMDB_entry_data_list_s *at = list; at; at = at->next, n++) {
            MMDB_entry_data_s *d = &at->entry_data;
            sum = mixed(mixed(mixed(sum, d->offset), d->offset_to_next), d->type);
            sum = mixed(sum, has_size(d->type) ? d->data_size : 0);
        }
        printf(" of %" PRIu64 " %016" PRIx64, n, sum);
        show_printed(list);
    }
    MMDB_free_entry_data_list(list);
}

static void show_number(const MMDB_entry_data_s *d) {
    uint64_t high = d->type == MMDB_DATA_TYPE_UINT128 ? (uint64_t)(d->uint128 >> 64) : 0, low = d->uint32;
    if (d->type == MMDB_DATA_TYPE_UINT128 || d->type == MMDB_DATA_TYPE_UINT64 || d->type == MMDB_DATA_TYPE_DOUBLE)
        low = d->uint64;
    if (d->type == MMDB_DATA_TYPE_UINT16) low = d->uint16;
    if (d->type == MMDB_DATA_TYPE_BOOLEAN) low = d->boolean;
    printf(",%" PRIx64 ".%" PRIx64, high, low);
}

static void show_paths(MMDB_entry_s *entry) {
    static const char *const paths[][6] = {
        {"country", "iso_code"}, {"city", "names", "en"}, {"subdivisions", "0", "iso_code"},
        {"subdivisions", "-1", "names", "en"}, {"location", "latitude"}, {"array", "1"},
        {"map", "mapX", "arrayX", "2"}, {"ip"}, {"uint128"}, {"array", "99999999999999999999"}, {"array", "7"},
        {NULL}};
    for (size_t i = 0; i < sizeof paths / sizeof *paths; i++) {
        MMDB_entry_data_s d;
        int status = MMDB_aget_value(entry, &d, paths[i]);
        printf(" %d", status);
        if (status) continue;
        printf(",%d,%u,%u,%u", d.has_data, d.type, d.offset, d.offset_to_next);
        if (d.type == MMDB_DATA_TYPE_UTF8_STRING) printf(",%.*s", (int)d.data_size, d.utf8_string);
        else if (!has_size(d.type)) show_number(&d);
    }
}

static void show_metadata(const MMDB_s *m) {
    const MMDB_metadata_s *d = &m->metadata;
    printf("%u nodes of %u bits, IPv%u, %s, %u.%u, %" PRIu64 ", depth %u, %u bytes a node, IPv4 at %u after %u\n",
           d->node_count, d->record_size, d->ip_version, d->database_type, d->binary_format_major_version,
           d->binary_format_minor_version, d->build_epoch, m->depth, m->full_record_byte_size,
           m->ipv4_start_node.node_value, m->ipv4_start_node.netmask);
    for (size_t i = 0; i < d->languages.count; i++) printf("%s\n", d->languages.names[i]);
    for (size_t i = 0; i < d->description.count; i++)
        printf("%s: %s\n", d->description.descriptions[i]->language, d->description.descriptions[i]->description);
    MMDB_entry_data_list_s *list = NULL;
    int status = MMDB_get_metadata_as_entry_data_list(m, &list);
    printf("metadata %d\n", status);
    if (!status) MMDB_dump_entry_data_list(stdout, list, 0);
    MMDB_free_entry_data_list(list);
}

static void show_nodes(const MMDB_s *m) {
    for (uint32_t i = 0; i < m->metadata.node_count && i < MOST_NODES; i++) {
        MMDB_search_node_s node = {0};
        int status = MMDB_read_node(m, i, &node);
        printf("node %u %d %" PRIu64 " %" PRIu64 " %u %u %u %u\n", i, status, node.left_record, node.right_record,
               node.left_record_type, node.right_record_type, node.left_record_entry.offset,
               node.right_record_entry.offset);
    }
}

/* Some addresses are all random, some are of the blocks that the samples have. */
static void make_address(long i, char *text, size_t len) {
    uint64_t a = next_number(), b = next_number();
    uint8_t bytes[16];
    memcpy(bytes, &a, 8);
    memcpy(bytes + 8, &b, 8);
    switch (i % 5) {
    case 0: inet_ntop(AF_INET, bytes, text, (socklen_t)len); return;
    case 1: snprintf(text, len, "%d.%d.%d.%d", bytes[0] % 4 + 1, bytes[1] % 4, bytes[2] % 4, bytes[3]); return;
    case 2: snprintf(text, len, "%d.2.69.%d", bytes[0] % 2 + 80, bytes[1]); return;
    case 3: bytes[0] = 0x20, bytes[1] = 1, bytes[2] = bytes[2] % 2 ? 2 : 13; break;
    default: memset(bytes, 0, 12), bytes[12] = bytes[13] = bytes[14] = 1; break;
    }
    inet_ntop(AF_INET6, bytes, text, (socklen_t)len);
}

int main(int argc, char **argv) {
    if (argc < 3) return 2;
    MMDB_s m;
    int status = MMDB_open(argv[1], MMDB_MODE_MMAP, &m);
    printf("open %d\n", status);
    if (status) return 0;
    show_metadata(&m);
    show_nodes(&m);
    for (long i = 0; i < atol(argv[2]); i++) {
        char text[64];
        int gai = 0, error = -1;
        make_address(i, text, sizeof text);
        MMDB_lookup_result_s r = MMDB_lookup_string(&m, text, &gai, &error);
        printf("%s %d %d %d %u", text, gai, error, r.found_entry, r.netmask);
        if (r.found_entry) {
            printf(" at %u", r.entry.offset);
            show_list(&r.entry);
            show_paths(&r.entry);
        }
        puts("");
    }
    MMDB_close(&m);
    return 0;
}
