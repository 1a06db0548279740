/* mutated FOLDER N FILE..: changes, cuts or doubles bytes of the files, N times in turn, and calls all functions on
 * what comes of it, which is to end with no report of the sanitizers that this is built with. */
#define _GNU_SOURCE
#include "mmdb.h"
#include <maxminddb.h>
#include <stdio.h>
#include <stdlib.h>
#include <string.h>

static uint64_t seed = 0x853C49E6748FEA9B;

static uint64_t next_number(uint64_t below) {
    seed ^= seed >> 12;
    seed ^= seed << 25;
    seed ^= seed >> 27;
    return (seed * 0x2545F4914F6CDD1D >> 16) % below;
}

static unsigned char *read_file(const char *name, size_t *len) {
    FILE *in = fopen(name, "rb");
    if (!in || fseek(in, 0, SEEK_END)) exit(2);
    *len = (size_t)ftell(in);
    rewind(in);
    unsigned char *bytes = malloc(*len);
    if (!bytes || fread(bytes, 1, *len, in) != *len) exit(2);
    fclose(in);
    return bytes;
}

static void write_file(const char *name, const unsigned char *bytes, size_t len) {
    FILE *out = fopen(name, "wb");
    if (!out || fwrite(bytes, 1, len, out) != len || fclose(out)) exit(2);
}

/* Changes a few bytes, mostly near the end, where the data and the metadata stand; at times cuts the file. */
static size_t mutate(unsigned char *bytes, size_t len) {
    for (uint64_t k = next_number(6) + 1; k; k--) {
        size_t at = next_number(2) ? next_number(len) : len - 1 - next_number(len < 600 ? len : 600);
        switch (next_number(4)) {
        case 0: bytes[at] ^= (unsigned char)(1 << next_number(8)); break;
        case 1: bytes[at] = (unsigned char)next_number(256); break;
        case 2: bytes[at] = bytes[next_number(len)]; break;
        default: bytes[at] = (unsigned char)(0x20 + next_number(0x10)); break;
        }
    }
    return next_number(8) ? len : next_number(len) + 1;
}

static void read_record(MMDB_entry_s *entry, FILE *nowhere) {
    static const char *const path[] = {"city", "names", "en", NULL};
    MMDB_entry_data_list_s *list = NULL;
    MMDB_entry_data_s data;
    if (!MMDB_get_entry_data_list(entry, &list)) MMDB_dump_entry_data_list(nowhere, list, 0);
    MMDB_free_entry_data_list(list);
    MMDB_aget_value(entry, &data, path);
    MMDB_get_value(entry, &data, "array", "-1", NULL);
    MMDB_get_value(entry, &data, "subdivisions", "0", "iso_code", NULL);
}

static int use_file(const char *name, FILE *nowhere) {
    MMDB_s m;
    mmdb_verify(name);
    if (MMDB_open(name, 0, &m)) return 0;
    for (int i = 0; i < 30; i++) {
        char text[64];
        int gai, error = 0;
        const char *form = i % 2 ? "2001:%llx::%llx" : "%llu.2.69.%llu";
        unsigned long long a = i % 2 ? next_number(4096) : next_number(256), b = next_number(256);
        snprintf(text, sizeof text, form, a, b);
        MMDB_lookup_result_s r = MMDB_lookup_string(&m, text, &gai, &error);
        if (r.found_entry) read_record(&r.entry, nowhere);
        MMDB_entry_s any = {.mmdb = &m, .offset = (uint32_t)next_number((uint64_t)m.data_section_size + 9)};
        read_record(&any, nowhere);
        MMDB_search_node_s node;
        MMDB_read_node(&m, (uint32_t)next_number((uint64_t)m.metadata.node_count + 2), &node);
    }
    MMDB_entry_data_list_s *list = NULL;
    if (!MMDB_get_metadata_as_entry_data_list(&m, &list)) MMDB_dump_entry_data_list(nowhere, list, 0);
    MMDB_free_entry_data_list(list);
    MMDB_close(&m);
    return 1;
}

int main(int argc, char **argv) {
    if (argc < 4) return 2;
    char name[4096];
    snprintf(name, sizeof name, "%s/mutated.mmdb", argv[1]);
    FILE *nowhere = fopen("/dev/null", "w");
    long n = atol(argv[2]), opened = 0;
    for (long i = 0; i < n; i++) {
        size_t len;
        unsigned char *bytes = read_file(argv[3 + i % (argc - 3)], &len);
        write_file(name, bytes, mutate(bytes, len));
        free(bytes);
        opened += use_file(name, nowhere);
    }
    fclose(nowhere);
    printf("%ld mutated files, of which %ld were opened\n", n, opened);
    return 0;
}
