/* What the static library of crates/mmdb_c exports. A slice is a pointer, which is never null, and a length. */
#ifndef MMDB_C_H
#define MMDB_C_H
#include <stdbool.h>
#include <stddef.h>
#include <stdint.h>

#define MMDB_C_TABLE 65536

/* How many addresses are looked up at once. */
#define MMDB_C_GROUP 64

/* Status codes beside those of maxminddb.h: what a lookup without data has, and a key that is not UTF-8. */
#define MMDB_C_NO_DATA 1
#define MMDB_C_NOT_UTF8 8

struct mmdb_c_facts {
    size_t node_count, ipv4_start, data_start, marker;
    uint64_t build_epoch;
    uint16_t record_size, ip_version, major_version, minor_version;
    uint8_t ipv4_depth;
};

/* As `mmdb_c_open` left it: nothing in it, nor in what it points to, may be changed. */
struct mmdb_c_db {
    struct mmdb_c_facts facts;
    const uint8_t *file;
    size_t file_len;
    const uint32_t *ipv4_numbers;
    size_t ipv4_numbers_len;
    const uint8_t *ipv4_depths;
    size_t ipv4_depths_len;
    const uint32_t *ipv6_numbers;
    size_t ipv6_numbers_len;
    const uint8_t *ipv6_depths;
    size_t ipv6_depths_len;
};

struct mmdb_c_found {
    uint32_t status, netmask;
    size_t offset;
};

/* The numbers that a node has for the bits 0 and 1. */
struct mmdb_c_children {
    size_t left, right;
};

/* An address of IPv4 has the lowest 32 bits. */
struct mmdb_c_address {
    uint64_t high, low;
    bool is_ipv6;
};

struct mmdb_c_item {
    uint32_t kind, size;
    size_t offset, body, next;
    uint64_t low, high;
};

/* Laid out as MMDB_entry_data_list_s on a machine of 64 bits, the lowest byte first. */
struct mmdb_c_part {
    uint64_t has_data, unused, low, high;
    uint32_t offset, next, size, kind;
    void *link, *pool;
};

uint32_t mmdb_c_open(const uint8_t *file, size_t file_len, uint32_t *ipv4_numbers, size_t ipv4_numbers_len,
                     uint8_t *ipv4_depths, size_t ipv4_depths_len, uint32_t *ipv6_numbers, size_t ipv6_numbers_len,
                     uint8_t *ipv6_depths, size_t ipv6_depths_len, struct mmdb_c_facts *facts);
uint32_t mmdb_c_verify(const uint8_t *file, size_t file_len);
uint32_t mmdb_c_verify_records(const uint8_t *file, size_t file_len);
struct mmdb_c_found mmdb_c_lookup_v4(const struct mmdb_c_db *db, uint32_t bits);
struct mmdb_c_found mmdb_c_lookup_v6(const struct mmdb_c_db *db, uint64_t high, uint64_t low);
void mmdb_c_lookup_many(const struct mmdb_c_db *db, const struct mmdb_c_address *addresses, size_t count,
                        struct mmdb_c_found *found, size_t room);
struct mmdb_c_children mmdb_c_children(const struct mmdb_c_db *db, size_t node);
bool mmdb_c_value(const uint8_t *section, size_t len, size_t offset, struct mmdb_c_item *item);
uint32_t mmdb_c_to_key(const uint8_t *section, size_t len, size_t offset, const char *key, size_t key_len,
                       size_t *to);
uint32_t mmdb_c_to_element(const uint8_t *section, size_t len, size_t offset, size_t index, size_t *to);
uint32_t mmdb_c_list(const uint8_t *section, size_t len, size_t offset, struct mmdb_c_part *out, size_t room,
                     size_t *count);
#endif
