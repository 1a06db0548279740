/* Lookups of addresses, and the nodes of the search tree. */
#define _GNU_SOURCE
#include "shim.h"
#include <arpa/inet.h>
#include <endian.h>
#include <netdb.h>
#include <string.h>
#include <sys/socket.h>

static struct mmdb_c_address address_of(const struct sockaddr *address) {
    if (address->sa_family == AF_INET6) {
        uint64_t halves[2];
        memcpy(halves, ((const struct sockaddr_in6 *)address)->sin6_addr.s6_addr, sizeof halves);
        return (struct mmdb_c_address){.high = be64toh(halves[0]), .low = be64toh(halves[1]), .is_ipv6 = true};
    }
    return (struct mmdb_c_address){.low = ntohl(((const struct sockaddr_in *)address)->sin_addr.s_addr)};
}

/* What the database has for an IPv4 address. The processor is asked for the nodes after the one that the first bits
 * lead to: writers number nodes in the order of a walk, so those that the lookup comes to stand there, and it waits for
 * memory once in place of at each bit. Nothing is read there, wherever it is. */
static struct mmdb_c_found found_ipv4(const struct mmdb_c_db *db, uint32_t bits) {
    enum { LINE = 64, LINES = 8 };
    uint32_t node = db->ipv4_numbers[bits >> 16];
    if (node < db->facts.node_count) {
        uintptr_t at = (uintptr_t)db->file + (size_t)node * (db->facts.record_size / 4);
#pragma GCC unroll 8
        for (int i = 1; i <= LINES; i++) __builtin_prefetch((const void *)(at + i * LINE));
    }
    return mmdb_c_lookup_v4(db, bits);
}

static MMDB_lookup_result_s result_of(const MMDB_s *m, struct mmdb_c_found found, int *error) {
    *error = found.status == MMDB_C_NO_DATA ? MMDB_SUCCESS : (int)found.status;
    return (MMDB_lookup_result_s){.found_entry = found.status == MMDB_SUCCESS,
                                  .netmask = (uint16_t)found.netmask,
                                  .entry = {.mmdb = m, .offset = (uint32_t)found.offset}};
}

MMDB_lookup_result_s MMDB_lookup_sockaddr(const MMDB_s *const m, const struct sockaddr *const address,
                                          int *const error) {
    const struct mmdb_c_db *db = &state_of(m)->db;
    struct mmdb_c_address bits = address_of(address);
    struct mmdb_c_found found =
        bits.is_ipv6 ? mmdb_c_lookup_v6(db, bits.high, bits.low) : found_ipv4(db, (uint32_t)bits.low);
    return result_of(m, found, error);
}

void mmdb_lookup_many(const MMDB_s *m, const struct sockaddr *const *addresses, size_t count,
                      MMDB_lookup_result_s *results, int *errors) {
    struct mmdb_c_address bits[MMDB_C_GROUP];
    struct mmdb_c_found found[MMDB_C_GROUP];
    while (count > 0) {
        size_t now = count < MMDB_C_GROUP ? count : MMDB_C_GROUP;
        for (size_t i = 0; i < now; i++) bits[i] = address_of(addresses[i]);
        mmdb_c_lookup_many(&state_of(m)->db, bits, now, found, now);
        for (size_t i = 0; i < now; i++) results[i] = result_of(m, found[i], &errors[i]);
        addresses += now, results += now, errors += now, count -= now;
    }
}

MMDB_lookup_result_s MMDB_lookup_string(const MMDB_s *const m, const char *const text, int *const gai_error,
                                        int *const error) {
    MMDB_lookup_result_s result = {.entry = {.mmdb = m}};
    struct addrinfo hints = {.ai_family = AF_UNSPEC, .ai_flags = AI_NUMERICHOST, .ai_socktype = SOCK_STREAM};
    struct addrinfo *all = NULL;
    *gai_error = getaddrinfo(text, NULL, &hints, &all);
    if (!*gai_error) result = MMDB_lookup_sockaddr(m, all->ai_addr, error);
    if (all) freeaddrinfo(all);
    return result;
}

/* A record that is 0 or past the data section is invalid: no lookup ends there with a value. */
static inline uint8_t type_of_record(const struct mmdb_c_facts *facts, uint32_t record, uint32_t node_count) {
    if (record < node_count) return record ? MMDB_RECORD_TYPE_SEARCH_NODE : MMDB_RECORD_TYPE_INVALID;
    if (record == node_count) return MMDB_RECORD_TYPE_EMPTY;
    bool is_within = record - node_count - 16 < facts->marker - facts->data_start;
    return is_within ? MMDB_RECORD_TYPE_DATA : MMDB_RECORD_TYPE_INVALID;
}

int MMDB_read_node(const MMDB_s *const m, uint32_t number, MMDB_search_node_s *const node) {
    const struct mmdb_c_db *db = &state_of(m)->db;
    if (number >= db->facts.node_count) return MMDB_INVALID_NODE_NUMBER_ERROR;
    struct mmdb_c_children children = mmdb_c_children(db, number);
    uint32_t left = (uint32_t)children.left, right = (uint32_t)children.right;
    uint32_t node_count = (uint32_t)db->facts.node_count;
    node->left_record = left;
    node->right_record = right;
    node->left_record_entry = (MMDB_entry_s){.mmdb = m, .offset = left - node_count - 16};
    node->right_record_entry = (MMDB_entry_s){.mmdb = m, .offset = right - node_count - 16};
    node->left_record_type = type_of_record(&db->facts, left, node_count);
    node->right_record_type = type_of_record(&db->facts, right, node_count);
    return MMDB_SUCCESS;
}
