/* many FILE..: mmdb_lookup_many, of so many addresses as make no group, a part of one, one and more, of one kind and of
 * both, is to give what MMDB_lookup_sockaddr gives for each. */
#define _GNU_SOURCE
#include "mmdb.h"
#include <netinet/in.h>
#include <stdio.h>
#include <string.h>

#define MOST 1000

union address {
    struct sockaddr any;
    struct sockaddr_in v4;
    struct sockaddr_in6 v6;
};

static uint64_t seed = 0x9E3779B97F4A7C15;

static uint64_t next_number(void) {
    seed ^= seed >> 12;
    seed ^= seed << 25;
    seed ^= seed >> 27;
    return seed * 0x2545F4914F6CDD1D;
}

/* Draws an address: of IPv4, of IPv6, or of either; of IPv6 every second one from 2000::/3. */
static void draw(union address *to, unsigned kind) {
    uint64_t halves[2] = {next_number(), next_number()};
    memset(to, 0, sizeof *to);
    if (kind == 1 || (kind == 2 && next_number() >> 63)) {
        to->v6.sin6_family = AF_INET6;
        memcpy(&to->v6.sin6_addr, halves, sizeof halves);
        if (halves[1] >> 63) to->v6.sin6_addr.s6_addr[0] = 0x20;
    } else {
        to->v4.sin_family = AF_INET;
        to->v4.sin_addr.s_addr = (uint32_t)halves[0];
    }
}

/* How many of so many answers differ from those one by one. */
static int compare(const MMDB_s *m, unsigned kind, size_t count, uint64_t *found) {
    static union address drawn[MOST];
    static const struct sockaddr *addresses[MOST];
    static MMDB_lookup_result_s results[MOST];
    static int errors[MOST];
    int differ = 0;
    for (size_t i = 0; i < count; i++) {
        draw(&drawn[i], kind);
        addresses[i] = &drawn[i].any;
    }
    mmdb_lookup_many(m, addresses, count, results, errors);
    for (size_t i = 0; i < count; i++) {
        int error;
        MMDB_lookup_result_s one = MMDB_lookup_sockaddr(m, addresses[i], &error);
        differ += error != errors[i] || one.found_entry != results[i].found_entry || one.netmask != results[i].netmask ||
                  one.entry.mmdb != results[i].entry.mmdb || one.entry.offset != results[i].entry.offset;
        *found += one.found_entry;
    }
    return differ;
}

int main(int argc, char **argv) {
    static const size_t counts[] = {0, 1, 2, 63, 64, 65, 127, 128, 129, 500, MOST};
    int differ = 0, files = 0;
    uint64_t found = 0;
    for (int k = 1; k < argc; k++) {
        MMDB_s m;
        if (MMDB_open(argv[k], 0, &m)) continue;
        for (unsigned kind = 0; kind < 3; kind++)
            for (size_t i = 0; i < sizeof counts / sizeof *counts; i++) differ += compare(&m, kind, counts[i], &found);
        MMDB_close(&m);
        files++;
    }
    printf("%d files, %lu answers with data, %d differ\n", files, (unsigned long)found, differ);
    return differ != 0 || files == 0 || found == 0;
}
