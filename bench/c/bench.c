/* Measures libmaxminddb: the work of mmdb_bench as far as the library has it, with the same addresses and
 * names, and the same sums where the work is the same.
 *
 *     bench FILE N REPEATS
 *
 * The library has no iterator and no check of a file. Here a walk is made of MMDB_read_node, and "check" walks
 * and then lists each record that it met once by MMDB_get_entry_data_list. MMDB_open maps a file. */
#include <arpa/inet.h>
#include <maxminddb.h>
#include <stdint.h>
#include <stdio.h>
#include <stdlib.h>
#include <string.h>
#include <time.h>

/* What is measured. */
struct subject {
    const char *file;
    MMDB_s database;
    size_t count, fewer; /* decoding takes longer than a lookup */
    struct sockaddr_in *ipv4;
    struct sockaddr_in6 *ipv6;
    unsigned char *met; /* what is known of each offset that a walk came to */
    uint32_t *offsets;
    size_t offset_count;
};

static void fail(const char *why) {
    fprintf(stderr, "%s\n", why);
    exit(1);
}

static void *room(size_t count, size_t size) {
    void *made = calloc(count + 1, size);
    if (!made) fail("out of memory");
    return made;
}

/* --- the addresses --- */

/* The words of the generator xorshift64*. */
static uint64_t state = 0x9E3779B97F4A7C15ULL;

static uint64_t next_word(void) {
    state ^= state >> 12;
    state ^= state << 25;
    state ^= state >> 27;
    return state * 0x2545F4914F6CDD1DULL;
}

static void make_addresses(struct subject *subject) {
    subject->ipv4 = room(subject->count, sizeof *subject->ipv4);
    for (size_t i = 0; i < subject->count; i++) {
        subject->ipv4[i].sin_family = AF_INET;
        subject->ipv4[i].sin_addr.s_addr = htonl((uint32_t)(next_word() >> 32));
    }
    subject->ipv6 = room(subject->count, sizeof *subject->ipv6);
    for (size_t i = 0; i < subject->count; i++) {
        uint64_t high = (next_word() >> 3) | (1ULL << 61), low = next_word();
        subject->ipv6[i].sin6_family = AF_INET6;
        for (int k = 0; k < 8; k++) {
            subject->ipv6[i].sin6_addr.s6_addr[k] = high >> (56 - 8 * k);
            subject->ipv6[i].sin6_addr.s6_addr[8 + k] = low >> (56 - 8 * k);
        }
    }
}

/* --- the work --- */

static MMDB_lookup_result_s found_ipv4(struct subject *subject, size_t i) {
    int status;
    MMDB_lookup_result_s found =
        MMDB_lookup_sockaddr(&subject->database, (struct sockaddr *)&subject->ipv4[i], &status);
    if (status != MMDB_SUCCESS) fail(MMDB_strerror(status));
    return found;
}

static MMDB_lookup_result_s found_ipv6(struct subject *subject, size_t i) {
    int status;
    MMDB_lookup_result_s found =
        MMDB_lookup_sockaddr(&subject->database, (struct sockaddr *)&subject->ipv6[i], &status);
    if (status != MMDB_SUCCESS) fail(MMDB_strerror(status));
    return found;
}

static uint64_t load_file(struct subject *subject) {
    MMDB_s database;
    int status = MMDB_open(subject->file, MMDB_MODE_MMAP, &database);
    if (status != MMDB_SUCCESS) fail(MMDB_strerror(status));
    uint64_t sum = database.metadata.node_count;
    MMDB_close(&database);
    return sum;
}

static uint64_t lookup_ipv4(struct subject *subject) {
    uint64_t sum = 0;
    for (size_t i = 0; i < subject->count; i++) {
        MMDB_lookup_result_s found = found_ipv4(subject, i);
        sum += found.found_entry ? found.entry.offset + 2 : 1;
    }
    return sum;
}

/* The mask counts the 96 bits before an IPv4 address, where the file is of IPv6. */
static uint64_t lookup_ipv4_network(struct subject *subject) {
    int before = subject->database.metadata.ip_version == 6 ? 96 : 0;
    uint64_t sum = 0;
    for (size_t i = 0; i < subject->count; i++) {
        int mask = found_ipv4(subject, i).netmask;
        sum += mask >= before ? mask - before : mask;
    }
    return sum;
}

static uint64_t lookup_ipv6(struct subject *subject) {
    uint64_t sum = 0;
    for (size_t i = 0; i < subject->count; i++) {
        MMDB_lookup_result_s found = found_ipv6(subject, i);
        sum += found.found_entry ? found.entry.offset + 2 : 1;
    }
    return sum;
}

/* The size of the value that a path leads to, and 1 of a number, whose size libraries leave open. */
static uint64_t size_at(MMDB_entry_s *entry, const char *const *path) {
    MMDB_entry_data_s data;
    if (MMDB_aget_value(entry, &data, path) != MMDB_SUCCESS || !data.has_data) return 0;
    return data.type == MMDB_DATA_TYPE_UTF8_STRING ? data.data_size : 1;
}

static uint64_t lookup_path(struct subject *subject) {
    static const char *const path[] = {"country", "iso_code", NULL};
    uint64_t sum = 0;
    for (size_t i = 0; i < subject->fewer; i++) {
        MMDB_lookup_result_s found = found_ipv4(subject, i);
        if (found.found_entry) sum += size_at(&found.entry, path);
    }
    return sum;
}

/* Nine fields of a City record one by one, which is the nearest that the library has to reading one whole. */
static uint64_t lookup_nine_paths(struct subject *subject) {
    static const char *const paths[9][5] = {
        {"city", "names", "en"}, {"city", "geoname_id"}, {"continent", "code"},
        {"country", "iso_code"}, {"location", "latitude"}, {"location", "longitude"},
        {"location", "time_zone"}, {"postal", "code"}, {"subdivisions", "0", "iso_code"},
    };
    uint64_t sum = 0;
    for (size_t i = 0; i < subject->fewer; i++) {
        MMDB_lookup_result_s found = found_ipv4(subject, i);
        for (int k = 0; found.found_entry && k < 9; k++) sum += size_at(&found.entry, paths[k]);
    }
    return sum;
}

static uint64_t decode_value(struct subject *subject) {
    uint64_t sum = 0;
    for (size_t i = 0; i < subject->fewer; i++) {
        MMDB_lookup_result_s found = found_ipv4(subject, i);
        MMDB_entry_data_list_s *list = NULL;
        if (found.found_entry && MMDB_get_entry_data_list(&found.entry, &list) == MMDB_SUCCESS) {
            sum += list->entry_data.data_size;
            MMDB_free_entry_data_list(list);
        }
    }
    return sum;
}

static uint32_t ipv4_start(MMDB_s *database) {
    uint32_t node = 0;
    if (database->metadata.ip_version != 6) return 0;
    for (int i = 0; i < 96 && node < database->metadata.node_count; i++) {
        MMDB_search_node_s halves;
        if (MMDB_read_node(database, node, &halves) != MMDB_SUCCESS) fail("a node can't be read");
        node = (uint32_t)halves.left_record;
    }
    return node;
}

static void note(struct subject *subject, uint32_t offset) {
    if (subject->met[offset]) return;
    subject->met[offset] = 1;
    subject->offsets[subject->offset_count++] = offset;
}

/* Whether the record at an offset has the code of the United States. It is read once a record. */
static int is_american(struct subject *subject, uint32_t offset) {
    static const char *const path[] = {"country", "iso_code", NULL};
    enum { UNKNOWN, AMERICAN, OTHER };
    if (subject->met[offset] == UNKNOWN) {
        MMDB_entry_s entry = {&subject->database, offset};
        MMDB_entry_data_s data;
        int found = MMDB_aget_value(&entry, &data, path) == MMDB_SUCCESS && data.has_data;
        found = found && data.data_size == 2 && memcmp(data.utf8_string, "US", 2) == 0;
        subject->met[offset] = found ? AMERICAN : OTHER;
    }
    return subject->met[offset] == AMERICAN;
}

/* What is done with an offset that a walk comes to. */
enum use { COUNT, NOTE, COUNT_AMERICAN };

/* A subtree that is still to be walked. */
struct position {
    uint64_t record;
    unsigned __int128 address;
    int prefix;
};

/* How many networks have data, or are of the United States, the other ways into the IPv4 networks passed by. */
static uint64_t walk(struct subject *subject, enum use use) {
    MMDB_s *database = &subject->database;
    struct position stack[300];
    int depth = 0, bits = database->metadata.ip_version == 6 ? 128 : 32;
    uint32_t start = ipv4_start(database), nodes = database->metadata.node_count;
    uint64_t sum = 0;
    stack[depth++] = (struct position){0, 0, 0};
    while (depth) {
        struct position at = stack[--depth];
        if (bits == 128 && start != 0 && at.record == start && at.address >> 32 != 0) continue;
        if (at.record == nodes) continue;
        if (at.record > nodes) {
            uint32_t offset = (uint32_t)(at.record - nodes - 16);
            if (use == NOTE) note(subject, offset);
            sum += use != COUNT_AMERICAN || is_american(subject, offset);
            continue;
        }
        MMDB_search_node_s halves;
        if (at.prefix >= bits || MMDB_read_node(database, (uint32_t)at.record, &halves) != MMDB_SUCCESS)
            fail("a node can't be read");
        unsigned __int128 right = at.address | (unsigned __int128)1 << (bits - 1 - at.prefix);
        stack[depth++] = (struct position){halves.right_record, right, at.prefix + 1};
        stack[depth++] = (struct position){halves.left_record, at.address, at.prefix + 1};
    }
    return sum;
}

static uint64_t networks_walk(struct subject *subject) { return walk(subject, COUNT); }

static uint64_t networks_walk_country(struct subject *subject) {
    memset(subject->met, 0, subject->database.data_section_size + 1);
    return walk(subject, COUNT_AMERICAN);
}

static uint64_t check(struct subject *subject) {
    uint64_t sum = 0;
    memset(subject->met, 0, subject->database.data_section_size + 1);
    subject->offset_count = 0;
    walk(subject, NOTE);
    for (size_t i = 0; i < subject->offset_count; i++) {
        MMDB_entry_s entry = {&subject->database, subject->offsets[i]};
        MMDB_entry_data_list_s *list = NULL;
        if (MMDB_get_entry_data_list(&entry, &list) == MMDB_SUCCESS) sum++;
        MMDB_free_entry_data_list(list);
    }
    return sum;
}

/* --- the figures --- */

static double now(void) {
    struct timespec time;
    clock_gettime(CLOCK_MONOTONIC, &time);
    return time.tv_sec + time.tv_nsec / 1e9;
}

static int compare(const void *left, const void *right) {
    double a = *(const double *)left, b = *(const double *)right;
    return (a > b) - (a < b);
}

/* Runs the work so many times, and prints the best and the median: a rate where it looks `lookups` addresses
 * up, else milliseconds. */
static void show(const char *name, size_t lookups, int repeats, uint64_t (*work)(struct subject *),
                 struct subject *subject) {
    double *seconds = room(repeats, sizeof *seconds);
    uint64_t sum = 0;
    for (int i = 0; i < repeats; i++) {
        double start = now();
        sum = work(subject);
        seconds[i] = now() - start;
    }
    qsort(seconds, repeats, sizeof *seconds, compare);
    double best = seconds[0], median = seconds[repeats / 2];
    if (lookups > 0)
        printf("%s\t%.0f\t%.0f\t/s\t%llu\n", name, lookups / best, lookups / median, (unsigned long long)sum);
    else
        printf("%s\t%.3f\t%.3f\tms\t%llu\n", name, best * 1e3, median * 1e3, (unsigned long long)sum);
    free(seconds);
}

int main(int argc, char **argv) {
    struct subject subject = {0};
    if (argc != 4 || atol(argv[2]) < 1 || atoi(argv[3]) < 1) {
        fprintf(stderr, "usage: bench FILE N REPEATS\n");
        return 2;
    }
    int repeats = atoi(argv[3]);
    subject.file = argv[1];
    subject.count = atol(argv[2]);
    subject.fewer = subject.count / 5 > 0 ? subject.count / 5 : 1;
    int status = MMDB_open(subject.file, MMDB_MODE_MMAP, &subject.database);
    if (status != MMDB_SUCCESS) fail(MMDB_strerror(status));
    make_addresses(&subject);
    subject.met = room(subject.database.data_section_size, 1);
    subject.offsets = room(subject.database.data_section_size, sizeof *subject.offsets);
    printf("# what\tbest\tmedian\tunit\tchecksum\n");
    show("load_file", 0, repeats, load_file, &subject);
    show("lookup_v4", subject.count, repeats, lookup_ipv4, &subject);
    show("lookup_v4_network", subject.count, repeats, lookup_ipv4_network, &subject);
    if (subject.database.metadata.ip_version == 6)
        show("lookup_v6", subject.count, repeats, lookup_ipv6, &subject);
    show("lookup_path_iso_code", subject.fewer, repeats, lookup_path, &subject);
    show("lookup_nine_paths", subject.fewer, repeats, lookup_nine_paths, &subject);
    show("lookup_decode_value", subject.fewer, repeats, decode_value, &subject);
    show("networks_walk", 0, repeats, networks_walk, &subject);
    show("networks_walk_country", 0, repeats, networks_walk_country, &subject);
    show("check", 0, repeats, check, &subject);
    return 0;
}
