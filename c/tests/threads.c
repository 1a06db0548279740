/* threads FILE: eight threads look up the same addresses in one open database, and read their records. Each is to
 * find what the first one finds. */
#define _GNU_SOURCE
#include <maxminddb.h>
#include <pthread.h>
#include <stdio.h>

#define THREADS 8
#define LOOKUPS 4000

struct work {
    const MMDB_s *mmdb;
    uint64_t sum;
    uint64_t found;
};

static void *look_up_all(void *given) {
    struct work *work = given;
    for (unsigned i = 0; i < LOOKUPS; i++) {
        char text[64];
        int gai, error = 0;
        unsigned a = i * 2654435761u;
        snprintf(text, sizeof text, i % 2 ? "%u.2.69.%u" : "2001:%x::%x", i % 2 ? a >> 24 : a >> 20, a >> 8 & 255);
        MMDB_lookup_result_s r = MMDB_lookup_string(work->mmdb, text, &gai, &error);
        work->sum = work->sum * 31 + r.netmask + r.entry.offset + (unsigned)error;
        if (!r.found_entry) continue;
        MMDB_entry_data_list_s *list = NULL;
        MMDB_entry_data_s data;
        int status = MMDB_get_entry_data_list(&r.entry, &list);
        for (MMDB_entry_data_list_s *at = list; !status && at; at = at->next) work->sum += at->entry_data.offset;
        MMDB_free_entry_data_list(list);
        work->sum += (unsigned)MMDB_get_value(&r.entry, &data, "country", "iso_code", NULL) + data.offset;
        work->found++;
    }
    return NULL;
}

int main(int argc, char **argv) {
    MMDB_s m;
    if (argc != 2 || MMDB_open(argv[1], 0, &m)) return 2;
    struct work work[THREADS] = {{0}};
    pthread_t threads[THREADS];
    for (int i = 0; i < THREADS; i++) {
        work[i].mmdb = &m;
        if (pthread_create(&threads[i], NULL, look_up_all, &work[i])) return 2;
    }
    int differ = 0;
    for (int i = 0; i < THREADS; i++) {
        pthread_join(threads[i], NULL);
        differ += work[i].sum != work[0].sum || work[i].found != work[0].found;
    }
    MMDB_close(&m);
    printf("%d threads, %d lookups each, %lu found, %d differ\n", THREADS, LOOKUPS, (unsigned long)work[0].found,
           differ);
    return differ != 0;
}
