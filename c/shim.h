/* What the files of the shim share. The shim reads no byte of a database: it maps the file, hands pointers and
 * lengths to the proved exports, and copies numbers. */
#ifndef SHIM_H
#define SHIM_H
#include "mmdb_c.h"
#include <stddef.h>

/* Only what these two headers declare is seen from outside. */
#pragma GCC visibility push(default)
#include "mmdb.h"
#include <maxminddb.h>
#pragma GCC visibility pop

/* Where the first sixteen bits of addresses lead: numbers of the tree, and after how many bits each is reached. */
struct table {
    uint32_t numbers[MMDB_C_TABLE];
    uint8_t depths[MMDB_C_TABLE];
};

/* What belongs to an MMDB_s, which is the caller's and may not grow: `filename` points into it. */
struct state {
    struct mmdb_c_db db;
    struct table *tables;
    char name[];
};

static inline const struct state *state_of(const MMDB_s *mmdb) {
    return (const struct state *)(mmdb->filename - offsetof(struct state, name));
}

/* Maps a file for reading: MMDB_SUCCESS, or why not, with errno as the failing call left it. */
int map_file(const char *name, const uint8_t **bytes, size_t *len);

/* Fills the texts of the metadata, and frees them. */
int fill_texts(MMDB_s *mmdb);
void free_texts(MMDB_metadata_s *metadata);

/* The metadata section in the place of the data section. */
MMDB_s metadata_as_data(const MMDB_s *mmdb);
#endif
