/* Viedolive's additions to libmaxminddb's interface (maxminddb.h), and what a program promises that uses either.
 *
 * The reader is proved for bytes that stay as they are. So, while a database is open or is being verified:
 *  - No one writes to the file or cuts it. A new version is written beside it and takes its name by rename(2); the
 *    open database goes on with the old bytes, and is then closed and opened anew. A mapped file that is cut ends
 *    the process by SIGBUS, as it does with libmaxminddb.
 *  - No field of MMDB_s is changed, nor what it points to, and none is used after MMDB_close.
 *  - Pointers that are handed in are not null; an MMDB_entry_s comes from a lookup, from MMDB_read_node, or has an
 *    open database and any offset.
 *  - MMDB_open, mmdb_verify and mmdb_verify_records allocate: not in a signal handler, nor in a forked child of a process with threads.
 * Any number of threads may look up and read values in one open database at once. */
#ifndef VIEDOLIVE_MMDB_H
#define VIEDOLIVE_MMDB_H
#include <maxminddb.h>
#include <stddef.h>
#include <sys/socket.h>
#ifdef __cplusplus
extern "C" {
#endif

/* Whether a file is a whole database: its metadata are valid, no network's leaf leads outside the data section, the
 * separator is zero, and the values of all networks end and have valid texts. 0 (MMDB_SUCCESS) where it is; else a
 * status code of maxminddb.h says why not. So a damaged update can be rejected before it is opened. A whole file may still
 * have records that can't be read: of a value with a pointer to a pointer, or of more than 65,536 parts, there is no list,
 * and a path fails where it passes a key that is no text or that a pointer to a pointer leads to. */
extern int mmdb_verify(const char *filename);

/* The same, and whether each record can be read: what a daemon asks of a download before it takes it. 0 (MMDB_SUCCESS) where
 * the file is whole and no record has what mmdb_verify leaves open; else a status code says why not. It takes longer. */
extern int mmdb_verify_records(const char *filename);

/* Looks up many addresses at once. Each has in its place of `results` what MMDB_lookup_sockaddr returns for it, and in
 * its place of `errors` the status code; one that fails stops no other. The lookups of 64 addresses go on side by side,
 * so that none waits for what another one reads: faster where the search tree is larger than the processor's caches. */
extern void mmdb_lookup_many(const MMDB_s *mmdb, const struct sockaddr *const *addresses, size_t count,
                             MMDB_lookup_result_s *results, int *errors);

/* The version of this library, as "0.1.0". MMDB_lib_version says which libmaxminddb's interface it has. */
extern const char *mmdb_lib_version(void);

#ifdef __cplusplus
}
#endif
#endif
