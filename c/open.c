/* Opening, verifying and closing. */
#define _GNU_SOURCE
#include "shim.h"
#include <errno.h>
#include <fcntl.h>
#include <stdlib.h>
#include <string.h>
#include <sys/mman.h>
#include <sys/stat.h>
#include <unistd.h>

#define MARKER_LEN 14

static int map_descriptor(int fd, const uint8_t **bytes, size_t *len) {
    struct stat s;
    if (fstat(fd, &s)) return MMDB_FILE_OPEN_ERROR;
    if (s.st_size < 0 || (uint64_t)s.st_size > UINT32_MAX) {
        errno = EFBIG;
        return MMDB_IO_ERROR;
    }
    void *p = mmap(NULL, (size_t)s.st_size, PROT_READ, MAP_SHARED, fd, 0);
    if (p == MAP_FAILED) return errno == ENOMEM ? MMDB_OUT_OF_MEMORY_ERROR : MMDB_IO_ERROR;
    *bytes = p;
    *len = (size_t)s.st_size;
    return MMDB_SUCCESS;
}

int map_file(const char *name, const uint8_t **bytes, size_t *len) {
    int fd = open(name, O_RDONLY | O_CLOEXEC);
    if (fd < 0) return MMDB_FILE_OPEN_ERROR;
    int status = map_descriptor(fd, bytes, len), saved = errno;
    close(fd);
    errno = saved;
    return status;
}

static int verify_by(const char *filename, uint32_t (*verify)(const uint8_t *, size_t)) {
    const uint8_t *bytes;
    size_t len;
    int status = map_file(filename, &bytes, &len);
    if (status) return status;
    status = (int)verify(bytes, len);
    munmap((void *)bytes, len);
    return status;
}

int mmdb_verify(const char *filename) {
    return verify_by(filename, mmdb_c_verify);
}

int mmdb_verify_records(const char *filename) {
    return verify_by(filename, mmdb_c_verify_records);
}

/* The tables as the proved reader has them: that of IPv4, and that of IPv6 where the database has one. */
static void lend_tables(struct mmdb_c_db *db, const struct table *tables, bool has_ipv6) {
    const struct table *ipv6 = has_ipv6 ? &tables[1] : tables;
    db->ipv4_numbers = tables->numbers;
    db->ipv4_depths = tables->depths;
    db->ipv6_numbers = ipv6->numbers;
    db->ipv6_depths = ipv6->depths;
    db->ipv4_numbers_len = db->ipv4_depths_len = MMDB_C_TABLE;
    db->ipv6_numbers_len = db->ipv6_depths_len = has_ipv6 ? MMDB_C_TABLE : 0;
}

/* Lets the proved reader fill the tables. One that it leaves as it is stays zero. An IPv4 database keeps one of them. */
static int open_bytes(struct state *s, const MMDB_s *m) {
    struct mmdb_c_db *db = &s->db;
    struct table *both = s->tables = calloc(2, sizeof *both);
    if (!both) return MMDB_OUT_OF_MEMORY_ERROR;
    int status = (int)mmdb_c_open(m->file_content, (size_t)m->file_size, both[0].numbers, MMDB_C_TABLE, both[0].depths,
                                  MMDB_C_TABLE, both[1].numbers, MMDB_C_TABLE, both[1].depths, MMDB_C_TABLE,
                                  &db->facts);
    if (status) return status;
    db->file = m->file_content;
    db->file_len = (size_t)m->file_size;
    bool has_ipv6 = db->facts.ip_version == 6;
    if (!has_ipv6) {
        struct table *one = realloc(both, sizeof *one);
        if (one) s->tables = one;
    }
    lend_tables(db, s->tables, has_ipv6);
    return MMDB_SUCCESS;
}

static void fill_numbers(MMDB_s *m, const struct mmdb_c_facts *f) {
    m->data_section = m->file_content + f->data_start;
    m->data_section_size = (uint32_t)(f->marker - f->data_start);
    m->metadata_section = m->file_content + f->marker + MARKER_LEN;
    m->metadata_section_size = (uint32_t)((size_t)m->file_size - f->marker - MARKER_LEN);
    m->full_record_byte_size = f->record_size / 4;
    m->depth = f->ip_version == 4 ? 32 : 128;
    if (f->ip_version == 6) {
        m->ipv4_start_node.netmask = f->ipv4_depth;
        m->ipv4_start_node.node_value = (uint32_t)f->ipv4_start;
    }
    m->metadata.node_count = (uint32_t)f->node_count;
    m->metadata.record_size = f->record_size;
    m->metadata.ip_version = f->ip_version;
    m->metadata.binary_format_major_version = f->major_version;
    m->metadata.binary_format_minor_version = f->minor_version;
    m->metadata.build_epoch = f->build_epoch;
}

static int open_into(MMDB_s *m, const char *filename) {
    size_t len = strlen(filename) + 1;
    struct state *s = calloc(1, sizeof *s + len);
    if (!s) return MMDB_OUT_OF_MEMORY_ERROR;
    memcpy(s->name, filename, len);
    m->filename = s->name;
    size_t size;
    int status = map_file(filename, &m->file_content, &size);
    if (status) return status;
    m->file_size = (ssize_t)size;
    if ((status = open_bytes(s, m))) return status;
    fill_numbers(m, &s->db.facts);
    return fill_texts(m);
}

int MMDB_open(const char *const filename, uint32_t flags, MMDB_s *const m) {
    memset(m, 0, sizeof *m);
    m->flags = (flags & MMDB_MODE_MASK) ? flags : flags | MMDB_MODE_MMAP;
    int status = open_into(m, filename);
    if (status) {
        int saved = errno;
        MMDB_close(m);
        errno = saved;
    }
    return status;
}

void MMDB_close(MMDB_s *const m) {
    if (!m) return;
    if (m->filename) {
        struct state *s = (struct state *)state_of(m);
        free(s->tables);
        free(s);
        m->filename = NULL;
    }
    if (m->file_content) munmap((void *)m->file_content, (size_t)m->file_size);
    m->file_content = NULL;
    free_texts(&m->metadata);
}

const char *MMDB_lib_version(void) { return "1.7.1"; }

const char *mmdb_lib_version(void) { return "0.1.0"; }
