/* What `mmdb enrich` does with tabs, over libmaxminddb: the country's code behind each line of standard input.
 *
 *     enrich FILE < lines > lines */
#include <maxminddb.h>
#include <stdio.h>
#include <stdlib.h>
#include <string.h>

static const char *const path[] = {"country", "iso_code", NULL};

int main(int argc, char **argv) {
    MMDB_s database;
    if (argc != 2 || MMDB_open(argv[1], MMDB_MODE_MMAP, &database) != MMDB_SUCCESS) {
        fprintf(stderr, "no database\n");
        return 1;
    }
    static char read_buffer[1 << 16], write_buffer[1 << 16];
    setvbuf(stdin, read_buffer, _IOFBF, sizeof read_buffer);
    setvbuf(stdout, write_buffer, _IOFBF, sizeof write_buffer);
    char *line = NULL;
    size_t room = 0;
    ssize_t length;
    while ((length = getline(&line, &room, stdin)) > 0) {
        size_t text = (size_t)length;
        int has_end = text > 0 && line[text - 1] == '\n';
        if (has_end)
            text--;
        if (text > 0 && has_end && line[text - 1] == '\r')
            text--;
        char address[64];
        const char *tab = memchr(line, '\t', text);
        size_t cell = tab ? (size_t)(tab - line) : text;
        int not_text = 1, fault = MMDB_SUCCESS;
        MMDB_entry_data_s value = {0};
        if (cell < sizeof address) {
            memcpy(address, line, cell);
            address[cell] = 0;
            MMDB_lookup_result_s found = MMDB_lookup_string(&database, address, &not_text, &fault);
            if (!not_text && fault == MMDB_SUCCESS && found.found_entry
                && MMDB_aget_value(&found.entry, &value, path) != MMDB_SUCCESS)
                value.has_data = 0;
        }
        fwrite(line, 1, text, stdout);
        putchar('\t');
        if (value.has_data && value.type == MMDB_DATA_TYPE_UTF8_STRING)
            fwrite(value.utf8_string, 1, value.data_size, stdout);
        fwrite(line + text, 1, (size_t)length - text, stdout);
    }
    free(line);
    MMDB_close(&database);
    return fflush(stdout) == 0 ? 0 : 1;
}
