/* Renames the types of a file that have a name, and writes the copy: rename OLD NEW <FILE >COPY
 *
 * It gives the rows of the file to clim_tables, with other names, and puts the root that they make into a copy of the file. */
#include <clim.h>
#include <stdio.h>
#include <stdlib.h>
#include <string.h>

enum { MOST = 1 << 26 };

/* The cells and the rows of a view, in the order of the tables. Returns the number of rows. */
static size_t read_rows(const clim_view *view, clim_cell *cells, clim_row *rows) {
    size_t count = 0;
    for (unsigned table = 0; table < 256; table++) {
        size_t columns = clim_cell_count((uint8_t)table);
        for (uint32_t row = 1; row <= clim_count(view, (uint8_t)table); row++, cells += columns) {
            for (size_t column = 0; column < columns; column++) {
                cells[column] = (clim_cell)CLIM_NO_CELL;
                clim_cell_at(view, (uint8_t)table, row, column, &cells[column]);
            }
            rows[count++] = (clim_row){cells, columns, (uint8_t)table};
        }
    }
    return count;
}

static int fail(const char *text) {
    fprintf(stderr, "rename: %s\n", text);
    return 1;
}

int main(int count, char **words) {
    static uint8_t file[MOST], root[MOST], copy[MOST], user[MOST];
    if (count != 3) return fail("rename OLD NEW <FILE >COPY");
    size_t size = fread(file, 1, sizeof file, stdin), names = 0, rows_count = 0, cells_count = 0;
    clim_view view = CLIM_CLOSED;
    clim_fault fault = CLIM_NO_FAULT;
    clim_refusal refusal = CLIM_NO_REFUSAL;
    if (!clim_open(file, size, &view, &fault)) return fail("the file breaks a rule");
    for (unsigned table = 0; table < 256; table++) {
        rows_count += clim_count(&view, (uint8_t)table);
        cells_count += clim_count(&view, (uint8_t)table) * clim_cell_count((uint8_t)table);
    }
    clim_cell *cells = malloc((cells_count + 1) * sizeof *cells);
    clim_row *rows = malloc((rows_count + 1) * sizeof *rows);
    if (cells == NULL || rows == NULL) return fail("out of memory");
    rows_count = read_rows(&view, cells, rows);
    for (size_t i = 0; i < rows_count; i++) {
        if (rows[i].table != CLIM_TYPE_DEF) continue;
        clim_bytes *name = &cells[rows[i].cells - cells + CLIM_TYPE_DEF_TYPE_NAME].bytes;
        if (name->len != strlen(words[1]) || memcmp(name->at, words[1], name->len) != 0) continue;
        *name = (clim_bytes){(const uint8_t *)words[2], strlen(words[2])};
        names++;
    }
    clim_bytes version = CLIM_NO_BYTES, strings = CLIM_NO_BYTES;
    clim_version(&view, &version);
    clim_user(&view, &strings);
    /* Zeros follow them up to a multiple of four. */
    memcpy(user, strings.at, strings.len);
    size_t root_len = clim_tables(version.at, version.len, user, (strings.len + 3) / 4 * 4, rows, rows_count, root, sizeof root,
                                  &refusal);
    free(rows);
    free(cells);
    if (root_len == 0 || root_len > sizeof root) return fail("no root");
    size_t len = clim_embed(file, size, root, root_len, CLIM_KEEP_STRONG_NAME, copy, sizeof copy, &fault);
    if (len == 0 || len > sizeof copy) return fail("no copy");
    fprintf(stderr, "%zu types renamed\n", names);
    return fwrite(copy, 1, len, stdout) != len;
}
