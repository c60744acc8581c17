/* Prints the types of an assembly, each with its row and the number of its fields and methods: types FILE */
#include "../clim.h"

#include <stdio.h>
#include <stdlib.h>

/* The bytes of a file, which the caller frees; NULL if it cannot be read. */
static uint8_t *read_file(const char *path, size_t *len) {
    FILE *file = fopen(path, "rb");
    if (file == NULL) return NULL;
    size_t room = 1 << 16;
    uint8_t *bytes = malloc(room);
    *len = 0;
    while (bytes != NULL) {
        *len += fread(bytes + *len, 1, room - *len, file);
        if (*len < room) break;
        room *= 2;
        uint8_t *more = realloc(bytes, room);
        if (more == NULL) free(bytes);
        bytes = more;
    }
    fclose(file);
    return bytes;
}

/* The number of rows of a table that a type owns. */
static uint32_t owned(const clim_view *view, uint32_t row, uint8_t member) {
    uint32_t first = 0, past = 0;
    return clim_members(view, CLIM_TYPE_DEF, row, member, &first, &past) ? past - first : 0;
}

int main(int count, char **words) {
    if (count != 2) {
        fprintf(stderr, "types FILE\n");
        return 2;
    }
    size_t len;
    uint8_t *file = read_file(words[1], &len);
    if (file == NULL) {
        fprintf(stderr, "error: cannot read %s\n", words[1]);
        return 3;
    }
    clim_view view = CLIM_CLOSED;
    clim_fault fault = CLIM_NO_FAULT;
    if (!clim_open(file, len, &view, &fault)) {
        clim_bytes name = CLIM_NO_BYTES;
        clim_fault_name(fault.code, &name);
        fprintf(stderr, "fault %u %u at %llu: %.*s\n", fault.layer, fault.code, (unsigned long long)fault.offset,
                (int)name.len, (const char *)name.at);
        free(file);
        return 1;
    }
    clim_cell name = CLIM_NO_CELL, space = CLIM_NO_CELL;
    for (uint32_t row = 1; row <= clim_count(&view, CLIM_TYPE_DEF); row++) {
        if (!clim_cell_at(&view, CLIM_TYPE_DEF, row, 1, &name)) break;
        if (!clim_cell_at(&view, CLIM_TYPE_DEF, row, 2, &space)) break;
        printf("%u %.*s%s%.*s %u %u\n", row, (int)space.bytes.len, (const char *)space.bytes.at,
               space.bytes.len > 0 ? "." : "", (int)name.bytes.len, (const char *)name.bytes.at,
               owned(&view, row, CLIM_FIELD), owned(&view, row, CLIM_METHOD_DEF));
    }
    free(file);
    return 0;
}
