/* Lists the types of a file, by their own names, with their fields and methods: members <FILE */
#include <clim.h>
#include <stdio.h>
int main(void) {
    static uint8_t file[1 << 26], members[] = {CLIM_FIELD, CLIM_METHOD_DEF}, names[] = {CLIM_FIELD_NAME, CLIM_METHOD_DEF_NAME};
    clim_view view = CLIM_CLOSED;
    clim_cell it = CLIM_NO_CELL;
    if (!clim_open(file, fread(file, 1, sizeof file, stdin), &view, &(clim_fault)CLIM_NO_FAULT)) return 1;
    for (uint32_t type = 1, row = 1, past = 1; clim_cell_at(&view, CLIM_TYPE_DEF, type, CLIM_TYPE_DEF_TYPE_NAME, &it); type++) {
        printf("%.*s\n", (int)it.bytes.len, (const char *)it.bytes.at);
        for (int i = 0; i < 2; i++)
            for (clim_members(&view, CLIM_TYPE_DEF, type, members[i], &row, &past); row < past; row++)
                if (clim_cell_at(&view, members[i], row, names[i], &it)) printf("  %.*s\n", (int)it.bytes.len, (const char *)it.bytes.at);
    }
}
