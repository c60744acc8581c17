/* Writes the metadata root of a type with two methods, which is samples/greeter.root: greeter >ROOT */
#include <clim.h>
#include <stdio.h>

#define BYTES(text) {(const uint8_t *)text, sizeof text - 1}
#define NUMBER(value) {CLIM_NO_BYTES, value, CLIM_NUMBER, 0, {0}}
#define TEXT(text) {BYTES(text), 0, CLIM_TEXT, 0, {0}}
#define SIGNATURE(blob) {BYTES(blob), 0, CLIM_SIGNATURE, 0, {0}}
#define START(row) {CLIM_NO_BYTES, row, CLIM_START, 0, {0}}
#define NULL_ROW {CLIM_NO_BYTES, 0, CLIM_NULL_ROW, 0, {0}}

static const clim_cell types[][6] = {
    /* Flags, TypeName, TypeNamespace, Extends, FieldList, MethodList */
    {NUMBER(0), TEXT("<Module>"), TEXT(""), NULL_ROW, START(1), START(1)},
    {NUMBER(0x100001), TEXT("Greeter"), TEXT("Hello"), NULL_ROW, START(1), START(1)},
};
static const clim_cell methods[][6] = {
    /* RVA, ImplFlags, Flags, Name, Signature, ParamList */
    {NUMBER(0), NUMBER(0), NUMBER(0x1886), TEXT(".ctor"), SIGNATURE("\x20\x00\x01"), START(1)},
    {NUMBER(0), NUMBER(0), NUMBER(0x0096), TEXT("Greet"), SIGNATURE("\x00\x02\x0E\x0E\x08"), START(1)},
};
static const clim_cell params[][3] = {
    /* Flags, Sequence, Name */
    {NUMBER(0), NUMBER(1), TEXT("name")},
    {NUMBER(0), NUMBER(2), TEXT("times")},
};
static const clim_row rows[] = {
    {types[0], 6, CLIM_TYPE_DEF},     {types[1], 6, CLIM_TYPE_DEF}, {methods[0], 6, CLIM_METHOD_DEF},
    {methods[1], 6, CLIM_METHOD_DEF}, {params[0], 3, CLIM_PARAM},   {params[1], 3, CLIM_PARAM},
};

int main(void) {
    static uint8_t root[1 << 12];
    clim_bytes version = BYTES("v4.0.30319"), user = CLIM_NO_BYTES;
    clim_refusal refusal = CLIM_NO_REFUSAL;
    size_t len = clim_tables(version.at, version.len, user.at, user.len, rows, sizeof rows / sizeof *rows, root, sizeof root,
                             &refusal);
    if (len == 0) fprintf(stderr, "rule %u at %02X %u %zu\n", refusal.code, refusal.table, refusal.row, refusal.column);
    if (len == 0 || len > sizeof root) return 1;
    return fwrite(root, 1, len, stdout) != len;
}
