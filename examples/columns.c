/*
 * Two records as a spreadsheet opens them: first a row for each, with TAB between UID and timer; then a column for each, with TAB as
 * end. It needs the host side alone; ./lib at the root builds that, and by hand:
 *     cc -Wall -Wextra -Iinclude examples/columns.c target/staticlib/libhost_c.a -o columns && ./columns > sheet.tsv
 */
#include <stdio.h>

#include "depot.h"

/* The data of a reply to DEPOT_READ_RECORDS. */
static const uint8_t sent[2 + 2 * DEPOT_RECORD_SIZE] = {
    0, 2,
    0xE0, 0x07, 0x00, 0x00, 0x01, 0x64, 0x5E, 0x37, 1, 2, 0x03, 0xE8, 0x01,
    0xFE, 0xDC, 0xBA, 0x98, 0x76, 0x54, 0x32, 0x10, 1, 2, 0x04, 0x4C, 0x02,
};

/* Block 7 shapes a line. Hex digits; then TAB between UID and timer, and LF; or a comma between them, and TAB. */
static const uint8_t rows[DEPOT_BLOCK_SIZE] = { 2, 0x08, 0, 0x02 };
static const uint8_t columns[DEPOT_BLOCK_SIZE] = { 2, 0x20, 0, 0x08 };

static int print(const uint8_t *block)
{
    uint8_t text[128];
    uint64_t wrote = depot_lines(block, DEPOT_BLOCK_SIZE, sent, sizeof sent, text, sizeof text);
    if (DEPOT_REFUSED(wrote)) {
        fprintf(stderr, "lines: refused %d\n", (int)wrote);
        return 1;
    }
    fwrite(text, 1, DEPOT_LENGTH(wrote), stdout);
    return 0;
}

int main(void)
{
    int failed = print(rows) || print(columns);
    putchar('\n');
    return failed;
}
