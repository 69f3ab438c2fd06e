/* Checks a database file, then reads one row of its first table.
 *
 *     counter FILE ROW
 *
 * The schema is itself a table, at page 1: its row 1 describes the first table, and that row's fourth column is the table's root page. */
#include <inttypes.h>
#include <stdio.h>
#include <stdlib.h>

#include "urkibasko.h"

enum { LEAST_PAGE = 512, MOST_PAYLOAD = 65536 };

static uint8_t record[MOST_PAYLOAD];

static uint8_t *read_file(const char *name, size_t *length) {
    FILE *file = fopen(name, "rb");
    if (!file || fseek(file, 0, SEEK_END)) return NULL;
    long size = ftell(file);
    if (size < 0) return NULL;
    rewind(file);
    uint8_t *bytes = malloc((size_t)size + 1);
    if (!bytes || fread(bytes, 1, (size_t)size, file) != (size_t)size) return NULL;
    fclose(file);
    *length = (size_t)size;
    return bytes;
}

/* Fetches the record of a row: its length, or 0 where there is none. */
static uint32_t fetch(const uint8_t *image, size_t length, uint32_t root, int64_t row) {
    urk_found found = urk_lookup(image, length, root, row);
    if (found.refusal || !found.found) return 0;
    urk_payload payload = urk_payload_fetch(image, length, found.page, found.cell, record, sizeof record);
    return payload.refusal ? 0 : payload.length;
}

static void print_column(urk_column column) {
    switch (column.kind) {
    case URK_INTEGER: printf("%" PRId64, column.integer); break;
    case URK_REAL: printf("%g", column.real); break;
    case URK_TEXT: printf("%.*s", (int)column.length, (const char *)record + column.place); break;
    case URK_BLOB: printf("blob of %" PRIu64 " bytes", column.length); break;
    default: printf("null");
    }
}

int main(int count, char **words) {
    size_t length;
    uint8_t *image = count == 3 ? read_file(words[1], &length) : NULL;
    if (!image) {
        fprintf(stderr, "usage: counter FILE ROW\n");
        return 2;
    }

    /* The ledgers: an entry a page. */
    size_t most = length / LEAST_PAGE;
    uint8_t *kinds = malloc(most + 1);
    uint32_t *namers = malloc((most + 1) * sizeof *namers);
    uint32_t *steps = malloc((most + 1) * sizeof *steps);
    if (!kinds || !namers || !steps) return 2;

    urk_verdict verdict = urk_check(image, length, kinds, most, namers, most, steps, most);
    if (verdict.refusal) {
        printf("refused %" PRIu32 " page %" PRIu32 "\n", verdict.refusal, verdict.page);
        return 1;
    }
    printf("accepted pages %" PRIu32 "\n", verdict.pages);

    uint32_t size = fetch(image, length, 1, 1);
    urk_column root = urk_record_column(record, size, 4);
    if (!size || root.kind != URK_INTEGER) {
        printf("no table\n");
        return 1;
    }

    size = fetch(image, length, (uint32_t)root.integer, strtoll(words[2], NULL, 10));
    if (!size) {
        printf("no such row\n");
        return 1;
    }
    uint64_t columns = urk_record_columns(record, size).count;
    for (uint64_t i = 1; i <= columns; i++) {
        printf(i > 1 ? " | " : "");
        print_column(urk_record_column(record, size, i));
    }
    printf("\n");
    free(steps);
    free(namers);
    free(kinds);
    free(image);
    return 0;
}
