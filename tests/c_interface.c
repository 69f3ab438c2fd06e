/* What the C header promises beside answers: NULL with length 0, names and texts, and how much stack each function takes.
 * The stack is measured: each call runs on a stack of its own that was painted before, over images with trees of 20 levels. */
#define _GNU_SOURCE
#include <pthread.h>
#include <stdio.h>
#include <stdlib.h>
#include <string.h>
#include <sys/mman.h>

#include "urkibasko.h"

enum { STACK = 4 << 20, PAINT = 0xa5, LEVELS = 20, ROW_PAYLOAD = 5000 };

static uint8_t *image, *side, out[8 << 20];
static size_t image_len, side_len;
static uint8_t kinds[4096];
static uint32_t namers[4096], steps[4096], cursor[URK_CURSOR_WORDS];
static uint32_t page_size;

static void be(uint8_t *at, int bytes, uint64_t value) {
    while (bytes-- > 0) {
        at[bytes] = (uint8_t)value;
        value >>= 8;
    }
}

static uint8_t *page(uint32_t number) { return image + (size_t)(number - 1) * page_size; }

/* Lays cells from the end of a tree page on; each is given with its length. */
static void tree_page(uint32_t number, uint8_t type, uint32_t right, int cells, uint8_t *const *cell, const size_t *length) {
    uint8_t *head = page(number) + (number == 1 ? 100 : 0);
    size_t content = page_size, pointer = (size_t)(head - page(number)) + (right ? 12 : 8);
    for (int i = 0; i < cells; i++) {
        content -= length[i];
        memcpy(page(number) + content, cell[i], length[i]);
        be(page(number) + pointer + 2 * (size_t)i, 2, content);
    }
    head[0] = type;
    be(head + 3, 2, (uint64_t)cells);
    be(head + 5, 2, content == 65536 ? 0 : content);
    if (right)
        be(head + 8, 4, right);
}

/* A schema tree of 20 levels; a table's and an index's, both of 20 levels, the table with a row that runs over a chain. */
static void make_image(uint32_t size) {
    page_size = size;
    uint32_t chain = size == 512 ? 9 : 0, pages = 3 * LEVELS + chain;
    image_len = (size_t)pages * size;
    image = calloc(1, image_len);
    memcpy(image, "SQLite format 3", 16);
    be(image + 16, 2, size == 65536 ? 1 : size);
    image[18] = image[19] = 1;
    image[21] = 64, image[22] = image[23] = 32;
    be(image + 24, 4, 1), be(image + 28, 4, pages), be(image + 92, 4, 1), be(image + 56, 4, 1);
    uint8_t table[] = {7, 1, 6, 0, 0, 0, 1, 0, LEVELS + 1}, index[] = {7, 2, 6, 0, 0, 0, 1, 0, 2 * LEVELS + 1};
    for (uint32_t level = 1; level < LEVELS; level++) {
        tree_page(level, 5, level + 1, 0, 0, 0);
        tree_page(LEVELS + level, 5, LEVELS + level + 1, 0, 0, 0);
        tree_page(2 * LEVELS + level, 2, 2 * LEVELS + level + 1, 0, 0, 0);
    }
    tree_page(LEVELS, 13, 0, 2, (uint8_t *const[]){table, index}, (size_t[]){sizeof table, sizeof index});
    /* One row. With 512-byte pages 428 of its bytes are local, and 4,572 fill a chain of nine pages: its header, of NULLs alone, runs over the chain, so that
     * it is copied together, and into room of its own. Else a record of one blob. */
    static uint8_t row[ROW_PAYLOAD + 16];
    memset(row, 0, sizeof row);
    uint32_t payload = chain ? ROW_PAYLOAD : 200, least = (512 - 12) * 32 / 255 - 23, local = payload;
    if (chain) {
        local = least + (payload - least) % (512 - 4);
        if (local > 512 - 35)
            local = least;
    }
    uint8_t *at = row;
    *at++ = (uint8_t)(0x80 | payload >> 7), *at++ = payload & 127, *at++ = 1;
    uint32_t type = 12 + 2 * (payload - 3);
    if (chain)
        at[0] = (uint8_t)(0x80 | payload >> 7), at[1] = payload & 127;
    else
        at[0] = 3, at[1] = (uint8_t)(0x80 | type >> 7), at[2] = type & 127;
    at += local;
    if (chain)
        be(at, 4, 3 * LEVELS + 1), at += 4;
    tree_page(2 * LEVELS, 13, 0, 1, (uint8_t *const[]){row}, (size_t[]){(size_t)(at - row)});
    /* Two keys that rise: 0 and 1. */
    uint8_t zero[] = {2, 2, 8, 0}, one[] = {2, 2, 9, 0};
    tree_page(3 * LEVELS, 10, 0, 2, (uint8_t *const[]){zero, one}, (size_t[]){4, 4});
    for (uint32_t i = 1; i < chain; i++)
        be(page(3 * LEVELS + i), 4, 3 * LEVELS + i + 1);
}

static uint32_t answer;
static void nothing(void) { answer = 0; }
static uint32_t table[4096];
static void check(void) { answer = urk_check(image, image_len, kinds, 4096, namers, 4096, steps, 4096).refusal; }
static void ledger_write(void) { answer = urk_ledger_write(4096, kinds, 4096, namers, 4096, steps, 4096, out, sizeof out).refusal; }
/* The ledgers of the verdict as they are sent are the proposal. */
static void ledger_check(void) {
    urk_verdict v = urk_check(image, image_len, kinds, 4096, namers, 4096, steps, 4096);
    urk_ledger_written w = urk_ledger_write(v.pages, kinds, 4096, namers, 4096, steps, 4096, out, sizeof out);
    urk_ledger_answer a = urk_ledger_check(image, image_len, out, w.length, kinds, 4096, namers, 4096, steps, 4096);
    answer = v.refusal || w.refusal || w.length != 5 + 9 * (uint64_t)v.pages || !a.yes;
}
static void check_ordered(void) {
    uint32_t names[] = {2 * LEVELS + 1};
    answer = urk_check_ordered(image, image_len, names, 1, kinds, 4096, namers, 4096, steps, 4096).refusal;
}
static void lookup(void) {
    urk_found f = urk_lookup(image, image_len, LEVELS + 1, 1);
    answer = f.refusal || !f.found;
}
static void find(void) {
    urk_found f = urk_find(image, image_len, LEVELS + 1, 1);
    answer = f.refusal || !f.found;
}
static void rows_first(void) {
    urk_row r = urk_rows_first(image, image_len, LEVELS + 1, cursor, URK_CURSOR_WORDS);
    answer = r.refusal || !r.found;
}
static void rows_seek(void) {
    urk_row r = urk_rows_seek(image, image_len, LEVELS + 1, 1, cursor, URK_CURSOR_WORDS);
    answer = r.refusal || !r.found;
}
static void rows_step(void) { answer = urk_rows_step(image, image_len, cursor, URK_CURSOR_WORDS).refusal; }
static void payload_fetch(void) { answer = urk_payload_fetch(image, image_len, 2 * LEVELS, 0, out, sizeof out).refusal; }
static void payload_quick(void) { answer = urk_payload_quick(image, image_len, 2 * LEVELS, 0, out, sizeof out).refusal; }
static void report(void) { answer = urk_report(image, image_len, LEVELS + 1, 1, out, sizeof out).refusal; }
/* With pages of 512 bytes the row has a chain; else it is set. */
static void row_set(void) {
    static uint8_t own[LEVELS + 1];
    own[LEVELS] = URK_KIND_ROOT;
    urk_found f = urk_row_set(image, image_len, own, sizeof own, LEVELS + 1, 1, (const uint8_t *)"\2\11", 2);
    answer = page_size == 512 ? f.refusal != URK_DOES_NOT_FIT || f.page != 2 * LEVELS || f.found : f.refusal || !f.found || f.length != 2;
}
static void log_page(void) { answer = urk_log_page(side, side_len, image, image_len, 2).refusal; }
static void log_fill(void) { answer = urk_log_fill(side, side_len, image, image_len, table, sizeof table / sizeof *table).refusal; }
static void log_page_by(void) {
    urk_filled f = urk_log_fill(side, side_len, image, image_len, table, sizeof table / sizeof *table);
    answer = f.refusal ? f.refusal : urk_log_page_by(side, side_len, image, image_len, table, sizeof table / sizeof *table, f.pages, f.page_size, 2).refusal;
}
static void log_recover(void) { answer = urk_log_recover(side, side_len, image, image_len, out, sizeof out).refusal; }
static void journal_recover(void) { answer = urk_journal_recover(side, side_len, image, image_len, out, sizeof out).refusal; }
static void log_inspect(void) {
    urk_log_summary s = urk_log_inspect(side, side_len);
    answer = s.refusal || s.header || s.in_force != 1 || s.stop != URK_LOG_ENDS;
}
static void journal_inspect(void) {
    urk_journal_summary s = urk_journal_inspect(side, side_len);
    answer = s.refusal || s.header || s.segments != 1 || s.stop != URK_JOURNAL_ENDS;
}
static void journal_super(void) {
    urk_name n = urk_journal_super(side, side_len);
    answer = !n.found || n.start != 512 || n.length != 8;
}
static uint32_t tail[URK_TAIL_WORDS];
static void log_tail(void) {
    urk_tail t = urk_log_tail(side, side_len, tail, URK_TAIL_WORDS);
    answer = t.refusal || t.page_size != page_size || t.frames != 1 || t.pages != image_len / page_size;
}
static void log_begin(void) {
    urk_appended a = urk_log_begin(page_size, 1, 2, 3, tail, URK_TAIL_WORDS, out, sizeof out);
    answer = a.refusal || a.at || a.length != 32;
}
/* The image's first pages behind the log's own commit. */
static void log_append(void) {
    static const uint32_t numbers[] = {1, 2, 3};
    urk_log_tail(side, side_len, tail, URK_TAIL_WORDS);
    urk_appended a = urk_log_append(tail, URK_TAIL_WORDS, numbers, 3, image, 3 * (size_t)page_size, (uint32_t)(image_len / page_size), out, sizeof out);
    answer = a.refusal || a.at != side_len || a.length != 3 * (24 + (uint64_t)page_size) || tail[6] != 4;
}
static int64_t build_rows[URK_BUILD_ROWS];
static uint32_t build_lengths[URK_BUILD_ROWS];
static uint8_t build_payloads[8 * URK_BUILD_ROWS];
static const uint8_t build_schema[] = {6, 15, 15, 15, 1, 15, 't', 't', 't', 2, 'c'};
static urk_built build_into(size_t rows, size_t payloads, size_t room) {
    return urk_build(build_schema, sizeof build_schema, build_rows, rows, build_lengths, rows, build_payloads, payloads, out, room);
}
/* As many rows as there can be, in a tree of two levels. */
static void build(void) {
    for (int i = 0; i < URK_BUILD_ROWS; i++) {
        build_rows[i] = i - 7, build_lengths[i] = 8;
        memcpy(build_payloads + 8 * i, "\2\30sixsix", 8);
    }
    urk_built b = build_into(URK_BUILD_ROWS, sizeof build_payloads, URK_BUILD_MOST);
    answer = b.refusal || b.length != 1024 * (uint64_t)b.pages;
}
static void record_columns(void) { answer = urk_record_columns((const uint8_t *)"\4\0\11\17x", 5).status; }
static void record_column(void) { answer = urk_record_column((const uint8_t *)"\4\0\11\17x", 5, 3).status; }
static void record_order(void) {
    answer = urk_record_order((const uint8_t *)"\3\6\17\0\40\0\0\0\0\0\1x", 12, (const uint8_t *)"\3\7\17\103\100\0\0\0\0\0\0x", 12).order != 1;
}
static void varint_read(void) { answer = !urk_varint_read((const uint8_t *)"\377\377\377\377\377\377\377\377\377", 9).length; }
static void varint_write(void) { answer = !urk_varint_write(-1, out, sizeof out); }

/* As many bytes as the header says. */
static const struct { const char *name; void (*call)(void); size_t most; } calls[] = {
    {"urk_check", check, URK_STACK_CHECK},
    {"urk_ledger_check", ledger_check, URK_STACK_CHECK},
    {"urk_ledger_write", ledger_write, URK_STACK_SMALL},
    {"urk_check_ordered", check_ordered, URK_STACK_CHECK},
    {"urk_lookup", lookup, URK_STACK_READ},
    {"urk_find", find, URK_STACK_READ},
    {"urk_rows_first", rows_first, URK_STACK_READ},
    {"urk_rows_seek", rows_seek, URK_STACK_READ},
    {"urk_rows_step", rows_step, URK_STACK_READ},
    {"urk_payload_fetch", payload_fetch, URK_STACK_READ},
    {"urk_payload_quick", payload_quick, URK_STACK_SMALL},
    {"urk_report", report, URK_STACK_READ},
    {"urk_row_set", row_set, URK_STACK_CHECK},
    {"urk_log_page", log_page, URK_STACK_RECOVER},
    {"urk_log_fill", log_fill, URK_STACK_SMALL},
    {"urk_log_page_by", log_page_by, URK_STACK_SMALL},
    {"urk_log_recover", log_recover, URK_STACK_RECOVER},
    {"urk_journal_recover", journal_recover, URK_STACK_RECOVER},
    {"urk_log_inspect", log_inspect, URK_STACK_SMALL},
    {"urk_journal_inspect", journal_inspect, URK_STACK_RECOVER},
    {"urk_journal_super", journal_super, URK_STACK_SMALL},
    {"urk_log_tail", log_tail, URK_STACK_SMALL},
    {"urk_log_begin", log_begin, URK_STACK_SMALL},
    {"urk_log_append", log_append, URK_STACK_SMALL},
    {"urk_build", build, URK_STACK_BUILD},
    {"urk_record_columns", record_columns, URK_STACK_SMALL},
    {"urk_record_column", record_column, URK_STACK_SMALL},
    {"urk_record_order", record_order, URK_STACK_SMALL},
    {"urk_varint_read", varint_read, URK_STACK_SMALL},
    {"urk_varint_write", varint_write, URK_STACK_SMALL},
};
enum { CALLS = sizeof calls / sizeof *calls };

static void (*running)(void);
static void *run(void *none) {
    running();
    return none;
}

/* The bytes of a fresh stack that a call touches. */
static size_t touched(void (*call)(void)) {
    uint8_t *stack = mmap(0, STACK, PROT_READ | PROT_WRITE, MAP_PRIVATE | MAP_ANONYMOUS, -1, 0);
    pthread_attr_t attributes;
    pthread_t thread;
    if (stack == MAP_FAILED)
        exit(2);
    memset(stack, PAINT, STACK);
    running = call;
    pthread_attr_init(&attributes);
    if (pthread_attr_setstack(&attributes, stack, STACK) || pthread_create(&thread, &attributes, run, 0))
        exit(2);
    pthread_join(thread, 0);
    size_t clean = 0;
    while (clean < STACK && stack[clean] == PAINT)
        clean++;
    munmap(stack, STACK);
    return STACK - clean;
}

static void sums(const uint8_t *at, size_t bytes, uint32_t *s) {
    for (size_t i = 0; i < bytes; i += 8) {
        uint32_t a = (uint32_t)at[i] << 24 | at[i + 1] << 16 | at[i + 2] << 8 | at[i + 3];
        uint32_t b = (uint32_t)at[i + 4] << 24 | at[i + 5] << 16 | at[i + 6] << 8 | at[i + 7];
        s[0] += a + s[1];
        s[1] += b + s[0];
    }
}

/* A log with one frame, a commit of all pages. */
static void make_log(void) {
    uint32_t s[2] = {0, 0};
    side_len = 32 + 24 + page_size;
    side = calloc(1, side_len);
    be(side, 4, 0x377f0683), be(side + 4, 4, 3007000), be(side + 8, 4, page_size);
    sums(side, 24, s);
    be(side + 24, 4, s[0]), be(side + 28, 4, s[1]);
    be(side + 32, 4, 1), be(side + 36, 4, image_len / page_size);
    memcpy(side + 56, image, page_size);
    sums(side + 32, 8, s), sums(side + 56, page_size, s);
    be(side + 48, 4, s[0]), be(side + 52, 4, s[1]);
}

/* A journal without records: the file as it is. It names a super-journal. */
static void make_journal(void) {
    static const char magic[] = "\xd9\xd5\x05\xf9\x20\xa1\x63\xd7", name[] = "/tmp/-mj";
    uint32_t sum = 0;
    side_len = 512 + 8 + 16;
    side = calloc(1, side_len);
    memcpy(side, magic, 8);
    be(side + 16, 4, image_len / page_size), be(side + 20, 4, 512), be(side + 24, 4, page_size);
    for (int i = 0; i < 8; i++)
        side[512 + i] = (uint8_t)name[i], sum += (uint32_t)(int8_t)name[i];
    be(side + 520, 4, 8), be(side + 524, 4, sum);
    memcpy(side + 528, magic, 8);
}

static int failures;
static void expect(int holds, const char *what) {
    if (!holds)
        printf("does not hold: %s\n", what), failures++;
}

/* NULL, where the length is 0, is an empty slice like any other. */
static void nulls(void) {
    expect(urk_varint_read(0, 0).length == 0, "urk_varint_read");
    expect(urk_varint_write(1, 0, 0) == 0, "urk_varint_write");
    expect(urk_record_columns(0, 0).status == 1, "urk_record_columns");
    expect(urk_record_column(0, 0, 1).status == URK_COLUMN_UNREADABLE, "urk_record_column");
    expect(urk_check(0, 0, 0, 0, 0, 0, 0, 0).refusal == URK_SHORT_IMAGE, "urk_check");
    expect(urk_check(image, image_len, 0, 0, 0, 0, 0, 0).refusal == URK_SMALL_LEDGERS, "urk_check, ledgers");
    expect(urk_ledger_check(0, 0, 0, 0, 0, 0, 0, 0, 0, 0).refusal == URK_SHORT_IMAGE, "urk_ledger_check");
    expect(urk_ledger_check(image, image_len, 0, 0, 0, 0, 0, 0, 0, 0).refusal == URK_SMALL_LEDGERS, "urk_ledger_check, ledgers");
    urk_ledger_answer differs = urk_ledger_check(image, image_len, 0, 0, kinds, 4096, namers, 4096, steps, 4096);
    expect(!differs.yes && differs.refusal == URK_OK && differs.page == 0, "urk_ledger_check, proposal");
    expect(urk_ledger_write(0, 0, 0, 0, 0, 0, 0, 0, 0).refusal == URK_SMALL_OUTPUT, "urk_ledger_write, out");
    expect(urk_check_ordered(0, 0, 0, 0, 0, 0, 0, 0, 0, 0).refusal == URK_SHORT_IMAGE, "urk_check_ordered");
    expect(urk_check_ordered(image, image_len, 0, 0, 0, 0, 0, 0, 0, 0).refusal == URK_SMALL_LEDGERS, "urk_check_ordered, ledgers");
    urk_verdict v = urk_check_ordered(image, image_len, 0, 0, kinds, 4096, namers, 4096, steps, 4096);
    expect(v.refusal == URK_OK && v.pages == image_len / page_size, "urk_check_ordered, nothing named");
    expect(urk_record_order(0, 0, 0, 0).status == 1, "urk_record_order");
    expect(urk_record_order((const uint8_t *)"\1", 1, 0, 0).status == 2, "urk_record_order, the second");
    expect(urk_lookup(0, 0, 1, 1).refusal == URK_SHORT_IMAGE, "urk_lookup");
    expect(urk_find(0, 0, 1, 1).refusal == URK_SHORT_IMAGE, "urk_find");
    expect(urk_rows_first(0, 0, 1, 0, 0).refusal == URK_SHORT_IMAGE, "urk_rows_first");
    expect(urk_rows_first(image, image_len, 1, 0, 0).refusal == URK_SMALL_OUTPUT, "urk_rows_first, cursor");
    expect(urk_rows_seek(image, image_len, 1, 1, 0, 0).refusal == URK_SMALL_OUTPUT, "urk_rows_seek, cursor");
    expect(urk_rows_step(image, image_len, 0, 0).refusal == URK_SMALL_OUTPUT, "urk_rows_step, cursor");
    expect(urk_payload_fetch(0, 0, 1, 0, 0, 0).refusal == URK_SHORT_IMAGE, "urk_payload_fetch");
    expect(urk_payload_fetch(image, image_len, 2 * LEVELS, 0, 0, 0).refusal == URK_SMALL_OUTPUT, "urk_payload_fetch, out");
    expect(urk_payload_quick(0, 0, 1, 0, 0, 0).refusal == URK_SHORT_IMAGE, "urk_payload_quick");
    expect(urk_payload_quick(image, image_len, 2 * LEVELS, 0, 0, 0).refusal == URK_SMALL_OUTPUT, "urk_payload_quick, out");
    expect(urk_report(image, image_len, LEVELS + 1, 1, 0, 0).refusal == URK_SMALL_OUTPUT, "urk_report, room");
    expect(urk_row_set(0, 0, 0, 0, 1, 1, 0, 0).refusal == URK_SHORT_IMAGE, "urk_row_set");
    expect(urk_row_set(image, image_len, 0, 0, LEVELS + 1, 1, 0, 0).refusal == URK_NO_TABLE_ROOT, "urk_row_set, kinds");
    expect(urk_row_set(image, image_len, (const uint8_t[LEVELS + 1]){[LEVELS] = URK_KIND_ROOT}, LEVELS + 1, LEVELS + 1, 1, 0, 0).refusal == URK_BAD_RECORD,
           "urk_row_set, record");
    expect(urk_log_page(0, 0, 0, 0, 1).refusal == URK_SHORT_IMAGE, "urk_log_page");
    expect(urk_log_page(0, 0, image, image_len, 1).refusal == URK_OK, "urk_log_page, log");
    expect(urk_log_fill(0, 0, image, image_len, 0, 0).refusal == URK_SMALL_TABLE, "urk_log_fill, table");
    expect(urk_log_page_by(0, 0, 0, 0, 0, 0, 0, 512, 1).refusal == URK_NO_SUCH_PLACE, "urk_log_page_by");
    expect(urk_log_recover(0, 0, image, image_len, 0, 0).refusal == URK_SMALL_OUTPUT, "urk_log_recover, out");
    expect(urk_log_tail(0, 0, 0, 0).refusal == URK_NO_LOG_HEADER, "urk_log_tail");
    expect(urk_log_begin(512, 0, 0, 0, 0, 0, 0, 0).refusal == URK_SMALL_OUTPUT, "urk_log_begin");
    expect(urk_log_append(0, 0, 0, 0, 0, 0, 1, 0, 0).refusal == URK_SMALL_OUTPUT, "urk_log_append, tail");
    uint32_t first[URK_TAIL_WORDS] = {512};
    expect(urk_log_append(first, URK_TAIL_WORDS, 0, 0, 0, 0, 1, 0, 0).refusal == URK_BAD_COMMIT, "urk_log_append, list");
    expect(urk_build(0, 0, 0, 0, 0, 0, 0, 0, 0, 0).refusal == URK_BAD_RECORD, "urk_build");
    expect(urk_build(build_schema, sizeof build_schema, 0, 0, 0, 0, 0, 0, 0, 0).refusal == URK_SMALL_OUTPUT, "urk_build, rows and out");
    urk_recovered none = urk_journal_recover(0, 0, 0, 0, 0, 0);
    expect(none.refusal == URK_OK && none.length == 0, "urk_journal_recover");
    expect(urk_log_inspect(0, 0).header == URK_LOG_SHORT, "urk_log_inspect");
    expect(urk_journal_inspect(0, 0).header == URK_JOURNAL_SHORT, "urk_journal_inspect");
    urk_name nameless = urk_journal_super(0, 0);
    expect(!nameless.found && !nameless.start && !nameless.length, "urk_journal_super");
}

/* A refusal leaves every byte of the output; a success those behind the image. */
static void builds(void) {
    static const struct { int64_t rows[2]; uint32_t lengths[2]; uint8_t payloads[4]; size_t room; uint32_t refusal; } cases[] = {
        {{1, 1}, {2, 2}, {2, 9, 2, 8}, 3000, URK_BAD_ROWS},
        {{1, 2}, {2, 1}, {2, 9, 2, 8}, 3000, URK_BAD_ROWS},
        {{1, 2}, {1, 3}, {1, 9, 2, 8}, 3000, URK_BAD_RECORD},
        {{1, 2}, {2, 2}, {2, 9, 2, 8}, 2047, URK_SMALL_OUTPUT},
        {{1, 2}, {2, 2}, {2, 9, 2, 8}, 2048, URK_OK},
        {{-1, 5}, {2, 2}, {2, 9, 2, 8}, 3000, URK_OK},
    };
    for (size_t c = 0; c < sizeof cases / sizeof *cases; c++) {
        memset(out, PAINT, 3000);
        urk_built b = urk_build(build_schema, sizeof build_schema, cases[c].rows, 2, cases[c].lengths, 2, cases[c].payloads, 4, out, cases[c].room);
        expect(b.refusal == cases[c].refusal, "urk_build's refusal");
        size_t from = b.refusal ? 0 : 2048;
        expect(b.length == from && b.pages == from / 1024, "urk_build's answer");
        for (size_t i = from; i < 3000; i++)
            if (out[i] != PAINT) {
                expect(0, "urk_build leaves what it does not write");
                break;
            }
        if (b.refusal)
            continue;
        urk_found f = urk_lookup(out, b.length, 2, cases[c].rows[1]);
        uint8_t fetched[2];
        urk_payload p = urk_payload_fetch(out, b.length, f.page, f.cell, fetched, sizeof fetched);
        expect(f.found && !p.refusal && p.length == 2 && !memcmp(fetched, cases[c].payloads + 2, 2), "a row that was built");
        expect(!urk_lookup(out, b.length, 2, 3).found, "a row that was not");
        urk_found q = urk_find(out, b.length, 2, cases[c].rows[1]);
        expect(q.found && q.page == f.page && q.cell == f.cell && q.length == f.length, "the same by halving");
        memset(fetched, PAINT, sizeof fetched);
        p = urk_payload_quick(out, b.length, q.page, q.cell, fetched, sizeof fetched);
        expect(!p.refusal && p.length == 2 && !memcmp(fetched, cases[c].payloads + 2, 2), "its payload");
        expect(!urk_find(out, b.length, 2, 3).found && !urk_find(out, b.length, 2, INT64_MIN).found, "rows that are not there");
    }
    expect(build_into(URK_BUILD_ROWS, 7, sizeof out).refusal == URK_BAD_ROWS, "lengths that do not add up");
}

/* A commit as a C program writes it: begun, appended, cut anywhere, read back; and what a refusal leaves. */
static void commits(void) {
    enum { PAGE = 512, FRAME = 24 + PAGE };
    static uint8_t log[32 + 2 * FRAME], frames[2 * FRAME + 1], pages[2 * PAGE];
    static const uint32_t numbers[] = {2, 1};
    uint32_t words[URK_TAIL_WORDS + 1], again[URK_TAIL_WORDS];
    memset(words, PAINT, sizeof words), memset(frames, PAINT, sizeof frames);
    memset(pages, 2, PAGE), memset(pages + PAGE, 1, PAGE);
    urk_appended a = urk_log_begin(PAGE, 0, 11, 12, words, URK_TAIL_WORDS, log, sizeof log);
    expect(!a.refusal && a.at == 0 && a.length == 32, "urk_log_begin's answer");
    static const struct { size_t numbers_len, pages_len; uint32_t n; size_t room; uint32_t refusal; } cases[] = {
        {2, 2 * PAGE, 2200001, sizeof frames, URK_RECOVERED_PAGES},
        {0, 0, 2, sizeof frames, URK_BAD_COMMIT},
        {2, 2 * PAGE, 0, sizeof frames, URK_BAD_COMMIT},
        {2, 2 * PAGE, 1, sizeof frames, URK_BAD_COMMIT},
        {2, 2 * PAGE - 1, 2, sizeof frames, URK_BAD_COMMIT},
        {2, 2 * PAGE, 2, 2 * FRAME - 1, URK_SMALL_OUTPUT},
    };
    for (size_t c = 0; c < sizeof cases / sizeof *cases; c++) {
        a = urk_log_append(words, URK_TAIL_WORDS, numbers, cases[c].numbers_len, pages, cases[c].pages_len, cases[c].n, frames, cases[c].room);
        expect(a.refusal == cases[c].refusal && !a.at && !a.length && frames[0] == PAINT && words[6] == 0, "urk_log_append's refusal");
    }
    a = urk_log_append(words, URK_TAIL_WORDS, numbers, 2, pages, sizeof pages, 2, frames, 2 * FRAME);
    expect(!a.refusal && a.at == 32 && a.length == 2 * FRAME && frames[2 * FRAME] == PAINT, "urk_log_append's answer");
    expect(words[6] == 2 && words[7] == 2 && words[8] == PAINT * 0x01010101u, "the tail behind a commit");
    memcpy(log + a.at, frames, a.length);
    urk_tail t = urk_log_tail(log, sizeof log, again, URK_TAIL_WORDS);
    expect(!t.refusal && t.page_size == PAGE && t.frames == 2 && t.pages == 2 && !memcmp(again, words, sizeof again), "the tail of the log");
    urk_part p = urk_log_page(log, sizeof log, 0, 0, 2);
    expect(!p.refusal && p.from_log && p.length == PAGE && log[p.start] == 2, "a page that was appended");
    for (size_t cut = 32; cut < sizeof log; cut++)
        expect(urk_log_inspect(log, cut).in_force == 0, "a commit that is cut");
}

static void names(void) {
    expect(!strcmp(urk_refusal_name(URK_ROW_ORDER), "URK_ROW_ORDER"), "a name");
    expect(!strcmp(urk_refusal_text(URK_ROW_ORDER), "the page's row numbers are out of order"), "a text");
    expect(!strcmp(urk_refusal_name(URK_KEY_ORDER), "URK_KEY_ORDER") && !strcmp(urk_refusal_name(35), "URK_NO_INDEX_ROOT"), "names of an index's refusals");
    expect(!strcmp(urk_refusal_name(14), "unknown") && *urk_refusal_text(14), "a number that is none");
    for (uint32_t number = 0; number < 100; number++)
        expect(*urk_refusal_name(number) && *urk_refusal_text(number), "every number has words");
}

/* Indexes that are named, and what each refusal leaves. */
static void named(void) {
    uint32_t index = 2 * LEVELS + 1, table = LEVELS + 1, names[2] = {index, table};
    memset(kinds, 9, sizeof kinds);
    urk_verdict v = urk_check_ordered(image, image_len, names, 2, kinds, 4096, namers, 4096, steps, 4096);
    expect(v.refusal == URK_NO_INDEX_ROOT && v.page == table && kinds[0] == 0 && kinds[image_len / page_size] == 9, "35: a table's root, zeros up to N");
    names[0] = 0;
    v = urk_check_ordered(image, image_len, names, 2, kinds, 4096, namers, 4096, steps, 4096);
    expect(v.refusal == URK_NO_INDEX_ROOT && v.page == 0, "35: the first name is 0");
    names[0] = index;
    uint8_t *leaf = page(3 * LEVELS), swapped[] = {leaf[10], leaf[11], leaf[8], leaf[9]};
    memcpy(leaf + 8, swapped, 4);
    v = urk_check_ordered(image, image_len, names, 1, kinds, 4096, namers, 4096, steps, 4096);
    expect(v.refusal == URK_KEY_ORDER && v.page == 3 * LEVELS, "33: the page of the cell");
    expect(urk_check(image, image_len, kinds, 4096, namers, 4096, steps, 4096).refusal == URK_OK, "33 only where it is named");
    image[59] = 2;
    kinds[0] = 9;
    v = urk_check_ordered(image, image_len, names, 1, kinds, 4096, namers, 4096, steps, 4096);
    expect(v.refusal == URK_TEXT_ENCODING && v.page == 0 && kinds[0] == 9, "34: nothing is touched");
}

int main(int argc, char **argv) {
    size_t most[CALLS] = {0};
    int tell = argc > 1 && !strcmp(argv[1], "stack");
    for (int i = 0; i < 2; i++) {
        make_image(i ? 65536 : 512);
        if (!i)
            nulls();
        for (int c = 0; c < CALLS; c++) {
            side = 0, side_len = 0;
            if (strstr(calls[c].name, "log"))
                make_log();
            if (strstr(calls[c].name, "journal"))
                make_journal();
            size_t base = touched(nothing), used = touched(calls[c].call) - base;
            expect(!answer, calls[c].name);
            most[c] = used > most[c] ? used : most[c];
            free(side);
        }
        if (!i)
            named();
        free(image);
    }
    names();
    builds();
    commits();
    for (int c = 0; c < CALLS; c++) {
        if (tell)
            printf("%-20s %zu\n", calls[c].name, most[c]);
        if (most[c] > calls[c].most)
            printf("%s takes %zu bytes of stack, and the header says %zu\n", calls[c].name, most[c], calls[c].most), failures++;
    }
    if (!failures)
        printf("the C header: as promised\n");
    return failures != 0;
}
