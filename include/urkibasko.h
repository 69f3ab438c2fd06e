/* Urkibasko: reads SQLite 3 database images, write-ahead logs and rollback journals out of bytes in memory, builds fresh images, sets rows in
 * place, and writes the bytes of write-ahead logs.
 *
 * Every function takes any input. None allocates, keeps state, reads a file or the clock, or fails to return.
 *
 * Slices. A slice is a pointer and a number of entries. The pointer has the alignment of its entries; it may be NULL where the
 * number is 0. What is passed as const is read only. A buffer that is lent for output overlaps
 * no other slice of the same call. Beyond the entries named below, no entry of a lent buffer changes.
 *
 * Answers are structs by value. A field that does not apply is 0.
 *
 * Refusals. `refusal` is 0 on success, otherwise one number of enum urk_refusal. A function tests in the order
 * that is given with it and answers the first that holds. `page` is the page that the refusal reports, 0 where it is about none.
 *
 * Limits. 2,200,000 pages, payloads of 65,536 bytes, trees of 20 levels.
 *
 * The lock-byte page is the one that holds byte 1073741824, counted from 0, in files that are longer: its number is 1073741824 / page size + 1. It is kept for
 * locks. No page may name it, and nothing in it is data.
 *
 * Platform. The archive is for x86-64 Linux (System V calling convention); it calls nothing outside itself but memcpy, memmove and memset.
 *
 * Stack. No proof bounds it. Measured, on trees of 20 levels with pages of 512 and 65,536 bytes (tests/c_interface.c), in bytes:
 *   urk_check 185,744 (120,008 where no payload has to be copied together); urk_check_ordered 165,424; urk_ledger_check 185,888;
 *   urk_row_set 137,228 (lookup's, and 64 KiB for the page laid anew, whatever its size);
 *   urk_report 108,252; urk_rows_first 107,916; urk_rows_seek 107,100; urk_rows_step 96,444; urk_lookup 71,468; urk_payload_fetch 65,980;
 *   urk_build 65,976 (of 4,096 rows: two lists of a number a row); urk_find 5,644; urk_payload_quick 264;
 *   urk_log_recover 275,216; urk_journal_recover 275,304; urk_journal_inspect 275,368 (a bit for each page that there can be); urk_log_append 296;
 *   urk_log_page_by 256; urk_record_order 232; urk_log_fill 224; urk_log_page 208; urk_log_tail 192; urk_log_inspect 144; urk_log_begin 64;
 *   urk_ledger_write 42; urk_journal_super 0; other records and numbers under 256.
 * The test fails where a call takes more than the numbers that follow, which leave room for other compilers of the caller.
 */
#ifndef URKIBASKO_H
#define URKIBASKO_H

#include <stddef.h>
#include <stdint.h>

/* The version of this header and of the archive beside it. */
#define URK_VERSION_MAJOR 0
#define URK_VERSION_MINOR 1
#define URK_VERSION_PATCH 0

/* Bytes of stack: for urk_check, urk_check_ordered, which holds two keys at a time, urk_ledger_check and urk_row_set; for urk_lookup, urk_find, urk_rows_..,
 * urk_payload_fetch and urk_report; for recovery and urk_journal_inspect; for records, numbers, tables of frames, urk_ledger_write, urk_log_inspect,
 * urk_journal_super, urk_log_tail, urk_log_begin, urk_log_append and urk_payload_quick. */
#define URK_STACK_CHECK 262144
#define URK_STACK_READ 131072
#define URK_STACK_RECOVER 327680
#define URK_STACK_SMALL 1024
#define URK_STACK_BUILD 131072 /* for urk_build */

#ifdef __cplusplus
extern "C" {
#endif

/* U is the usable size of a page: its size less the byte at offset 20. N is the number of pages in the database. Where the page count at
 * offset 28 holds, that is, it is not zero and the number at 24 equals the one at 92, N is that count, and what lies past page N in the image is
 * never looked at; otherwise N is the number of pages present. The header's refusals are tested in the order 1, 2, 3, 4, 6, 7, 8, 9, 5, 10, 11. */
enum urk_refusal {
    URK_OK = 0,

    /* The header of the image. Page 0. */
    URK_SHORT_IMAGE = 1,        /* the image has fewer than 512 bytes */
    URK_BAD_MAGIC = 2,          /* the first 16 bytes are not "SQLite format 3" and a zero */
    URK_BAD_PAGE_SIZE = 3,      /* offset 16 is neither a power of two from 512 to 32768 nor 1 (65536) */
    URK_PARTIAL_PAGE = 4,       /* the length is no whole number of pages */
    URK_TOO_MANY_PAGES = 5,     /* N is over 2,200,000; of an image that recovery shows alone, the pages present are */
    URK_SMALL_USABLE_SIZE = 6,  /* U is under 480 */
    URK_BAD_FRACTIONS = 7,      /* bytes 21 to 23 are not 64, 32, 32 */
    URK_BAD_READ_VERSION = 8,   /* the read version at 19 is not 1 or 2 */
    URK_BAD_PAGE_COUNT = 9,     /* the page count at 28 holds, and fewer pages are present */
    URK_INCREMENTAL_VACUUM = 10, /* the number at 64 is not zero while the one at 52 is */
    URK_RESERVED_HEADER = 11,   /* bytes 72 to 91 are not all zero */
    URK_SMALL_LEDGERS = 12,     /* a lent ledger of the verdict has fewer than N entries */
    URK_LONG_INPUT = 13,        /* the program check_image only: over 65,536 bytes on standard input */

    /* The pages of the image. The page reported is in brackets. */
    URK_POINTER_RANGE = 20,     /* a pointer is outside 1 to N [its holder; 0 for the root given to a lookup, a cursor, a report or a set] */
    URK_NAMED_TWICE = 21,       /* a page is named twice, or page 1, a pointer map or the lock-byte page is named [the named page] */
    URK_PAGE_TYPE = 22,         /* the type byte does not suit the place [that page] */
    URK_NOT_SOUND = 23,         /* cells, freeblocks and fragments do not account for the page [that page] */
    URK_TREE_LEVEL = 24,        /* level 21 is needed, or leaves of a tree lie at unequal levels [that page] */
    URK_ROW_ORDER = 25,         /* row numbers out of order [that page] */
    URK_LONG_PAYLOAD = 26,      /* a payload over 65,536 bytes [that page] */
    URK_CHAIN_LENGTH = 27,      /* an overflow chain ends too early or too late [holder of the pointer] */
    URK_BAD_RECORD = 28,        /* a cell's payload does not read as a record; or a schema row is no five-column record, or its root is not null, 0 or a page from 2 to N [that page; 0 for a record that is lent] */
    URK_FREELIST = 29,          /* a trunk's count is too large [the trunk], or the total is not the number at 36 [1] */
    URK_NEVER_NAMED = 30,       /* a page above 1, no pointer map and not the lock-byte page, is never named [the lowest] */
    URK_MAP_ENTRY = 31,         /* a pointer map's entry has not its page's kind, or not its namer (0 for a root or a free page) [the page that it is about, the lowest] */
    URK_LARGEST_ROOT = 32,      /* the number at 52 is not zero and not the largest root [1] */

    /* The indexes that a caller of urk_check_ordered names. */
    URK_KEY_ORDER = 33,         /* a key of a named index is not more than the key before it [the page of its cell] */
    URK_TEXT_ENCODING = 34,     /* an index is named, and the text encoding at 56 is not 1, UTF-8 [0] */
    URK_NO_INDEX_ROOT = 35,     /* a page that is named as an index is no index root [the first such name, 0 and numbers past N too] */

    /* Recovery, and what was asked for. Page 0. */
    URK_LOG_VERSION = 40,       /* the log's version is not 3007000 */
    URK_RECOVERY_SIZE = 41,     /* a page or sector size is no power of two from 512 to 65536; or a given tail's word is no page size or no word order */
    URK_RECOVERED_PAGES = 42,   /* the recovered size is over 2,200,000 pages */
    URK_PAGE_NOWHERE = 43,      /* a page of the recovered size, not the lock-byte page, is in neither the log or journal nor the image */
    URK_SMALL_OUTPUT = 44,      /* the lent output, cursor, tail or room is too small */
    URK_RECORDED_TWICE = 45,    /* a page is twice among the journal records laid down */
    URK_NO_SUCH_PLACE = 46,     /* the page or cell asked for does not exist */
    URK_SMALL_TABLE = 47,       /* the lent table of frames is shorter than n; or it, or a log's tail, would hold a frame numbered past 4,294,967,295 */
    URK_BAD_ROWS = 48,          /* rows to be built: they are over 4,096, their numbers do not rise, or the lists disagree */
    URK_STALE_CURSOR = 49,      /* a stored cursor's path does not stand in the image, does not end at a leaf cell, or has a page that fails 22, 23 or 26 */

    /* Writing a log. Page 0. */
    URK_NO_LOG_HEADER = 50,     /* the log has no header that is accepted: under 32 bytes, another magic, or wrong sums */
    URK_BAD_COMMIT = 51,        /* a commit to be appended has no pages, one that it may not hold, or other bytes than its list of pages says */

    /* Setting a row. The page reported is the leaf that has the row. */
    URK_NO_TABLE_ROOT = 53,     /* the root is page 1, or no root in the lent ledger of kinds; or that leaf is page 1 */
    URK_DOES_NOT_FIT = 54       /* the row's payload has an overflow chain, or the record would need one, or the leaf has no room for it */
};

/* Older names of two of them. */
#define URK_AUTO_VACUUM URK_INCREMENTAL_VACUUM
#define URK_SCHEMA_ROW URK_BAD_RECORD

/* A page's office in the kinds ledger. */
enum urk_kind {
    URK_KIND_ROOT = 1,
    URK_KIND_TRUNK = 2,
    URK_KIND_FREE_LEAF = 3,
    URK_KIND_FIRST_OVERFLOW = 4,
    URK_KIND_LATER_OVERFLOW = 5,
    URK_KIND_TREE = 6,          /* a tree page that is no root */
    URK_KIND_POINTER_MAP = 7,   /* by its place: no page names it. One that would fall on the lock-byte page is the page after that */
    URK_KIND_LOCK_BYTE = 8      /* by its place too; urk_check, urk_check_ordered and urk_ledger_check never read a byte of it (lookups, cursors, payloads and reports read it as any page, and a set lays it anew as any leaf, where an image that was not accepted names it) */
};

enum urk_column_status { URK_COLUMN_VALUE = 0, URK_COLUMN_UNREADABLE = 1, URK_COLUMN_MISSING = 2 };
enum urk_column_kind { URK_NULL = 0, URK_INTEGER = 1, URK_REAL = 2, URK_TEXT = 3, URK_BLOB = 4 };

typedef struct { uint32_t length; uint32_t shortest; int64_t value; } urk_varint; /* shortest 1 or 0; length 0: short, and all is 0 */
typedef struct { uint32_t status; uint64_t count; } urk_columns;                /* status 0 reads, 1 does not read */
typedef struct { uint32_t status; uint32_t kind; int64_t integer; double real; uint64_t place; uint64_t length; } urk_column;
    /* status 0 value, 1 does not read, 2 missing; kind 0 null, 1 integer, 2 real, 3 text, 4 blob; fields that do not apply are 0 */
typedef struct { uint32_t status; int32_t order; } urk_order;
    /* status 0 both read, 1 the first does not, 2 the second does not (order 0); order -1 the first is less, 0 they are the same, 1 it is more */
typedef struct { uint32_t refusal; uint32_t page; uint32_t pages; uint64_t long_spellings; } urk_verdict;
    /* refusal 0: accepted, pages N, page 0 */
typedef struct { uint32_t yes; uint32_t refusal; uint32_t page; } urk_ledger_answer;
    /* yes 1; or yes 0 with the verdict's refusal, or with refusal 0 and the first page that differs */
typedef struct { uint32_t refusal; uint64_t length; } urk_ledger_written;
typedef struct { uint32_t refusal; uint32_t page; uint32_t found; uint32_t cell; uint32_t length; } urk_found;
    /* refusal 0: found 1 with page, cell, length, or found 0 and the rest 0 */
typedef struct { uint32_t refusal; uint32_t page; uint32_t found; uint32_t cell; uint32_t length; int64_t row; } urk_row;
    /* refusal 0: found 1 with page, cell, length and row, or found 0 at the end and the rest 0 */
typedef struct { uint32_t refusal; uint32_t page; uint32_t length; } urk_payload;
typedef struct { uint32_t refusal; uint32_t page; uint64_t count; double least; double greatest; double sum; uint32_t sum_is_nan; } urk_summary;
    /* sum_is_nan 1: the sum turned to NaN, and is 0; on a refusal all but refusal and page is 0 */
typedef struct { uint32_t refusal; uint32_t from_log; uint64_t start; uint64_t length; } urk_part;
typedef struct { uint32_t refusal; uint32_t pages; uint32_t page_size; } urk_filled; /* n and the page size in force; both 0 on a refusal */
typedef struct { uint32_t refusal; uint32_t pages; uint64_t length; } urk_recovered;
typedef struct {
    uint32_t refusal, header;   /* what recovery refuses the log for, whatever the image: 0, 40, 41 or 42; enum urk_log_header */
    uint32_t page_size, pages;  /* n, the pages after the last commit */
    uint64_t frames;            /* whole frames */
    uint64_t counting;          /* how many of them count */
    uint64_t in_force;          /* how many are in force: those up to the last commit */
    uint32_t stop;              /* why the frame after the last that counts does not: enum urk_log_stop */
} urk_log_summary;
typedef struct {
    uint32_t refusal, header;   /* what recovery refuses the journal for, whatever the image: 0, 41, 42 or 45; enum urk_journal_header */
    uint32_t page_size, sector_size;
    uint32_t pages;             /* n, the pages that the journal takes a database back to */
    uint32_t segments;          /* headers read; 4,294,967,295 for so many or more */
    uint64_t counting;          /* records that stand before the end */
    uint64_t laid;              /* those of them that are laid down: their numbers are at most n */
    uint32_t stop;              /* why no more is read: enum urk_journal_stop */
} urk_journal_summary;
typedef struct { uint32_t found; uint64_t start; uint64_t length; } urk_name; /* found 1 with the name's place in the journal; or all is 0 */
typedef struct { uint32_t refusal; uint32_t pages; uint64_t length; } urk_built; /* pages of 1,024 bytes, and bytes, of the image; both 0 on a refusal */
typedef struct { uint32_t refusal; uint32_t page_size; uint32_t frames; uint32_t pages; } urk_tail;
    /* frames in force, and pages after the last commit among them, 0 for none; all 0 on a refusal */
typedef struct { uint32_t refusal; uint64_t at; uint64_t length; } urk_appended;
    /* the first `length` bytes of the output belong at `at` of the log; both 0 on a refusal */

/* The varint at the start of `bytes`: its value and its length, 1 to 9. Spellings that are longer than need be are read: `shortest` is
 * 1 where the length is the one that urk_varint_write uses, else 0. All is 0 where the bytes end inside it, or are none. */
urk_varint urk_varint_read(const uint8_t *bytes, size_t bytes_len);

/* Writes the shortest spelling of `value` at the start of `out` and answers its length, 1 to 9: only these bytes change.
 * Answers 0 where `out` is too small: nothing changes. */
uint32_t urk_varint_write(int64_t value, uint8_t *out, size_t out_len);

/* The number of columns of a record. Status 1 and count 0 where the bytes do not read as a record: the header length, the
 * serial types that fill the header and the values that fill the rest have to fit exactly. */
urk_columns urk_record_columns(const uint8_t *record, size_t record_len);

/* The value of a column, counted from 1. Status 1 where urk_record_columns answers 1, whichever column is asked for; status 2
 * for column 0 or one past the last. A real keeps its bits; a NaN is a null. A text or a blob is `length` bytes at
 * `place` of the record. */
urk_column urk_record_column(const uint8_t *record, size_t record_len, uint64_t column);

/* How two records compare in an index whose columns are plain and ascending: null (a NaN is one), then numbers by their exact values (an integer and a
 * real too: 9007199254740993 is more than 9007199254740992.0; infinities lie beyond all integers; minus zero is zero), then text by bytes, then blobs
 * by bytes, a prefix first; then the next column. A record that ends first, equal so far, is the lesser; one of no columns is the least. Status 1 where
 * the first does not read, also where neither does; 2 where the second does not; order is then 0. */
urk_order urk_record_order(const uint8_t *a, size_t a_len, const uint8_t *b, size_t b_len);

/* The verdict on an image. Refusals 1 to 11 in the header's order, 12, then 20 to 30 as the walk meets them: the schema tree at page 1, the freelist,
 * the tree of each schema row's root, and pages that nothing names; last, where the number at 52 is not zero, 31 and 32.
 *
 * Accepted: `pages` is N, and entry p - 1 of `kinds`, `namers` and `steps`, p from 1 to N, are: the kind of page p (enum urk_kind); the page that names
 * it, which is 0 for page 1, for pointer maps and for the lock-byte page, and the schema's leaf page for a root; its step, which is 0 where nothing names
 * it, and else one more than its namer's. `long_spellings` is how many payload lengths, row numbers and interior keys, in the cells of all tree pages, are
 * not in their shortest spelling; it is at most 65,536 a page. sqlite3 writes none.
 * Refused with 1 to 12: `page`, `pages` and `long_spellings` are 0 and the ledgers are as they were.
 * Refused with 20 to 32: `page` is the page reported, `pages` and `long_spellings` are 0 and the first N entries of the three ledgers are 0.
 * Entries past N never change. */
urk_verdict urk_check(const uint8_t *image, size_t image_len, uint8_t *kinds, size_t kinds_len, uint32_t *namers, size_t namers_len,
                      uint32_t *steps, size_t steps_len);

/* The verdict, with the order of keys in the indexes whose root pages are named in `ordered`. Name only indexes that are plain and ascending: no DESC,
 * no COLLATE but BINARY, in the index or on its columns, so that urk_record_order is their order. A WITHOUT ROWID table whose PRIMARY KEY is so is such
 * an index too; an index of a WITHOUT ROWID table ends with that table's PRIMARY KEY, which must then be so as well. Names may come in any order, and more than once; each root is looked for among them, so that the time has a part of roots times names.
 *
 * As urk_check, and besides:
 * 34, right after 11 and before 12, where any page is named and the 4-byte number at offset 56, the text encoding, is not 1. `page` is 0 and the
 *    ledgers are as they were.
 * 33, in the tree of a named index root, where a key is not more than the key before it as the tree is read from left to right, keys of interior pages
 *    among them; equal keys too. It is tested after the cell's chain and its record (28 where that does not read). `page` is the page of the cell.
 * 35, last of all, where a page that is named is no index root: no root of a schema row, or one of a table. `page` is the first such name, in the
 *    caller's order; a name may be 0 or past N. A table's root that is named is first walked like any other.
 * Refused with 33 or 35 the first N entries of the three ledgers are 0.
 * Accepted: what urk_check's acceptance says, every name is an index root, and the keys of each rise strictly through its tree. That an index has a key
 * for each row of its table is not tested.
 * With nothing named the answer and the ledgers are urk_check's. */
urk_verdict urk_check_ordered(const uint8_t *image, size_t image_len, const uint32_t *ordered, size_t ordered_len,
                              uint8_t *kinds, size_t kinds_len, uint32_t *namers, size_t namers_len, uint32_t *steps, size_t steps_len);

/* Ledgers as they are sent: a 4-byte length of what follows, version byte 1, then for each page one kind byte, 4 bytes namer, 4 bytes step; numbers are
 * big-endian.
 *
 * urk_ledger_check: whether a proposal made elsewhere is the ledger of an image that is accepted. `kinds`, `namers` and `steps` are lent as to urk_check,
 * and hold at the end what it would leave there.
 * `yes` 1: urk_check accepts the image, and the proposal is its ledger, byte for byte.
 * `yes` 0 with a refusal: urk_check's, 12 too, with its page, whatever the proposal.
 * `yes` 0 with refusal 0: the proposal differs; `page` is the lowest page whose entry does, or 0 where its length, the length in front or the version is
 * wrong. */
urk_ledger_answer urk_ledger_check(const uint8_t *image, size_t image_len, const uint8_t *proposal, size_t proposal_len,
                                   uint8_t *kinds, size_t kinds_len, uint32_t *namers, size_t namers_len, uint32_t *steps, size_t steps_len);

/* Writes the first `pages` entries of three ledgers, as urk_check left them, to the start of `out`, as they are sent: 5 + 9 * pages bytes, which is the
 * `length`.
 * Refusals: 5 over 477,218,588 pages, whose length does not fit 4 bytes; 12 where a ledger has fewer entries; 44 where `out` is too short.
 * `out` changes only on success, and only its first `length` bytes. */
urk_ledger_written urk_ledger_write(uint32_t pages, const uint8_t *kinds, size_t kinds_len, const uint32_t *namers, size_t namers_len,
                                    const uint32_t *steps, size_t steps_len, uint8_t *out, size_t out_len);

/* Looks for a row number in the table tree at `root`; only pages on its path are looked at. Found: `page` and `cell` (from 0) of the
 * first leaf cell that carries the number, and the `length` of its payload.
 * Refusals: 1 to 11; 20 with page 0 for a root outside 1 to N; then on each page 24 (level 21), 22 (index pages too), 23 and 26,
 * and 20 for its child. */
urk_found urk_lookup(const uint8_t *image, size_t image_len, uint32_t root, int64_t row);

/* The same for AN IMAGE THAT urk_check ACCEPTED, which has not changed since: under a table root the answers of urk_lookup, much faster. Rows are found by halving, and
 * pages are not tested for soundness.
 * It is safe with any bytes: what is read is tested before, and nothing else. In an image that was not accepted a row may be there and not be found, or
 * another cell be shown than urk_lookup shows.
 * Refusals: 1 to 11; 20 with page 0 for a root outside 1 to N; then on each page 24, 22, 23 for a row number on the way that cannot be read, 23 and 26 of the cell where the
 * search ends, and 20 for its child, or for the right child where it ends behind the last cell. */
urk_found urk_find(const uint8_t *image, size_t image_len, uint32_t root, int64_t row);

/* The rows of the table tree at `root`, one after the other. A cursor is URK_CURSOR_WORDS words that the caller lends and keeps between calls: word 0
 * is the number d of levels, 0 at the end; for level k from 1 to d word 2k-1 is a page and word 2k an index: that of the child on an interior page (its
 * cell count for the right child), that of the cell on the leaf. Words past level d are written as 0 and are not looked at.
 *
 *   urk_rows_first   the first row
 *   urk_rows_seek    the first row whose number is not below `row`: down as urk_lookup goes, then from left to right
 *   urk_rows_step    the row after the one where the cursor stands; the end stays the end
 *
 * Found 1: `page`, `cell` (from 0), `length` of the payload and `row`, its number; the words are the new path. Found 0: the end; all 41 words are 0.
 * A refusal leaves the words as they were. Words past 41 never change.
 * Refusals: 1 to 11; 44 for under 41 words; of first and seek 20 with page 0 for a root outside 1 to N; of step 49 where the stored path has over 20 levels,
 * does not stand in the image, does not end at a leaf cell, or has a page that fails 22, 23 or 26; then on each page entered 24 (level 21), 22 (index
 * pages too), 23 and 26, and 20 for its child.
 * In an image that urk_check accepts, under a table root: first, step, step .. show every row once, by rising number, and then the end; nothing is refused.
 * Each step tests the pages of its path again. In an image that was not accepted a page may be named again and again, and ONE CALL MAY TAKE TIME EXPONENTIAL
 * IN THE LEVELS: check first, and start at a root. */
#define URK_CURSOR_WORDS 41
urk_row urk_rows_first(const uint8_t *image, size_t image_len, uint32_t root, uint32_t *cursor, size_t cursor_len);
urk_row urk_rows_seek(const uint8_t *image, size_t image_len, uint32_t root, int64_t row, uint32_t *cursor, size_t cursor_len);
urk_row urk_rows_step(const uint8_t *image, size_t image_len, uint32_t *cursor, size_t cursor_len);

/* Copies the payload of a cell (from 0) on a page to the start of `out`, and answers its length. The page is a table leaf or an index page.
 * Refusals: 1 to 11; 46 for a page outside 1 to N; 22 (table interior pages too); 23 and 26; 46 for a cell past the last; 27 and 20
 * along the overflow chain; 44. `out` changes only on success, and only its first `length` bytes. */
urk_payload urk_payload_fetch(const uint8_t *image, size_t image_len, uint32_t page, uint32_t cell, uint8_t *out, size_t out_len);

/* The same for AN IMAGE THAT urk_check ACCEPTED, which has not changed since: for the cells of its tree pages the answers of urk_payload_fetch. The page is not tested for soundness; any bytes are safe.
 * Refusals: 1 to 11; 46 for a page outside 1 to N; 22; 46 for a cell past the last; 23 and 26 of that cell; 27 and 20 along the overflow chain; 44. `out` changes
 * only on success, and only its first `length` bytes. */
urk_payload urk_payload_quick(const uint8_t *image, size_t image_len, uint32_t page, uint32_t cell, uint8_t *out, size_t out_len);

/* Sets a row of the table tree at `root` to a record of any length that fits: the row's leaf is laid anew in `image`, which is lent and changed in place,
 * and no other byte changes. `kinds` is the ledger of kinds that urk_check, urk_check_ordered or urk_ledger_check gave for this image: LEND THAT LEDGER ITSELF,
 * since nothing here can tell whether it is another image's. It is the image's own ledger afterwards too, so that one check serves for any number of sets.
 *
 * Found 1: `page` and `cell` (from 0) of the row's cell, where urk_lookup shows it before and afterwards, and the new `length`, which is record_len. The leaf
 * has the same cells in the same order: the row's with the record, its length and row number in shortest spelling, and zeros behind it where it has under 4
 * bytes; each other cell byte for byte. They stand side by side against U, the first the highest, with zeros between pointers and content, no freeblock and no
 * fragment; the bytes from U on are as they were. So no byte of the page below U depends on what the row held before, or on what lay deleted there
 * (docs/LAYOUT.md).
 * Found 0 with refusal 0: there is no such row, as urk_lookup says it.
 * Refusals, in this order; on each, and where nothing is found, no byte of the image changes, and found, cell and length are 0:
 *   those of urk_lookup, with its page
 *   53  [the leaf] the root is page 1; or its entry in `kinds` is missing or not 1; or the leaf is page 1
 *   28  [0]        the record does not read
 *   54  [the leaf] the row's payload has an overflow chain; or the record has over U - 35 bytes, and would need one; or the leaf has no room for it
 *
 * In an image that urk_check accepts, with its own ledger, under a table's root: the image is accepted afterwards, with the same three ledgers, and so it is
 * by urk_check_ordered for the same names; the count of long spellings is lower by what the row's cell had; lookups and cursors under every root show the same
 * places, and every other payload is what it was.
 * NOTHING TIES AN INDEX TO ITS TABLE: after a change of a column that an index has, that index is stale, and whoever goes by it is led astray. No function here
 * tells it; sqlite3's REINDEX makes it anew, where the new values break no UNIQUE. No constraint of the table is looked
 * at, and a record of no columns is taken, of which sqlite3 says that the file is malformed. A column that is an INTEGER PRIMARY KEY is null in the record: the row number is elsewhere in the cell. */
urk_found urk_row_set(uint8_t *image, size_t image_len, const uint8_t *kinds, size_t kinds_len, uint32_t root, int64_t row, const uint8_t *record,
                      size_t record_len);

/* Sums up the reals in a column, counted from 1, of the rows under `root`, as urk_rows_first and urk_rows_step show them: how many there are, modulo 2^64, the least and
 * the greatest (of two that compare equal the earlier row's; 0 where there is none), and the sum: from 0, one addition a row, each rounded once. What is no real
 * is passed over: integers (in a column of type REAL too), texts, blobs, nulls and so NaNs, column 0 and a column past the last. A sum turns to NaN where an
 * infinite sum meets an infinity of the other sign, also where finite reals added up to the infinite sum; it stays so, and is told as 0 with `sum_is_nan` 1: no refusal.
 * `room` holds at the end what it held, with each payload that was fetched laid over it from its start, in the order of the rows; also where a later row refuses.
 * Refusals: 1 to 11; 20 with page 0 for a root outside 1 to N; then row by row those of the cursor, 27 and 20 along the payload's chain, 44, and 28 with the
 * leaf for a payload that does not read as a record. All but `refusal` and `page` is then 0.
 * In an image that urk_check accepts, under a table root, every payload reads: only 44 is left, and the count is the count itself. As with the cursor: in an image that was not accepted
 * THIS MAY TAKE TIME EXPONENTIAL IN THE LEVELS. */
urk_summary urk_report(const uint8_t *image, size_t image_len, uint32_t root, uint64_t column, uint8_t *room, size_t room_len);

/* Where a page of the recovered database stands: `length` bytes at `start` of the log (`from_log` 1) or of the image (0).
 * A log of under 32 bytes, with a wrong magic, with wrong sums in its header or without a commit has nothing to recover: the image alone
 * is shown, all pages present, of the size at its offset 16; its page count is not read, and 5 comes right after 4.
 * A frame with the lock-byte page's number, at the log's page size, ends the log, also where it is above n; that page is shown from the image.
 * Refusals: 40 and 41; with a commit 42, 46 for a page outside 1 to n and for a lock-byte page that the image has not all of, 43 for any other page;
 * with nothing to recover 1 to 5 about the image, then 46. On a refusal the part is empty: 0, 0, 0. */
urk_part urk_log_page(const uint8_t *log, size_t log_len, const uint8_t *image, size_t image_len, uint32_t page);

/* Fills a table of frames, one entry a page, for urk_log_page_by: the log is scanned once. Entry p - 1, p from 1 to n, gets the last frame in force for page p, frames
 * being numbered from 1, or 0 for none. `pages` is n and `page_size` the page size in force; with nothing to recover these are the image's, and every entry is 0.
 * Refusals: 40 and 41; with a commit 42; with nothing to recover 1 to 5 about the image; then 47 where the table is shorter than n, or should hold a frame numbered past
 * 4,294,967,295. The table changes only on success, and only its first n entries. On a refusal `pages` and `page_size` are 0. */
urk_filled urk_log_fill(const uint8_t *log, size_t log_len, const uint8_t *image, size_t image_len, uint32_t *table, size_t table_len);

/* Where a page stands by a table, as urk_log_page tells it, without a scan: no byte of log or image is read. With the `pages`, the `page_size` and the table of a urk_log_fill that
 * succeeded, for that log and image, the answers are those of urk_log_page. With any others, in this order: 41 on the page size; 47 for a table shorter than `pages`; 46 for a page
 * outside 1 to `pages`; the lock-byte page from the image or 46, whatever its entry; 43 for an entry past the log's whole frames, (log_len - 32) / (24 + page_size); else that
 * frame's page, or for 0 the image's page or 43. On a refusal the part is empty: 0, 0, 0. */
urk_part urk_log_page_by(const uint8_t *log, size_t log_len, const uint8_t *image, size_t image_len, const uint32_t *table, size_t table_len,
                         uint32_t pages, uint32_t page_size, uint32_t page);

/* Copies all pages of the recovered database to the start of `out`: `pages` of them, `length` bytes in all.
 * The lock-byte page is copied from the image, or is zeros where the image has not all of it: never 43.
 * Refusals: 40 and 41; with a commit 42, 43, 44; with nothing to recover 1 to 5 about the image, then 44.
 * `out` changes only on success, and only its first `length` bytes. On a refusal `pages` and `length` are 0. */
urk_recovered urk_log_recover(const uint8_t *log, size_t log_len, const uint8_t *image, size_t image_len, uint8_t *out, size_t out_len);

/* Rolls the image back by its rollback journal, of one segment or several, into `out`: `pages` pages, `length` bytes in all.
 * Each segment has a header with its own count (ffffffff: all that follows) and nonce; the next is looked for at the first multiple of the sector
 * size not before the counted records' end. The first header alone tells original size, sector and page size: where a later one has other sizes,
 * a wrong magic or under 28 bytes the journal ends, and so it does at a record with number 0 or the lock-byte page's, a wrong sum or a missing byte.
 * The lock-byte page is copied from the image, or is zeros where the image has not all of it: never 43.
 * A journal of under 28 bytes or with a wrong magic is none: the image is copied byte for byte, whatever it is, and `pages` is 0.
 * A journal that names a super-journal is in force only while that file is there: ask urk_journal_super before. This function looks at no file, and goes
 * back in any case.
 * Refusals: 41, 42, 45, 43, 44 in this order; without a journal 44 alone.
 * `out` changes only on success, and only its first `length` bytes. On a refusal `pages` and `length` are 0. */
urk_recovered urk_journal_recover(const uint8_t *journal, size_t journal_len, const uint8_t *image, size_t image_len, uint8_t *out, size_t out_len);

/* What a log says of itself: how far recovery reads it, and why no further. Where `refusal` is not 0 urk_log_recover refuses with it, whatever the image; there is nothing to recover
 * exactly where `refusal` and `in_force` are 0; else recovery has this page size, these frames in force and these pages, and 43 and 44 are left, which the image and the output
 * decide. `in_force` <= `counting` <= `frames`. `header` 0 says that magic and sums are right; it stands with the refusals 40 and 41 too. With another `header`, and with 40 or 41, all
 * that follows is 0; with 42 it is told. Where it is told, `stop` is 0 exactly where all bytes behind the header are frames that count; where more than one reason holds, the order is
 * 1, 2, 5, 3, 4. */
enum urk_log_header {
    URK_LOG_ACCEPTED = 0,      /* magic and sums are right */
    URK_LOG_SHORT = 1,         /* under 32 bytes */
    URK_LOG_BAD_MAGIC = 2,
    URK_LOG_BAD_SUMS = 3
};
enum urk_log_stop {
    URK_LOG_ENDS = 0,          /* the log ends there */
    URK_LOG_FRAME_CUT = 1,     /* the frame is cut */
    URK_LOG_ZERO_NUMBER = 2,   /* its page number is 0 */
    URK_LOG_OTHER_SALTS = 3,   /* its salts are not the header's: an older log left it, or it is damaged */
    URK_LOG_WRONG_SUMS = 4,    /* its sums do not match */
    URK_LOG_LOCK_BYTE = 5      /* its page number is the lock-byte page's */
};
urk_log_summary urk_log_inspect(const uint8_t *log, size_t log_len);

/* What a journal, of one segment or several, says of itself. urk_journal_recover refuses with the same `refusal`; with 0 it lays `laid` records down, and 43 and 44 are left, which the image and the
 * output decide. Without a header it copies the image. Where more than one reason holds, the order is 0, 1, 2 of a header, and 3 or 7, 4, 6, 5 of a record.
 * With a header that is not there, and with 41, all that follows is 0; with 42 and 45 it is told. */
enum urk_journal_header {
    URK_JOURNAL_THERE = 0,
    URK_JOURNAL_SHORT = 1,     /* under 28 bytes */
    URK_JOURNAL_BAD_MAGIC = 2
};
enum urk_journal_stop {
    URK_JOURNAL_ENDS = 0,         /* no further header fits */
    URK_JOURNAL_NEXT_MAGIC = 1,   /* the next header's magic is wrong */
    URK_JOURNAL_NEXT_SIZES = 2,   /* its page or sector size is not the first header's */
    URK_JOURNAL_RECORD_CUT = 3,   /* a record is cut */
    URK_JOURNAL_ZERO_NUMBER = 4,  /* its page number is 0 */
    URK_JOURNAL_WRONG_SUM = 5,    /* its sum does not match */
    URK_JOURNAL_LOCK_BYTE = 6,    /* its page number is the lock-byte page's */
    URK_JOURNAL_ALL_READ = 7      /* the file ends after whole records, all of which ffffffff counts */
};
urk_journal_summary urk_journal_inspect(const uint8_t *journal, size_t journal_len);

/* The name of the super-journal that a journal ends with. A transaction over several files (attached databases) has a journal beside each, and one file
 * more, the super-journal, whose name stands at the end of each of these journals. While that file is there every one of them is in force; that it is
 * deleted commits the transaction for all files at once. So A JOURNAL WHOSE SUPER-JOURNAL IS GONE IS NOT IN FORCE: its transaction was committed, the image
 * by itself is the database, and urk_journal_recover would undo what was committed: a counter would go back. The caller looks for the file, since nothing
 * here does.
 *
 * Found 1: the name is the `length` bytes, 1 to 512, at `start`, and 16 more bytes end the journal. Found 0: it names none, and all is 0.
 * The last 16 bytes are the name's length, its sum and the magic d9d505f920a163d7. The length is 1 to 512 and at most the bytes before these 16; the sum,
 * modulo 2^32, is that of the name's bytes taken as signed; a name that begins with a zero byte is none. Nothing else of the journal is looked at.
 *
 * As sqlite3 looks for it on Unix: the name ends at its first zero byte; one that does not begin with "/" is taken from the folder that the process runs in
 * (sqlite3 writes the whole path); a regular file of no bytes counts as gone. On another machine, or after a move, the file cannot be looked for: then
 * whoever made the copy has to say. */
urk_name urk_journal_super(const uint8_t *journal, size_t journal_len);

/* Builds a fresh database of one table into `out`: `pages` pages of 1,024 bytes, `length` bytes in all.
 *
 * `schema` is the record of the table's row in the schema, which gets row number 1. It has five columns: the texts "table", the table's name and its name again, the
 * number 2 (the root's page), and the CREATE TABLE text. `rows` are the row numbers, rising, at most URK_BUILD_ROWS of them; `lengths` are the lengths of their
 * payloads, and `payloads` has these one behind the other. Each payload is a record. docs/LAYOUT.md says what is written, byte for byte; it depends on these inputs alone.
 *
 * Refusals, in this order:
 *   48  `lengths_len` is not `rows_len`; there are over 4,096 rows; the lengths do not add up to `payloads_len`; a row number is not above the one before it, both signed
 *   26  a length is over 65,536
 *   28  a payload does not read as a record; an empty one does not
 *   28  `schema` has over 911 bytes, so that its cell does not fit page 1; or it is no record of five columns whose fourth is the integer 2, in any integer type
 *    5  the image would have over 4,096 pages: here the limit is that, and not 2,200,000
 *   44  `out_len` is under the image's length
 * On a refusal `pages` and `length` are 0, and no byte of `out` changes. On success only its first `length` bytes do.
 *
 * How large `out` has to be: URK_BUILD_MOST bytes, 4 MiB, are always enough, and so are 1024 * (rows_len + rows_len / 64 + payloads_len / 990 + 4).
 *
 * Of the image: urk_check accepts it and finds no long spelling. Under root 2 urk_lookup finds a number exactly when it was given, urk_payload_fetch then gives the bytes
 * given, and urk_rows_first, urk_rows_step .. show just the rows given, in their order. For a schema and rows that sqlite3 could have written, its integrity check passes. */
#define URK_BUILD_ROWS 4096
#define URK_BUILD_MOST 4194304
urk_built urk_build(const uint8_t *schema, size_t schema_len, const int64_t *rows, size_t rows_len, const uint32_t *lengths, size_t lengths_len,
                    const uint8_t *payloads, size_t payloads_len, uint8_t *out, size_t out_len);

/* Writing a log. A tail is what a writer has to know of a log, in URK_TAIL_WORDS words that the caller lends and keeps between calls:
 *   0     the page size
 *   1     the order of bytes in the words of the sums: 0 little-endian (magic 377f0682), 1 big-endian (377f0683)
 *   2, 3  the salts
 *   4, 5  the sums that the last frame in force carries, or the header where none is in force
 *   6     how many frames are in force
 *   7     the pages after the last commit in force, 0 where there is none
 * By it a commit is appended in the time of its own frames, however long the log is. Words past 8 never change. A refusal leaves tail and output as they
 * were.
 *
 * To commit: urk_log_append; cut the log at `at` where it is longer, and sync it; write the `length` bytes there and sync it; then the commit is done. The
 * first tail is urk_log_tail's, or urk_log_begin's for a fresh log. Where the bytes do not reach the log, take the words of before, or urk_log_tail's.
 *
 * WHAT IS APPENDED IS APPENDED TO A LOG THAT ENDS AT `at`: the caller cuts it there first, and syncs. Then, cut anywhere but at their end, the frames change
 * nothing: image and log show what they showed before, with every refusal. Where old bytes stand behind a torn frame its sums may match by chance, and only
 * this holds: every commit that was in force stays in force.
 * Once the frames are whole the commit is in force, of `n` pages: a page of the list shows its last given bytes, any other page up to the lesser of the old n
 * and the new one what it showed before (with no commit in force before: where the image passes 1 to 5 with the log's page size). WHO GROWS A FILE GIVES
 * EVERY NEW PAGE but the lock-byte page: no refusal asks it, and one that is not given shows what an older frame in force has for it, else what the image
 * has, else it is nowhere (43). The lock-byte page cannot be given (51): it is shown from the image, or is 46.
 *
 * A checkpoint writes the pages that the log has in force into the image, in any order, and cuts the image to n pages. Where urk_log_recover, given room, does
 * not refuse, image and log then show what they showed, torn anywhere: n, every page, every refusal, and the whole file. (A page that is nowhere, 43, is so
 * only until the image has grown past it.) Apart is a lock-byte page that the image had not wholly: alone it was 46, and zeros in the whole file; once the
 * image has grown past it, it is the bytes that stand there, zeros or others.
 * When the checkpoint is done, and the image by itself passes 1 to 5 with the log's page size, the log is cut to nothing, and a fresh header may be written,
 * torn at any byte. Without that cut a fresh header with the same page size and another salt may be laid over the old one, torn at any byte, BUT ONLY OVER
 * THE HEADER OF A LOG THAT HAS A COMMIT IN FORCE, AND SUMS IN LITTLE-ENDIAN WORDS (word 1 of its tail is 0): it is proved of no other log. Where urk_log_tail
 * answers 50, where no frame is in force while bytes stand behind the header, or where word 1 is 1, the log is cut to nothing first, and synced. A log that
 * is cut to a part of itself shows an older commit. */
#define URK_TAIL_WORDS 8

/* The tail of a log, in one scan. Refusals: 50 where there is no accepted header; 40, 41, 42 as recovery; 47 where over 4,294,967,295 frames are in force; 44
 * for a tail of under 8 words. */
urk_tail urk_log_tail(const uint8_t *log, size_t log_len, uint32_t *tail, size_t tail_len);

/* A fresh log: its header, 32 bytes at 0, with sums in little-endian words, and its tail. A log that takes another's place has another salt.
 * Refusals: 41 on the page size; 44 for a tail of under 8 words or an output of under 32 bytes. Only the first 32 bytes of `out` change. */
urk_appended urk_log_begin(uint32_t page_size, uint32_t sequence, uint32_t salt1, uint32_t salt2, uint32_t *tail, size_t tail_len,
                           uint8_t *out, size_t out_len);

/* Appends a commit of `n` pages: the frames of the pages that `numbers` lists, whose bytes are side by side in `pages`, go to the start of `out`. They are
 * numbers_len * (24 + page size) bytes, which is the `length`; they belong at `at` = 32 + frames in force * (24 + page size) of the log; the tail is then the
 * one behind them. A page may be listed more than once.
 * Refusals, in this order:
 *   44  the tail has under 8 words
 *   41  its word 0 is no page size, or its word 1 is neither 0 nor 1
 *   42  `n` is over 2,200,000
 *   51  the list is empty; `n` is 0; a number is 0, above `n`, or the lock-byte page's; `pages_len` is not numbers_len * page size
 *   47  the frames in force and these would be over 4,294,967,295
 *   44  `out` is shorter than the frames
 * Only the first `length` bytes of `out` change. */
urk_appended urk_log_append(uint32_t *tail, size_t tail_len, const uint32_t *numbers, size_t numbers_len, const uint8_t *pages, size_t pages_len,
                            uint32_t n, uint8_t *out, size_t out_len);

/* Words for people, in plain C beside the proved functions (c/urkibasko_names.c; `make install` puts both into one archive). For a number that is no refusal's
 * they are "unknown" and a line that says so; never NULL. */
const char *urk_refusal_name(uint32_t refusal); /* "URK_ROW_ORDER" */
const char *urk_refusal_text(uint32_t refusal); /* "the page's row numbers are out of order" */

#ifdef __cplusplus
}
#endif

#endif
