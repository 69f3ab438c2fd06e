/* Names and texts of refusals, for people. Apart from the archive, which is proved: this is plain C. */
#include "urkibasko.h"

typedef struct { uint32_t number; const char *name; const char *text; } refusal_words;

static const refusal_words all[] = {
    {URK_OK, "URK_OK", "nothing is refused"},
    {URK_SHORT_IMAGE, "URK_SHORT_IMAGE", "the image has fewer than 512 bytes"},
    {URK_BAD_MAGIC, "URK_BAD_MAGIC", "the image does not begin with \"SQLite format 3\" and a zero"},
    {URK_BAD_PAGE_SIZE, "URK_BAD_PAGE_SIZE", "the page size at offset 16 is neither a power of two from 512 to 32768 nor 1 (for 65536)"},
    {URK_PARTIAL_PAGE, "URK_PARTIAL_PAGE", "the image's length is no whole number of pages"},
    {URK_TOO_MANY_PAGES, "URK_TOO_MANY_PAGES", "the database has over 2,200,000 pages"},
    {URK_SMALL_USABLE_SIZE, "URK_SMALL_USABLE_SIZE", "the page size less the reserved bytes is under 480"},
    {URK_BAD_FRACTIONS, "URK_BAD_FRACTIONS", "the payload fractions at offsets 21 to 23 are not 64, 32, 32"},
    {URK_BAD_READ_VERSION, "URK_BAD_READ_VERSION", "the read version at offset 19 is not 1 or 2"},
    {URK_BAD_PAGE_COUNT, "URK_BAD_PAGE_COUNT", "fewer pages are present than the count at offset 28 says"},
    {URK_INCREMENTAL_VACUUM, "URK_INCREMENTAL_VACUUM", "the number at offset 64 (incremental vacuum) is set while the one at 52 (auto-vacuum) is zero"},
    {URK_RESERVED_HEADER, "URK_RESERVED_HEADER", "the reserved bytes 72 to 91 of the header are not all zero"},
    {URK_SMALL_LEDGERS, "URK_SMALL_LEDGERS", "a ledger has fewer entries than the database has pages"},
    {URK_LONG_INPUT, "URK_LONG_INPUT", "standard input has over 65,536 bytes"},
    {URK_POINTER_RANGE, "URK_POINTER_RANGE", "a pointer names a page that the image does not have"},
    {URK_NAMED_TWICE, "URK_NAMED_TWICE", "the page is named a second time (page 1, a pointer map or the lock-byte page by its very first pointer)"},
    {URK_PAGE_TYPE, "URK_PAGE_TYPE", "the page's type byte does not suit its place"},
    {URK_NOT_SOUND, "URK_NOT_SOUND", "the page's cells, freeblocks and fragments do not account for each of its bytes"},
    {URK_TREE_LEVEL, "URK_TREE_LEVEL", "the page would be level 21 of its tree, or is a leaf at another level than the leaves before it"},
    {URK_ROW_ORDER, "URK_ROW_ORDER", "the page's row numbers are out of order"},
    {URK_LONG_PAYLOAD, "URK_LONG_PAYLOAD", "the page has a payload of over 65,536 bytes"},
    {URK_CHAIN_LENGTH, "URK_CHAIN_LENGTH", "an overflow chain ends too early or too late"},
    {URK_BAD_RECORD, "URK_BAD_RECORD",
     "the page has a cell whose payload does not read as a record; or a schema row that has not five columns, or whose root is no page from 2 on"},
    {URK_FREELIST, "URK_FREELIST", "a trunk's count is too large, or the freelist's total is not the number at offset 36"},
    {URK_NEVER_NAMED, "URK_NEVER_NAMED", "nothing names the page"},
    {URK_MAP_ENTRY, "URK_MAP_ENTRY",
     "the pointer map's entry about the page says another kind, or another number than its namer (0 for a root or a free page)"},
    {URK_LARGEST_ROOT, "URK_LARGEST_ROOT", "the number at offset 52 is not the largest root page"},
    {URK_KEY_ORDER, "URK_KEY_ORDER", "the page has a key, of an index that was named, that is not more than the key before it"},
    {URK_TEXT_ENCODING, "URK_TEXT_ENCODING", "an index was named, and the text encoding at offset 56 is not 1 (UTF-8)"},
    {URK_NO_INDEX_ROOT, "URK_NO_INDEX_ROOT", "the page that was named as an index is no index root"},
    {URK_LOG_VERSION, "URK_LOG_VERSION", "the log's version is not 3007000"},
    {URK_RECOVERY_SIZE, "URK_RECOVERY_SIZE",
     "a page size or sector size is no power of two from 512 to 65536, or the words of a tail have no page size or no order of bytes"},
    {URK_RECOVERED_PAGES, "URK_RECOVERED_PAGES", "the recovered database would have over 2,200,000 pages"},
    {URK_PAGE_NOWHERE, "URK_PAGE_NOWHERE", "a page of the recovered database, not the lock-byte page, is in neither of the two files"},
    {URK_SMALL_OUTPUT, "URK_SMALL_OUTPUT", "the lent output, cursor, tail or room is too small"},
    {URK_RECORDED_TWICE, "URK_RECORDED_TWICE", "the journal has two records for one page"},
    {URK_NO_SUCH_PLACE, "URK_NO_SUCH_PLACE", "the page or cell that was asked for does not exist"},
    {URK_SMALL_TABLE, "URK_SMALL_TABLE",
     "the table of frames has fewer entries than the database has pages; or it, or a log's tail, would hold a frame numbered past 4,294,967,295"},
    {URK_BAD_ROWS, "URK_BAD_ROWS", "the rows to be built do not rise by number, are over 4,096, or come in lists that disagree in length"},
    {URK_STALE_CURSOR, "URK_STALE_CURSOR", "the cursor's path does not stand in the image, does not end at a leaf cell, or has a page that fails a test"},
    {URK_NO_LOG_HEADER, "URK_NO_LOG_HEADER", "the log has no header that is accepted: it has under 32 bytes, another magic, or wrong sums"},
    {URK_BAD_COMMIT, "URK_BAD_COMMIT", "the commit to be appended has no pages, one that it may not hold, or other bytes than its list of pages says"},
    {URK_NO_TABLE_ROOT, "URK_NO_TABLE_ROOT", "the root is page 1, or no root by the ledger that was lent; or the row's leaf is page 1"},
    {URK_DOES_NOT_FIT, "URK_DOES_NOT_FIT", "the row has an overflow chain, or the record to be set would need one, or the page has no room for it"},
};

static const refusal_words *find(uint32_t refusal) {
    for (size_t i = 0; i < sizeof all / sizeof *all; i++)
        if (all[i].number == refusal)
            return &all[i];
    return 0;
}

const char *urk_refusal_name(uint32_t refusal) {
    const refusal_words *words = find(refusal);
    return words ? words->name : "unknown";
}

const char *urk_refusal_text(uint32_t refusal) {
    const refusal_words *words = find(refusal);
    return words ? words->text : "no refusal has this number";
}
