/* Goes through include/yuthaqim.h once: each function on worked cases, what came, and whether it is what the cases say. */
#include <stdio.h>
#include <string.h>

#include "yuthaqim.h"

#define LENGTH(a) (sizeof(a) / sizeof((a)[0]))

/* The question D, and its content: sections, slow runs, fast runs and readings are kinds 0 to 3. All links of the worked
 * cases have kind 0. */
static const uint8_t D[] = {0x20, 0x80, 0x08, 0x86, 0x02, 0x00, 0x80, 0x98, 0x23, 0x00};
static const uint32_t D_FIELDS[] = {4, 4, 0, 1, 2, 3, 0, 1, 0, 0, 2, 0, 1, 3, 0, 2, 3, 0};

/* The catalogue C: section to slow; section to slow to reading; section to fast to reading. */
static const uint8_t C[] = {0x18, 0x10, 0x20, 0x08, 0x08, 0x18, 0x40, 0x08, 0xc0, 0x40, 0x90, 0x18, 0x40, 0x10, 0xc0,
                            0x40, 0x90};
static const uint32_t C_FIELDS[] = {3, 2, 1, 0, 1, 0, 1, 0, 3, 2, 0, 1, 3, 0, 1, 0, 1, 2, 0, 3, 2, 0, 2, 3, 0, 1, 0, 1,
                                    2, 0};

/* Extract 1 of C as a pattern, and as a catalogue of its own. */
static const uint8_t SLOW[] = {0x18, 0x40, 0x08, 0xc0, 0x40, 0x90};
static const uint8_t ONLY_SLOW[] = {0x08, 0x18, 0x40, 0x08, 0xc0, 0x40, 0x90};

/* Case K6: kinds {0}, {1}, {3}, {1}; extract 1 lists (0,1) and (1,2). */
static const uint32_t K6_FIELDS[] = {4, 3, 1, 2, 8, 2, 0, 1, 0, 0, 3, 0, 1, 2, 0};
static const uint8_t K6[] = {0x00, 0x20, 0x00, 0x60, 0x00, 0x00, 0x00, 0x20, 0x00, 0x00, 0x00, 0x40, 0x00, 0x00, 0x01,
                             0x00, 0x00, 0x00, 0x00, 0x40, 0x00, 0x00, 0x20, 0x00, 0x00, 0x0c, 0x00, 0x08, 0x01, 0x00};
static const uint8_t K6_SHEET[] = {0x80, 0x02, 0x00, 0x00, 0x02, 0x00, 0x08, 0x00, 0x80, 0x10};
static const uint32_t K6_SHEET_FIELDS[] = {1, 1, 0, 1, 1, 1, 2};
/* Extract 0 lists (0,1) and (0,3), extract 2 nothing. */
static const uint8_t K6_BOOK[] = {0x80, 0x04, 0x00, 0x00, 0x02, 0x00, 0x00, 0x06, 0x80, 0x02,
                                  0x00, 0x00, 0x02, 0x00, 0x08, 0x00, 0x80, 0x10, 0x00};
static const uint32_t K6_BOOK_FIELDS[] = {1, 2, 0, 1, 0, 3, 1, 1, 0, 1, 1, 1, 2, 0};

/* The index of K6: two links begin at item 0, one at item 1. */
static const uint16_t K6_INDEX[] = {0, 2, 3, 3, 3};

/* Case K9: a section, a run of kinds {1, 2}, a reading; D lists (0,1), (0,1), (1,2), (1,2). */
static const uint8_t K9[] = {0x00, 0x18, 0x00, 0x40, 0x00, 0x00, 0x00, 0x20, 0x00, 0x00, 0x00, 0xc0, 0x00, 0x00, 0x01,
                             0x00, 0x00, 0x00, 0x20, 0x00, 0x40, 0x08, 0x00};
static const uint8_t K9_SHEET[] = {0x80, 0x02, 0x00, 0x00, 0x02, 0x00, 0x08, 0x00, 0x00, 0x08,
                                   0x00, 0x20, 0x02, 0x00, 0x40, 0x00, 0x80, 0x08, 0x01, 0x00};

/* D read as a record, and without its link 1, which extract 1 alone leaves unmatched. */
static const uint32_t SHOWN_FIELDS[] = {4, 4, 1, 2, 4, 8, 0, 1, 0, 0, 2, 0, 1, 3, 0, 2, 3, 0};
static const uint32_t FEWER_FIELDS[] = {4, 3, 1, 2, 4, 8, 0, 1, 0, 1, 3, 0, 2, 3, 0};

static uint32_t work[YUTHAQIM_WORK_WORDS + 1];
static uint8_t bytes[2 * YUTHAQIM_BOOK_BYTES];
static uint8_t more[YUTHAQIM_RECORD_BYTES];
static uint32_t words[YUTHAQIM_BOOK_WORDS];
static uint16_t entries[YUTHAQIM_INDEX_ENTRIES];
static int failures;

/* What came of a call: its number, and how much was written or the detail. */
static void expect(const char *what, size_t number, size_t value, int holds) {
    printf("%-50s %2zu %6zu  %s\n", what, number, value, holds ? "ok" : "WRONG");
    failures += !holds;
}

/* Every word to work in and every byte, word and entry of the outputs is marked before a call. */
static void mark(void) {
    memset(work, 0xa5, sizeof work);
    memset(bytes, 0xa5, sizeof bytes);
    memset(more, 0xa5, sizeof more);
    memset(words, 0xa5, sizeof words);
    memset(entries, 0xa5, sizeof entries);
}

static int are_marks(const void *memory, size_t from, size_t to) {
    const uint8_t *byte = memory;
    for (size_t i = from; i < to; i++) {
        if (byte[i] != 0xa5) {
            return 0;
        }
    }
    return 1;
}

/* The words to work in after a call: zero, but for the one beyond. */
static int is_cleared(void) {
    for (size_t i = 0; i < YUTHAQIM_WORK_WORDS; i++) {
        if (work[i] != 0) {
            return 0;
        }
    }
    return work[YUTHAQIM_WORK_WORDS] == 0xa5a5a5a5;
}

/* What was written to an output of so many bytes, and nothing beyond. */
static int is_written(const void *out, size_t size, const void *expected, size_t length) {
    return memcmp(out, expected, length) == 0 && are_marks(out, length, size) && is_cleared();
}

static void expect_words(const char *what, struct yuthaqim_reply r, const uint32_t *expected, size_t length) {
    expect(what, r.number, r.value,
           r.number == 0 && r.value == length && is_written(words, sizeof words, expected, 4 * length));
}

static void expect_bytes(const char *what, struct yuthaqim_reply r, const uint8_t *expected, size_t length) {
    expect(what, r.number, r.value,
           r.number == 0 && r.value == length && is_written(bytes, sizeof bytes, expected, length));
}

/* A refusal leaves the outputs as they were. */
static void expect_refusal(const char *what, size_t number, size_t value, size_t is_number, size_t is_value) {
    int kept = are_marks(bytes, 0, sizeof bytes) && are_marks(more, 0, sizeof more) &&
               are_marks(words, 0, sizeof words) && are_marks(entries, 0, sizeof entries);
    expect(what, number, value, number == is_number && value == is_value && kept);
}

static void files(void) {
    mark();
    expect_words("read_pattern: D", yuthaqim_read_pattern(D, sizeof D, words, LENGTH(words), work, LENGTH(work)),
                 D_FIELDS, LENGTH(D_FIELDS));
    mark();
    expect_bytes("write_pattern: D",
                 yuthaqim_write_pattern(D_FIELDS, LENGTH(D_FIELDS), bytes, sizeof bytes, work, LENGTH(work)), D,
                 sizeof D);
    mark();
    expect_words("read_catalogue: C", yuthaqim_read_catalogue(C, sizeof C, words, LENGTH(words), work, LENGTH(work)),
                 C_FIELDS, LENGTH(C_FIELDS));
    mark();
    expect_bytes("write_catalogue: C",
                 yuthaqim_write_catalogue(C_FIELDS, LENGTH(C_FIELDS), bytes, sizeof bytes, work, LENGTH(work)), C,
                 sizeof C);
    mark();
    expect_words("read_record: K6", yuthaqim_read_record(K6, sizeof K6, words, LENGTH(words), work, LENGTH(work)),
                 K6_FIELDS, LENGTH(K6_FIELDS));
    mark();
    expect_bytes("write_record: K6",
                 yuthaqim_write_record(K6_FIELDS, LENGTH(K6_FIELDS), bytes, sizeof bytes, work, LENGTH(work)), K6,
                 sizeof K6);
    mark();
    expect_words(
        "read_sheet: extract 1 on K6",
        yuthaqim_read_sheet(SLOW, sizeof SLOW, K6_SHEET, sizeof K6_SHEET, words, LENGTH(words), work, LENGTH(work)),
        K6_SHEET_FIELDS, LENGTH(K6_SHEET_FIELDS));
    mark();
    expect_bytes("write_sheet: extract 1 on K6",
                 yuthaqim_write_sheet(SLOW, sizeof SLOW, K6_SHEET_FIELDS, LENGTH(K6_SHEET_FIELDS), bytes, sizeof bytes,
                                      work, LENGTH(work)),
                 K6_SHEET, sizeof K6_SHEET);
    mark();
    expect_words("read_book: C on K6",
                 yuthaqim_read_book(C, sizeof C, K6_BOOK, sizeof K6_BOOK, words, LENGTH(words), work, LENGTH(work)),
                 K6_BOOK_FIELDS, LENGTH(K6_BOOK_FIELDS));
    mark();
    expect_bytes("write_book: C on K6",
                 yuthaqim_write_book(C, sizeof C, K6_BOOK_FIELDS, LENGTH(K6_BOOK_FIELDS), bytes, sizeof bytes, work,
                                     LENGTH(work)),
                 K6_BOOK, sizeof K6_BOOK);
}

/* K6 as it could be stored before links had an order or kinds: its links turned, and in order. */
static const uint8_t OLD_K6[] = {0x00, 0x20, 0x00, 0x60, 0x00, 0x00, 0x00, 0x20, 0x00, 0x00, 0x00, 0x40, 0x00, 0x00,
                                 0x01, 0x00, 0x00, 0x00, 0x00, 0x40, 0x02, 0x00, 0x40, 0x00, 0x00, 0x60, 0x00, 0x00,
                                 0x20};
static const uint8_t OLD_IN_ORDER[] = {0x00, 0x20, 0x00, 0x60, 0x00, 0x00, 0x00, 0x20, 0x00, 0x00, 0x00, 0x40, 0x00,
                                       0x00, 0x01, 0x00, 0x00, 0x00, 0x00, 0x40, 0x00, 0x00, 0x20, 0x00, 0x00, 0x60,
                                       0x02, 0x00, 0x40};
/* And in the new layout, with its links turned. */
static const uint32_t TURNED_FIELDS[] = {4, 3, 1, 2, 8, 2, 1, 2, 0, 0, 3, 0, 0, 1, 0};
static const uint8_t TURNED_K6[] = {0x00, 0x20, 0x00, 0x60, 0x00, 0x00, 0x00, 0x20, 0x00, 0x00, 0x00, 0x40, 0x00, 0x00,
                                    0x01, 0x00, 0x00, 0x00, 0x00, 0x40, 0x02, 0x00, 0x40, 0x00, 0x00, 0x0c, 0x00, 0x00,
                                    0x00, 0x80};

static void sorting(void) {
    static uint8_t twice[sizeof OLD_K6];
    struct yuthaqim_reply r;

    mark();
    r = yuthaqim_sort_record(OLD_K6, sizeof OLD_K6, bytes, sizeof bytes, work, LENGTH(work));
    expect_bytes("sort_record: K6 with its links turned", r, K6, sizeof K6);
    mark();
    r = yuthaqim_sort_record(OLD_IN_ORDER, sizeof OLD_IN_ORDER, bytes, sizeof K6, work, LENGTH(work));
    expect_bytes("sort_record: K6 in order, without kinds", r, K6, sizeof K6);
    mark();
    r = yuthaqim_sort_record(OLD_K6, sizeof OLD_K6, bytes, sizeof K6 - 1, work, LENGTH(work));
    expect_refusal("sort_record: no room", r.number, r.value, YUTHAQIM_NO_FIT, sizeof K6);
    mark();
    memcpy(twice, OLD_K6, sizeof twice);
    memcpy(twice + 26, twice + 20, 3);
    r = yuthaqim_sort_record(twice, sizeof twice, bytes, sizeof bytes, work, LENGTH(work));
    expect_refusal("sort_record: a link twice", r.number, r.value, YUTHAQIM_TWICE, YUTHAQIM_IN_RECORD);
    mark();
    r = yuthaqim_sort_record(more, YUTHAQIM_OLD_RECORD_BYTES + 1, bytes, sizeof bytes, work, LENGTH(work));
    expect_refusal("sort_record: too many bytes", r.number, r.value, YUTHAQIM_LONG, YUTHAQIM_IN_RECORD);
    mark();
    r = yuthaqim_read_record(TURNED_K6, sizeof TURNED_K6, words, LENGTH(words), work, LENGTH(work));
    expect_refusal("read_record: links out of order", r.number, r.value, YUTHAQIM_ORDER, YUTHAQIM_IN_RECORD);
    mark();
    r = yuthaqim_write_record(TURNED_FIELDS, LENGTH(TURNED_FIELDS), bytes, sizeof bytes, work, LENGTH(work));
    expect_refusal("write_record: links out of order", r.number, r.value, YUTHAQIM_ORDER, YUTHAQIM_IN_RECORD);
}

/* A sheet for nothing found is the byte 0, its content the word 0. */
static void nothing(void) {
    static const uint8_t no_items[] = {0, 0, 0, 0}, zero[] = {0}, zeros[] = {0, 0, 0}, empty_list[] = {0x80, 0};
    static const uint32_t no_pairs[] = {0}, no_sheets[] = {0, 0, 0}, no_list[] = {1, 0};
    struct yuthaqim_reply r;

    mark();
    expect_bytes("search: D on a record of no items",
                 yuthaqim_search(D, sizeof D, no_items, sizeof no_items, bytes, sizeof bytes, work, LENGTH(work)), zero,
                 sizeof zero);
    mark();
    r = yuthaqim_search(D, sizeof D, no_items, sizeof no_items, bytes, 0, work, LENGTH(work));
    expect_refusal("search: no room for nothing", r.number, r.value, YUTHAQIM_NO_FIT, 1);
    mark();
    expect_bytes("make_book: C on a record of no items",
                 yuthaqim_make_book(C, sizeof C, 0, no_items, sizeof no_items, bytes, sizeof bytes, work, LENGTH(work)),
                 zeros, sizeof zeros);
    mark();
    expect_words("read_sheet: nothing",
                 yuthaqim_read_sheet(D, sizeof D, zero, sizeof zero, words, LENGTH(words), work, LENGTH(work)), no_pairs,
                 LENGTH(no_pairs));
    mark();
    expect_words("read_book: nothing",
                 yuthaqim_read_book(C, sizeof C, zeros, sizeof zeros, words, LENGTH(words), work, LENGTH(work)),
                 no_sheets, LENGTH(no_sheets));
    mark();
    r = yuthaqim_read_sheet(D, sizeof D, zeros, 2, words, LENGTH(words), work, LENGTH(work));
    expect_refusal("read_sheet: a byte after nothing", r.number, r.value, YUTHAQIM_TAIL, YUTHAQIM_IN_BOOK);
    mark();
    r = yuthaqim_read_sheet(D, sizeof D, empty_list, sizeof empty_list, words, LENGTH(words), work, LENGTH(work));
    expect_refusal("read_sheet: a zero count after a 1", r.number, r.value, YUTHAQIM_UNEVEN, YUTHAQIM_IN_BOOK);
    mark();
    r = yuthaqim_write_sheet(D, sizeof D, no_list, LENGTH(no_list), bytes, sizeof bytes, work, LENGTH(work));
    expect_refusal("write_sheet: a zero count after a 1", r.number, r.value, YUTHAQIM_UNEVEN, YUTHAQIM_IN_BOOK);
}

static void matching(void) {
    mark();
    expect_bytes("search: extract 1 on K6",
                 yuthaqim_search(SLOW, sizeof SLOW, K6, sizeof K6, bytes, sizeof bytes, work, LENGTH(work)), K6_SHEET,
                 sizeof K6_SHEET);
    mark();
    expect_bytes("make_book: C on K6",
                 yuthaqim_make_book(C, sizeof C, 0, K6, sizeof K6, bytes, sizeof bytes, work, LENGTH(work)), K6_BOOK,
                 sizeof K6_BOOK);
    mark();
    expect_bytes("search: D on K9",
                 yuthaqim_search(D, sizeof D, K9, sizeof K9, bytes, sizeof bytes, work, LENGTH(work)), K9_SHEET,
                 sizeof K9_SHEET);
}

/* An index of K6 that isn't its own: what a check and a search by it say. */
static void expect_no_index(const char *what, const uint16_t *index, size_t length, size_t detail) {
    struct yuthaqim_reply c, s;

    mark();
    c = yuthaqim_check_index(K6, sizeof K6, index, length, work, LENGTH(work));
    expect_refusal(what, c.number, c.value, YUTHAQIM_INDEX, detail);
    s = yuthaqim_search_indexed(SLOW, sizeof SLOW, K6, sizeof K6, index, length, bytes, sizeof bytes, work,
                                LENGTH(work));
    expect_refusal("  and a search by it", s.number, s.value, YUTHAQIM_INDEX, detail);
}

static void indexing(void) {
    static const uint8_t no_items[] = {0, 0, 0, 0};
    static const uint16_t zero[] = {0};
    static const uint16_t first[] = {1, 2, 3, 3, 3}, middle[] = {0, 2, 2, 3, 3}, last[] = {0, 2, 3, 3, 4};
    static const uint16_t longer[] = {0, 2, 3, 3, 3, 3};
    struct yuthaqim_reply r;

    mark();
    r = yuthaqim_make_index(K6, sizeof K6, entries, LENGTH(entries), work, LENGTH(work));
    expect("make_index: K6", r.number, r.value,
           r.number == 0 && r.value == LENGTH(K6_INDEX) &&
               is_written(entries, sizeof entries, K6_INDEX, sizeof K6_INDEX));
    mark();
    r = yuthaqim_make_index(no_items, sizeof no_items, entries, 1, work, LENGTH(work));
    expect("make_index: a record of no items", r.number, r.value,
           r.number == 0 && r.value == 1 && is_written(entries, sizeof entries, zero, sizeof zero));
    mark();
    r = yuthaqim_make_index(K6, sizeof K6, entries, LENGTH(K6_INDEX) - 1, work, LENGTH(work));
    expect_refusal("make_index: no room", r.number, r.value, YUTHAQIM_NO_FIT, LENGTH(K6_INDEX));
    mark();
    r = yuthaqim_check_index(K6, sizeof K6, K6_INDEX, LENGTH(K6_INDEX), work, LENGTH(work));
    expect("check_index: K6", r.number, r.value, r.number == 0 && r.value == LENGTH(K6_INDEX) && is_cleared());
    mark();
    expect_bytes("search_indexed: extract 1 on K6",
                 yuthaqim_search_indexed(SLOW, sizeof SLOW, K6, sizeof K6, K6_INDEX, LENGTH(K6_INDEX), bytes,
                                         sizeof bytes, work, LENGTH(work)),
                 K6_SHEET, sizeof K6_SHEET);
    expect_no_index("check_index: no entries", zero, 0, 0);
    expect_no_index("check_index: one entry", zero, 1, 1);
    expect_no_index("check_index: an entry more", longer, LENGTH(longer), 6);
    expect_no_index("check_index: the first entry is another", first, LENGTH(first), 0);
    expect_no_index("check_index: a middle entry is another", middle, LENGTH(middle), 2);
    expect_no_index("check_index: the last entry is another", last, LENGTH(last), 4);
    mark();
    r = yuthaqim_search_indexed(SLOW, sizeof SLOW, K6, sizeof K6 - 1, last, LENGTH(last), bytes, 0, work, LENGTH(work));
    expect_refusal("search_indexed: the record stands first", r.number, r.value, YUTHAQIM_SHORT, YUTHAQIM_IN_RECORD);
    mark();
    r = yuthaqim_search_indexed(SLOW, sizeof SLOW, K6, sizeof K6, last, LENGTH(last), bytes, 0, work, LENGTH(work));
    expect_refusal("search_indexed: the index before the room", r.number, r.value, YUTHAQIM_INDEX, 4);
    mark();
    r = yuthaqim_search_indexed(SLOW, sizeof SLOW, K6, sizeof K6, K6_INDEX, LENGTH(K6_INDEX), bytes,
                                sizeof K6_SHEET - 1, work, LENGTH(work));
    expect_refusal("search_indexed: no room", r.number, r.value, YUTHAQIM_NO_FIT, sizeof K6_SHEET);
}

/* Whether the quote has this mask, and how many of its masks are not zero. */
static int maps(const struct yuthaqim_quote *q, size_t e, size_t a, uint32_t mask) {
    return q->mapping[16 * e + a] == mask;
}

static size_t masks(const struct yuthaqim_quote *q) {
    size_t count = 0;
    for (size_t i = 0; i < LENGTH(q->mapping); i++) {
        count += q->mapping[i] != 0;
    }
    return count;
}

static void quoting(void) {
    struct yuthaqim_quote q;

    mark();
    q = yuthaqim_quote(D, sizeof D, C, sizeof C, 0, work, LENGTH(work));
    expect("quote: D with C is covered", q.number, q.covered,
           q.number == 0 && q.detail == 0 && q.covered == 1 && q.edges == 4 && q.lowest == 0 && is_cleared());
    expect("quote: extracts 1 and 2 are chosen", q.number, q.chosen, q.chosen == (1 << 1 | 1 << 2));
    expect("quote: the links by 0.0 and 1.0, 2.0, 1.1, 2.1", q.number, masks(&q),
           maps(&q, 0, 0, 1) && maps(&q, 0, 1, 1) && maps(&q, 1, 2, 1) && maps(&q, 2, 1, 2) && maps(&q, 3, 2, 2) &&
               masks(&q) == 5);
    q = yuthaqim_quote(D, sizeof D, ONLY_SLOW, sizeof ONLY_SLOW, 0, work, LENGTH(work));
    expect("quote: D with extract 1 alone lacks link 1", q.number, q.lowest,
           q.number == 0 && q.covered == 0 && q.edges == 4 && q.chosen == 0 && q.lowest == 1 && maps(&q, 0, 0, 1) &&
               maps(&q, 2, 0, 2) && masks(&q) == 2);
    q = yuthaqim_quote(D, sizeof D, C, sizeof C - 1, 0, work, LENGTH(work));
    expect("quote: a catalogue that is cut off", q.number, q.detail,
           q.number == YUTHAQIM_SHORT && q.detail == YUTHAQIM_IN_CATALOGUE && q.covered == 0 && q.edges == 0 &&
               q.chosen == 0 && q.lowest == 0 && masks(&q) == 0);
}

/* Two links between the same items, of kinds 0 and 1, and an extract that has the second alone. */
static void link_kinds(void) {
    static const uint8_t both[] = {0x10, 0x40, 0x08, 0x08, 0x01, 0x20}, second[] = {0x10, 0x20, 0x08, 0x09};
    static const uint8_t extract[] = {0x08, 0x10, 0x20, 0x08, 0x09};
    static const uint32_t both_fields[] = {2, 2, 0, 1, 0, 1, 0, 0, 1, 1}, twice[] = {2, 2, 0, 1, 0, 1, 1, 0, 1, 1};
    static const uint32_t too_wide[] = {2, 1, 0, 1, 0, 1, 8};
    static const uint32_t record_fields[] = {3, 3, 1, 2, 2, 0, 1, 0, 0, 1, 1, 0, 2, 1};
    static const uint32_t lower[] = {3, 3, 1, 2, 2, 0, 1, 1, 0, 1, 0, 0, 2, 1};
    static const uint32_t fewer_fields[] = {2, 1, 1, 2, 0, 1, 1};
    /* No link of kind 0 arrives at item 2, so it is in neither list. */
    static const uint8_t both_sheet[] = {0x80, 0x02, 0x00, 0x00, 0x02, 0x00, 0x08, 0x00, 0x00, 0x08};
    static const uint8_t extract_sheet[] = {0x80, 0x04, 0x00, 0x00, 0x02, 0x00, 0x00, 0x04};
    static uint8_t record[YUTHAQIM_RECORD_BYTES], shown[YUTHAQIM_RECORD_BYTES];
    size_t length =
        yuthaqim_write_record(record_fields, LENGTH(record_fields), record, sizeof record, work, LENGTH(work)).value;
    struct yuthaqim_reply r;
    struct yuthaqim_quote q;
    struct yuthaqim_showing s;

    mark();
    expect_words("read_pattern: links that differ in their kind",
                 yuthaqim_read_pattern(both, sizeof both, words, LENGTH(words), work, LENGTH(work)), both_fields,
                 LENGTH(both_fields));
    mark();
    expect_bytes("search: each list by its link's kind",
                 yuthaqim_search(both, sizeof both, record, length, bytes, sizeof bytes, work, LENGTH(work)),
                 both_sheet, sizeof both_sheet);
    mark();
    expect_bytes("search: a link of kind 1 alone",
                 yuthaqim_search(second, sizeof second, record, length, bytes, sizeof bytes, work, LENGTH(work)),
                 extract_sheet, sizeof extract_sheet);
    mark();
    q = yuthaqim_quote(both, sizeof both, extract, sizeof extract, 0, work, LENGTH(work));
    expect("quote: the link of the extract's kind is matched", q.number, q.lowest,
           q.number == 0 && q.covered == 0 && q.edges == 2 && q.lowest == 0 && maps(&q, 1, 0, 1) && masks(&q) == 1);
    mark();
    s = yuthaqim_show_uncovered(both, sizeof both, extract, sizeof extract, 0, bytes, sizeof bytes, more, sizeof more, work,
                                LENGTH(work));
    memcpy(shown, more, sizeof shown);
    mark();
    expect_words("show_uncovered: the link of the other kind stays",
                 yuthaqim_read_record(shown, s.second, words, LENGTH(words), work, LENGTH(work)), fewer_fields,
                 LENGTH(fewer_fields));
    mark();
    r = yuthaqim_write_pattern(twice, LENGTH(twice), bytes, sizeof bytes, work, LENGTH(work));
    expect_refusal("write_pattern: a link twice, with its kind", r.number, r.value, YUTHAQIM_TWICE,
                   YUTHAQIM_IN_PATTERN);
    mark();
    r = yuthaqim_write_pattern(too_wide, LENGTH(too_wide), bytes, sizeof bytes, work, LENGTH(work));
    expect_refusal("write_pattern: a link of kind 8", r.number, r.value, YUTHAQIM_COUNT, YUTHAQIM_IN_PATTERN);
    mark();
    r = yuthaqim_write_record(lower, LENGTH(lower), bytes, sizeof bytes, work, LENGTH(work));
    expect_refusal("write_record: kinds out of order", r.number, r.value, YUTHAQIM_ORDER, YUTHAQIM_IN_RECORD);
}

/* Extracts 0 and 1 are D's first two links, extract 2 its last two, extract 3 D itself. */
static const uint32_t HALVES_FIELDS[] = {4, 3, 2, 0, 1, 2, 0, 1, 0, 0, 2, 0, 3, 2, 0, 1, 2, 0, 1, 0, 0, 2, 0, 3, 2, 1,
                                         2, 3, 0, 2, 0, 1, 2, 0, 4, 4, 0, 1, 2, 3, 0, 1, 0, 0, 2, 0, 1, 3, 0, 2, 3, 0};

static void expect_cheapest(const char *what, struct yuthaqim_cheapest c, uint64_t sum, uint16_t set, uint16_t chosen) {
    expect(what, c.number, (size_t)c.sum,
           c.number == 0 && c.detail == 0 && c.sum == sum && c.set == set && c.chosen == chosen && is_cleared());
}

static void expect_no_cheapest(const char *what, struct yuthaqim_cheapest c, size_t number, size_t detail) {
    expect(what, c.number, c.detail,
           c.number == number && c.detail == detail && c.sum == 0 && c.set == 0 && c.chosen == 0);
}

static void charging(void) {
    static const uint32_t charges[] = {100, 200, 150};
    static const uint32_t most[] = {UINT32_MAX, UINT32_MAX, UINT32_MAX, UINT32_MAX};
    static const uint32_t alike[] = {3, 3, 4, 7};
    static const uint32_t dear[] = {3, 2, 4, 7};
    static uint8_t halves[YUTHAQIM_CATALOGUE_BYTES];
    size_t length = yuthaqim_write_catalogue(HALVES_FIELDS, LENGTH(HALVES_FIELDS), halves, sizeof halves, work,
                                             LENGTH(work)).value;

    mark();
    expect_cheapest("cheapest: D with C", yuthaqim_cheapest(D, sizeof D, C, sizeof C, 0, charges, 3, work, LENGTH(work)),
                    350, 1 << 1 | 1 << 2, 1 << 1 | 1 << 2);
    mark();
    expect_cheapest("cheapest: sums beyond 32 bits",
                    yuthaqim_cheapest(D, sizeof D, C, sizeof C, 0, most, 3, work, LENGTH(work)), 2 * (uint64_t)UINT32_MAX,
                    1 << 1 | 1 << 2, 1 << 1 | 1 << 2);
    mark();
    expect_cheapest("cheapest: two extracts for less than one",
                    yuthaqim_cheapest(D, sizeof D, halves, length, 0, dear, 4, work, LENGTH(work)), 6, 1 << 1 | 1 << 2,
                    1 << 0 | 1 << 2);
    mark();
    expect_cheapest("cheapest: of sets that cost the same the smallest",
                    yuthaqim_cheapest(D, sizeof D, halves, length, 0, alike, 4, work, LENGTH(work)), 7, 1 << 3,
                    1 << 0 | 1 << 2);
    mark();
    expect_no_cheapest("cheapest: two charges for three extracts",
                       yuthaqim_cheapest(D, sizeof D, C, sizeof C, 0, charges, 2, work, LENGTH(work)), YUTHAQIM_CHARGES, 2);
    expect_no_cheapest("cheapest: no charges",
                       yuthaqim_cheapest(D, sizeof D, C, sizeof C, 0, charges, 0, work, LENGTH(work)), YUTHAQIM_CHARGES, 0);
    expect_no_cheapest("cheapest: D with extract 1 alone, two charges",
                       yuthaqim_cheapest(D, sizeof D, ONLY_SLOW, sizeof ONLY_SLOW, 0, charges, 2, work, LENGTH(work)),
                       YUTHAQIM_CHARGES, 2);
    expect_no_cheapest("cheapest: D with extract 1 alone is uncovered",
                       yuthaqim_cheapest(D, sizeof D, ONLY_SLOW, sizeof ONLY_SLOW, 0, charges, 1, work, LENGTH(work)),
                       YUTHAQIM_UNCOVERED, 1);
    expect_no_cheapest("cheapest: a catalogue that is cut off",
                       yuthaqim_cheapest(D, sizeof D, C, sizeof C - 1, 0, charges, 0, work, LENGTH(work)), YUTHAQIM_SHORT,
                       YUTHAQIM_IN_CATALOGUE);
}

static void answering(void) {
    static uint8_t book[YUTHAQIM_BOOK_BYTES];
    size_t length = yuthaqim_make_book(C, sizeof C, 0, K9, sizeof K9, book, sizeof book, work, LENGTH(work)).value;
    struct yuthaqim_reply r;

    mark();
    r = yuthaqim_answer(D, sizeof D, C, sizeof C, 0, book, length, bytes, sizeof bytes, work, LENGTH(work));
    expect_bytes("answer: D from the book of C on K9", r, K9_SHEET, sizeof K9_SHEET);
    mark();
    r = yuthaqim_answer(D, sizeof D, C, sizeof C, 0, book, length - 1, bytes, sizeof bytes, work, LENGTH(work));
    expect_refusal("answer: from a book that is cut off", r.number, r.value, YUTHAQIM_SHORT, YUTHAQIM_IN_BOOK);
    mark();
    r = yuthaqim_answer(D, sizeof D, ONLY_SLOW, sizeof ONLY_SLOW, 0, K6_SHEET, sizeof K6_SHEET, bytes, sizeof bytes, work,
                        LENGTH(work));
    expect_refusal("answer: D with extract 1 alone is uncovered", r.number, r.value, YUTHAQIM_UNCOVERED, 1);
    mark();
    r = yuthaqim_answer_from(D, sizeof D, C, sizeof C, 0, 1 << 1 | 1 << 2, book, length, bytes, sizeof bytes, work,
                             LENGTH(work));
    expect_bytes("answer_from: extracts 1 and 2", r, K9_SHEET, sizeof K9_SHEET);
    mark();
    r = yuthaqim_answer_from(D, sizeof D, C, sizeof C, 0, 0xffff, book, length, bytes, sizeof bytes, work, LENGTH(work));
    expect_bytes("answer_from: all extracts, and bits that name none", r, K9_SHEET, sizeof K9_SHEET);
    mark();
    r = yuthaqim_answer_from(D, sizeof D, C, sizeof C, 0, 1 << 0 | 1 << 2, book, length, bytes, sizeof bytes, work,
                             LENGTH(work));
    expect_refusal("answer_from: extracts 0 and 2 leave link 2", r.number, r.value, YUTHAQIM_UNCOVERED, 2);
    mark();
    r = yuthaqim_answer_from(D, sizeof D, C, sizeof C, 0, 0xfff8, book, length, bytes, sizeof bytes, work, LENGTH(work));
    expect_refusal("answer_from: no extract", r.number, r.value, YUTHAQIM_UNCOVERED, 0);
    mark();
    r = yuthaqim_answer_from(D, sizeof D, C, sizeof C, 0, 0xffff, book, length, bytes, sizeof K9_SHEET - 1, work,
                             LENGTH(work));
    expect_refusal("answer_from: no room", r.number, r.value, YUTHAQIM_NO_FIT, sizeof K9_SHEET);
}

/* What a part came to: both outputs, and nothing beyond them. */
static void expect_part(const char *what, struct yuthaqim_part p, const uint8_t *part, size_t first,
                        const uint8_t *answer, size_t second) {
    expect(what, p.number, p.first,
           p.number == 0 && p.detail == 0 && p.first == first && p.second == second &&
               is_written(more, sizeof more, part, first) && is_written(bytes, sizeof bytes, answer, second));
}

/* A refusal has no lengths. */
static void expect_no_part(const char *what, struct yuthaqim_part p, size_t number, size_t detail) {
    expect_refusal(what, p.number, p.detail, number, detail);
    expect("  and no lengths", p.number, p.detail, p.first == 0 && p.second == 0);
}

/* The part goes to more, its answer to bytes, as far as they are lent. */
static struct yuthaqim_part part_lent(const uint8_t *catalogue, size_t catalogue_length, const uint8_t *book,
                                      size_t book_length, size_t first, size_t second) {
    mark();
    return yuthaqim_part(D, sizeof D, catalogue, catalogue_length, 0, book, book_length, more, first, bytes, second, work,
                         LENGTH(work));
}

static struct yuthaqim_part part_of_d(const uint8_t *catalogue, size_t catalogue_length, const uint8_t *book,
                                      size_t book_length) {
    return part_lent(catalogue, catalogue_length, book, book_length, sizeof more, sizeof bytes);
}

/* D with extract 1 alone on K6: what is lent is too little for the part, for its answer, or enough. */
static void part_by_one(void) {
    struct yuthaqim_reply r;

    mark();
    r = yuthaqim_search(D, sizeof D, K6, sizeof K6, bytes, sizeof bytes, work, LENGTH(work));
    expect("search: D on K6 is not found", r.number, r.value, r.number == 0 && r.value == 1 && bytes[0] == 0);
    expect_part("part: D with extract 1 alone", part_of_d(ONLY_SLOW, sizeof ONLY_SLOW, K6_SHEET, sizeof K6_SHEET), SLOW,
                sizeof SLOW, K6_SHEET, sizeof K6_SHEET);
    expect_no_part("part: lent 5 and 9", part_lent(ONLY_SLOW, sizeof ONLY_SLOW, K6_SHEET, sizeof K6_SHEET, 5, 9),
                   YUTHAQIM_NO_FIT, 6);
    expect_no_part("part: lent 6 and 9", part_lent(ONLY_SLOW, sizeof ONLY_SLOW, K6_SHEET, sizeof K6_SHEET, 6, 9),
                   YUTHAQIM_NO_FIT, 10);
    expect_part("part: lent 6 and 10", part_lent(ONLY_SLOW, sizeof ONLY_SLOW, K6_SHEET, sizeof K6_SHEET, 6, 10), SLOW,
                sizeof SLOW, K6_SHEET, sizeof K6_SHEET);
}

static void parts(void) {
    static const uint8_t fast[] = {0x08, 0x10, 0x22, 0x18, 0x08}, fast_book[] = {0x80, 0x02, 0x00, 0x20, 0x04};
    static const uint8_t no_extracts[] = {0x00}, slow_to_fast[] = {0x08, 0x10, 0x21, 0x10, 0x08}, zero[] = {0x00};
    static const uint8_t kinds[] = {0x10, 0x40, 0x08, 0x08, 0x01, 0x20}, kind_1[] = {0x08, 0x10, 0x20, 0x08, 0x09};
    static const uint8_t kind_1_sheet[] = {0x80, 0x02, 0x00, 0x00, 0x02};
    /* Extract 1, then section to slow, and a book of no record in which the second lists (5,1). */
    static const uint8_t two[] = {0x10, 0x18, 0x40, 0x08, 0xc0, 0x40, 0x90, 0x10, 0x20, 0x08, 0x08};
    static const uint8_t two_book[] = {0x80, 0x02, 0x00, 0x00, 0x02, 0x00, 0x08, 0x00,
                                       0x80, 0x10, 0x80, 0x02, 0x00, 0xa0, 0x02};
    static const uint8_t by_both[] = {0x80, 0x04, 0x00, 0x00, 0x02, 0x00, 0xa0, 0x02, 0x00, 0x08, 0x00, 0x80, 0x10};
    static uint8_t book[YUTHAQIM_BOOK_BYTES];
    size_t length = yuthaqim_make_book(C, sizeof C, 0, K9, sizeof K9, book, sizeof book, work, LENGTH(work)).value;
    struct yuthaqim_reply r;
    struct yuthaqim_part p;

    part_by_one();
    expect_part("part: of a covered question all of it", part_of_d(C, sizeof C, book, length), D, sizeof D, K9_SHEET,
                sizeof K9_SHEET);
    expect_part("part: items 2 and 3 become 0 and 1", part_of_d(fast, sizeof fast, fast_book, sizeof fast_book), fast + 1,
                sizeof fast - 1, fast_book, sizeof fast_book);
    mark();
    p = yuthaqim_part(kinds, sizeof kinds, kind_1, sizeof kind_1, 0, kind_1_sheet, sizeof kind_1_sheet, more, sizeof more,
                      bytes, sizeof bytes, work, LENGTH(work));
    expect_part("part: of two kinds of links one", p, kind_1 + 1, sizeof kind_1 - 1, kind_1_sheet, sizeof kind_1_sheet);
    expect_no_part("part: no extracts", part_of_d(no_extracts, sizeof no_extracts, zero, 0), YUTHAQIM_UNCOVERED, 0);
    expect_no_part("part: no link is matched", part_of_d(slow_to_fast, sizeof slow_to_fast, zero, sizeof zero),
                   YUTHAQIM_UNCOVERED, 0);
    expect_no_part("part: from a book that is cut off", part_of_d(C, sizeof C, book, length - 1), YUTHAQIM_SHORT,
                   YUTHAQIM_IN_BOOK);
    expect_part("part: by its own quote", part_of_d(two, sizeof two, two_book, sizeof two_book), SLOW, sizeof SLOW,
                K6_SHEET, sizeof K6_SHEET);
    mark();
    r = yuthaqim_answer_from(SLOW, sizeof SLOW, two, sizeof two, 0, 3, two_book, sizeof two_book, bytes, sizeof bytes, work,
                             LENGTH(work));
    expect_bytes("answer_from: the part by all extracts", r, by_both, sizeof by_both);
}

/* What several questions came to: their answers one after the other, nothing beyond them, and the sheets that they needed. */
static void expect_several(const char *what, struct yuthaqim_several s, const uint8_t *expected, size_t length,
                           uint32_t sheets) {
    expect(what, s.number, s.bytes,
           s.number == 0 && s.detail == 0 && s.bytes == length && s.sheets == sheets &&
               is_written(bytes, sizeof bytes, expected, length));
}

/* A refusal has no bytes and no sheets. */
static void expect_no_several(const char *what, struct yuthaqim_several s, size_t number, size_t detail) {
    expect_refusal(what, s.number, s.detail, number, detail);
    expect("  and no bytes and no sheets", s.number, s.detail, s.bytes == 0 && s.sheets == 0);
}

/* D, and then section to slow; what they list on K9, and the book of C on K9. */
static const uint8_t D_AND_ONE[] = {0x20, 0x80, 0x08, 0x86, 0x02, 0x00, 0x80, 0x98, 0x23, 0x00, 0x10, 0x20, 0x08, 0x08};
static const uint8_t D_AND_ONE_SHEETS[] = {0x80, 0x02, 0x00, 0x00, 0x02, 0x00, 0x08, 0x00, 0x00, 0x08, 0x00, 0x20, 0x02,
                                           0x00, 0x40, 0x00, 0x80, 0x08, 0x01, 0x00, 0x80, 0x02, 0x00, 0x00, 0x02};
static const uint8_t K9_BOOK[] = {0x80, 0x02, 0x00, 0x00, 0x02, 0x80, 0x02, 0x00, 0x00, 0x02, 0x00, 0x08, 0x00,
                                  0x80, 0x10, 0x80, 0x02, 0x00, 0x00, 0x02, 0x00, 0x08, 0x00, 0x80, 0x10};

/* So many questions of these bytes, with C and the book of K9, and so much lent. */
static struct yuthaqim_several several_lent(const uint8_t *questions, size_t length, uint32_t number, size_t room) {
    mark();
    return yuthaqim_answer_several(questions, length, number, C, sizeof C, 0, K9_BOOK, sizeof K9_BOOK, bytes, room, work,
                                   LENGTH(work));
}

static void several(void) {
    static uint8_t twice[2 * sizeof D], sheets[2 * sizeof K9_SHEET], ones[8 * 4], one_sheets[8 * 5], longer[57];
    static const uint8_t zeros[] = {0, 0, 0}, one_alone[] = {0x08, 0x10, 0x20, 0x08, 0x08};
    static const uint8_t d_and_fast[] = {0x20, 0x80, 0x08, 0x86, 0x02, 0x00, 0x80,
                                         0x98, 0x23, 0x00, 0x10, 0x22, 0x18, 0x08};
    struct yuthaqim_several s;

    for (size_t i = 0; i < 8; i++) {
        memcpy(ones + 4 * i, D_AND_ONE + sizeof D, 4);
        memcpy(one_sheets + 5 * i, D_AND_ONE_SHEETS + sizeof K9_SHEET, 5);
    }
    for (size_t i = 0; i < 2; i++) {
        memcpy(twice + i * sizeof D, D, sizeof D);
        memcpy(sheets + i * sizeof K9_SHEET, K9_SHEET, sizeof K9_SHEET);
    }
    memcpy(longer, ones, 4);
    expect_several("answer_several: D and section to slow",
                   several_lent(D_AND_ONE, sizeof D_AND_ONE, 2, sizeof bytes), D_AND_ONE_SHEETS,
                   sizeof D_AND_ONE_SHEETS, 3);
    expect_several("answer_several: D twice", several_lent(twice, sizeof twice, 2, sizeof bytes), sheets, sizeof sheets,
                   2);
    expect_several("answer_several: section to slow eight times", several_lent(ones, sizeof ones, 8, sizeof one_sheets),
                   one_sheets, sizeof one_sheets, 1);
    mark();
    s = yuthaqim_answer_several(twice, sizeof twice, 2, C, sizeof C, 0, zeros, sizeof zeros, bytes, sizeof bytes, work,
                                LENGTH(work));
    expect_several("answer_several: nothing found", s, zeros, 2, 2);
    expect_no_several("answer_several: lent 24", several_lent(D_AND_ONE, sizeof D_AND_ONE, 2, 24), YUTHAQIM_NO_FIT, 25);
    expect_no_several("answer_several: no question", several_lent(D_AND_ONE, 0, 0, 25), YUTHAQIM_QUESTIONS, 0);
    expect_no_several("answer_several: nine questions", several_lent(ones, sizeof ones, 9, 25), YUTHAQIM_QUESTIONS, 9);
    expect_no_several("answer_several: as many as can be said", several_lent(ones, sizeof ones, UINT32_MAX, 25),
                      YUTHAQIM_QUESTIONS, UINT32_MAX);
    expect_no_several("answer_several: a question too many", several_lent(D_AND_ONE, sizeof D_AND_ONE, 1, 25),
                      YUTHAQIM_TAIL, YUTHAQIM_IN_PATTERN);
    expect_no_several("answer_several: a question too few", several_lent(D_AND_ONE, sizeof D_AND_ONE, 3, 25),
                      YUTHAQIM_SHORT, YUTHAQIM_IN_PATTERN);
    expect_no_several("answer_several: 56 bytes for one", several_lent(longer, 56, 1, 25), YUTHAQIM_TAIL,
                      YUTHAQIM_IN_PATTERN);
    expect_no_several("answer_several: 57 bytes for one", several_lent(longer, 57, 1, 25), YUTHAQIM_LONG,
                      YUTHAQIM_IN_PATTERN);
    mark();
    s = yuthaqim_answer_several(d_and_fast, sizeof d_and_fast, 2, one_alone, sizeof one_alone, 0, zeros, 1, bytes, 0, work,
                                LENGTH(work));
    expect_no_several("answer_several: D is the first uncovered one", s, YUTHAQIM_UNCOVERED, 1);
    mark();
    s = yuthaqim_answer_several(D_AND_ONE, 0, 0, C, sizeof C, 0, K9_BOOK, sizeof K9_BOOK, bytes, sizeof bytes, work,
                                YUTHAQIM_WORK_WORDS - 1);
    expect_no_several("answer_several: too few words to work in", s, YUTHAQIM_DESK, 0);
}

/* A book of the one list (0,0) to (n - 1, n - 1), for the catalogue of a self-link: its length. */
static size_t to_itself(uint32_t n, const uint8_t *catalogue, size_t catalogue_length, uint8_t *book, size_t room) {
    words[0] = 1;
    words[1] = n;
    for (uint32_t v = 0; v < n; v++) {
        words[2 + 2 * v] = v;
        words[3 + 2 * v] = v;
    }
    return yuthaqim_write_book(catalogue, catalogue_length, words, 2 + 2 * n, book, room, work, LENGTH(work)).value;
}

/* A self-link, and sixteen items with 32 links, all matched by it: one answer that is too long, and a sum that may be. */
static void sums(void) {
    static const uint8_t self[] = {0x08, 0x08, 0x20, 0x00, 0x00};
    static uint32_t fields[2 + 16 + 3 * 32] = {16, 32};
    static uint8_t questions[2 * YUTHAQIM_PATTERN_BYTES], book[YUTHAQIM_BOOK_BYTES];
    struct yuthaqim_several s;
    size_t length, size;

    for (uint32_t e = 0; e < 32; e++) {
        fields[18 + 3 * e] = e % 16;
        fields[19 + 3 * e] = (e + 1 + e / 16) % 16;
    }
    memcpy(questions, self + 1, 4);
    size = yuthaqim_write_pattern(fields, LENGTH(fields), questions + 4, YUTHAQIM_PATTERN_BYTES, work,
                                  LENGTH(work)).value;
    length = to_itself(700, self, sizeof self, book, sizeof book);
    mark();
    s = yuthaqim_answer_several(questions, 4 + size, 2, self, sizeof self, 0, book, length, bytes, sizeof bytes, work,
                                LENGTH(work));
    expect_no_several("answer_several: one answer is too long", s, YUTHAQIM_NO_FIT, 69359);
    memmove(questions, questions + 4, size);
    memcpy(questions + size, questions, size);
    length = to_itself(682, self, sizeof self, book, sizeof book);
    mark();
    s = yuthaqim_answer_several(questions, 2 * size, 2, self, sizeof self, 0, book, length, bytes, sizeof bytes, work,
                                LENGTH(work));
    expect("answer_several: the sum has no limit", s.number, s.bytes,
           s.number == 0 && s.bytes == 131058 && s.sheets == 1 && memcmp(bytes, bytes + 65529, 65529) == 0 &&
               are_marks(bytes, 131058, sizeof bytes) && is_cleared());
}

static void showing(void) {
    static uint8_t second[YUTHAQIM_RECORD_BYTES];
    struct yuthaqim_showing s;

    mark();
    s = yuthaqim_show_uncovered(D, sizeof D, ONLY_SLOW, sizeof ONLY_SLOW, 0, bytes, sizeof bytes, more, sizeof more, work,
                                LENGTH(work));
    expect("show_uncovered: D with extract 1 alone", s.number, s.first,
           s.number == 0 && s.detail == 0 && s.first == 33 && s.second == 30 && is_cleared() &&
               are_marks(bytes, s.first, sizeof bytes) && are_marks(more, s.second, sizeof more));
    memcpy(second, more, s.second);
    memset(work, 0xa5, sizeof work);
    expect_words("show_uncovered: the first record is D",
                 yuthaqim_read_record(bytes, s.first, words, LENGTH(words), work, LENGTH(work)), SHOWN_FIELDS,
                 LENGTH(SHOWN_FIELDS));
    mark();
    expect_words("show_uncovered: the second lacks link 1",
                 yuthaqim_read_record(second, s.second, words, LENGTH(words), work, LENGTH(work)), FEWER_FIELDS,
                 LENGTH(FEWER_FIELDS));
    mark();
    s = yuthaqim_show_uncovered(D, sizeof D, C, sizeof C, 0, bytes, sizeof bytes, more, sizeof more, work, LENGTH(work));
    expect_refusal("show_uncovered: D with C is covered", s.number, s.detail, YUTHAQIM_COVERED, 0);
    mark();
    s = yuthaqim_show_uncovered(D, sizeof D, ONLY_SLOW, sizeof ONLY_SLOW, 0, bytes, 33, more, 29, work, LENGTH(work));
    expect_refusal("show_uncovered: no room for the second", s.number, s.detail, YUTHAQIM_NO_FIT, 30);
}

/* A catalogue of zero bytes is one without extracts. */
static void no_catalogue(void) {
    static const uint32_t zero_field[] = {0};
    static const uint8_t zero_byte[] = {0x00};
    struct yuthaqim_reply r;
    struct yuthaqim_quote q;
    struct yuthaqim_showing s;

    mark();
    expect_words("read_catalogue: no bytes",
                 yuthaqim_read_catalogue(zero_byte, 0, words, LENGTH(words), work, LENGTH(work)), zero_field, 1);
    mark();
    r = yuthaqim_read_catalogue(zero_byte, 0, words, 0, work, LENGTH(work));
    expect_refusal("read_catalogue: no bytes, and no room", r.number, r.value, YUTHAQIM_NO_FIT, 1);
    mark();
    expect_bytes("write_catalogue: no extracts",
                 yuthaqim_write_catalogue(zero_field, 1, bytes, sizeof bytes, work, LENGTH(work)), zero_byte, 1);
    mark();
    r = yuthaqim_write_catalogue(zero_field, 0, bytes, sizeof bytes, work, LENGTH(work));
    expect_refusal("write_catalogue: no words", r.number, r.value, YUTHAQIM_SHORT, YUTHAQIM_IN_CATALOGUE);
    mark();
    expect_words("read_book: no bytes beside no bytes",
                 yuthaqim_read_book(zero_byte, 0, zero_byte, 0, words, LENGTH(words), work, LENGTH(work)), zero_field, 0);
    mark();
    r = yuthaqim_read_book(zero_byte, 0, zero_byte, 1, words, LENGTH(words), work, LENGTH(work));
    expect_refusal("read_book: a byte beside no bytes", r.number, r.value, YUTHAQIM_TAIL, YUTHAQIM_IN_BOOK);
    mark();
    expect_bytes("make_book: no extracts",
                 yuthaqim_make_book(zero_byte, 0, 0, K6, sizeof K6, bytes, sizeof bytes, work, LENGTH(work)), zero_byte, 0);
    mark();
    q = yuthaqim_quote(D, sizeof D, zero_byte, 0, 0, work, LENGTH(work));
    expect("quote: D with no extracts", q.number, q.lowest,
           q.number == 0 && q.covered == 0 && q.edges == 4 && q.chosen == 0 && q.lowest == 0 && masks(&q) == 0 &&
               is_cleared());
    mark();
    expect_no_cheapest("cheapest: no extracts, a charge",
                       yuthaqim_cheapest(D, sizeof D, zero_byte, 0, 0, zero_field, 1, work, LENGTH(work)), YUTHAQIM_CHARGES,
                       1);
    mark();
    r = yuthaqim_answer(D, sizeof D, zero_byte, 0, 0, zero_byte, 0, bytes, sizeof bytes, work, LENGTH(work));
    expect_refusal("answer: no extracts", r.number, r.value, YUTHAQIM_UNCOVERED, 0);
    expect_no_part("part: a catalogue of no bytes", part_of_d(zero_byte, 0, zero_byte, 0), YUTHAQIM_UNCOVERED, 0);
    mark();
    s = yuthaqim_show_uncovered(D, sizeof D, zero_byte, 0, 0, bytes, 33, more, 30, work, LENGTH(work));
    expect("show_uncovered: D with no extracts", s.number, s.first, s.number == 0 && s.first == 33 && s.second == 30);
}

/* K6 with item 4 of kind {1}, which hangs on no section, and the link 4 to 2: extract 1 lists what it lists on K6. A question 0 to 1,
 * 1 to 1 of one kind is uncovered by 0 to 0. */
static void both_ways(void) {
    static const uint32_t vial_fields[] = {5, 4, 1, 2, 8, 2, 2, 0, 1, 0, 0, 3, 0, 1, 2, 0, 4, 2, 0};
    static const uint8_t line[] = {0x10, 0x40, 0x00, 0x08, 0x11, 0x00}, loop[] = {0x08, 0x08, 0x20, 0x00, 0x00};
    static uint8_t vial[YUTHAQIM_RECORD_BYTES];
    size_t length = yuthaqim_write_record(vial_fields, LENGTH(vial_fields), vial, sizeof vial, work, LENGTH(work)).value;
    struct yuthaqim_quote q;

    mark();
    expect_bytes("search: a run that hangs on no section",
                 yuthaqim_search(SLOW, sizeof SLOW, vial, length, bytes, sizeof bytes, work, LENGTH(work)), K6_SHEET,
                 sizeof K6_SHEET);
    mark();
    expect_bytes("make_book: the same",
                 yuthaqim_make_book(C, sizeof C, 0, vial, length, bytes, sizeof bytes, work, LENGTH(work)), K6_BOOK,
                 sizeof K6_BOOK);
    q = yuthaqim_quote(line, sizeof line, loop, sizeof loop, 0, work, LENGTH(work));
    expect("quote: nothing arrives at item 0", q.number, q.lowest,
           q.number == 0 && q.covered == 0 && q.lowest == 0 && maps(&q, 1, 0, 1) && masks(&q) == 1);
}

/* The set 8 names extract 3, and C has three: each call that takes a set refuses it, before a book, a record and charges are looked at. */
static void strays(void) {
    static const struct yuthaqim_term season[] = {{10, 20}, {10, 15}, {12, 20}};
    static const uint8_t no_book[] = {0x80};
    static const uint32_t no_charges[] = {0};
    struct yuthaqim_terms t = yuthaqim_spread_terms(season, 3);
    struct yuthaqim_quote q;
    struct yuthaqim_showing s;
    struct yuthaqim_first_day f;
    struct yuthaqim_reply r;

    mark();
    r = yuthaqim_make_book(C, sizeof C, 8, K6, 1, bytes, sizeof bytes, work, LENGTH(work));
    expect_refusal("make_book: no extract 3", r.number, r.value, YUTHAQIM_SET, 3);
    q = yuthaqim_quote(D, sizeof D, C, sizeof C, 8, work, LENGTH(work));
    expect("quote: no extract 3", q.number, q.detail,
           q.number == YUTHAQIM_SET && q.detail == 3 && q.edges == 0 && masks(&q) == 0);
    mark();
    expect_no_cheapest("cheapest: no extract 3",
                       yuthaqim_cheapest(D, sizeof D, C, sizeof C, 8, no_charges, 0, work, LENGTH(work)), YUTHAQIM_SET, 3);
    r = yuthaqim_answer(D, sizeof D, C, sizeof C, 8, no_book, sizeof no_book, bytes, sizeof bytes, work, LENGTH(work));
    expect_refusal("answer: no extract 3", r.number, r.value, YUTHAQIM_SET, 3);
    r = yuthaqim_answer_from(D, sizeof D, C, sizeof C, 8, 8, no_book, sizeof no_book, bytes, sizeof bytes, work,
                             LENGTH(work));
    expect_refusal("answer_from: no extract 3", r.number, r.value, YUTHAQIM_SET, 3);
    expect_no_several("answer_several: no extract 3",
                      yuthaqim_answer_several(D_AND_ONE, sizeof D_AND_ONE, 2, C, sizeof C, 8, no_book, sizeof no_book, bytes,
                                              sizeof bytes, work, LENGTH(work)),
                      YUTHAQIM_SET, 3);
    expect_no_part("part: no extract 3",
                   yuthaqim_part(D, sizeof D, C, sizeof C, 8, no_book, sizeof no_book, more, sizeof more, bytes,
                                 sizeof bytes, work, LENGTH(work)),
                   YUTHAQIM_SET, 3);
    s = yuthaqim_show_uncovered(D, sizeof D, C, sizeof C, 8, bytes, sizeof bytes, more, sizeof more, work, LENGTH(work));
    expect_refusal("show_uncovered: no extract 3", s.number, s.detail, YUTHAQIM_SET, 3);
    q = yuthaqim_quote_on(D, sizeof D, C, sizeof C, 8, t, 12, work, LENGTH(work));
    expect("quote_on: no extract 3", q.number, q.detail, q.number == YUTHAQIM_SET && q.detail == 3 && masks(&q) == 0);
    expect_no_cheapest("cheapest_on: no extract 3",
                       yuthaqim_cheapest_on(D, sizeof D, C, sizeof C, 8, t, 12, no_charges, 0, work, LENGTH(work)),
                       YUTHAQIM_SET, 3);
    expect_no_part("part_on: no extract 3",
                   yuthaqim_part_on(D, sizeof D, C, sizeof C, 8, t, 12, no_book, sizeof no_book, more, sizeof more, bytes,
                                    sizeof bytes, work, LENGTH(work)),
                   YUTHAQIM_SET, 3);
    s = yuthaqim_show_on(D, sizeof D, C, sizeof C, 8, t, 12, bytes, sizeof bytes, more, sizeof more, work, LENGTH(work));
    expect_refusal("show_on: no extract 3", s.number, s.detail, YUTHAQIM_SET, 3);
    f = yuthaqim_first_day(D, sizeof D, C, sizeof C, 8, t, 12, work, LENGTH(work));
    expect("first_day: no extract 3", f.number, f.detail,
           f.number == YUTHAQIM_SET && f.detail == 3 && f.found == 0 && f.day == 0);
    q = yuthaqim_quote_on(D, sizeof D, C, sizeof C, 8, yuthaqim_spread_terms(season, 2), 12, work, LENGTH(work));
    expect("quote_on: the terms before the set", q.number, q.detail, q.number == YUTHAQIM_TERMS && q.detail == 2);
    q = yuthaqim_quote(D, sizeof D, no_book, 0, 32769, work, LENGTH(work));
    expect("quote: no extracts, and a set", q.number, q.detail, q.number == YUTHAQIM_SET && q.detail == 0);
    r = yuthaqim_make_book((const uint8_t[]){0}, 1, 32769, K6, sizeof K6, bytes, sizeof bytes, work, LENGTH(work));
    expect_refusal("make_book: no extracts, and a set", r.number, r.value, YUTHAQIM_SET, 0);
}

/* Extracts that are matched one-way: the question that 0 to 0 leaves uncovered both ways is covered one-way. Of K6 with item 4 extract 1
 * lists (4,2) too, and what its question gets from that book is what a search gives. */
static void one_way(void) {
    static const uint32_t vial_fields[] = {5, 4, 1, 2, 8, 2, 2, 0, 1, 0, 0, 3, 0, 1, 2, 0, 4, 2, 0};
    static const uint8_t line[] = {0x10, 0x40, 0x00, 0x08, 0x11, 0x00}, loop[] = {0x08, 0x08, 0x20, 0x00, 0x00};
    static const uint8_t mixed[] = {0x80, 0x04, 0x00, 0x00, 0x02, 0x00, 0x00, 0x06, 0x80, 0x02, 0x00,
                                    0x00, 0x02, 0x00, 0x10, 0x00, 0x80, 0x10, 0x02, 0x00, 0x10, 0x00};
    static uint8_t vial[YUTHAQIM_RECORD_BYTES];
    size_t length = yuthaqim_write_record(vial_fields, LENGTH(vial_fields), vial, sizeof vial, work, LENGTH(work)).value;
    struct yuthaqim_quote q;
    struct yuthaqim_reply r;

    mark();
    q = yuthaqim_quote(line, sizeof line, loop, sizeof loop, 1, work, LENGTH(work));
    expect("quote: one-way 0 to 0 covers", q.number, q.chosen,
           q.number == 0 && q.covered == 1 && q.chosen == 1 && maps(&q, 0, 0, 1) && maps(&q, 1, 0, 1) && masks(&q) == 2 &&
               is_cleared());
    mark();
    expect_bytes("make_book: extract 1 one-way",
                 yuthaqim_make_book(C, sizeof C, 2, vial, length, bytes, sizeof bytes, work, LENGTH(work)), mixed,
                 sizeof mixed);
    mark();
    r = yuthaqim_answer(SLOW, sizeof SLOW, C, sizeof C, 2, mixed, sizeof mixed, bytes, sizeof bytes, work, LENGTH(work));
    expect_bytes("answer: from that book", r, K6_SHEET, sizeof K6_SHEET);
    mark();
    r = yuthaqim_answer(SLOW, sizeof SLOW, C, sizeof C, 0, K6_BOOK, sizeof K6_BOOK, bytes, sizeof bytes, work,
                        LENGTH(work));
    expect_bytes("answer: from the book both ways", r, K6_SHEET, sizeof K6_SHEET);
    strays();
}

/* D with C on a day, by these terms. */
static struct yuthaqim_quote quote_on(const struct yuthaqim_term *terms, size_t n, uint16_t day) {
    mark();
    return yuthaqim_quote_on(D, sizeof D, C, sizeof C, 0, yuthaqim_spread_terms(terms, n), day, work, LENGTH(work));
}

static void expect_no_quote(const char *what, struct yuthaqim_quote q, size_t number, size_t detail) {
    expect(what, q.number, q.detail,
           q.number == number && q.detail == detail && q.covered == 0 && q.edges == 0 && q.chosen == 0 && q.lowest == 0 &&
               masks(&q) == 0);
}

static void expect_first_day(const char *what, const struct yuthaqim_term *terms, uint16_t day, uint16_t found,
                             uint16_t first) {
    struct yuthaqim_first_day f;
    mark();
    f = yuthaqim_first_day(D, sizeof D, C, sizeof C, 0, yuthaqim_spread_terms(terms, 3), day, work, LENGTH(work));
    expect(what, f.number, f.day,
           f.number == 0 && f.detail == 0 && f.found == found && f.day == first && is_cleared());
}

static void days(void) {
    static const struct yuthaqim_term season[] = {{10, 20}, {10, 15}, {12, 20}, {0, 1}};
    static const struct yuthaqim_term turned[] = {{10, 20}, {15, 10}, {12, 20}}, same[] = {{10, 20}, {10, 10}, {20, 12}};
    static const struct yuthaqim_term apart[] = {{1, 2}, {30, 40}, {20, 35}};
    static const struct yuthaqim_term late[] = {{1, 2}, {0, 65535}, {65534, 65535}};
    static const uint32_t charges[] = {100, 200, 150};
    /* Section with a slow run and a fast one, which has a reading: what extracts 0 and 2 answer of D, and its sheet on K9. */
    static const uint8_t three[] = {0x20, 0x60, 0x08, 0x86, 0x02, 0x00, 0x81, 0x18};
    static const uint8_t three_sheet[] = {0x80, 0x02, 0x00, 0x00, 0x02, 0x00, 0x08, 0x00,
                                          0x00, 0x08, 0x00, 0x20, 0x02, 0x00, 0x40};
    static uint8_t book[YUTHAQIM_BOOK_BYTES];
    size_t length = yuthaqim_make_book(C, sizeof C, 0, K9, sizeof K9, book, sizeof book, work, LENGTH(work)).value;
    struct yuthaqim_terms t = yuthaqim_spread_terms(season, 3);
    struct yuthaqim_quote q;
    struct yuthaqim_showing s;

    expect("spread_terms: three entries", 0, t.number,
           t.number == 3 && t.from[0] == 10 && t.to[0] == 20 && t.from[1] == 10 && t.to[1] == 15 && t.from[2] == 12 &&
               t.to[2] == 20 && t.from[3] == 0 && t.to[3] == 0 && t.from[15] == 0 && t.to[15] == 0);
    q = quote_on(season, 3, 9);
    expect("quote_on: day 9, nothing is in force", q.number, q.lowest,
           q.number == 0 && q.covered == 0 && q.edges == 4 && q.lowest == 0 && masks(&q) == 0 && is_cleared());
    q = quote_on(season, 3, 10);
    expect("quote_on: day 10, extract 2 is not", q.number, q.lowest,
           q.number == 0 && q.covered == 0 && q.chosen == 0 && q.lowest == 1 && maps(&q, 0, 0, 1) && maps(&q, 0, 1, 1) &&
               maps(&q, 2, 1, 2) && masks(&q) == 3);
    q = quote_on(season, 3, 12);
    expect("quote_on: day 12, all are", q.number, q.chosen,
           q.number == 0 && q.covered == 1 && q.chosen == (1 << 1 | 1 << 2) && masks(&q) == 5);
    q = quote_on(season, 3, 15);
    expect("quote_on: day 15, extract 1 is no more", q.number, q.lowest, q.number == 0 && q.covered == 0 && q.lowest == 2);
    q = quote_on(season, 3, 65535);
    expect("quote_on: the last day", q.number, q.lowest, q.number == 0 && q.covered == 0 && q.lowest == 0);
    expect_no_quote("quote_on: two entries", quote_on(season, 2, 12), YUTHAQIM_TERMS, 2);
    expect_no_quote("quote_on: four entries", quote_on(season, 4, 12), YUTHAQIM_TERMS, 4);
    expect_no_quote("quote_on: no entry", quote_on(season, 0, 12), YUTHAQIM_TERMS, 0);
    expect_no_quote("quote_on: entry 1 is turned", quote_on(turned, 3, 12), YUTHAQIM_TERMS, 1);
    expect_no_quote("quote_on: entry 1 is of no day", quote_on(same, 3, 12), YUTHAQIM_TERMS, 1);
    expect_first_day("first_day: from 0", season, 0, 1, 12);
    expect_first_day("first_day: from 14", season, 14, 1, 14);
    expect_first_day("first_day: from 15", season, 15, 0, 0);
    expect_first_day("first_day: terms apart", apart, 0, 1, 30);
    expect_first_day("first_day: the last but one", late, 0, 1, 65534);
    expect_first_day("first_day: from the last", late, 65535, 0, 0);
    mark();
    expect_cheapest("cheapest_on: day 12",
                    yuthaqim_cheapest_on(D, sizeof D, C, sizeof C, 0, t, 12, charges, 3, work, LENGTH(work)), 350,
                    1 << 1 | 1 << 2, 1 << 1 | 1 << 2);
    expect_no_cheapest("cheapest_on: day 10",
                       yuthaqim_cheapest_on(D, sizeof D, C, sizeof C, 0, t, 10, charges, 3, work, LENGTH(work)),
                       YUTHAQIM_UNCOVERED, 1);
    expect_no_cheapest("cheapest_on: two charges",
                       yuthaqim_cheapest_on(D, sizeof D, C, sizeof C, 0, t, 12, charges, 2, work, LENGTH(work)),
                       YUTHAQIM_CHARGES, 2);
    mark();
    expect_part("part_on: day 10",
                yuthaqim_part_on(D, sizeof D, C, sizeof C, 0, t, 10, book, length, more, sizeof more, bytes, sizeof bytes, work,
                                 LENGTH(work)),
                SLOW, sizeof SLOW, K6_SHEET, sizeof K6_SHEET);
    mark();
    expect_part("part_on: day 15",
                yuthaqim_part_on(D, sizeof D, C, sizeof C, 0, t, 15, book, length, more, sizeof more, bytes, sizeof bytes, work,
                                 LENGTH(work)),
                three, sizeof three, three_sheet, sizeof three_sheet);
    mark();
    expect_no_part("part_on: day 9",
                   yuthaqim_part_on(D, sizeof D, C, sizeof C, 0, t, 9, book, length, more, sizeof more, bytes, sizeof bytes,
                                    work, LENGTH(work)),
                   YUTHAQIM_UNCOVERED, 0);
    mark();
    s = yuthaqim_show_on(D, sizeof D, C, sizeof C, 0, t, 10, bytes, 33, more, 30, work, LENGTH(work));
    expect("show_on: day 10", s.number, s.first, s.number == 0 && s.first == 33 && s.second == 30 && is_cleared());
    memset(work, 0xa5, sizeof work);
    expect_words("show_on: the second lacks link 1",
                 yuthaqim_read_record(more, 30, words, LENGTH(words), work, LENGTH(work)), FEWER_FIELDS,
                 LENGTH(FEWER_FIELDS));
    mark();
    s = yuthaqim_show_on(D, sizeof D, C, sizeof C, 0, t, 12, bytes, 33, more, 30, work, LENGTH(work));
    expect_refusal("show_on: day 12 is covered", s.number, s.detail, YUTHAQIM_COVERED, 0);
}

static void refusals(void) {
    struct yuthaqim_reply r;

    mark();
    r = yuthaqim_read_pattern(D, sizeof D, words, LENGTH(words), work, YUTHAQIM_WORK_WORDS - 1);
    expect_refusal("read_pattern: too few words to work in", r.number, r.value, YUTHAQIM_DESK, 0);
    expect("read_pattern: which are as they came", r.number, r.value, are_marks(work, 0, sizeof work));
    mark();
    r = yuthaqim_read_pattern(D, sizeof D, words, LENGTH(D_FIELDS) - 1, work, LENGTH(work));
    expect_refusal("read_pattern: no room for D", r.number, r.value, YUTHAQIM_NO_FIT, LENGTH(D_FIELDS));
    mark();
    r = yuthaqim_read_pattern(D, 0, words, LENGTH(words), work, LENGTH(work));
    expect_refusal("read_pattern: no bytes", r.number, r.value, YUTHAQIM_SHORT, YUTHAQIM_IN_PATTERN);
    mark();
    r = yuthaqim_write_pattern(D_FIELDS, LENGTH(D_FIELDS), bytes, 0, work, LENGTH(work));
    expect_refusal("write_pattern: no room at all", r.number, r.value, YUTHAQIM_NO_FIT, sizeof D);
    mark();
    r = yuthaqim_read_record(more, YUTHAQIM_RECORD_BYTES, words, LENGTH(words), work, LENGTH(work));
    expect_refusal("read_record: marks", r.number, r.value, YUTHAQIM_COUNT, YUTHAQIM_IN_RECORD);
    mark();
    r = yuthaqim_read_book(C, sizeof C, bytes, YUTHAQIM_BOOK_BYTES, words, LENGTH(words), work, LENGTH(work));
    expect_refusal("read_book: marks", r.number, r.value, YUTHAQIM_ORDER, YUTHAQIM_IN_BOOK);
}

/* What asking about a link of K6 gives: the set, and the slip that has the link and the change number. */
static void expect_asked(const char *what, struct yuthaqim_asked a, struct yuthaqim_link link, uint32_t change, uint16_t set) {
    expect(what, a.number, a.set,
           a.number == 0 && a.detail == 0 && a.set == set && a.slip.from == link.from && a.slip.to == link.to &&
               a.slip.kind == link.kind && a.slip.change == change && is_cleared());
}

/* A refusal, by which the state stays and both outputs do. */
static void expect_not_entered(const char *what, struct yuthaqim_entered e, struct yuthaqim_state state,
                               struct yuthaqim_state before, size_t number, size_t detail) {
    expect(what, e.number, e.detail,
           e.number == number && e.detail == detail && e.first == 0 && e.second == 0 && state.links == before.links &&
               state.change == before.change && are_marks(bytes, 0, sizeof bytes) && are_marks(entries, 0, sizeof entries) &&
               is_cleared());
}

/* A link enters K6, whose state is 3 links and change 7: first it is asked which sheets it changes, then committed. */
static void entering(void) {
    static const uint8_t after[] = {0x00, 0x20, 0x00, 0x80, 0x00, 0x00, 0x00, 0x20, 0x00, 0x00, 0x00,
                                    0x40, 0x00, 0x00, 0x01, 0x00, 0x00, 0x00, 0x00, 0x40, 0x00, 0x00,
                                    0x20, 0x00, 0x00, 0x0c, 0x00, 0x08, 0x01, 0x00, 0x03, 0x00, 0x20};
    static const uint16_t index[] = {0, 2, 3, 3, 4};
    static const struct yuthaqim_state before = {3, 7}, last = {3, UINT32_MAX}, wrong = {2, 7};
    static const struct yuthaqim_link reading = {3, 2, 0}, other_kind = {3, 2, 1}, back = {2, 0, 0}, there = {0, 1, 0},
                                      stray = {4, 2, 0}, kind_8 = {3, 2, 8};
    static const struct yuthaqim_slip slip = {3, 2, 0, 7}, old = {3, 2, 0, 6}, latest = {3, 2, 0, UINT32_MAX};
    struct yuthaqim_state state = before;
    struct yuthaqim_entered e;
    struct yuthaqim_asked a;

    mark();
    expect_asked("ask: a reading for the second run",
                 yuthaqim_ask(C, sizeof C, 0, K6, sizeof K6, before, reading, work, LENGTH(work)), reading, 7, 1 << 1);
    expect_asked("ask: the same of another kind",
                 yuthaqim_ask(C, sizeof C, 0, K6, sizeof K6, before, other_kind, work, LENGTH(work)), other_kind, 7, 0);
    expect_asked("ask: a link that no extract has",
                 yuthaqim_ask(C, sizeof C, 7, K6, sizeof K6, before, back, work, LENGTH(work)), back, 7, 0);
    expect_asked("ask: at the last change number",
                 yuthaqim_ask(C, sizeof C, 0, K6, sizeof K6, last, reading, work, LENGTH(work)), reading, UINT32_MAX, 1 << 1);
    a = yuthaqim_ask(C, sizeof C, 0, K6, sizeof K6, wrong, reading, work, LENGTH(work));
    expect_refusal("ask: another link count", a.number, a.detail, YUTHAQIM_COUNT, YUTHAQIM_IN_RECORD);
    a = yuthaqim_ask(C, sizeof C, 0, K6, sizeof K6, before, stray, work, LENGTH(work));
    expect_refusal("ask: an end that is no item", a.number, a.detail, YUTHAQIM_STRAY, YUTHAQIM_IN_RECORD);
    a = yuthaqim_ask(C, sizeof C, 0, K6, sizeof K6, before, kind_8, work, LENGTH(work));
    expect_refusal("ask: a kind above 7", a.number, a.detail, YUTHAQIM_COUNT, YUTHAQIM_IN_RECORD);
    a = yuthaqim_ask(C, sizeof C, 0, K6, sizeof K6, before, there, work, LENGTH(work));
    expect_refusal("ask: a link already there", a.number, a.detail, YUTHAQIM_ORDER, YUTHAQIM_IN_RECORD);
    a = yuthaqim_ask(C, sizeof C, 8, K6, 1, before, there, work, LENGTH(work));
    expect("ask: no extract 3", a.number, a.detail,
           a.number == YUTHAQIM_SET && a.detail == 3 && a.set == 0 && a.slip.from == 0 && a.slip.change == 0);

    mark();
    e = yuthaqim_commit(K6, sizeof K6, &state, old, bytes, sizeof bytes, entries, LENGTH(entries), work, LENGTH(work));
    expect_not_entered("commit: an old slip", e, state, before, YUTHAQIM_OLD_SLIP, 7);
    state = last;
    e = yuthaqim_commit(K6, sizeof K6, &state, latest, bytes, sizeof bytes, entries, LENGTH(entries), work, LENGTH(work));
    expect_not_entered("commit: the last change", e, state, last, YUTHAQIM_LAST_CHANGE, UINT32_MAX);
    state = wrong;
    e = yuthaqim_commit(K6, sizeof K6, &state, slip, bytes, sizeof bytes, entries, LENGTH(entries), work, LENGTH(work));
    expect_not_entered("commit: another link count", e, state, wrong, YUTHAQIM_COUNT, YUTHAQIM_IN_RECORD);
    state = before;
    e = yuthaqim_commit(K6, sizeof K6, &state, slip, bytes, sizeof after - 1, entries, 4, work, LENGTH(work));
    expect_not_entered("commit: a byte short", e, state, before, YUTHAQIM_NO_FIT, sizeof after);
    e = yuthaqim_commit(K6, sizeof K6, &state, slip, bytes, sizeof after, entries, 4, work, LENGTH(work));
    expect_not_entered("commit: an entry short", e, state, before, YUTHAQIM_NO_FIT, 5);
    e = yuthaqim_commit(K6, sizeof K6, &state, slip, bytes, sizeof after, entries, LENGTH(index), work, LENGTH(work));
    expect("commit: the link enters", e.number, e.first,
           e.number == 0 && e.detail == 0 && e.first == sizeof after && e.second == LENGTH(index) && state.links == 4 &&
               state.change == 8 && memcmp(bytes, after, sizeof after) == 0 && memcmp(entries, index, sizeof index) == 0 &&
               are_marks(bytes, sizeof after, sizeof bytes) && are_marks(entries, sizeof index, sizeof entries) &&
               is_cleared());
    mark();
    e = yuthaqim_commit(K6, 1, &state, slip, bytes, sizeof after, entries, LENGTH(index), work, YUTHAQIM_WORK_WORDS - 1);
    expect("commit: too few words", e.number, e.detail,
           e.number == YUTHAQIM_DESK && e.detail == 0 && state.links == 4 && state.change == 8 &&
               are_marks(bytes, 0, sizeof bytes) && are_marks(entries, 0, sizeof entries) &&
               are_marks(work, 0, sizeof work));
}

int main(void) {
    files();
    sorting();
    nothing();
    matching();
    indexing();
    quoting();
    link_kinds();
    charging();
    answering();
    parts();
    several();
    sums();
    showing();
    no_catalogue();
    days();
    both_ways();
    one_way();
    entering();
    refusals();
    printf("%d wrong\n", failures);
    return failures != 0;
}
