/*
 * Yuthaqim from C: files of patterns, catalogues, records, sheets and books; searching a record, by an index beside it
 * too, quoting a question, finding the cheapest extracts for it, answering it, several at once or the part of it that can
 * be had from a book, showing why it is uncovered, and all that quotes for a day on which not all extracts are in force;
 * and entering a link into a record, after asking what it would change.
 *
 * Every function of this header is proved to meet its contract for every input: see crates/yuthaqim_c/src/lib.rt.
 *
 * What is lent. A call is lent its inputs, its outputs and words to work in, each as a pointer and a length. Lengths of
 * bytes count bytes, lengths of words count words of 32 bits, lengths of indexes count entries of 16 bits. There is no
 * heap and no state between calls: calls that are lent different memory may run at the same time.
 *
 *  - No pointer may be null, not even one with the length 0: nothing is read or written behind that one, and any
 *    aligned address serves.
 *  - A pointer to words is aligned to 4, as a uint32_t is, one to entries to 2, as a uint16_t is. A pointer to bytes may
 *    be any.
 *  - What is lent for writing, an output or the words to work in, overlaps nothing else that the call is lent.
 *
 * What is left in it. Inputs are only read. Where a call answers the number 0 its output begins with what was written
 * and keeps its bytes, words or entries beyond that; on a refusal it keeps all of them. The words to work in may hold anything
 * before a call. Afterwards the first YUTHAQIM_WORK_WORDS of them are zero and those beyond are as they were; on
 * YUTHAQIM_DESK all of them are as they were.
 *
 * The stack, as measured on large files: sorting an old record 123,192 bytes, committing 115,480, answering several
 * questions 108,600, finding a part 100,280, answering 95,960, making a book 91,432, searching by an index 90,440,
 * searching 90,408, asking 89,032, quoting 36,408, the first day 33,384, showing 31,048, the cheapest set 30,824,
 * checking an index 8,592, reading a book 6,712, writing one 6,696, the others under 1,900. So 128 KB suffice.
 *
 * Content is a file's fields in order, one word each, padding left out. That of a pattern or a record is the number of
 * items, the number of links, the kind of each item or in a record its kinds, and for each link its from, its to and its
 * kind, which is 0 to 7. That of a sheet is 0 alone where nothing was found, else 1 and then the counts and pairs.
 *
 * A catalogue of zero bytes is one without extracts, like the byte 0: every call that takes a catalogue takes it, and its
 * content is the word 0. It is written as the byte 0. A book for it has zero bytes.
 *
 * A catalogue comes with a set, one_way, in every call that matches its extracts: the bit worth 2^a says that extract a is
 * matched one-way, by the links that leave an item alone, against a question and on a record; the others are matched both
 * ways, and a question always is. 0 names none. A book goes with its catalogue and its set: where it was made under another
 * set than the one that is asked with, nothing is promised of an answer but that it is one. Extracts whose sheets were made
 * before matches looked both ways are named in the set, and their sheets go on serving. Calls that read or write a catalogue
 * or a book take no set, nor do searches.
 */
#ifndef YUTHAQIM_H
#define YUTHAQIM_H

#include <stddef.h>
#include <stdint.h>

#ifdef __cplusplus
extern "C" {
#endif

/* The words that every call has to be lent to work in. */
#define YUTHAQIM_WORK_WORDS 16384

/* The most bytes of each file; an answer is a sheet. A sheet for nothing found is one byte, 0; else with m links and t
 * pairs it takes (1 + 14 m + 24 t) / 8 bytes, rounded up. An old record is one that yuthaqim_sort_record reads. */
#define YUTHAQIM_PATTERN_BYTES 56
#define YUTHAQIM_CATALOGUE_BYTES 897
#define YUTHAQIM_RECORD_BYTES 44036
#define YUTHAQIM_OLD_RECORD_BYTES 40964
#define YUTHAQIM_SHEET_BYTES 65536
#define YUTHAQIM_BOOK_BYTES 65536

/* The most words of its content: who lends a reader so many never meets YUTHAQIM_NO_FIT. */
#define YUTHAQIM_PATTERN_WORDS 114
#define YUTHAQIM_CATALOGUE_WORDS 1825
#define YUTHAQIM_RECORD_WORDS 28674
#define YUTHAQIM_SHEET_WORDS 43690
#define YUTHAQIM_BOOK_WORDS 43701

/* The most entries of a record's index. */
#define YUTHAQIM_INDEX_ENTRIES 4097

/* The most questions of one call; so many times YUTHAQIM_SHEET_BYTES always suffice for their answers. */
#define YUTHAQIM_QUESTIONS_MOST 8

/* The refusals. Where several would fall, YUTHAQIM_DESK comes first, then 17, then the faults of the files in the order
 * of a function's parameters, each file front to back, 16 right after the record, 18 and then 19 right after the
 * catalogue, then 10, 15, 11 or 13, and 12; where a link enters, 20 and 21 right after the record, then the faults of the
 * link, and 12. */
enum {
    YUTHAQIM_LONG = 1,       /* long: a file is over its most bytes */
    YUTHAQIM_SHORT = 2,      /* short: its bits, or a writer's words, end before a field does */
    YUTHAQIM_COUNT = 3,      /* count: a count lies outside its range; for a writer also an item's or a link's kind, or a
                              * pair's number */
    YUTHAQIM_STRAY = 4,      /* stray: a link's end is not an item of its file */
    YUTHAQIM_TWICE = 5,      /* twice: a pattern link repeats an earlier one, from, to and kind; so does a link of an old
                              * record, from and to, where one is sorted */
    YUTHAQIM_ORDER = 6,      /* order: a record's link doesn't exceed the one before, by from, then to, then kind, or a
                              * sheet's pair by from, then to */
    YUTHAQIM_LOOSE = 7,      /* loose: a pattern item is at no link */
    YUTHAQIM_UNEVEN = 8,     /* uneven: a count is zero in a sheet that begins with a 1 */
    YUTHAQIM_TAIL = 9,       /* tail: a padding bit isn't zero, or bytes or words follow */
    YUTHAQIM_CROWDED = 10,   /* crowded: over 8,192 different pairs stand in a book */
    YUTHAQIM_UNCOVERED = 11, /* uncovered: an answer or the cheapest set was wanted and the question isn't covered, or
                              * not by the set that was named; or its part, and none of its links is matched */
    YUTHAQIM_NO_FIT = 12,    /* no fit: an output needs more than was lent, or a sheet or book over 65,536 bytes */
    YUTHAQIM_COVERED = 13,   /* covered: a showing was wanted for a covered question */
    YUTHAQIM_DESK = 14,      /* desk: fewer than YUTHAQIM_WORK_WORDS words were lent to work in */
    YUTHAQIM_CHARGES = 15,   /* charges: there isn't one charge for each extract of the catalogue */
    YUTHAQIM_INDEX = 16,     /* index: the lent index isn't the record's own */
    YUTHAQIM_QUESTIONS = 17, /* questions: none is sent, or more than YUTHAQIM_QUESTIONS_MOST */
    YUTHAQIM_TERMS = 18,     /* terms: there isn't one entry for each extract of the catalogue, or an entry's from-day isn't
                              * below its to-day */
    YUTHAQIM_SET = 19,       /* set: one_way names an extract that the catalogue doesn't have */
    YUTHAQIM_OLD_SLIP = 20,  /* old slip: its change number isn't the state's */
    YUTHAQIM_LAST_CHANGE = 21 /* last change: the state's change number is 4,294,967,295, and no other follows */
};

/* The detail of a refusal: of 1 to 10 one of these, the file at fault; of 11 the lowest unmatched link; of 12 the bytes
 * that the first output without room needs, or the words where content is the output, or the entries where an index is,
 * or the bytes of all answers where several questions are answered; of 13 and 14 zero; of 15 the number of charges; of 16
 * the number of entries if that is wrong, else the first position, from 0, that differs; of 17 the number that was sent;
 * of 18 the number of entries if that is wrong, else the first position, from 0, that is; of 19 the lowest such number;
 * of 20 and 21 the state's change number. A fault of a link that is to enter has YUTHAQIM_IN_RECORD. */
enum {
    YUTHAQIM_IN_PATTERN = 1, /* the question, or several, or another lone pattern */
    YUTHAQIM_IN_CATALOGUE = 2,
    YUTHAQIM_IN_RECORD = 3,
    YUTHAQIM_IN_BOOK = 4 /* a book or a lone sheet */
};

/* The answer of a call with one output. */
struct yuthaqim_reply {
    size_t number; /* 0, or the refusal's number */
    size_t value;  /* how much of the output was written, in its bytes, words or entries; or the refusal's detail */
};

/* A quote. What has no meaning is zero: the detail where the number is 0, all but the number and the detail where it is
 * not, masks beyond the question's links and beyond the catalogue's extracts. */
struct yuthaqim_quote {
    size_t number; /* 0, or the refusal's number */
    size_t detail;
    uint32_t covered;      /* 1 if every link of the question is matched, else 0 */
    uint32_t edges;        /* the links of the question */
    uint32_t chosen;       /* the chosen extracts: the bit worth 2^a says extract a; none if it isn't covered */
    uint32_t lowest;       /* the lowest unmatched link, if it isn't covered */
    uint32_t mapping[512]; /* at 16 * e + a, the bit worth 2^b: link b of extract a matches link e of the question */
};

/* The answer of a showing. What has no meaning is zero. */
struct yuthaqim_showing {
    size_t number; /* 0, or the refusal's number */
    size_t detail;
    size_t first;  /* the bytes of the first record */
    size_t second; /* the bytes of the second record */
};

/* The answer of a part. What has no meaning is zero. */
struct yuthaqim_part {
    size_t number; /* 0, or the refusal's number */
    size_t detail;
    size_t first;  /* the bytes of the part, a pattern */
    size_t second; /* the bytes of its answer, the part's sheet */
};

/* The answers of several questions. What has no meaning is zero. */
struct yuthaqim_several {
    size_t number; /* 0, or the refusal's number */
    size_t detail;
    size_t bytes;    /* the bytes of all answers */
    uint32_t sheets; /* how many sheets of the book were needed: those of the extracts chosen for at least one question */
};

/* The cheapest set. What has no meaning is zero. In a set the bit worth 2^a says extract a. */
struct yuthaqim_cheapest {
    size_t number; /* 0, or the refusal's number */
    size_t detail;
    uint64_t sum;    /* what the charges of the set's extracts sum to */
    uint16_t set;    /* the cheapest set */
    uint16_t chosen; /* the set that a quote chooses, which may cost more */
};

/* The days of an extract: the first on which it is in force, and the first after that on which it isn't. */
struct yuthaqim_term {
    uint16_t from;
    uint16_t to;
};

/* A list of terms in plain numbers, as yuthaqim_spread_terms makes it for the calls for a day. */
struct yuthaqim_terms {
    size_t number;     /* how many entries the list has */
    uint16_t from[16]; /* the days of its first sixteen, and zeros beyond them */
    uint16_t to[16];
};

/* A first day. What has no meaning is zero. */
struct yuthaqim_first_day {
    size_t number; /* 0, or the refusal's number */
    size_t detail;
    uint16_t found; /* 1 if there is such a day, else 0 */
    uint16_t day;   /* the day, if there is one */
};

/* The small running state beside a record. Whoever begins takes the record's link count and any change number. */
struct yuthaqim_state {
    uint32_t links;  /* how many links the record has */
    uint32_t change; /* the number of its last change */
};

/* A link that is to enter a record. */
struct yuthaqim_link {
    uint32_t from;
    uint32_t to;
    uint32_t kind;
};

/* What asking gives for the commit: the link, and the change number of the state that it was asked by. */
struct yuthaqim_slip {
    uint32_t from;
    uint32_t to;
    uint32_t kind;
    uint32_t change;
};

/* What a link would change. What has no meaning is zero. */
struct yuthaqim_asked {
    size_t number; /* 0, or the refusal's number */
    size_t detail;
    uint16_t set; /* the extracts whose lists the link would change: the bit worth 2^a says extract a */
    struct yuthaqim_slip slip;
};

/* The answer of a commit. What has no meaning is zero. */
struct yuthaqim_entered {
    size_t number; /* 0, or the refusal's number */
    size_t detail;
    size_t first;  /* the bytes of the record with the link */
    size_t second; /* the entries of its index */
};

/* Reading: from a file to its content. */

struct yuthaqim_reply yuthaqim_read_pattern(const uint8_t *bytes, size_t bytes_length, uint32_t *out, size_t out_length,
                                            uint32_t *work, size_t work_length);

struct yuthaqim_reply yuthaqim_read_catalogue(const uint8_t *bytes, size_t bytes_length, uint32_t *out,
                                              size_t out_length, uint32_t *work, size_t work_length);

struct yuthaqim_reply yuthaqim_read_record(const uint8_t *bytes, size_t bytes_length, uint32_t *out, size_t out_length,
                                           uint32_t *work, size_t work_length);

/* A sheet, beside the file of its pattern. */
struct yuthaqim_reply yuthaqim_read_sheet(const uint8_t *pattern, size_t pattern_length, const uint8_t *bytes,
                                          size_t bytes_length, uint32_t *out, size_t out_length, uint32_t *work,
                                          size_t work_length);

/* A book, beside the file of its catalogue. */
struct yuthaqim_reply yuthaqim_read_book(const uint8_t *catalogue, size_t catalogue_length, const uint8_t *bytes,
                                         size_t bytes_length, uint32_t *out, size_t out_length, uint32_t *work,
                                         size_t work_length);

/* Writing: from content to its file. */

struct yuthaqim_reply yuthaqim_write_pattern(const uint32_t *fields, size_t fields_length, uint8_t *out,
                                             size_t out_length, uint32_t *work, size_t work_length);

struct yuthaqim_reply yuthaqim_write_catalogue(const uint32_t *fields, size_t fields_length, uint8_t *out,
                                               size_t out_length, uint32_t *work, size_t work_length);

struct yuthaqim_reply yuthaqim_write_record(const uint32_t *fields, size_t fields_length, uint8_t *out,
                                            size_t out_length, uint32_t *work, size_t work_length);

/* A sheet, beside the file of its pattern. */
struct yuthaqim_reply yuthaqim_write_sheet(const uint8_t *pattern, size_t pattern_length, const uint32_t *fields,
                                           size_t fields_length, uint8_t *out, size_t out_length, uint32_t *work,
                                           size_t work_length);

/* A book, beside the file of its catalogue. */
struct yuthaqim_reply yuthaqim_write_book(const uint8_t *catalogue, size_t catalogue_length, const uint32_t *fields,
                                          size_t fields_length, uint8_t *out, size_t out_length, uint32_t *work,
                                          size_t work_length);

/* Writes the record of a file that was stored before links had kinds, or even an order: the same items, and the same
 * links, ascending, each with kind 0. Patterns whose links all have kind 0 have the same sheets. The file is read by the
 * rules of then: at most YUTHAQIM_OLD_RECORD_BYTES, a from and a to for each link, in any order, YUTHAQIM_TWICE for one
 * that repeats an earlier one, and never YUTHAQIM_ORDER. */
struct yuthaqim_reply yuthaqim_sort_record(const uint8_t *old, size_t old_length, uint8_t *out, size_t out_length,
                                           uint32_t *work, size_t work_length);

/* Searches a record for a pattern: writes the pattern's sheet. A link of the pattern is met by links of the record of its
 * own kind alone; the sheet lists pairs, since the link of the pattern gives the kind. What stands for an item of the pattern
 * has a link for each that leaves that item and for each that arrives at it. */
struct yuthaqim_reply yuthaqim_search(const uint8_t *pattern, size_t pattern_length, const uint8_t *record,
                                      size_t record_length, uint8_t *out, size_t out_length, uint32_t *work,
                                      size_t work_length);

/* Makes the index of a record: for each item the number of links that begin at lower items, then the number of all links.
 * So a record of n items has n + 1 entries. */
struct yuthaqim_reply yuthaqim_make_index(const uint8_t *record, size_t record_length, uint16_t *out, size_t out_length,
                                          uint32_t *work, size_t work_length);

/* Checks an index against a record: gives the number of entries, or 16. It has no output and never gives 12. */
struct yuthaqim_reply yuthaqim_check_index(const uint8_t *record, size_t record_length, const uint16_t *index,
                                           size_t index_length, uint32_t *work, size_t work_length);

/* Searches a record for a pattern by the record's index: writes the sheet that a search without one gives. */
struct yuthaqim_reply yuthaqim_search_indexed(const uint8_t *pattern, size_t pattern_length, const uint8_t *record,
                                              size_t record_length, const uint16_t *index, size_t index_length,
                                              uint8_t *out, size_t out_length, uint32_t *work, size_t work_length);

/* Makes the book of a catalogue from a record: writes a sheet for each extract, by its own rule. */
struct yuthaqim_reply yuthaqim_make_book(const uint8_t *catalogue, size_t catalogue_length, uint16_t one_way,
                                         const uint8_t *record, size_t record_length, uint8_t *out, size_t out_length,
                                         uint32_t *work, size_t work_length);

/* Quotes a question with a catalogue: a link of an extract matches links of the question of its own kind alone, and
 * an extract is set against the question by its own rule. It has no output, and uncovered is one of its results: it never
 * gives 11 or 12. */
struct yuthaqim_quote yuthaqim_quote(const uint8_t *question, size_t question_length, const uint8_t *catalogue,
                                     size_t catalogue_length, uint16_t one_way, uint32_t *work, size_t work_length);

/* Finds the cheapest set of extracts that covers a question: charges has one for each extract, in catalogue order. No set
 * that covers the question costs less; of those that cost as much it has the fewest extracts, and of those it comes first
 * when the numbers are read upward. It has no output and never gives 12. */
struct yuthaqim_cheapest yuthaqim_cheapest(const uint8_t *question, size_t question_length, const uint8_t *catalogue,
                                           size_t catalogue_length, uint16_t one_way, const uint32_t *charges,
                                           size_t charges_length, uint32_t *work, size_t work_length);

/* Answers a covered question from a book: writes the question's sheet, the one that searching the record gives, both ways,
 * if the book was made from a record for this catalogue and this set. */
struct yuthaqim_reply yuthaqim_answer(const uint8_t *question, size_t question_length, const uint8_t *catalogue,
                                      size_t catalogue_length, uint16_t one_way, const uint8_t *book,
                                      size_t book_length, uint8_t *out, size_t out_length, uint32_t *work,
                                      size_t work_length);

/* The same by a set of extracts that the client names, the bit worth 2^a for extract a; bits that name no extract of the
 * catalogue are ignored. Every set that covers the question serves: if the book was made from a record for this
 * catalogue and this one_way, all of them give the same. Of 11 the detail is the lowest link that this set leaves unmatched. */
struct yuthaqim_reply yuthaqim_answer_from(const uint8_t *question, size_t question_length, const uint8_t *catalogue,
                                           size_t catalogue_length, uint16_t one_way, uint16_t set, const uint8_t *book,
                                           size_t book_length, uint8_t *out, size_t out_length, uint32_t *work,
                                           size_t work_length);

/* Answers several questions from one book, up to YUTHAQIM_QUESTIONS_MOST: writes their sheets one after the other, each
 * the one that yuthaqim_answer gives for its question. The questions come as one file, each on the byte after the one
 * before, with at most YUTHAQIM_PATTERN_BYTES times their number. Of 11 the detail is the lowest unmatched link of the
 * first question that isn't covered. It is refused with 12 if one sheet is over YUTHAQIM_SHEET_BYTES or all are over what
 * is lent, and then the detail is the bytes of all, which have no limit of their own. */
struct yuthaqim_several yuthaqim_answer_several(const uint8_t *questions, size_t questions_length, uint32_t number,
                                                const uint8_t *catalogue, size_t catalogue_length, uint16_t one_way,
                                                const uint8_t *book, size_t book_length, uint8_t *out,
                                                size_t out_length, uint32_t *work, size_t work_length);

/* Finds the part of a question that the extracts answer, and answers it from a book: writes the part as a pattern, and
 * its sheet, which yuthaqim_answer gives for the part by itself. The part has the question's matched links in their
 * order, and the items at them, numbered upward. Every choice of the question's links that is covered lies inside it; of a
 * covered question it is the question. It is refused with 11 only where no link is matched, detail 0. 12 has the bytes of
 * the part if these don't fit, else those of its answer; nothing is written unless both fit. YUTHAQIM_PATTERN_BYTES always
 * suffice for the part. */
struct yuthaqim_part yuthaqim_part(const uint8_t *question, size_t question_length, const uint8_t *catalogue,
                                   size_t catalogue_length, uint16_t one_way, const uint8_t *book, size_t book_length,
                                   uint8_t *part, size_t part_length, uint8_t *answer, size_t answer_length,
                                   uint32_t *work, size_t work_length);

/* Shows why a question is uncovered: writes the question read as a record, and the same without its lowest unmatched
 * link, which is the lowest by its number in the question; a link between the same items of another kind stays. The links
 * of both records ascend. Every extract lists the same on both, by its own rule; the question doesn't. */
struct yuthaqim_showing yuthaqim_show_uncovered(const uint8_t *question, size_t question_length,
                                                const uint8_t *catalogue, size_t catalogue_length, uint16_t one_way,
                                                uint8_t *first, size_t first_length, uint8_t *second,
                                                size_t second_length, uint32_t *work, size_t work_length);

/* For a day. The catalogue comes with a list of terms, an entry for each extract in catalogue order, handed over as
 * yuthaqim_spread_terms(terms, terms_length): an extract is in force from its from-day on, up to its to-day, which doesn't
 * count, so none is on day 65,535. The calls below answer as those without a day do, but use only the extracts in force: masks
 * of the others are zero, and the chosen and the cheapest set, the part and the lowest unmatched link are by those in force.
 * 15 counts all extracts. To answer a question on a day, hand what yuthaqim_quote_on chooses to yuthaqim_answer_from. */

/* A list of terms, of any length, as the calls for a day take it. It is lent no words to work in and refuses nothing: a list of
 * a wrong length, or with a wrong entry, is refused by those calls. */
struct yuthaqim_terms yuthaqim_spread_terms(const struct yuthaqim_term *terms, size_t terms_length);

/* Uncovered says that the extracts in force don't suffice. */
struct yuthaqim_quote yuthaqim_quote_on(const uint8_t *question, size_t question_length, const uint8_t *catalogue,
                                        size_t catalogue_length, uint16_t one_way, struct yuthaqim_terms terms,
                                        uint16_t day, uint32_t *work, size_t work_length);

struct yuthaqim_cheapest yuthaqim_cheapest_on(const uint8_t *question, size_t question_length, const uint8_t *catalogue,
                                              size_t catalogue_length, uint16_t one_way, struct yuthaqim_terms terms,
                                              uint16_t day, const uint32_t *charges, size_t charges_length,
                                              uint32_t *work, size_t work_length);

struct yuthaqim_part yuthaqim_part_on(const uint8_t *question, size_t question_length, const uint8_t *catalogue,
                                      size_t catalogue_length, uint16_t one_way, struct yuthaqim_terms terms,
                                      uint16_t day, const uint8_t *book, size_t book_length, uint8_t *part,
                                      size_t part_length, uint8_t *answer, size_t answer_length, uint32_t *work,
                                      size_t work_length);

/* Every extract in force lists the same on both records, whatever the others list; the question doesn't. */
struct yuthaqim_showing yuthaqim_show_on(const uint8_t *question, size_t question_length, const uint8_t *catalogue,
                                         size_t catalogue_length, uint16_t one_way, struct yuthaqim_terms terms,
                                         uint16_t day, uint8_t *first, size_t first_length, uint8_t *second,
                                         size_t second_length, uint32_t *work, size_t work_length);

/* Finds the first day, not before the given one, on which the question is covered, or that there is none up to 65,535, which
 * is no refusal. It has no output. */
struct yuthaqim_first_day yuthaqim_first_day(const uint8_t *question, size_t question_length, const uint8_t *catalogue,
                                             size_t catalogue_length, uint16_t one_way, struct yuthaqim_terms terms,
                                             uint16_t day, uint32_t *work, size_t work_length);

/* First see, then enter. Before a link enters a record one asks which extracts' sheets it would change. Commit enters it, and
 * keeps a small running state beside the record: it adds 1 to both of its numbers, and on a refusal leaves them as they came.
 * Both calls give YUTHAQIM_COUNT if the state's link count isn't the record's, then YUTHAQIM_STRAY for an end that is no item,
 * YUTHAQIM_COUNT for a kind above 7, YUTHAQIM_ORDER for a link already there, YUTHAQIM_COUNT for a record of 8,192 links. */

/* Asks which extracts' lists a link would change, each by its own rule, also where a sheet is too long to write. It alters
 * nothing, has no output and never gives 12. */
struct yuthaqim_asked yuthaqim_ask(const uint8_t *catalogue, size_t catalogue_length, uint16_t one_way,
                                   const uint8_t *record, size_t record_length, struct yuthaqim_state state,
                                   struct yuthaqim_link link, uint32_t *work, size_t work_length);

/* Enters a slip's link: writes the record with the link at its place in order, and its index. While the record, the
 * catalogue and the set are those that were asked about, the sheets that this changes are those of the set that came with the
 * slip, and no others. A slip may be made by hand: the link is judged again. 12 has the bytes of the record if these don't fit,
 * else the entries of the index; nothing is written unless both fit. The pointer to the state is aligned to 4, and the state
 * overlaps nothing else that the call is lent. */
struct yuthaqim_entered yuthaqim_commit(const uint8_t *record, size_t record_length, struct yuthaqim_state *state,
                                        struct yuthaqim_slip slip, uint8_t *out, size_t out_length, uint16_t *index,
                                        size_t index_length, uint32_t *work, size_t work_length);

#ifdef __cplusplus
}
#endif

#endif
