/* What the files of this test share. It compares the declarations of hollytrot.h with the library, with sizes and
 * offsets and with a known value through every member of every struct, as an argument and as a result; and it tests the
 * functions that the header itself defines. */
#ifndef ABI_H
#define ABI_H

#include <hollytrot.h>
#include <stdio.h>
#include <string.h>

/* Comparisons (main.c). Each is counted, and a wrong one is a line on standard error. HERE is where it is made. */
#define HERE __FILE__, __LINE__
#define SAME(found, wanted) same(HERE, #found, (found), (wanted))
#define SAME_ANSWER(found, number, place) same_answer(HERE, (found), (number), (place))
#define SAME_TEXT(found, wanted) same_text(HERE, (found), (wanted))
void same(const char *file, int line, const char *what, uint64_t found, uint64_t wanted);
void same_bytes(const char *file, int line, const void *found, const void *wanted, size_t length);
void same_answer(const char *file, int line, hollytrot_answer found, uint64_t number, size_t place);
void same_text(const char *file, int line, const char *found, const char *wanted);
/* Member by member (values.c). */
void same_pair(const char *file, int line, hollytrot_pair found, hollytrot_pair wanted);
void same_memory(const char *file, int line, const hollytrot_memory *found, const hollytrot_memory *wanted);
void same_session(const char *file, int line, const hollytrot_session *found, const hollytrot_session *wanted);

static inline const uint8_t *text(const char *s) { return (const uint8_t *)s; }

/* An empty list of agreed issuers, and one that has the issuer of the barcode, each as two arguments. */
extern const uint64_t none[1], mine[1];
#define NONE none, 0
#define MINE mine, 1

/* A barcode of segment 6, where issuer and free field have other widths than elsewhere (barcodes). */
extern uint8_t code[HOLLYTROT_BARCODE];
/* The field bytes of an A of version 6, and of a G whose capture only version 6 has (writers). */
extern const char header[];
extern uint8_t fields[HOLLYTROT_PAYMENT_FIELDS];
/* An A, a G and a Z (writers), and the same three records as a lined file (lined_writers). */
extern uint8_t a[HOLLYTROT_RECORD], g[HOLLYTROT_RECORD], z[HOLLYTROT_RECORD];
extern uint8_t lined[3 * HOLLYTROT_LINED];

/* The most that a sum of a board may reach. */
#define MOST 1000000000000000000

/* Values with a different number in each member (values.c). */
hollytrot_board numbered_board(uint64_t from);
hollytrot_pair numbered_pair(uint64_t from);
hollytrot_memory numbered_memory(size_t used);
hollytrot_session open_session(uint64_t taken);
hollytrot_tally tally_with(hollytrot_tally tally);
hollytrot_session session_with(hollytrot_session session);

/* The tests, in the order in which main runs them: barcodes, writers and lined_writers fill what later ones read. */
#define TESTS(X) \
    X(keys) X(barcodes) X(building_places) X(dates)                     /* codes.c */ \
    X(writers) X(lined_headers) X(lined_writers) X(writing_places)      /* writers.c */ \
    X(records) X(versions) X(rows) X(joins)                             /* records.c */ \
    X(limits) X(sessions) X(totals) X(tariff_totals) X(lanes_above)     /* sessions.c */ \
    X(headers) X(trailers)                                              /* memories.c */ \
    X(lined_sessions) X(runs) X(lined_runs)                             /* runs.c */ \
    X(feeds)                                                            /* feeds.c */ \
    X(agreed_issuers)                                                   /* agreed.c */ \
    X(pages) X(page_of_lanes_above)                                     /* pages.c */ \
    X(library_version) X(reasons) X(money) X(issuer_texts)              /* words.c */ \
    X(separators) X(typed_lines) X(odd_bytes)                           /* typed.c */ \
    X(null_barcodes) X(null_records) X(null_sessions) X(null_writers)   /* null.c */ \
    X(stacks)                                                           /* stack.c */
#define TEST(name) void name(void);
TESTS(TEST)
#undef TEST

#endif
