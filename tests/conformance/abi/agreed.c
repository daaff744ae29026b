/* Lists of agreed issuers, in every call that takes one. */
#include "abi.h"

/* A list; whether it is refused, and if not, whether it has the issuer of the barcode. */
struct list {
    const uint64_t *keys;
    size_t length;
    bool wrong, has;
};

/* The number that each call is answered under a list. */
static uint64_t number_under(const struct list *list, bool dated)
{
    if (list->wrong)
        return HOLLYTROT_WRONG_LIST;
    return list->has && !dated ? HOLLYTROT_NO_DATE : HOLLYTROT_ACCEPTED;
}

static void same_due_date(hollytrot_date found, bool shown)
{
    SAME(found.year, shown ? 2024 : 0);
    SAME(found.month, shown ? 2 : 0);
    SAME(found.day, shown ? 29 : 0);
}

/* The barcode and its line under a list; the free field starts with a date or with a 30th of February. */
static void barcodes_under(const struct list *list, bool dated)
{
    const uint64_t *keys = list->keys, number = number_under(list, dated);
    size_t n = list->length, place = number == 11 ? 24 : 0, place_in_line = number == 11 ? 26 : 0;
    const uint8_t *digits = text(dated ? "202402291234567890123" : "202402301234567890123");
    uint8_t built[44], typed[48], out[48] = {0}, untouched[48] = {0};
    hollytrot_issuer issuer = {6, 12345678};
    SAME_ANSWER(hollytrot_barcode_build(issuer, 8, 98765432109, digits, 21, NONE, built, 44), 0, 0);
    SAME_ANSWER(hollytrot_line_from_barcode(built, 44, NONE, typed, 48), 0, 0);

    SAME_ANSWER(hollytrot_barcode_build(issuer, 8, 98765432109, digits, 21, keys, n, out, 44), number, place);
    same_bytes(HERE, out, number == 0 ? built : untouched, 44);
    SAME_ANSWER(hollytrot_barcode_check(built, 44, keys, n), number, place);
    hollytrot_decoded decoded = hollytrot_barcode_decode(built, 44, keys, n);
    SAME_ANSWER(decoded.answer, number, place);
    same_due_date(decoded.fields.due, number == 0 && list->has);
    SAME(hollytrot_barcode_free_field(built, 44, keys, n).length, number == 0 ? 21 : 0);
    memset(out, 0, sizeof out);
    SAME_ANSWER(hollytrot_line_from_barcode(built, 44, keys, n, out, 48), number, place);
    same_bytes(HERE, out, number == 0 ? typed : untouched, 48);

    SAME_ANSWER(hollytrot_line_check(typed, 48, keys, n), number, place_in_line);
    decoded = hollytrot_line_decode(typed, 48, keys, n);
    SAME_ANSWER(decoded.answer, number, place_in_line);
    same_due_date(decoded.fields.due, number == 0 && list->has);
    memset(out, 0, sizeof out);
    SAME_ANSWER(hollytrot_line_to_barcode(typed, 48, keys, n, out, 44), number, place_in_line);
    same_bytes(HERE, out, number == 0 ? built : untouched, 44);
}

/* A payment with such a barcode under a list: as a single record, in a session and by a writer. */
static void files_under(const struct list *list, bool dated)
{
    const uint64_t *keys = list->keys, number = number_under(list, dated);
    size_t n = list->length, place = number == 11 ? 61 : 0;
    uint8_t given[HOLLYTROT_PAYMENT_FIELDS], record[150], out[150];
    const uint8_t *digits = text(dated ? "202402291234567890123" : "202402301234567890123");
    memcpy(given, fields, sizeof given);
    hollytrot_issuer issuer = {6, 12345678};
    SAME_ANSWER(hollytrot_barcode_build(issuer, 8, 98765432109, digits, 21, NONE, given + 36, 44), 0, 0);
    hollytrot_writer writer = {1, {7, 1000, 6, false}};
    SAME_ANSWER(hollytrot_writer_payment(writer, given, 121, 123456, 789, NONE, record, 150).answer, 0, 0);

    SAME_ANSWER(hollytrot_record_check(record, 150, 6, keys, n), number, place);
    hollytrot_record decoded = hollytrot_record_decode(record, 150, 6, keys, n);
    SAME_ANSWER(decoded.answer, number, place);
    same_due_date(decoded.payment.barcode.due, number == 0 && list->has);
    SAME(hollytrot_record_field(record, 150, 6, HOLLYTROT_G_RECEIVED, keys, n).from, number == 0 ? 81 : 0);
    SAME_ANSWER(hollytrot_record_join(record, 150, 6, keys, n, out, 121), number, place);

    hollytrot_write_result written = hollytrot_writer_payment(writer, given, 121, 123456, 789, keys, n, out, 150);
    SAME_ANSWER(written.answer, number, place);
    SAME(written.writer.file.taken, number == 0 ? 8 : 7);
    hollytrot_session session = open_session(8);
    hollytrot_take_result taken = hollytrot_session_take(session, record, 150, keys, n);
    SAME_ANSWER(taken.answer, number, place);
    SAME(taken.session.file.taken, number == 0 ? 9 : 8);
    hollytrot_run_result run = hollytrot_session_run(session, record, 150, false, keys, n);
    SAME_ANSWER(run.answer, number, place);
    SAME(run.records, number == 0 ? 1 : 0);
    SAME(run.session.file.taken, number == 0 ? 9 : 8);
}

/* A wrong list is refused before everything else: wrong lengths, no bytes, and calls that are not expected. */
static void refused_first(const struct list *list)
{
    const uint64_t *keys = list->keys;
    size_t n = list->length;
    uint64_t number = list->wrong ? 25 : 1;
    uint8_t out[1];
    SAME_ANSWER(hollytrot_barcode_check(NULL, 0, keys, n), number, 0);
    SAME_ANSWER(hollytrot_line_to_barcode(NULL, 0, keys, n, out, 1), number, 0);
    SAME_ANSWER(hollytrot_record_join(text("?"), 1, 6, keys, n, out, 1), number, 0);
    SAME_ANSWER(hollytrot_record_check(a, 150, 6, keys, n), list->wrong ? 25 : 0, 0);
    hollytrot_writer closed = {2, {0, 0, 6, false}};
    SAME_ANSWER(hollytrot_writer_payment(closed, fields, 1, 0, 0, keys, n, out, 1).answer, number, 0);
    SAME_ANSWER(hollytrot_session_take(hollytrot_session_new(), NULL, 0, keys, n).answer, number, 0);
    hollytrot_run_result run = hollytrot_session_run(open_session(8), NULL, 0, true, keys, n);
    SAME_ANSWER(run.answer, list->wrong ? 25 : 0, 0);
    SAME(run.session.file.taken, 8);
}

/* Every call that has a list, under lists that are empty, right, full, too long and wrong in an entry. */
void agreed_issuers(void)
{
    uint64_t full[HOLLYTROT_AGREED + 1];
    for (size_t i = 0; i <= HOLLYTROT_AGREED; i++)
        full[i] = hollytrot_issuer_key((hollytrot_issuer){3, i});
    full[HOLLYTROT_AGREED - 1] = mine[0];
    const uint64_t no_key[] = {mine[0], 800000001}, twice[] = {mine[0], full[0], mine[0]};
    const struct list lists[] = {
        {none, 0, false, false},
        {NULL, 0, false, false},
        {mine, 1, false, true},
        {full, 1, false, false},
        {full, HOLLYTROT_AGREED - 1, false, false},
        {full, HOLLYTROT_AGREED, false, true},
        {full, HOLLYTROT_AGREED + 1, true, false},
        {none, 1, true, false},
        {no_key, 2, true, false},
        {twice, 2, false, true},
        {twice, 3, true, false},
    };
    for (size_t i = 0; i < sizeof lists / sizeof lists[0]; i++) {
        for (int dated = 0; dated < 2; dated++) {
            barcodes_under(&lists[i], dated);
            files_under(&lists[i], dated);
        }
        refused_first(&lists[i]);
    }
}
