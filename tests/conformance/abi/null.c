/* NULL with length 0 is allowed for whatever a call reads and writes. agreed.c has it for the list in calls that are
 * accepted. */
#include "abi.h"

#define NO NULL, 0

void null_barcodes(void)
{
    uint8_t out[HOLLYTROT_LINE], untouched[HOLLYTROT_LINE] = {0};
    const hollytrot_issuer issuer = {6, 12345678};
    const uint64_t wrong[1] = {0};
    memset(out, 0, sizeof out);
    SAME_ANSWER(hollytrot_barcode_check(NO, NO), 1, 0);
    SAME_ANSWER(hollytrot_barcode_check(NO, wrong, 1), 25, 0);
    SAME_ANSWER(hollytrot_barcode_decode(NO, NO).answer, 1, 0);
    SAME(hollytrot_barcode_free_field(NO, NO).from, 0);
    SAME(hollytrot_barcode_free_field(NO, NO).length, 0);
    SAME_ANSWER(hollytrot_barcode_build(issuer, 8, 1, NO, NO, out, 44), 1, 0);
    SAME_ANSWER(hollytrot_barcode_build(issuer, 8, 1, text("202402291234567890123"), 21, NO, NO), 1, 0);
    SAME_ANSWER(hollytrot_barcode_build(issuer, 8, 1, NO, NO, NO), 1, 0);
    SAME_ANSWER(hollytrot_line_check(NO, NO), 1, 0);
    SAME_ANSWER(hollytrot_line_decode(NO, NO).answer, 1, 0);
    SAME_ANSWER(hollytrot_line_to_barcode(NO, NO, out, 44), 1, 0);
    SAME_ANSWER(hollytrot_line_to_barcode(out, 48, NO, NO), 1, 0);
    SAME_ANSWER(hollytrot_line_to_barcode(NO, NO, NO), 1, 0);
    SAME_ANSWER(hollytrot_line_from_barcode(NO, NO, out, 48), 1, 0);
    SAME_ANSWER(hollytrot_line_from_barcode(code, 44, NO, NO), 1, 0);
    SAME_ANSWER(hollytrot_line_from_barcode(NO, NO, NO), 1, 0);
    same_bytes(HERE, out, untouched, sizeof out);
    SAME(hollytrot_date_read(NO).year, 0);
    SAME(hollytrot_check_ten(NO), 0);
    SAME(hollytrot_check_eleven(NO), 0);
    SAME(hollytrot_digits(NO).count, 0);
    SAME(hollytrot_place_typed(NO, 1), 0);
}

void null_records(void)
{
    uint8_t out[HOLLYTROT_PAYMENT_FIELDS];
    SAME_ANSWER(hollytrot_record_check(NO, 6, NO), 1, 0);
    SAME_ANSWER(hollytrot_record_decode(NO, 6, NO).answer, 1, 0);
    SAME(hollytrot_record_field(NO, 6, HOLLYTROT_A_BANK, NO).length, 0);
    SAME_ANSWER(hollytrot_record_join(NO, 6, NO, out, sizeof out), 1, 0);
    SAME_ANSWER(hollytrot_record_join(NO, 6, NO, NO), 1, 0);
    SAME_ANSWER(hollytrot_record_join(a, 150, 6, NO, NO), 1, 0);
    SAME_ANSWER(hollytrot_record_join(g, 150, 6, NO, NO), 1, 0);
    SAME_ANSWER(hollytrot_record_join(z, 150, 6, NO, NO), 9, 1);
    SAME(hollytrot_record_field(g, 150, 6, HOLLYTROT_G_TARIFF, NO).from, 93);
}

/* No bytes are no record, and a run over none of them is accepted, with no file open and in an open one. */
void null_sessions(void)
{
    for (int opened = 0; opened < 2; opened++) {
        hollytrot_session session = opened ? open_session(8) : hollytrot_session_new(), fed = session;
        hollytrot_take_result taken = hollytrot_session_take(session, NO, NO);
        SAME_ANSWER(taken.answer, 1, 0);
        same_session(HERE, &taken.session, &session);
        for (int more = 0; more < 2; more++) {
            hollytrot_run_result run = hollytrot_session_run(session, NO, more, NO);
            SAME_ANSWER(run.answer, 0, 0);
            SAME(run.records + run.files + run.bytes, 0);
            same_session(HERE, &run.session, &session);
            hollytrot_feed_result result = hollytrot_session_feed(&fed, NO, more, NO);
            SAME_ANSWER(result.answer, 0, 0);
            SAME(result.records + result.files + result.bytes, 0);
            same_session(HERE, &fed, &session);
        }
        hollytrot_page_result page = hollytrot_page((hollytrot_answer){0, 0}, 0, 0, session.shown, NO);
        SAME_ANSWER(page.answer, 1, 0);
        SAME(page.length, 0);
    }
    hollytrot_session session = open_session(8), after = session_with(session);
    hollytrot_take_result taken = hollytrot_session_take(session, g, 150, NO);
    SAME_ANSWER(taken.answer, 0, 0);
    same_session(HERE, &taken.session, &after);
}

void null_writers(void)
{
    uint8_t out[HOLLYTROT_RECORD];
    const hollytrot_writer fresh = hollytrot_writer_new(), open = {1, {7, 1000, 6, false}};
    SAME_ANSWER(hollytrot_writer_header(fresh, NO, out, 150).answer, 1, 0);
    SAME_ANSWER(hollytrot_writer_header(fresh, text(header), 80, NO).answer, 1, 0);
    SAME_ANSWER(hollytrot_writer_header(fresh, NO, NO).answer, 1, 0);
    SAME_ANSWER(hollytrot_writer_payment(open, NO, 1, 0, NO, out, 150).answer, 1, 0);
    SAME_ANSWER(hollytrot_writer_payment(open, fields, 121, 1, 0, NO, NO).answer, 1, 0);
    SAME_ANSWER(hollytrot_writer_payment(open, NO, 1, 0, NO, NO).answer, 1, 0);
    SAME_ANSWER(hollytrot_writer_payment(open, fields, 121, 123456, 789, NO, out, 150).answer, 0, 0);
    same_bytes(HERE, out, g, sizeof out);
    SAME_ANSWER(hollytrot_writer_trailer(open, NO).answer, 1, 0);
}
