/* hollytrot_session_feed does what hollytrot_session_run does, however an input is cut. */
#include "abi.h"

static uint8_t input[12 * HOLLYTROT_LINED];
static size_t length;

/* Writes a file of two payments behind the input, lined or bare, with the last digit of its sequence number. */
static void write_file(bool is_lined, char number)
{
    const size_t step = is_lined ? HOLLYTROT_LINED : HOLLYTROT_RECORD;
    uint8_t given[HOLLYTROT_HEADER_FIELDS];
    memcpy(given, header, sizeof given);
    given[76] = (uint8_t)number;
    hollytrot_write_result result =
        hollytrot_writer_header(hollytrot_writer_new(), given, sizeof given, input + length, step);
    SAME_ANSWER(result.answer, 0, 0);
    for (uint64_t i = 1; i <= 2; i++) {
        result = hollytrot_writer_payment(result.writer, fields, sizeof fields, 1000 * i, i, NONE,
                                          input + length + i * step, step);
        SAME_ANSWER(result.answer, 0, 0);
    }
    result = hollytrot_writer_trailer(result.writer, input + length + 3 * step, step);
    SAME_ANSWER(result.answer, 0, 0);
    length += 4 * step;
}

/* Feeds a part to the session, and runs it over a copy. */
static hollytrot_feed_result feed(hollytrot_session *session, const uint8_t *bytes, size_t count, bool more)
{
    hollytrot_run_result run = hollytrot_session_run(*session, bytes, count, more, NONE);
    hollytrot_feed_result fed = hollytrot_session_feed(session, bytes, count, more, NONE);
    SAME_ANSWER(fed.answer, run.answer.number, run.answer.place);
    SAME(fed.records, run.records);
    SAME(fed.files, run.files);
    SAME(fed.bytes, run.bytes);
    same_session(HERE, session, &run.session);
    return fed;
}

/* The input in two parts, with what the first leaves in front of the second, is the whole input in one run. */
static void feed_in_two(size_t cut, const hollytrot_run_result *whole)
{
    hollytrot_session session = hollytrot_session_new();
    hollytrot_feed_result first = feed(&session, input, cut, true);
    if (first.answer.number == HOLLYTROT_ACCEPTED) {
        hollytrot_feed_result second = feed(&session, input + first.bytes, length - first.bytes, false);
        first.answer = second.answer;
        first.records += second.records;
        first.files += second.files;
        first.bytes += second.bytes;
    }
    SAME_ANSWER(first.answer, whole->answer.number, whole->answer.place);
    SAME(first.records, whole->records);
    SAME(first.files, whole->files);
    SAME(first.bytes, whole->bytes);
    same_session(HERE, &session, &whole->session);
}

/* A bare file, a lined one, and the bare one again, which is refused. */
void feeds(void)
{
    write_file(false, '1');
    write_file(true, '2');
    write_file(false, '1');
    hollytrot_run_result whole = hollytrot_session_run(hollytrot_session_new(), input, length, false, NONE);
    SAME_ANSWER(whole.answer, HOLLYTROT_NOT_FOLLOWING, 74);
    SAME(whole.records, 8);
    SAME(whole.files, 2);
    SAME(whole.bytes, 4 * 150 + 4 * 152);
    SAME(whole.session.shown.total.centavos, 6000);
    for (size_t cut = 0; cut <= length; cut++)
        feed_in_two(cut, &whole);
    /* a wrong list takes nothing */
    const uint64_t wrong[1] = {0};
    hollytrot_session session = hollytrot_session_new(), before = session;
    hollytrot_feed_result fed = hollytrot_session_feed(&session, input, length, false, wrong, 1);
    SAME_ANSWER(fed.answer, HOLLYTROT_WRONG_LIST, 0);
    SAME(fed.records + fed.files + fed.bytes, 0);
    same_session(HERE, &session, &before);
}
