/* Lined files, and runs over many records. */
#include "abi.h"

/* One record at a time: of a lined file, and in the wrong form. */
void lined_sessions(void)
{
    hollytrot_session session = hollytrot_session_new();
    SAME_ANSWER(hollytrot_session_take(session, lined, 151, NONE).answer, 1, 0);
    SAME_ANSWER(hollytrot_session_take(session, lined + 152, 152, NONE).answer, 9, 1);
    hollytrot_take_result result = hollytrot_session_take(session, lined, 152, NONE);
    SAME_ANSWER(result.answer, 0, 0);
    SAME(result.session.file.version, 6);
    SAME(result.session.file.lined, true);
    SAME_ANSWER(hollytrot_session_take(open_session(8), lined + 152, 152, NONE).answer, 1, 0);

    session = open_session(8);
    session.file.lined = true;
    result = hollytrot_session_finish(session);
    same_session(HERE, &result.session, &session);
    SAME_ANSWER(hollytrot_session_take(session, lined + 152, 149, NONE).answer, 1, 0);
    SAME_ANSWER(hollytrot_session_take(session, lined + 152, 153, NONE).answer, 1, 0);
    for (size_t length = 150; length < 152; length++) {
        result = hollytrot_session_take(session, lined + 152, length, NONE);
        SAME_ANSWER(result.answer, HOLLYTROT_NO_LINE_END, 151);
        same_session(HERE, &result.session, &session);
    }
    result = hollytrot_session_take(session, lined + 152, 152, NONE);
    SAME_ANSWER(result.answer, 0, 0);
    SAME(result.session.file.taken, 9);
    SAME(result.session.file.lined, true);
    SAME(hollytrot_session_abandon(session).file.lined, false);
}

void runs(void)
{
    /* two payments, and a trailer whose count is wrong */
    hollytrot_session session = open_session(8);
    uint8_t three[450];
    memcpy(three, g, 150);
    memcpy(three + 150, g, 150);
    memcpy(three + 300, z, 150);
    hollytrot_run_result run = hollytrot_session_run(session, three, 450, false, NONE);
    SAME_ANSWER(run.answer, 13, 2);
    SAME(run.records, 2);
    SAME(run.files, 0);
    SAME(run.bytes, 300);
    SAME(run.session.file.taken, 10);
    SAME(run.session.file.total, 247912);
    SAME(run.session.work.lanes[1].tally.payments, session.work.lanes[1].tally.payments + 2);
    SAME(run.session.work.lanes[1].tally.tariff, session.work.lanes[1].tally.tariff + 2 * 789);
    SAME(run.session.work.total.tariff, session.work.total.tariff + 2 * 789);
    SAME(run.session.shown.total.tariff, session.shown.total.tariff);
    /* the right trailer closes the file, and the board shown is then the working board */
    session = open_session(7);
    memcpy(three + 150, z, 150);
    run = hollytrot_session_run(session, three, 300, false, NONE);
    SAME_ANSWER(run.answer, 0, 0);
    SAME(run.records, 2);
    SAME(run.files, 1);
    SAME(run.session.opened, false);
    SAME(run.session.file.version, 0);
    SAME(run.session.shown.lanes[1].tally.centavos, session.work.lanes[1].tally.centavos + 123456);
    SAME(run.session.shown.lanes[1].tally.tariff, session.work.lanes[1].tally.tariff + 789);
    SAME(run.session.shown.total.tariff, session.work.total.tariff + 789);
    /* if more may follow, the last 150 bytes are left */
    run = hollytrot_session_run(session, three, 300, true, NONE);
    SAME_ANSWER(run.answer, 0, 0);
    SAME(run.records, 1);
    SAME(run.bytes, 150);
    SAME(run.session.opened, true);
}

void lined_runs(void)
{
    hollytrot_session session = open_session(7);
    session.file.lined = true;
    /* a payment and a trailer without its LF: left if more may follow, else refused */
    hollytrot_run_result run = hollytrot_session_run(session, lined + 152, 303, false, NONE);
    SAME_ANSWER(run.answer, HOLLYTROT_NO_LINE_END, 151);
    SAME(run.bytes, 152);
    run = hollytrot_session_run(session, lined + 152, 303, true, NONE);
    SAME_ANSWER(run.answer, 0, 0);
    SAME(run.records, 1);
    SAME(run.files, 0);
    SAME(run.bytes, 152);
    SAME(run.session.file.taken, 8);
    SAME(run.session.file.lined, true);
    run = hollytrot_session_run(run.session, lined + 304, 152, true, NONE);
    SAME_ANSWER(run.answer, 0, 0);
    SAME(run.files, 1);
    SAME(run.bytes, 152);
    SAME(run.session.opened, false);
    SAME(run.session.file.lined, false);
    /* a header whose CR and LF may follow */
    run = hollytrot_session_run(run.session, lined, 151, true, NONE);
    SAME_ANSWER(run.answer, 0, 0);
    SAME(run.bytes, 0);
    run = hollytrot_session_run(run.session, lined, 152, true, NONE);
    SAME_ANSWER(run.answer, 0, 0);
    SAME(run.bytes, 152);
    SAME(run.session.file.lined, true);
}
