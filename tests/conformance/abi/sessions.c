/* Sessions, one record at a time, and the sums of their boards. */
#include "abi.h"

/* The limits of the library are those of the header and of SPEC.md, "Limits". */
void limits(void)
{
    hollytrot_limits limits = hollytrot_session_limits();
    SAME(limits.lanes, HOLLYTROT_LANES);
    SAME(limits.record_length, HOLLYTROT_RECORD);
    SAME(limits.payments, 999997);
    SAME(limits.file_total, 99999999999999999);
    SAME(limits.board_total, MOST);
    SAME(limits.pairs, HOLLYTROT_PAIRS);
}

void sessions(void)
{
    hollytrot_session session = open_session(8);
    hollytrot_take_result result = hollytrot_session_finish(session);
    SAME_ANSWER(result.answer, 19, 0);
    same_session(HERE, &result.session, &session);

    hollytrot_board board = hollytrot_session_board(session);
    same_bytes(HERE, &board, &session.shown, sizeof board);

    /* a payment */
    hollytrot_session after = session_with(session);
    result = hollytrot_session_take(session, g, 150, NONE);
    SAME_ANSWER(result.answer, 0, 0);
    same_session(HERE, &result.session, &after);
    after.file.version = 4;
    SAME_ANSWER(hollytrot_session_take(after, g, 150, NONE).answer, 12, 117);

    after = hollytrot_session_abandon(session);
    session.work = session.shown;
    session.opened = false;
    session.file = (hollytrot_file){0, 0, 0, false};
    session.opening = (hollytrot_pair){{0}, {0}, 0};
    same_session(HERE, &after, &session);
    after = hollytrot_session_new();
    SAME(after.opened, false);
    SAME(after.file.version, 0);
    SAME(after.file.lined, false);
    SAME(after.shown.used, 0);
    same_pair(HERE, after.opening, (hollytrot_pair){{0}, {0}, 0});
    same_memory(HERE, &after.memory, &(hollytrot_memory){{{{0}, {0}, 0}}, 0});
    after = hollytrot_session_take(after, a, 150, NONE).session;
    SAME(after.file.version, 6);
    SAME(after.file.lined, false);
}

/* The G in this session: `after` is the session after it. */
static void payment_in(const char *file, int line, const hollytrot_session *session, uint64_t number, size_t place,
                       const hollytrot_session *after)
{
    hollytrot_take_result taken = hollytrot_session_take(*session, g, 150, NONE);
    same_answer(file, line, taken.answer, number, place);
    same_session(file, line, &taken.session, after);
    hollytrot_run_result run = hollytrot_session_run(*session, g, 150, false, NONE);
    same_answer(file, line, run.answer, number, place);
    same_session(file, line, &run.session, after);
}

/* The largest sums that the G can be added to: each is then 10^18. */
static const hollytrot_tally room = {MOST - 1, MOST - 123456, MOST - 789};

/* The G in sessions whose working board has room for it in some of the six sums of its lane and of the total; each of
 * the others is 1 too large, or the largest number of 64 bits. The place is 94 only if there is room in the four that
 * are not tariffs. */
void totals(void)
{
    for (unsigned passed = 0; passed < 1 << 6; passed++) {
        for (int largest = 0; largest < 2; largest++) {
            hollytrot_session session = open_session(8), after;
            hollytrot_tally *lane = &session.work.lanes[1].tally, *total = &session.work.total;
            uint64_t *sums[] = {&lane->tariff, &total->tariff,
                                &lane->payments, &total->payments, &lane->centavos, &total->centavos};
            *lane = *total = room;
            for (size_t i = 0; i < 6; i++)
                if (passed >> i & 1)
                    *sums[i] = largest ? UINT64_MAX : *sums[i] + 1;
            after = passed == 0 ? session_with(session) : session;
            payment_in(HERE, &session, passed == 0 ? 0 : 18, passed == 0 ? 0 : passed < 4 ? 94 : 82, &after);
        }
    }
}

/* 18 at 94 for an issuer's first payment, before 22 and behind 17. */
void tariff_totals(void)
{
    hollytrot_session session = open_session(8), after;
    session.work.total.tariff = room.tariff + 1;
    payment_in(HERE, &session, HOLLYTROT_BOARD_TOTAL_PASSED, 94, &session);
    session.file.lined = true;
    payment_in(HERE, &session, HOLLYTROT_BOARD_TOTAL_PASSED, 94, &session);
    session.work.total.tariff = room.tariff;
    payment_in(HERE, &session, HOLLYTROT_NO_LINE_END, 151, &session);

    /* what is in a lane that is not in use does not count */
    session = open_session(8);
    session.work.used = 1;
    session.work.lanes[1].tally.tariff = UINT64_MAX;
    session.work.total.tariff = room.tariff + 1;
    payment_in(HERE, &session, HOLLYTROT_BOARD_TOTAL_PASSED, 94, &session);
    session.work.total.tariff = room.tariff;
    after = session_with(session);
    after.work.used = 2;
    after.work.lanes[1].tally = tally_with((hollytrot_tally){0, 0, 0});
    payment_in(HERE, &session, 0, 0, &after);

    session.work.used = HOLLYTROT_LANES;
    session.work.lanes[1].issuer.number += 1;
    session.work.total.tariff = UINT64_MAX;
    payment_in(HERE, &session, HOLLYTROT_BOARD_FULL, 53, &session);
}

/* Boards with more lanes in use than there are: all 64 are. */
void lanes_above(void)
{
    const size_t used[] = {HOLLYTROT_LANES + 1, 100, SIZE_MAX};
    for (size_t i = 0; i < sizeof used / sizeof used[0]; i++) {
        hollytrot_session session = open_session(8), after;
        session.work.used = used[i];
        after = session_with(session);
        payment_in(HERE, &session, 0, 0, &after);
        session.work.lanes[1].issuer.number += 1;
        payment_in(HERE, &session, HOLLYTROT_BOARD_FULL, 53, &session);
        /* the last lane counts too */
        session.work.lanes[HOLLYTROT_LANES - 1].issuer = (hollytrot_issuer){6, 12345678};
        SAME_ANSWER(hollytrot_session_take(session, g, 150, NONE).answer, 0, 0);
    }
}
