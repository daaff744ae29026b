/* The values that the tests share, with a different number in each member. */
#include "abi.h"

const uint64_t none[1], mine[1] = {612345678};
uint8_t code[HOLLYTROT_BARCODE];
const char header[] = "AGREEMENT           COMPANY             237BANK                2023123100432106O";
uint8_t fields[HOLLYTROT_PAYMENT_FIELDS];
uint8_t a[HOLLYTROT_RECORD], g[HOLLYTROT_RECORD], z[HOLLYTROT_RECORD];
uint8_t lined[3 * HOLLYTROT_LINED];

/* A board with a different number in each of its fields. */
hollytrot_board numbered_board(uint64_t from)
{
    hollytrot_board board;
    for (size_t i = 0; i < HOLLYTROT_LANES; i++) {
        board.lanes[i].issuer.segment = from + 10 * i;
        board.lanes[i].issuer.number = from + 10 * i + 1;
        board.lanes[i].tally.payments = from + 10 * i + 2;
        board.lanes[i].tally.centavos = from + 10 * i + 3;
        board.lanes[i].tally.tariff = from + 10 * i + 4;
    }
    board.used = 3;
    board.total.payments = from + 5;
    board.total.centavos = from + 6;
    board.total.tariff = from + 7;
    return board;
}

/* A pair with a different number in each of its bytes, and a sequence number of more than 32 bits. */
hollytrot_pair numbered_pair(uint64_t from)
{
    hollytrot_pair pair;
    for (size_t i = 0; i < sizeof pair.bank; i++)
        pair.bank[i] = (uint8_t)(from + i);
    for (size_t i = 0; i < sizeof pair.agreement; i++)
        pair.agreement[i] = (uint8_t)(from + sizeof pair.bank + i);
    pair.sequence = (from << 32) + from;
    return pair;
}

/* A memory of such pairs. */
hollytrot_memory numbered_memory(size_t used)
{
    hollytrot_memory memory;
    for (size_t i = 0; i < HOLLYTROT_PAIRS; i++)
        memory.pairs[i] = numbered_pair(100 + 23 * i);
    memory.used = used;
    return memory;
}

/* An open bare file of version 6; the second lane of the working board has the issuer of the G. */
hollytrot_session open_session(uint64_t taken)
{
    hollytrot_session session = {numbered_board(100000), numbered_board(200000), true, {taken, 1000, 6, false},
                                 numbered_pair(50), numbered_memory(5)};
    session.work.lanes[1].issuer = (hollytrot_issuer){6, 12345678};
    return session;
}

/* The sums with the G. */
hollytrot_tally tally_with(hollytrot_tally tally)
{
    return (hollytrot_tally){tally.payments + 1, tally.centavos + 123456, tally.tariff + 789};
}

/* The session after the G, if it is accepted into the second lane. */
hollytrot_session session_with(hollytrot_session session)
{
    session.work.lanes[1].tally = tally_with(session.work.lanes[1].tally);
    session.work.total = tally_with(session.work.total);
    session.file.taken += 1;
    session.file.total += 123456;
    return session;
}

/* A pair has padding. */
void same_pair(const char *file, int line, hollytrot_pair found, hollytrot_pair wanted)
{
    same_bytes(file, line, found.bank, wanted.bank, sizeof found.bank);
    same_bytes(file, line, found.agreement, wanted.agreement, sizeof found.agreement);
    same(file, line, "sequence", found.sequence, wanted.sequence);
}

void same_memory(const char *file, int line, const hollytrot_memory *found, const hollytrot_memory *wanted)
{
    for (size_t i = 0; i < HOLLYTROT_PAIRS; i++)
        same_pair(file, line, found->pairs[i], wanted->pairs[i]);
    same(file, line, "used", found->used, wanted->used);
}

void same_session(const char *file, int line, const hollytrot_session *found, const hollytrot_session *wanted)
{
    same_bytes(file, line, &found->shown, &wanted->shown, sizeof(hollytrot_board));
    same_bytes(file, line, &found->work, &wanted->work, sizeof(hollytrot_board));
    same(file, line, "opened", found->opened, wanted->opened);
    same(file, line, "file.taken", found->file.taken, wanted->file.taken);
    same(file, line, "file.total", found->file.total, wanted->file.total);
    same(file, line, "file.version", found->file.version, wanted->file.version);
    same(file, line, "file.lined", found->file.lined, wanted->file.lined);
    same_pair(file, line, found->opening, wanted->opening);
    same_memory(file, line, &found->memory, &wanted->memory);
}
