/* What a session remembers: an A is checked against it, and a Z adds to it. */
#include "abi.h"

/* The pair of the A, whose own number is 4321. */
static hollytrot_pair header_pair(uint64_t sequence)
{
    hollytrot_pair pair;
    memcpy(pair.bank, a + 42, sizeof pair.bank);
    memcpy(pair.agreement, a + 2, sizeof pair.agreement);
    pair.sequence = sequence;
    return pair;
}

/* The A in a session that begins with this memory, as one that starts the day after. */
static void header_after(hollytrot_memory memory, uint64_t number, size_t place)
{
    hollytrot_session session = hollytrot_session_new();
    session.memory = memory;
    hollytrot_take_result taken = hollytrot_session_take(session, a, 150, NONE);
    hollytrot_run_result run = hollytrot_session_run(session, a, 150, false, NONE);
    if (number == HOLLYTROT_ACCEPTED) {
        session.opened = true;
        session.file.version = 6;
        session.opening = header_pair(4321);
    }
    SAME_ANSWER(taken.answer, number, place);
    same_session(HERE, &taken.session, &session);
    SAME_ANSWER(run.answer, number, place);
    same_session(HERE, &run.session, &session);
}

/* Memories with the pair of the A at each of their places, with the number before, the same and one of 33 bits. */
void headers(void)
{
    header_after(numbered_memory(0), 0, 0);
    header_after(numbered_memory(HOLLYTROT_PAIRS - 1), 0, 0);
    header_after(numbered_memory(HOLLYTROT_PAIRS), HOLLYTROT_PAIRS_FULL, 3);
    header_after(numbered_memory(SIZE_MAX), HOLLYTROT_PAIRS_FULL, 3);
    for (size_t i = 0; i < HOLLYTROT_PAIRS; i++) {
        hollytrot_memory memory = numbered_memory(i + 1);
        memory.pairs[i] = header_pair(4320);
        header_after(memory, 0, 0);
        memory.pairs[i].sequence = 4321;
        header_after(memory, HOLLYTROT_NOT_FOLLOWING, 74);
        memory.pairs[i].sequence = (1ull << 32) + 4320;
        header_after(memory, HOLLYTROT_NOT_FOLLOWING, 74);
        memory.used = SIZE_MAX;
        header_after(memory, HOLLYTROT_NOT_FOLLOWING, 74);
        memory.used = i; /* not in use */
        header_after(memory, 0, 0);
    }
    /* another byte makes another pair */
    hollytrot_memory memory = numbered_memory(HOLLYTROT_PAIRS);
    for (size_t i = 0; i < sizeof memory.pairs[0].bank; i++) {
        memory.pairs[0] = header_pair(4320);
        memory.pairs[0].bank[i] ^= 1;
        header_after(memory, HOLLYTROT_PAIRS_FULL, 3);
    }
    for (size_t i = 0; i < sizeof memory.pairs[0].agreement; i++) {
        memory.pairs[0] = header_pair(4320);
        memory.pairs[0].agreement[i] ^= 128;
        header_after(memory, HOLLYTROT_PAIRS_FULL, 3);
    }
}

/* The Z of the open file remembers its bank, agreement and number: `wanted` is the memory after this one. */
static void trailer_after(hollytrot_pair opening, const hollytrot_memory *memory, const hollytrot_memory *wanted)
{
    hollytrot_session session = open_session(8), after;
    session.file.total = 124456;
    session.opening = opening;
    session.memory = *memory;
    after = session;
    after.shown = after.work;
    after.opened = false;
    after.file = (hollytrot_file){0, 0, 0, false};
    after.opening = (hollytrot_pair){{0}, {0}, 0};
    after.memory = *wanted;
    hollytrot_take_result taken = hollytrot_session_take(session, z, 150, NONE);
    SAME_ANSWER(taken.answer, 0, 0);
    same_session(HERE, &taken.session, &after);
    hollytrot_run_result run = hollytrot_session_run(session, z, 150, false, NONE);
    SAME_ANSWER(run.answer, 0, 0);
    same_session(HERE, &run.session, &after);
}

void trailers(void)
{
    const hollytrot_memory full = numbered_memory(HOLLYTROT_PAIRS);
    hollytrot_memory memory, wanted;
    for (size_t i = 0; i < HOLLYTROT_PAIRS; i++) {
        /* a new pair */
        memory = wanted = numbered_memory(i);
        wanted.pairs[i] = numbered_pair(50);
        wanted.used = i + 1;
        trailer_after(numbered_pair(50), &memory, &wanted);
        /* a known one with another number */
        memory = wanted = full;
        wanted.pairs[i].sequence = 7;
        trailer_after(wanted.pairs[i], &memory, &wanted);
    }
    /* no room, as in no session that began as a new one */
    trailer_after(numbered_pair(50), &full, &full);
    memory = numbered_memory(SIZE_MAX);
    trailer_after(numbered_pair(50), &memory, &memory);
}
