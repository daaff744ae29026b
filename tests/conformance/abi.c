/* Compares the declarations of hollytrot.h with the library: sizes and offsets, and a known value through every field
 * of every struct, as an argument and as a result. */
#include <hollytrot.h>
#include <stdio.h>
#include <string.h>

#define AT(type, field, offset) _Static_assert(offsetof(type, field) == (offset), #type "." #field)
#define SIZE(type, size) _Static_assert(sizeof(type) == (size), #type)

SIZE(hollytrot_answer, 16);
AT(hollytrot_answer, place, 8);
SIZE(hollytrot_part, 16);
AT(hollytrot_part, length, 8);
SIZE(hollytrot_date, 24);
AT(hollytrot_date, month, 8);
AT(hollytrot_date, day, 16);
SIZE(hollytrot_issuer, 16);
AT(hollytrot_issuer, number, 8);
SIZE(hollytrot_fields, 56);
AT(hollytrot_fields, value, 8);
AT(hollytrot_fields, issuer, 16);
AT(hollytrot_fields, due, 32);
SIZE(hollytrot_decoded, 72);
AT(hollytrot_decoded, fields, 16);
SIZE(hollytrot_header, 48);
AT(hollytrot_header, date, 8);
AT(hollytrot_header, sequence, 32);
AT(hollytrot_header, version, 40);
SIZE(hollytrot_payment, 128);
AT(hollytrot_payment, credited, 24);
AT(hollytrot_payment, barcode, 48);
AT(hollytrot_payment, received, 104);
AT(hollytrot_payment, tariff, 112);
AT(hollytrot_payment, number, 120);
SIZE(hollytrot_trailer, 16);
AT(hollytrot_trailer, total, 8);
SIZE(hollytrot_record, 216);
AT(hollytrot_record, letter, 16);
AT(hollytrot_record, header, 24);
AT(hollytrot_record, payment, 72);
AT(hollytrot_record, trailer, 200);
SIZE(hollytrot_file, 32);
AT(hollytrot_file, total, 8);
AT(hollytrot_file, version, 16);
AT(hollytrot_file, lined, 24);
SIZE(hollytrot_writer, 40);
AT(hollytrot_writer, file, 8);
SIZE(hollytrot_write_result, 56);
AT(hollytrot_write_result, writer, 16);
SIZE(hollytrot_tally, 24);
AT(hollytrot_tally, centavos, 8);
AT(hollytrot_tally, tariff, 16);
SIZE(hollytrot_lane, 40);
AT(hollytrot_lane, tally, 16);
SIZE(hollytrot_board, 2592);
AT(hollytrot_board, used, 2560);
AT(hollytrot_board, total, 2568);
SIZE(hollytrot_pair, 32);
AT(hollytrot_pair, agreement, 3);
AT(hollytrot_pair, sequence, 24);
SIZE(hollytrot_memory, 520);
AT(hollytrot_memory, used, 512);
SIZE(hollytrot_session, 5776);
AT(hollytrot_session, work, 2592);
AT(hollytrot_session, opened, 5184);
AT(hollytrot_session, file, 5192);
AT(hollytrot_session, opening, 5224);
AT(hollytrot_session, memory, 5256);
SIZE(hollytrot_limits, 48);
AT(hollytrot_limits, record_length, 8);
AT(hollytrot_limits, payments, 16);
AT(hollytrot_limits, file_total, 24);
AT(hollytrot_limits, board_total, 32);
AT(hollytrot_limits, pairs, 40);
SIZE(hollytrot_take_result, 5792);
AT(hollytrot_take_result, session, 16);
SIZE(hollytrot_run_result, 5816);
AT(hollytrot_run_result, session, 16);
AT(hollytrot_run_result, records, 5792);
AT(hollytrot_run_result, files, 5800);
AT(hollytrot_run_result, bytes, 5808);
SIZE(hollytrot_page_result, 24);
AT(hollytrot_page_result, length, 16);

static int checks, failures;

#define SAME(found, wanted) same(__LINE__, #found, (found), (wanted))

static void same(int line, const char *what, uint64_t found, uint64_t wanted)
{
    checks++;
    if (found != wanted) {
        failures++;
        fprintf(stderr, "abi.c:%d: %s is %lu, not %lu\n", line, what, (unsigned long)found, (unsigned long)wanted);
    }
}

static void same_bytes(int line, const void *found, const void *wanted, size_t length)
{
    checks++;
    if (memcmp(found, wanted, length) != 0) {
        failures++;
        fprintf(stderr, "abi.c:%d: bytes differ\n", line);
    }
}

static const uint8_t *text(const char *s) { return (const uint8_t *)s; }

static void same_answer(hollytrot_answer found, uint64_t number, size_t place)
{
    SAME(found.number, number);
    SAME(found.place, place);
}

/* An empty list of agreed issuers, and one that has the issuer of the barcode, each as two arguments. */
static const uint64_t none[1], mine[1] = {612345678};
#define NONE none, 0
#define MINE mine, 1

static void keys(void)
{
    SAME(hollytrot_issuer_key((hollytrot_issuer){6, 12345678}), 612345678);
    SAME(hollytrot_issuer_key((hollytrot_issuer){6, 99999999}), 699999999);
    SAME(hollytrot_issuer_key((hollytrot_issuer){1, 3659}), 100003659);
    SAME(hollytrot_issuer_key((hollytrot_issuer){9, 0}), 900000000);
    SAME(hollytrot_issuer_key((hollytrot_issuer){8, 3659}), 0);
    SAME(hollytrot_issuer_key((hollytrot_issuer){0, 3659}), 0);
    SAME(hollytrot_issuer_key((hollytrot_issuer){1, 10000}), 0);
    SAME(hollytrot_issuer_key((hollytrot_issuer){6, 100000000}), 0);
    SAME(hollytrot_issuer_key((hollytrot_issuer){(1ull << 32) + 1, 3659}), 0);
    SAME(hollytrot_issuer_key((hollytrot_issuer){1, (1ull << 32) + 3659}), 0);
}

/* A barcode of segment 6, where issuer and free field have other widths than elsewhere. */
static uint8_t code[44];

static void barcodes(void)
{
    hollytrot_issuer issuer = {6, 12345678};
    same_answer(hollytrot_barcode_build(issuer, 8, 98765432109, text("202402291234567890123"), 21, MINE, code, 44),
                0, 0);
    same_bytes(__LINE__, code, "868", 3);
    same_bytes(__LINE__, code + 4, "98765432109" "12345678" "202402291234567890123", 40);
    issuer.segment = 1;
    same_answer(hollytrot_barcode_build(issuer, 8, 1, text("2024022912345678901230000"), 25, NONE, code, 44), 21,
                16);

    hollytrot_decoded decoded = hollytrot_barcode_decode(code, 44, MINE);
    same_answer(decoded.answer, 0, 0);
    SAME(decoded.fields.kind, 8);
    SAME(decoded.fields.value, 98765432109);
    SAME(decoded.fields.issuer.segment, 6);
    SAME(decoded.fields.issuer.number, 12345678);
    SAME(decoded.fields.due.year, 2024);
    SAME(decoded.fields.due.month, 2);
    SAME(decoded.fields.due.day, 29);

    hollytrot_part part = hollytrot_barcode_free_field(code, 44, MINE);
    SAME(part.from, 23);
    SAME(part.length, 21);
}

static void dates(void)
{
    hollytrot_date date = hollytrot_date_read(text("19991130"), 8);
    SAME(date.year, 1999);
    SAME(date.month, 11);
    SAME(date.day, 30);
    SAME(hollytrot_date_check((hollytrot_date){2000, 2, 29}), true);
    SAME(hollytrot_date_check((hollytrot_date){2001, 2, 29}), false);
    SAME(hollytrot_date_check((hollytrot_date){2000, 13, 29}), false);
    SAME(hollytrot_date_check((hollytrot_date){2000, 2, 30}), false);
    SAME(hollytrot_check_ten(text("01230067896"), 11), 3);
    SAME(hollytrot_check_eleven(text("01230067896"), 11), 0);
}

/* The field bytes of an A of version 6, and of a G whose capture only version 6 has. */
static const char header[] = "AGREEMENT           COMPANY             237BANK                2023123100432106O";
static uint8_t fields[HOLLYTROT_PAYMENT_FIELDS];

static uint8_t a[150], g[150], z[150];

static void same_writer(hollytrot_writer found, uint64_t stage, hollytrot_file file)
{
    SAME(found.stage, stage);
    SAME(found.file.taken, file.taken);
    SAME(found.file.total, file.total);
    SAME(found.file.version, file.version);
    SAME(found.file.lined, file.lined);
}

static void fill_fields(void)
{
    memset(fields, ' ', sizeof fields);
    memcpy(fields + 20, "2024010220240304", 16);
    memcpy(fields + 36, code, 44);
    memcpy(fields + 80, "00056789", 8);
    fields[96] = 'g';
    fields[120] = '2';
}

/* The three records, written by a writer with a value in each of its fields. */
static void writers(void)
{
    hollytrot_writer writer = hollytrot_writer_new();
    same_writer(writer, 0, (hollytrot_file){0, 0, 0, false});
    hollytrot_write_result result = hollytrot_writer_header(writer, text(header), HOLLYTROT_HEADER_FIELDS, a, 150);
    same_answer(result.answer, 0, 0);
    same_writer(result.writer, 1, (hollytrot_file){0, 0, 6, false});

    fill_fields();
    /* with a version that does not have the capture, then with a number that is no version */
    writer = (hollytrot_writer){1, {7, 1000, 4, false}};
    result = hollytrot_writer_payment(writer, fields, 121, 123456, 789, NONE, g, 150);
    same_answer(result.answer, 12, 117);
    writer.file.version = (1ull << 32) + 6;
    result = hollytrot_writer_payment(writer, fields, 121, 123456, 789, NONE, g, 150);
    same_answer(result.answer, 10, 80);
    same_writer(result.writer, 1, writer.file);
    writer.file.version = 6;
    result = hollytrot_writer_payment(writer, fields, 121, 123456, 789, NONE, g, 150);
    same_answer(result.answer, 0, 0);
    same_writer(result.writer, 1, (hollytrot_file){8, 124456, 6, false});

    result = hollytrot_writer_trailer(result.writer, z, 150);
    same_answer(result.answer, 0, 0);
    same_writer(result.writer, 2, (hollytrot_file){8, 124456, 6, false});
    same_bytes(__LINE__, z, "Z00001000000000000124456 ", 25);
    /* a closed writer with another stage number is returned unchanged */
    writer = (hollytrot_writer){77, {8, 9, 10, false}};
    result = hollytrot_writer_trailer(writer, z, 150);
    same_answer(result.answer, 9, 1);
    same_writer(result.writer, 77, writer.file);
}

/* The same three records as a lined file. */
static uint8_t lined[3 * HOLLYTROT_LINED];

/* A new writer takes buffers of both lengths, whatever its `lined` is. */
static void lined_headers(void)
{
    for (int given = 0; given < 2; given++) {
        hollytrot_writer writer = {0, {0, 0, 0, given}};
        same_answer(hollytrot_writer_trailer(writer, lined, 150).answer, 9, 1);
        same_answer(hollytrot_writer_payment(writer, fields, 121, 1, 0, NONE, lined, 152).answer, 9, 1);
        hollytrot_write_result result = hollytrot_writer_header(writer, text(header), 80, lined, 151);
        same_answer(result.answer, 1, 0);
        same_writer(result.writer, 0, writer.file);
        result = hollytrot_writer_header(writer, text(header), 80, lined, 150);
        same_answer(result.answer, 0, 0);
        same_writer(result.writer, 1, (hollytrot_file){0, 0, 6, false});
        result = hollytrot_writer_header(writer, text(header), 80, lined, HOLLYTROT_LINED);
        same_answer(result.answer, 0, 0);
        same_writer(result.writer, 1, (hollytrot_file){0, 0, 6, true});
    }
}

static void lined_writers(void)
{
    uint8_t *out = lined + 152;
    hollytrot_writer writer = {1, {7, 1000, 6, true}};
    hollytrot_write_result result = hollytrot_writer_payment(writer, fields, 121, 123456, 789, NONE, out, 150);
    same_answer(result.answer, 1, 0);
    same_writer(result.writer, 1, writer.file);
    result = hollytrot_writer_payment(writer, fields, 121, 123456, 789, NONE, out, 152);
    same_answer(result.answer, 0, 0);
    same_writer(result.writer, 1, (hollytrot_file){8, 124456, 6, true});
    out += 152;
    same_answer(hollytrot_writer_trailer(result.writer, out, 150).answer, 1, 0);
    result = hollytrot_writer_trailer(result.writer, out, 152);
    same_answer(result.answer, 0, 0);
    same_writer(result.writer, 2, (hollytrot_file){8, 124456, 6, true});
    /* closed, it keeps its form */
    same_answer(hollytrot_writer_trailer(result.writer, out, 150).answer, 1, 0);
    same_answer(hollytrot_writer_trailer(result.writer, out, 152).answer, 9, 1);

    const uint8_t *bare[] = {a, g, z};
    for (size_t i = 0; i < 3; i++) {
        same_bytes(__LINE__, lined + 152 * i, bare[i], 150);
        same_bytes(__LINE__, lined + 152 * i + 150, "\r\n", 2);
    }
}

static void records(void)
{
    hollytrot_record record = hollytrot_record_decode(a, 150, 0, MINE);
    same_answer(record.answer, 0, 0);
    SAME(record.letter, 'A');
    SAME(record.header.bank, 237);
    SAME(record.header.date.year, 2023);
    SAME(record.header.date.month, 12);
    SAME(record.header.date.day, 31);
    SAME(record.header.sequence, 4321);
    SAME(record.header.version, 6);

    record = hollytrot_record_decode(g, 150, 6, MINE);
    SAME(record.letter, 'G');
    SAME(record.payment.paid.year, 2024);
    SAME(record.payment.paid.month, 1);
    SAME(record.payment.paid.day, 2);
    SAME(record.payment.credited.year, 2024);
    SAME(record.payment.credited.month, 3);
    SAME(record.payment.credited.day, 4);
    SAME(record.payment.barcode.kind, 8);
    SAME(record.payment.barcode.value, 98765432109);
    SAME(record.payment.barcode.issuer.segment, 6);
    SAME(record.payment.barcode.issuer.number, 12345678);
    SAME(record.payment.barcode.due.year, 2024);
    SAME(record.payment.barcode.due.month, 2);
    SAME(record.payment.barcode.due.day, 29);
    SAME(record.payment.received, 123456);
    SAME(record.payment.tariff, 789);
    SAME(record.payment.number, 56789);

    record = hollytrot_record_decode(z, 150, 0, MINE);
    SAME(record.letter, 'Z');
    SAME(record.trailer.count, 10);
    SAME(record.trailer.total, 124456);
    record = hollytrot_record_decode(z, 149, 0, MINE);
    same_answer(record.answer, 1, 0);
    SAME(record.letter, 0);
    same_answer(hollytrot_record_check(lined, 152, 0, NONE), 1, 0);
    same_answer(hollytrot_record_check(lined, 150, 0, NONE), 0, 0);

    hollytrot_part part = hollytrot_record_field(g, 150, 6, HOLLYTROT_G_RECEIVED, NONE);
    SAME(part.from, 81);
    SAME(part.length, 12);
}

/* The same record, told both versions and a number that is none. */
static void versions(void)
{
    static const struct {
        uint64_t version, number;
        size_t place;
    } told[] = {{6, 0, 0}, {4, 12, 117}, {(1ull << 32) + 6, 10, 80}};
    for (size_t i = 0; i < sizeof told / sizeof told[0]; i++) {
        uint64_t version = told[i].version;
        bool accepted = told[i].number == 0;
        same_answer(hollytrot_record_check(g, 150, version, NONE), told[i].number, told[i].place);
        hollytrot_record record = hollytrot_record_decode(g, 150, version, MINE);
        same_answer(record.answer, told[i].number, told[i].place);
        SAME(record.header.version, 0);
        hollytrot_part part = hollytrot_record_field(g, 150, version, HOLLYTROT_G_CAPTURE, NONE);
        SAME(part.from, accepted ? 116 : 0);
        SAME(part.length, accepted ? 1 : 0);

        uint8_t joined[HOLLYTROT_PAYMENT_FIELDS] = {0}, untouched[HOLLYTROT_PAYMENT_FIELDS] = {0};
        same_answer(hollytrot_record_join(g, 150, version, NONE, joined, sizeof joined), told[i].number, told[i].place);
        same_bytes(__LINE__, joined, accepted ? fields : untouched, sizeof joined);
        /* an A does not depend on it */
        same_answer(hollytrot_record_check(a, 150, version, NONE), 0, 0);
        same_answer(hollytrot_record_join(a, 150, version, NONE, joined, HOLLYTROT_HEADER_FIELDS), 0, 0);
        same_bytes(__LINE__, joined, header, HOLLYTROT_HEADER_FIELDS);
    }
}

/* A board with a different number in each of its fields. */
static hollytrot_board numbered_board(uint64_t from)
{
    hollytrot_board board;
    for (size_t i = 0; i < HOLLYTROT_LANES; i++) {
        board.lanes[i].issuer.segment = from + 10 * i;
        board.lanes[i].issuer.number = from + 10 * i + 1;
        board.lanes[i].tally.payments = from + 10 * i + 2;
        board.lanes[i].tally.centavos = from + 10 * i + 3;
        board.lanes[i].tally.tariff = from + 10 * i + 4;
    }
    board.used = 3;
    board.total.payments = from + 5;
    board.total.centavos = from + 6;
    board.total.tariff = from + 7;
    return board;
}

/* A pair with a different number in each of its bytes, and a sequence number of more than 32 bits. */
static hollytrot_pair numbered_pair(uint64_t from)
{
    hollytrot_pair pair;
    for (size_t i = 0; i < sizeof pair.bank; i++)
        pair.bank[i] = (uint8_t)(from + i);
    for (size_t i = 0; i < sizeof pair.agreement; i++)
        pair.agreement[i] = (uint8_t)(from + sizeof pair.bank + i);
    pair.sequence = (from << 32) + from;
    return pair;
}

/* A memory of such pairs. */
static hollytrot_memory numbered_memory(size_t used)
{
    hollytrot_memory memory;
    for (size_t i = 0; i < HOLLYTROT_PAIRS; i++)
        memory.pairs[i] = numbered_pair(100 + 23 * i);
    memory.used = used;
    return memory;
}

/* Member by member: a pair has padding. */
static void same_pair(int line, hollytrot_pair found, hollytrot_pair wanted)
{
    same_bytes(line, found.bank, wanted.bank, sizeof found.bank);
    same_bytes(line, found.agreement, wanted.agreement, sizeof found.agreement);
    same(line, "sequence", found.sequence, wanted.sequence);
}

static void same_memory(int line, const hollytrot_memory *found, const hollytrot_memory *wanted)
{
    for (size_t i = 0; i < HOLLYTROT_PAIRS; i++)
        same_pair(line, found->pairs[i], wanted->pairs[i]);
    same(line, "used", found->used, wanted->used);
}

static void same_session(int line, const hollytrot_session *found, const hollytrot_session *wanted)
{
    same_bytes(line, &found->shown, &wanted->shown, sizeof(hollytrot_board));
    same_bytes(line, &found->work, &wanted->work, sizeof(hollytrot_board));
    SAME(found->opened, wanted->opened);
    SAME(found->file.taken, wanted->file.taken);
    SAME(found->file.total, wanted->file.total);
    SAME(found->file.version, wanted->file.version);
    SAME(found->file.lined, wanted->file.lined);
    same_pair(line, found->opening, wanted->opening);
    same_memory(line, &found->memory, &wanted->memory);
}

/* The most that a sum of a board may reach. */
#define MOST 1000000000000000000

/* The limits of the library are those of the header and of SPEC.md, "Limits". */
static void limits(void)
{
    hollytrot_limits limits = hollytrot_session_limits();
    SAME(limits.lanes, HOLLYTROT_LANES);
    SAME(limits.record_length, HOLLYTROT_RECORD);
    SAME(limits.payments, 999997);
    SAME(limits.file_total, 99999999999999999);
    SAME(limits.board_total, MOST);
    SAME(limits.pairs, HOLLYTROT_PAIRS);
}

/* An open bare file of version 6; the second lane of the working board has the issuer of the G. */
static hollytrot_session open_session(uint64_t taken)
{
    hollytrot_session session = {numbered_board(100000), numbered_board(200000), true, {taken, 1000, 6, false},
                                 numbered_pair(50), numbered_memory(5)};
    session.work.lanes[1].issuer = (hollytrot_issuer){6, 12345678};
    return session;
}

/* The sums with the G. */
static hollytrot_tally tally_with(hollytrot_tally tally)
{
    return (hollytrot_tally){tally.payments + 1, tally.centavos + 123456, tally.tariff + 789};
}

/* The session after the G, if it is accepted into the second lane. */
static hollytrot_session session_with(hollytrot_session session)
{
    session.work.lanes[1].tally = tally_with(session.work.lanes[1].tally);
    session.work.total = tally_with(session.work.total);
    session.file.taken += 1;
    session.file.total += 123456;
    return session;
}

static void sessions(void)
{
    hollytrot_session session = open_session(8);
    hollytrot_take_result result = hollytrot_session_finish(session);
    same_answer(result.answer, 19, 0);
    same_session(__LINE__, &result.session, &session);

    hollytrot_board board = hollytrot_session_board(session);
    same_bytes(__LINE__, &board, &session.shown, sizeof board);

    /* a payment */
    hollytrot_session after = session_with(session);
    result = hollytrot_session_take(session, g, 150, NONE);
    same_answer(result.answer, 0, 0);
    same_session(__LINE__, &result.session, &after);
    after.file.version = 4;
    same_answer(hollytrot_session_take(after, g, 150, NONE).answer, 12, 117);

    after = hollytrot_session_abandon(session);
    session.work = session.shown;
    session.opened = false;
    session.file = (hollytrot_file){0, 0, 0, false};
    session.opening = (hollytrot_pair){{0}, {0}, 0};
    same_session(__LINE__, &after, &session);
    after = hollytrot_session_new();
    SAME(after.opened, false);
    SAME(after.file.version, 0);
    SAME(after.file.lined, false);
    SAME(after.shown.used, 0);
    same_pair(__LINE__, after.opening, (hollytrot_pair){{0}, {0}, 0});
    same_memory(__LINE__, &after.memory, &(hollytrot_memory){{{{0}, {0}, 0}}, 0});
    after = hollytrot_session_take(after, a, 150, NONE).session;
    SAME(after.file.version, 6);
    SAME(after.file.lined, false);
}

/* The G in this session: `after` is the session after it. */
static void payment_in(int line, const hollytrot_session *session, uint64_t number, size_t place,
                       const hollytrot_session *after)
{
    hollytrot_take_result taken = hollytrot_session_take(*session, g, 150, NONE);
    same_answer(taken.answer, number, place);
    same_session(line, &taken.session, after);
    hollytrot_run_result run = hollytrot_session_run(*session, g, 150, false, NONE);
    same_answer(run.answer, number, place);
    same_session(line, &run.session, after);
}

/* The largest sums that the G can be added to: each is then 10^18. */
static const hollytrot_tally room = {MOST - 1, MOST - 123456, MOST - 789};

/* The G in sessions whose working board has room for it in some of the six sums of its lane and of the total; each of
 * the others is 1 too large, or the largest number of 64 bits. The place is 94 only if there is room in the four that
 * are not tariffs. */
static void totals(void)
{
    for (unsigned passed = 0; passed < 1 << 6; passed++) {
        for (int largest = 0; largest < 2; largest++) {
            hollytrot_session session = open_session(8), after;
            hollytrot_tally *lane = &session.work.lanes[1].tally, *total = &session.work.total;
            uint64_t *sums[] = {&lane->tariff, &total->tariff,
                                &lane->payments, &total->payments, &lane->centavos, &total->centavos};
            *lane = *total = room;
            for (size_t i = 0; i < 6; i++)
                if (passed >> i & 1)
                    *sums[i] = largest ? UINT64_MAX : *sums[i] + 1;
            after = passed == 0 ? session_with(session) : session;
            payment_in(__LINE__, &session, passed == 0 ? 0 : 18, passed == 0 ? 0 : passed < 4 ? 94 : 82, &after);
        }
    }
}

/* 18 at 94 for an issuer's first payment, before 22 and behind 17. */
static void tariff_totals(void)
{
    hollytrot_session session = open_session(8), after;
    session.work.total.tariff = room.tariff + 1;
    payment_in(__LINE__, &session, HOLLYTROT_BOARD_TOTAL_PASSED, 94, &session);
    session.file.lined = true;
    payment_in(__LINE__, &session, HOLLYTROT_BOARD_TOTAL_PASSED, 94, &session);
    session.work.total.tariff = room.tariff;
    payment_in(__LINE__, &session, HOLLYTROT_NO_LINE_END, 151, &session);

    /* what is in a lane that is not in use does not count */
    session = open_session(8);
    session.work.used = 1;
    session.work.lanes[1].tally.tariff = UINT64_MAX;
    session.work.total.tariff = room.tariff + 1;
    payment_in(__LINE__, &session, HOLLYTROT_BOARD_TOTAL_PASSED, 94, &session);
    session.work.total.tariff = room.tariff;
    after = session_with(session);
    after.work.used = 2;
    after.work.lanes[1].tally = tally_with((hollytrot_tally){0, 0, 0});
    payment_in(__LINE__, &session, 0, 0, &after);

    session.work.used = HOLLYTROT_LANES;
    session.work.lanes[1].issuer.number += 1;
    session.work.total.tariff = UINT64_MAX;
    payment_in(__LINE__, &session, HOLLYTROT_BOARD_FULL, 53, &session);
}

/* The pair of the A, whose own number is 4321. */
static hollytrot_pair header_pair(uint64_t sequence)
{
    hollytrot_pair pair;
    memcpy(pair.bank, a + 42, sizeof pair.bank);
    memcpy(pair.agreement, a + 2, sizeof pair.agreement);
    pair.sequence = sequence;
    return pair;
}

/* The A in a session that begins with this memory, as one that starts the day after. */
static void header_after(hollytrot_memory memory, uint64_t number, size_t place)
{
    hollytrot_session session = hollytrot_session_new();
    session.memory = memory;
    hollytrot_take_result taken = hollytrot_session_take(session, a, 150, NONE);
    hollytrot_run_result run = hollytrot_session_run(session, a, 150, false, NONE);
    if (number == HOLLYTROT_ACCEPTED) {
        session.opened = true;
        session.file.version = 6;
        session.opening = header_pair(4321);
    }
    same_answer(taken.answer, number, place);
    same_session(__LINE__, &taken.session, &session);
    same_answer(run.answer, number, place);
    same_session(__LINE__, &run.session, &session);
}

/* Memories with the pair of the A at each of their places, with the number before, the same and one of 33 bits. */
static void headers(void)
{
    header_after(numbered_memory(0), 0, 0);
    header_after(numbered_memory(HOLLYTROT_PAIRS - 1), 0, 0);
    header_after(numbered_memory(HOLLYTROT_PAIRS), HOLLYTROT_PAIRS_FULL, 3);
    header_after(numbered_memory(SIZE_MAX), HOLLYTROT_PAIRS_FULL, 3);
    for (size_t i = 0; i < HOLLYTROT_PAIRS; i++) {
        hollytrot_memory memory = numbered_memory(i + 1);
        memory.pairs[i] = header_pair(4320);
        header_after(memory, 0, 0);
        memory.pairs[i].sequence = 4321;
        header_after(memory, HOLLYTROT_NOT_FOLLOWING, 74);
        memory.pairs[i].sequence = (1ull << 32) + 4320;
        header_after(memory, HOLLYTROT_NOT_FOLLOWING, 74);
        memory.used = SIZE_MAX;
        header_after(memory, HOLLYTROT_NOT_FOLLOWING, 74);
        memory.used = i; /* not in use */
        header_after(memory, 0, 0);
    }
    /* another byte makes another pair */
    hollytrot_memory memory = numbered_memory(HOLLYTROT_PAIRS);
    for (size_t i = 0; i < sizeof memory.pairs[0].bank; i++) {
        memory.pairs[0] = header_pair(4320);
        memory.pairs[0].bank[i] ^= 1;
        header_after(memory, HOLLYTROT_PAIRS_FULL, 3);
    }
    for (size_t i = 0; i < sizeof memory.pairs[0].agreement; i++) {
        memory.pairs[0] = header_pair(4320);
        memory.pairs[0].agreement[i] ^= 128;
        header_after(memory, HOLLYTROT_PAIRS_FULL, 3);
    }
}

/* The Z of the open file remembers its bank, agreement and number: `wanted` is the memory after this one. */
static void trailer_after(hollytrot_pair opening, const hollytrot_memory *memory, const hollytrot_memory *wanted)
{
    hollytrot_session session = open_session(8), after;
    session.file.total = 124456;
    session.opening = opening;
    session.memory = *memory;
    after = session;
    after.shown = after.work;
    after.opened = false;
    after.file = (hollytrot_file){0, 0, 0, false};
    after.opening = (hollytrot_pair){{0}, {0}, 0};
    after.memory = *wanted;
    hollytrot_take_result taken = hollytrot_session_take(session, z, 150, NONE);
    same_answer(taken.answer, 0, 0);
    same_session(__LINE__, &taken.session, &after);
    hollytrot_run_result run = hollytrot_session_run(session, z, 150, false, NONE);
    same_answer(run.answer, 0, 0);
    same_session(__LINE__, &run.session, &after);
}

static void trailers(void)
{
    const hollytrot_memory full = numbered_memory(HOLLYTROT_PAIRS);
    hollytrot_memory memory, wanted;
    for (size_t i = 0; i < HOLLYTROT_PAIRS; i++) {
        /* a new pair */
        memory = wanted = numbered_memory(i);
        wanted.pairs[i] = numbered_pair(50);
        wanted.used = i + 1;
        trailer_after(numbered_pair(50), &memory, &wanted);
        /* a known one with another number */
        memory = wanted = full;
        wanted.pairs[i].sequence = 7;
        trailer_after(wanted.pairs[i], &memory, &wanted);
    }
    /* no room, as in no session that began as a new one */
    trailer_after(numbered_pair(50), &full, &full);
    memory = numbered_memory(SIZE_MAX);
    trailer_after(numbered_pair(50), &memory, &memory);
}

/* One record at a time: of a lined file, and in the wrong form. */
static void lined_sessions(void)
{
    hollytrot_session session = hollytrot_session_new();
    same_answer(hollytrot_session_take(session, lined, 151, NONE).answer, 1, 0);
    same_answer(hollytrot_session_take(session, lined + 152, 152, NONE).answer, 9, 1);
    hollytrot_take_result result = hollytrot_session_take(session, lined, 152, NONE);
    same_answer(result.answer, 0, 0);
    SAME(result.session.file.version, 6);
    SAME(result.session.file.lined, true);
    same_answer(hollytrot_session_take(open_session(8), lined + 152, 152, NONE).answer, 1, 0);

    session = open_session(8);
    session.file.lined = true;
    result = hollytrot_session_finish(session);
    same_session(__LINE__, &result.session, &session);
    same_answer(hollytrot_session_take(session, lined + 152, 149, NONE).answer, 1, 0);
    same_answer(hollytrot_session_take(session, lined + 152, 153, NONE).answer, 1, 0);
    for (size_t length = 150; length < 152; length++) {
        result = hollytrot_session_take(session, lined + 152, length, NONE);
        same_answer(result.answer, HOLLYTROT_NO_LINE_END, 151);
        same_session(__LINE__, &result.session, &session);
    }
    result = hollytrot_session_take(session, lined + 152, 152, NONE);
    same_answer(result.answer, 0, 0);
    SAME(result.session.file.taken, 9);
    SAME(result.session.file.lined, true);
    SAME(hollytrot_session_abandon(session).file.lined, false);
}

static void runs(void)
{
    /* two payments, and a trailer whose count is wrong */
    hollytrot_session session = open_session(8);
    uint8_t three[450];
    memcpy(three, g, 150);
    memcpy(three + 150, g, 150);
    memcpy(three + 300, z, 150);
    hollytrot_run_result run = hollytrot_session_run(session, three, 450, false, NONE);
    same_answer(run.answer, 13, 2);
    SAME(run.records, 2);
    SAME(run.files, 0);
    SAME(run.bytes, 300);
    SAME(run.session.file.taken, 10);
    SAME(run.session.file.total, 247912);
    SAME(run.session.work.lanes[1].tally.payments, session.work.lanes[1].tally.payments + 2);
    SAME(run.session.work.lanes[1].tally.tariff, session.work.lanes[1].tally.tariff + 2 * 789);
    SAME(run.session.work.total.tariff, session.work.total.tariff + 2 * 789);
    SAME(run.session.shown.total.tariff, session.shown.total.tariff);
    /* the right trailer closes the file, and the board shown is then the working board */
    session = open_session(7);
    memcpy(three + 150, z, 150);
    run = hollytrot_session_run(session, three, 300, false, NONE);
    same_answer(run.answer, 0, 0);
    SAME(run.records, 2);
    SAME(run.files, 1);
    SAME(run.session.opened, false);
    SAME(run.session.file.version, 0);
    SAME(run.session.shown.lanes[1].tally.centavos, session.work.lanes[1].tally.centavos + 123456);
    SAME(run.session.shown.lanes[1].tally.tariff, session.work.lanes[1].tally.tariff + 789);
    SAME(run.session.shown.total.tariff, session.work.total.tariff + 789);
    /* if more may follow, the last 150 bytes are left */
    run = hollytrot_session_run(session, three, 300, true, NONE);
    same_answer(run.answer, 0, 0);
    SAME(run.records, 1);
    SAME(run.bytes, 150);
    SAME(run.session.opened, true);
}

static void lined_runs(void)
{
    hollytrot_session session = open_session(7);
    session.file.lined = true;
    /* a payment and a trailer without its LF: left if more may follow, else refused */
    hollytrot_run_result run = hollytrot_session_run(session, lined + 152, 303, false, NONE);
    same_answer(run.answer, HOLLYTROT_NO_LINE_END, 151);
    SAME(run.bytes, 152);
    run = hollytrot_session_run(session, lined + 152, 303, true, NONE);
    same_answer(run.answer, 0, 0);
    SAME(run.records, 1);
    SAME(run.files, 0);
    SAME(run.bytes, 152);
    SAME(run.session.file.taken, 8);
    SAME(run.session.file.lined, true);
    run = hollytrot_session_run(run.session, lined + 304, 152, true, NONE);
    same_answer(run.answer, 0, 0);
    SAME(run.files, 1);
    SAME(run.bytes, 152);
    SAME(run.session.opened, false);
    SAME(run.session.file.lined, false);
    /* a header whose CR and LF may follow */
    run = hollytrot_session_run(run.session, lined, 151, true, NONE);
    same_answer(run.answer, 0, 0);
    SAME(run.bytes, 0);
    run = hollytrot_session_run(run.session, lined, 152, true, NONE);
    same_answer(run.answer, 0, 0);
    SAME(run.bytes, 152);
    SAME(run.session.file.lined, true);
}

/* A list; whether it is refused, and if not, whether it has the issuer of the barcode. */
struct list {
    const uint64_t *keys;
    size_t length;
    bool wrong, has;
};

/* The number that each call is answered under a list. */
static uint64_t number_under(const struct list *list, bool dated)
{
    if (list->wrong)
        return HOLLYTROT_WRONG_LIST;
    return list->has && !dated ? HOLLYTROT_NO_DATE : HOLLYTROT_ACCEPTED;
}

static void same_due_date(hollytrot_date found, bool shown)
{
    SAME(found.year, shown ? 2024 : 0);
    SAME(found.month, shown ? 2 : 0);
    SAME(found.day, shown ? 29 : 0);
}

/* The barcode and its line under a list; the free field starts with a date or with a 30th of February. */
static void barcodes_under(const struct list *list, bool dated)
{
    const uint64_t *keys = list->keys, number = number_under(list, dated);
    size_t n = list->length, place = number == 11 ? 24 : 0, place_in_line = number == 11 ? 26 : 0;
    const uint8_t *digits = text(dated ? "202402291234567890123" : "202402301234567890123");
    uint8_t built[44], typed[48], out[48] = {0}, untouched[48] = {0};
    hollytrot_issuer issuer = {6, 12345678};
    same_answer(hollytrot_barcode_build(issuer, 8, 98765432109, digits, 21, NONE, built, 44), 0, 0);
    same_answer(hollytrot_line_from_barcode(built, 44, NONE, typed, 48), 0, 0);

    same_answer(hollytrot_barcode_build(issuer, 8, 98765432109, digits, 21, keys, n, out, 44), number, place);
    same_bytes(__LINE__, out, number == 0 ? built : untouched, 44);
    same_answer(hollytrot_barcode_check(built, 44, keys, n), number, place);
    hollytrot_decoded decoded = hollytrot_barcode_decode(built, 44, keys, n);
    same_answer(decoded.answer, number, place);
    same_due_date(decoded.fields.due, number == 0 && list->has);
    SAME(hollytrot_barcode_free_field(built, 44, keys, n).length, number == 0 ? 21 : 0);
    memset(out, 0, sizeof out);
    same_answer(hollytrot_line_from_barcode(built, 44, keys, n, out, 48), number, place);
    same_bytes(__LINE__, out, number == 0 ? typed : untouched, 48);

    same_answer(hollytrot_line_check(typed, 48, keys, n), number, place_in_line);
    decoded = hollytrot_line_decode(typed, 48, keys, n);
    same_answer(decoded.answer, number, place_in_line);
    same_due_date(decoded.fields.due, number == 0 && list->has);
    memset(out, 0, sizeof out);
    same_answer(hollytrot_line_to_barcode(typed, 48, keys, n, out, 44), number, place_in_line);
    same_bytes(__LINE__, out, number == 0 ? built : untouched, 44);
}

/* A payment with such a barcode under a list: as a single record, in a session and by a writer. */
static void files_under(const struct list *list, bool dated)
{
    const uint64_t *keys = list->keys, number = number_under(list, dated);
    size_t n = list->length, place = number == 11 ? 61 : 0;
    uint8_t given[HOLLYTROT_PAYMENT_FIELDS], record[150], out[150];
    const uint8_t *digits = text(dated ? "202402291234567890123" : "202402301234567890123");
    memcpy(given, fields, sizeof given);
    hollytrot_barcode_build((hollytrot_issuer){6, 12345678}, 8, 98765432109, digits, 21, NONE, given + 36, 44);
    hollytrot_writer writer = {1, {7, 1000, 6, false}};
    same_answer(hollytrot_writer_payment(writer, given, 121, 123456, 789, NONE, record, 150).answer, 0, 0);

    same_answer(hollytrot_record_check(record, 150, 6, keys, n), number, place);
    hollytrot_record decoded = hollytrot_record_decode(record, 150, 6, keys, n);
    same_answer(decoded.answer, number, place);
    same_due_date(decoded.payment.barcode.due, number == 0 && list->has);
    SAME(hollytrot_record_field(record, 150, 6, HOLLYTROT_G_RECEIVED, keys, n).from, number == 0 ? 81 : 0);
    same_answer(hollytrot_record_join(record, 150, 6, keys, n, out, 121), number, place);

    hollytrot_write_result written = hollytrot_writer_payment(writer, given, 121, 123456, 789, keys, n, out, 150);
    same_answer(written.answer, number, place);
    SAME(written.writer.file.taken, number == 0 ? 8 : 7);
    hollytrot_session session = open_session(8);
    hollytrot_take_result taken = hollytrot_session_take(session, record, 150, keys, n);
    same_answer(taken.answer, number, place);
    SAME(taken.session.file.taken, number == 0 ? 9 : 8);
    hollytrot_run_result run = hollytrot_session_run(session, record, 150, false, keys, n);
    same_answer(run.answer, number, place);
    SAME(run.records, number == 0 ? 1 : 0);
    SAME(run.session.file.taken, number == 0 ? 9 : 8);
}

/* A wrong list is refused before everything else: wrong lengths, no bytes, and calls that are not expected. */
static void refused_first(const struct list *list)
{
    const uint64_t *keys = list->keys;
    size_t n = list->length;
    uint64_t number = list->wrong ? 25 : 1;
    uint8_t out[1];
    same_answer(hollytrot_barcode_check(text(""), 0, keys, n), number, 0);
    same_answer(hollytrot_line_to_barcode(text(""), 0, keys, n, out, 1), number, 0);
    same_answer(hollytrot_record_join(text("?"), 1, 6, keys, n, out, 1), number, 0);
    same_answer(hollytrot_record_check(a, 150, 6, keys, n), list->wrong ? 25 : 0, 0);
    hollytrot_writer closed = {2, {0, 0, 6, false}};
    same_answer(hollytrot_writer_payment(closed, fields, 1, 0, 0, keys, n, out, 1).answer, number, 0);
    same_answer(hollytrot_session_take(hollytrot_session_new(), text(""), 0, keys, n).answer, number, 0);
    hollytrot_run_result run = hollytrot_session_run(open_session(8), text(""), 0, true, keys, n);
    same_answer(run.answer, list->wrong ? 25 : 0, 0);
    SAME(run.session.file.taken, 8);
}

/* Every call that has a list, under lists that are empty, right, full, too long and wrong in an entry. */
static void agreed_issuers(void)
{
    uint64_t full[HOLLYTROT_AGREED + 1];
    for (size_t i = 0; i <= HOLLYTROT_AGREED; i++)
        full[i] = hollytrot_issuer_key((hollytrot_issuer){3, i});
    full[HOLLYTROT_AGREED - 1] = mine[0];
    const uint64_t no_key[] = {mine[0], 800000001}, twice[] = {mine[0], full[0], mine[0]};
    const struct list lists[] = {
        {none, 0, false, false},
        {mine, 1, false, true},
        {full, 1, false, false},
        {full, HOLLYTROT_AGREED - 1, false, false},
        {full, HOLLYTROT_AGREED, false, true},
        {full, HOLLYTROT_AGREED + 1, true, false},
        {none, 1, true, false},
        {no_key, 2, true, false},
        {twice, 2, false, true},
        {twice, 3, true, false},
    };
    for (size_t i = 0; i < sizeof lists / sizeof lists[0]; i++) {
        for (int dated = 0; dated < 2; dated++) {
            barcodes_under(&lists[i], dated);
            files_under(&lists[i], dated);
        }
        refused_first(&lists[i]);
    }
}

static void pages(void)
{
    static uint8_t page[HOLLYTROT_PAGE];
    const char wanted[] = "answer=14\nplace=8\nrecord=11\nfiles=12\nlanes=3\npayments=55\ncentavos=56\ntariff=57\n"
                          "lane=1\nissuer=50-0051\npayments=52\ncentavos=53\ntariff=54\n"
                          "lane=2\nissuer=60-0061\npayments=62\ncentavos=63\ntariff=64\n"
                          "lane=3\nissuer=70-0071\npayments=72\ncentavos=73\ntariff=74\n";
    size_t length = sizeof wanted - 1;
    hollytrot_board board = numbered_board(50);
    hollytrot_page_result result = hollytrot_page((hollytrot_answer){14, 8}, 11, 12, board, page, HOLLYTROT_PAGE);
    same_answer(result.answer, 0, 0);
    SAME(result.length, length);
    same_bytes(__LINE__, page, wanted, length);
    /* an answer of any number and any place */
    const char largest[] = "answer=18446744073709551615\nplace=18446744073709551614\nrecord=11\n";
    hollytrot_answer answer = {UINT64_MAX, SIZE_MAX - 1};
    result = hollytrot_page(answer, 11, 12, board, page, HOLLYTROT_PAGE);
    same_answer(result.answer, 0, 0);
    SAME(result.length, length + 18 + 19);
    same_bytes(__LINE__, page, largest, sizeof largest - 1);
    result = hollytrot_page(answer, 11, 12, board, page, HOLLYTROT_PAGE - 1);
    same_answer(result.answer, 1, 0);
    SAME(result.length, 0);
    /* tariffs of more than 32 bits, behind the centavos of the total and of the last lane */
    const char total[] = "centavos=56\ntariff=18446744073709551615\nlane=1\n";
    const char last[] = "centavos=73\ntariff=4294967296\n";
    board.total.tariff = UINT64_MAX;
    board.lanes[2].tally.tariff = 1ull << 32;
    length += 18 + 8;
    result = hollytrot_page((hollytrot_answer){14, 8}, 11, 12, board, page, HOLLYTROT_PAGE);
    SAME(result.length, length);
    same_bytes(__LINE__, page + 57, total, sizeof total - 1);
    same_bytes(__LINE__, page + length - (sizeof last - 1), last, sizeof last - 1);
}

int main(void)
{
    keys();
    barcodes();
    dates();
    writers();
    lined_headers();
    lined_writers();
    records();
    versions();
    limits();
    sessions();
    totals();
    tariff_totals();
    headers();
    trailers();
    lined_sessions();
    runs();
    lined_runs();
    agreed_issuers();
    pages();
    printf("abi: %d values compared, %d wrong\n", checks, failures);
    return failures != 0;
}
