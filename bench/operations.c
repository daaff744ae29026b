/* operations NAME ROUNDS <DAY: one operation of the engine on every record of a file, lined or bare, ROUNDS times. It
 * prints a sum of decoded numbers. src/bin/operations.rs does the same with the reference program and prints the same
 * sum. No issuer is agreed, except in run-64-agreed: a run with a full list, on a file with due dates. */
#include <hollytrot.h>
#include <stdio.h>
#include <stdlib.h>
#include <string.h>

#define MOST_RECORDS 5000

/* The operations' inputs, prepared before the rounds. */
static uint8_t day[MOST_RECORDS * HOLLYTROT_LINED], written[MOST_RECORDS * HOLLYTROT_LINED];
static uint8_t codes[MOST_RECORDS][HOLLYTROT_BARCODE], lines[MOST_RECORDS][HOLLYTROT_LINE];
static uint8_t header[HOLLYTROT_HEADER_FIELDS], fields[MOST_RECORDS][HOLLYTROT_PAYMENT_FIELDS];
static uint64_t received[MOST_RECORDS], tariff[MOST_RECORDS];
static size_t records;
/* The bytes of each record, CR and LF included if the file is lined. */
static size_t step;
/* The version that the file's A names. */
static uint64_t version;
/* A full list of agreed issuers, and the empty one as two arguments. */
static uint64_t agreed[HOLLYTROT_AGREED];
#define NONE agreed, 0

static _Noreturn void fail(const char *why)
{
    fprintf(stderr, "operations: %s\n", why);
    exit(2);
}

static void check_accepted(hollytrot_answer answer)
{
    if (answer.number != HOLLYTROT_ACCEPTED)
        fail("refused");
}

/* Whether one of the first entries of the list is this key. */
static bool is_listed(uint64_t key, size_t entries)
{
    for (size_t i = 0; i < entries; i++)
        if (agreed[i] == key)
            return true;
    return false;
}

/* The issuers of the day, in the order in which they appear and as far as there is room, then others of segment 9. They
 * are spread: the first is at index 0, the next at 37, 10, 47, .. */
static void fill_list(void)
{
    uint64_t list[HOLLYTROT_AGREED];
    size_t entries = 0;
    for (size_t i = 1; i + 1 < records && entries < HOLLYTROT_AGREED; i++) {
        hollytrot_decoded decoded = hollytrot_barcode_decode(codes[i], HOLLYTROT_BARCODE, NONE);
        uint64_t key = hollytrot_issuer_key(decoded.fields.issuer);
        if (!is_listed(key, entries))
            agreed[entries++] = key;
    }
    for (uint64_t number = 0; entries < HOLLYTROT_AGREED; number++) {
        uint64_t key = hollytrot_issuer_key((hollytrot_issuer){9, number});
        if (!is_listed(key, entries))
            agreed[entries++] = key;
    }
    for (size_t i = 0; i < HOLLYTROT_AGREED; i++)
        list[37 * i % HOLLYTROT_AGREED] = agreed[i];
    memcpy(agreed, list, sizeof list);
}

static void prepare(void)
{
    size_t length = fread(day, 1, sizeof day, stdin);
    step = memcmp(day + HOLLYTROT_RECORD, "\r\n", 2) == 0 ? HOLLYTROT_LINED : HOLLYTROT_RECORD;
    records = length / step;
    version = hollytrot_record_decode(day, HOLLYTROT_RECORD, 0, NONE).header.version;
    check_accepted(hollytrot_record_join(day, HOLLYTROT_RECORD, version, NONE, header, sizeof header));
    for (size_t i = 1; i + 1 < records; i++) {
        const uint8_t *g = day + i * step;
        memcpy(codes[i], g + 37, HOLLYTROT_BARCODE);
        check_accepted(hollytrot_line_from_barcode(codes[i], HOLLYTROT_BARCODE, NONE, lines[i], HOLLYTROT_LINE));
        check_accepted(
            hollytrot_record_join(g, HOLLYTROT_RECORD, version, NONE, fields[i], HOLLYTROT_PAYMENT_FIELDS));
        hollytrot_record decoded = hollytrot_record_decode(g, HOLLYTROT_RECORD, version, NONE);
        received[i] = decoded.payment.received;
        tariff[i] = decoded.payment.tariff;
    }
    fill_list();
}

static uint64_t sum_of_fields(hollytrot_decoded decoded)
{
    check_accepted(decoded.answer);
    return decoded.fields.value + decoded.fields.issuer.number + decoded.fields.due.day;
}

static uint64_t barcode(void)
{
    uint64_t sum = 0;
    for (size_t i = 1; i + 1 < records; i++)
        sum += sum_of_fields(hollytrot_barcode_decode(codes[i], HOLLYTROT_BARCODE, NONE));
    return sum;
}

static uint64_t line(void)
{
    uint64_t sum = 0;
    for (size_t i = 1; i + 1 < records; i++)
        sum += sum_of_fields(hollytrot_line_decode(lines[i], HOLLYTROT_LINE, NONE));
    return sum;
}

/* The members for the other two letters are 0. */
static uint64_t record(void)
{
    uint64_t sum = 0;
    for (size_t i = 0; i < records; i++) {
        hollytrot_record r = hollytrot_record_decode(day + i * step, HOLLYTROT_RECORD, version, NONE);
        check_accepted(r.answer);
        sum += r.header.sequence + r.payment.received + r.payment.tariff + r.payment.number;
        sum += r.trailer.count + r.trailer.total;
    }
    return sum;
}

/* The three numbers of the total of the board shown. */
static uint64_t sum_of_board(const hollytrot_session *session)
{
    hollytrot_tally total = session->shown.total;
    return total.payments + total.centavos + total.tariff;
}

static uint64_t take(void)
{
    hollytrot_take_result result;
    result.session = hollytrot_session_new();
    for (size_t i = 0; i < records; i++) {
        result = hollytrot_session_take(result.session, day + i * step, step, NONE);
        check_accepted(result.answer);
    }
    return sum_of_board(&result.session);
}

static uint64_t run_under(size_t agreed_length)
{
    hollytrot_run_result result =
        hollytrot_session_run(hollytrot_session_new(), day, records * step, false, agreed, agreed_length);
    check_accepted(result.answer);
    return sum_of_board(&result.session);
}

static uint64_t run(void) { return run_under(0); }

static uint64_t run_agreed(void) { return run_under(HOLLYTROT_AGREED); }

static uint64_t write_file(void)
{
    uint8_t *out = written;
    hollytrot_write_result result =
        hollytrot_writer_header(hollytrot_writer_new(), header, sizeof header, out, step);
    check_accepted(result.answer);
    for (size_t i = 1; i + 1 < records; i++) {
        out += step;
        result = hollytrot_writer_payment(result.writer, fields[i], HOLLYTROT_PAYMENT_FIELDS, received[i], tariff[i],
                                          NONE, out, step);
        check_accepted(result.answer);
    }
    result = hollytrot_writer_trailer(result.writer, out + step, step);
    check_accepted(result.answer);
    return result.writer.file.total;
}

static const struct {
    const char *name;
    uint64_t (*round)(void);
} operations[] = {{"barcode", barcode}, {"line", line},         {"record", record}, {"take", take},
                  {"run", run},         {"write", write_file}, {"run-64-agreed", run_agreed}};

int main(int count, char **words)
{
    if (count != 3)
        fail("operations NAME ROUNDS");
    prepare();
    for (size_t i = 0; i < sizeof operations / sizeof operations[0]; i++) {
        if (strcmp(words[1], operations[i].name) != 0)
            continue;
        uint64_t sum = 0;
        for (long rounds = atol(words[2]); rounds > 0; rounds--)
            sum += operations[i].round();
        if (operations[i].round == write_file && memcmp(written, day, records * step) != 0)
            fail("the file written is not the day");
        printf("%llu\n", (unsigned long long)sum);
        return 0;
    }
    fail("no such operation");
}
