/* Single records. */
#include "abi.h"

static void header_values(void)
{
    hollytrot_record record = hollytrot_record_decode(a, 150, 0, MINE);
    SAME_ANSWER(record.answer, 0, 0);
    SAME(record.letter, 'A');
    SAME(record.header.bank, 237);
    SAME(record.header.date.year, 2023);
    SAME(record.header.date.month, 12);
    SAME(record.header.date.day, 31);
    SAME(record.header.sequence, 4321);
    SAME(record.header.version, 6);
}

static void payment_values(void)
{
    hollytrot_record record = hollytrot_record_decode(g, 150, 6, MINE);
    SAME(record.letter, 'G');
    SAME(record.payment.paid.year, 2024);
    SAME(record.payment.paid.month, 1);
    SAME(record.payment.paid.day, 2);
    SAME(record.payment.credited.year, 2024);
    SAME(record.payment.credited.month, 3);
    SAME(record.payment.credited.day, 4);
    SAME(record.payment.barcode.kind, 8);
    SAME(record.payment.barcode.value, 98765432109);
    SAME(record.payment.barcode.issuer.segment, 6);
    SAME(record.payment.barcode.issuer.number, 12345678);
    SAME(record.payment.barcode.due.year, 2024);
    SAME(record.payment.barcode.due.month, 2);
    SAME(record.payment.barcode.due.day, 29);
    SAME(record.payment.received, 123456);
    SAME(record.payment.tariff, 789);
    SAME(record.payment.number, 56789);
}

static void trailer_values(void)
{
    hollytrot_record record = hollytrot_record_decode(z, 150, 0, MINE);
    SAME(record.letter, 'Z');
    SAME(record.trailer.count, 10);
    SAME(record.trailer.total, 124456);
    record = hollytrot_record_decode(z, 149, 0, MINE);
    SAME_ANSWER(record.answer, 1, 0);
    SAME(record.letter, 0);
}

void records(void)
{
    header_values();
    payment_values();
    trailer_values();
    SAME_ANSWER(hollytrot_record_check(lined, 152, 0, NONE), 1, 0);
    SAME_ANSWER(hollytrot_record_check(lined, 150, 0, NONE), 0, 0);
}

/* The same record, told both versions and a number that is none. */
void versions(void)
{
    static const struct {
        uint64_t version, number;
        size_t place;
    } told[] = {{6, 0, 0}, {4, 12, 117}, {(1ull << 32) + 6, 10, 80}};
    for (size_t i = 0; i < sizeof told / sizeof told[0]; i++) {
        uint64_t version = told[i].version;
        bool accepted = told[i].number == 0;
        SAME_ANSWER(hollytrot_record_check(g, 150, version, NONE), told[i].number, told[i].place);
        hollytrot_record record = hollytrot_record_decode(g, 150, version, MINE);
        SAME_ANSWER(record.answer, told[i].number, told[i].place);
        SAME(record.header.version, 0);
        hollytrot_part part = hollytrot_record_field(g, 150, version, HOLLYTROT_G_CAPTURE, NONE);
        SAME(part.from, accepted ? 116 : 0);
        SAME(part.length, accepted ? 1 : 0);

        uint8_t joined[HOLLYTROT_PAYMENT_FIELDS] = {0}, untouched[HOLLYTROT_PAYMENT_FIELDS] = {0};
        SAME_ANSWER(hollytrot_record_join(g, 150, version, NONE, joined, sizeof joined), told[i].number, told[i].place);
        same_bytes(HERE, joined, accepted ? fields : untouched, sizeof joined);
        /* an A does not depend on it */
        SAME_ANSWER(hollytrot_record_check(a, 150, version, NONE), 0, 0);
        SAME_ANSWER(hollytrot_record_join(a, 150, version, NONE, joined, HOLLYTROT_HEADER_FIELDS), 0, 0);
        same_bytes(HERE, joined, header, HOLLYTROT_HEADER_FIELDS);
    }
}

/* The rows that the header names, with the places that it has beside them. */
static const struct {
    const uint8_t *record;
    size_t row, first, last;
} named[] = {
    {a, HOLLYTROT_A_AGREEMENT, 3, 22},
    {a, HOLLYTROT_A_COMPANY, 23, 42},
    {a, HOLLYTROT_A_BANK, 43, 45},
    {a, HOLLYTROT_A_BANK_NAME, 46, 65},
    {a, HOLLYTROT_A_DATE, 66, 73},
    {a, HOLLYTROT_A_SEQUENCE, 74, 79},
    {a, HOLLYTROT_A_VERSION, 80, 81},
    {a, HOLLYTROT_A_SERVICE, 82, 98},
    {g, HOLLYTROT_G_ACCOUNT, 2, 21},
    {g, HOLLYTROT_G_PAID, 22, 29},
    {g, HOLLYTROT_G_CREDITED, 30, 37},
    {g, HOLLYTROT_G_BARCODE, 38, 81},
    {g, HOLLYTROT_G_RECEIVED, 82, 93},
    {g, HOLLYTROT_G_TARIFF, 94, 100},
    {g, HOLLYTROT_G_NUMBER, 101, 108},
    {g, HOLLYTROT_G_BRANCH, 109, 116},
    {g, HOLLYTROT_G_CAPTURE, 117, 117},
    {g, HOLLYTROT_G_AUTHENTICATION, 118, 140},
    {g, HOLLYTROT_G_FORM, 141, 141},
    {z, HOLLYTROT_Z_COUNT, 2, 7},
    {z, HOLLYTROT_Z_TOTAL, 8, 24},
};

void rows(void)
{
    const uint8_t *all[] = {a, g, z};
    for (size_t i = 0; i < sizeof named / sizeof named[0]; i++) {
        for (size_t j = 0; j < 3; j++) {
            bool its_own = all[j] == named[i].record;
            hollytrot_part part = hollytrot_record_field(all[j], 150, 6, named[i].row, NONE);
            SAME(part.from, its_own ? named[i].first - 1 : 0);
            SAME(part.length, its_own ? named[i].last - named[i].first + 1 : 0);
        }
    }
    /* those without a name: letters, the `2` of an A, the blanks at the end, and past the table */
    SAME(hollytrot_record_field(a, 150, 0, 1, NONE).from, 1);
    SAME(hollytrot_record_field(a, 150, 0, 10, NONE).length, 52);
    SAME(hollytrot_record_field(g, 150, 6, 11, NONE).length, 1);
    SAME(hollytrot_record_field(g, 150, 6, 23, NONE).length, 9);
    SAME(hollytrot_record_field(z, 150, 0, 27, NONE).length, 126);
    SAME(hollytrot_record_field(z, 150, 0, HOLLYTROT_ROWS, NONE).length, 0);
}

/* A Z has no field bytes: it is refused 9 whatever the buffer is, and an A and a G by the buffer before the version. */
void joins(void)
{
    uint8_t out[HOLLYTROT_PAYMENT_FIELDS + 1];
    for (size_t length = 0; length <= sizeof out; length++) {
        bool of_header = length == HOLLYTROT_HEADER_FIELDS, of_payment = length == HOLLYTROT_PAYMENT_FIELDS;
        SAME_ANSWER(hollytrot_record_join(z, 150, 6, NONE, out, length), 9, 1);
        SAME_ANSWER(hollytrot_record_join(z, 149, 6, NONE, out, length), 1, 0);
        SAME_ANSWER(hollytrot_record_join(a, 150, 5, NONE, out, length), of_header ? 0 : 1, 0);
        SAME_ANSWER(hollytrot_record_join(g, 150, 5, NONE, out, length), of_payment ? 10 : 1, of_payment ? 80 : 0);
    }
}
