/* Keys, barcodes, dates and check digits. */
#include "abi.h"

void keys(void)
{
    SAME(hollytrot_issuer_key((hollytrot_issuer){6, 12345678}), 612345678);
    SAME(hollytrot_issuer_key((hollytrot_issuer){6, 99999999}), 699999999);
    SAME(hollytrot_issuer_key((hollytrot_issuer){1, 3659}), 100003659);
    SAME(hollytrot_issuer_key((hollytrot_issuer){9, 0}), 900000000);
    SAME(hollytrot_issuer_key((hollytrot_issuer){8, 3659}), 0);
    SAME(hollytrot_issuer_key((hollytrot_issuer){0, 3659}), 0);
    SAME(hollytrot_issuer_key((hollytrot_issuer){1, 10000}), 0);
    SAME(hollytrot_issuer_key((hollytrot_issuer){6, 100000000}), 0);
    SAME(hollytrot_issuer_key((hollytrot_issuer){(1ull << 32) + 1, 3659}), 0);
    SAME(hollytrot_issuer_key((hollytrot_issuer){1, (1ull << 32) + 3659}), 0);
}

void barcodes(void)
{
    hollytrot_issuer issuer = {6, 12345678};
    SAME_ANSWER(hollytrot_barcode_build(issuer, 8, 98765432109, text("202402291234567890123"), 21, MINE, code, 44),
                0, 0);
    same_bytes(HERE, code, "868", 3);
    same_bytes(HERE, code + 4, "98765432109" "12345678" "202402291234567890123", 40);
    issuer.segment = 1;
    SAME_ANSWER(hollytrot_barcode_build(issuer, 8, 1, text("2024022912345678901230000"), 25, NONE, code, 44), 21,
                16);

    hollytrot_decoded decoded = hollytrot_barcode_decode(code, 44, MINE);
    SAME_ANSWER(decoded.answer, 0, 0);
    SAME(decoded.fields.kind, 8);
    SAME(decoded.fields.value, 98765432109);
    SAME(decoded.fields.issuer.segment, 6);
    SAME(decoded.fields.issuer.number, 12345678);
    SAME(decoded.fields.due.year, 2024);
    SAME(decoded.fields.due.month, 2);
    SAME(decoded.fields.due.day, 29);

    hollytrot_part part = hollytrot_barcode_free_field(code, 44, MINE);
    SAME(part.from, 23);
    SAME(part.length, 21);
}

void dates(void)
{
    hollytrot_date date = hollytrot_date_read(text("19991130"), 8);
    SAME(date.year, 1999);
    SAME(date.month, 11);
    SAME(date.day, 30);
    SAME(hollytrot_date_check((hollytrot_date){2000, 2, 29}), true);
    SAME(hollytrot_date_check((hollytrot_date){2001, 2, 29}), false);
    SAME(hollytrot_date_check((hollytrot_date){2000, 13, 29}), false);
    SAME(hollytrot_date_check((hollytrot_date){2000, 2, 30}), false);
    SAME(hollytrot_check_ten(text("01230067896"), 11), 3);
    SAME(hollytrot_check_eleven(text("01230067896"), 11), 0);
}

/* The places of the builder count in the barcode that would be written, not in the free field. */
void building_places(void)
{
    uint8_t out[HOLLYTROT_BARCODE];
    for (size_t segment = 1; segment <= 6; segment += 5) {
        size_t length = segment == 6 ? 21 : 25, before = HOLLYTROT_BARCODE - length;
        for (size_t bad = 0; bad < length; bad++) {
            uint8_t digits[25];
            memset(digits, '0', sizeof digits);
            digits[bad] = 'x';
            hollytrot_issuer issuer = {segment, 1};
            SAME_ANSWER(hollytrot_barcode_build(issuer, 8, 1, digits, length, NONE, out, 44), 2, before + bad + 1);
        }
    }
}
