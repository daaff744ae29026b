/* What the header says of versions, refusals, values and issuers. */
#include "abi.h"

/* The version of the library is that of the header, as a number and as text. */
void library_version(void)
{
    uint64_t parts[3] = {0}, part = 0;
    for (const char *byte = HOLLYTROT_VERSION; *byte != '\0'; byte++) {
        if (*byte == '.')
            part++;
        else
            parts[part] = 10 * parts[part] + (uint64_t)(*byte - '0');
    }
    SAME(part, 2);
    SAME(HOLLYTROT_VERSION_NUMBER, parts[0] * 1000000 + parts[1] * 1000 + parts[2]);
    SAME(hollytrot_version(), HOLLYTROT_VERSION_NUMBER);
    SAME(hollytrot_check_version(), true);
}

/* Every row of the table: its name has its number, and its words are there in both languages. */
static const struct {
    uint64_t number, named;
    const char *english, *portuguese;
} table[] = {
#define ROW(number, name, english, portuguese) {number, HOLLYTROT_##name, english, portuguese},
    HOLLYTROT_REASONS(ROW)
#undef ROW
};

/* The row of a number; the table's length if there is none. */
static size_t row_of(uint64_t number)
{
    size_t row = 0;
    while (row < sizeof table / sizeof table[0] && table[row].number != number)
        row++;
    return row;
}

void reasons(void)
{
    const size_t length = sizeof table / sizeof table[0];
    for (size_t i = 0; i < length; i++) {
        SAME(table[i].named, table[i].number);
        SAME(row_of(table[i].number), i); /* once */
        SAME(table[i].english[0] != '\0' && table[i].portuguese[0] != '\0', true);
        SAME(strcmp(table[i].english, table[i].portuguese) != 0, true);
    }
    SAME_TEXT(hollytrot_reason(HOLLYTROT_ACCEPTED), "accepted");
    SAME_TEXT(hollytrot_reason_pt(HOLLYTROT_ACCEPTED), "aceito");
    for (uint64_t number = 1; number < 300; number++) {
        size_t row = row_of(number);
        SAME_TEXT(hollytrot_reason(number), row < length ? table[row].english : "unknown");
        SAME_TEXT(hollytrot_reason_pt(number), row < length ? table[row].portuguese : "desconhecido");
    }
    SAME_TEXT(hollytrot_reason((1ull << 32) + 2), "unknown");
    SAME_TEXT(hollytrot_reason_pt(UINT64_MAX), "desconhecido");
    SAME_TEXT(hollytrot_reason(HOLLYTROT_NO_DIGIT), "a byte is not a digit");
    /* in UTF-8 */
    SAME_TEXT(hollytrot_reason_pt(HOLLYTROT_NO_DIGIT), "um byte n\xC3\xA3o \xC3\xA9 um d\xC3\xADgito");
}

void money(void)
{
    for (uint64_t kind = 0; kind < 20; kind++) {
        SAME(hollytrot_is_money((hollytrot_fields){kind, 1, {1, 3659}, {0, 0, 0}}), kind == 6 || kind == 8);
        SAME(hollytrot_is_money((hollytrot_fields){(1ull << 32) + kind, 1, {1, 3659}, {0, 0, 0}}), false);
    }
    SAME(hollytrot_is_money(hollytrot_barcode_decode(code, 44, NONE).fields), true);
    SAME(hollytrot_is_money(hollytrot_barcode_decode(code, 43, NONE).fields), false);
}

/* Whether the page of a board with this issuer alone has the text in its line. */
static bool is_on_page(hollytrot_issuer issuer, const char *text)
{
    static uint8_t page[HOLLYTROT_PAGE];
    static const char before[] = "tariff=0\nlane=1\nissuer=", behind[] = "\npayments=";
    hollytrot_board board = {.used = 1};
    board.lanes[0].issuer = issuer;
    size_t length = hollytrot_page((hollytrot_answer){0, 0}, 0, 0, board, page, HOLLYTROT_PAGE).length;
    size_t written = 0;
    while (text[written] != '\0')
        written++;
    for (size_t i = 0; i + sizeof before + written + sizeof behind < length; i++) {
        const uint8_t *at = page + i + sizeof before - 1;
        if (memcmp(page + i, before, sizeof before - 1) == 0)
            return memcmp(at, text, written) == 0 && memcmp(at + written, behind, sizeof behind - 1) == 0;
    }
    return false;
}

void issuer_texts(void)
{
    static const struct {
        hollytrot_issuer issuer;
        const char *text;
    } shown[] = {
        {{1, 3659}, "1-3659"},
        {{6, 33041260}, "6-33041260"},
        {{7, 9}, "7-0009"},
        {{6, 12345}, "6-00012345"},
        {{9, 9999}, "9-9999"},
        {{1, 10000}, "1-10000"},
        {{1, 123456}, "1-123456"},
        {{6, 99999999}, "6-99999999"},
        {{6, 100000000}, "6-100000000"},
        {{0, 0}, "0-0000"},
        {{10, 1}, "10-0001"},
        {{16, 3659}, "16-3659"},
        {{(1ull << 32) + 6, 5}, "4294967302-0005"},
        {{UINT64_MAX, 0}, "18446744073709551615-0000"},
        {{6, UINT64_MAX}, "6-18446744073709551615"},
        {{UINT64_MAX, UINT64_MAX}, "18446744073709551615-18446744073709551615"},
    };
    for (size_t i = 0; i < sizeof shown / sizeof shown[0]; i++) {
        char out[HOLLYTROT_ISSUER_TEXT + 1];
        memset(out, '?', sizeof out);
        const char *text = hollytrot_issuer_text(shown[i].issuer, out);
        SAME(text == out, true);
        SAME_TEXT(out, shown[i].text);
        SAME(out[HOLLYTROT_ISSUER_TEXT], '?');
        SAME(is_on_page(shown[i].issuer, out), true);
    }
}
