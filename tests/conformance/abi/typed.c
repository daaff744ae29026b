/* Typed text: its digits, and places turned back. */
#include "abi.h"

/* The line P4 of SPEC.md, "Samples". */
static const char line[] = "817700000000010936599702411310797039001433708318";

/* The text has the digits of the line: `before[i]` separators are before its digit i. */
static void same_digits(const char *file, int at, const char *typed, size_t length, const size_t before[HOLLYTROT_LINE])
{
    hollytrot_typed stripped = hollytrot_digits(typed, length);
    same(file, at, "length", stripped.length, HOLLYTROT_LINE);
    same(file, at, "count", stripped.count, HOLLYTROT_LINE);
    same_bytes(file, at, stripped.digits, line, HOLLYTROT_LINE);
    for (size_t i = 0; i < HOLLYTROT_LINE; i++)
        same(file, at, "place", hollytrot_place_typed(typed, length, i + 1), i + 1 + before[i]);
    same(file, at, "no place", hollytrot_place_typed(typed, length, 0), 0);
    same(file, at, "past the end", hollytrot_place_typed(typed, length, HOLLYTROT_LINE + 1), 0);
    same(file, at, "the largest", hollytrot_place_typed(typed, length, SIZE_MAX), 0);
}

/* Puts `separators` in front of digit `at`, behind the last if it is 48, and also in front of each digit that `every`
 * divides; none by `every` 0. */
static void separated(const char *separators, size_t at, size_t every)
{
    char typed[8 * HOLLYTROT_LINE];
    size_t before[HOLLYTROT_LINE], length = 0;
    for (size_t i = 0; i <= HOLLYTROT_LINE; i++) {
        if (i == at || (every != 0 && i % every == 0)) {
            for (const char *byte = separators; *byte != '\0'; byte++)
                typed[length++] = *byte;
        }
        if (i < HOLLYTROT_LINE) {
            before[i] = length - i;
            typed[length++] = line[i];
        }
    }
    same_digits(HERE, typed, length, before);
}

/* Each separator, and several, at every position, alone and with others in front of every k digits. */
void separators(void)
{
    static const char *const all[] = {" ", "\t", ".", "-", ". -\t", "--"};
    for (size_t i = 0; i < sizeof all / sizeof all[0]; i++) {
        for (size_t at = 0; at <= HOLLYTROT_LINE; at++) {
            for (size_t every = 0; every <= 12; every++)
                separated(all[i], at, every);
        }
    }
    for (int byte = 0; byte < 256; byte++)
        SAME(hollytrot_is_separator((char)byte), byte == ' ' || byte == '\t' || byte == '.' || byte == '-');
}

/* As the header shows it: a text as slips print it, one with a bad byte, one too short and one too long. */
void typed_lines(void)
{
    static const struct {
        const char *typed;
        uint64_t number;
        size_t count, place;
    } texts[] = {
        {"81770000000-0 01093659970-2 41131079703-9 00143370831-8", 0, 48, 0},
        {"81770000000-0 01093659970-2 41131079703-9 00143370831-9", 6, 48, 55},
        {"\t81770000000.0 01093659970.2 41131079703.9 0014337O831.8 ", 2, 48, 51},
        {"81770000000-0 01093659970-2 41131079703-9 00143370831", 1, 47, 0},
        {"81770000000-0 01093659970-2 41131079703-9 00143370831-88", 1, 49, 0},
        {"81770000000-0 01093659970-2 41131079703-9 00143370831-8817", 1, 51, 0},
        {"817700000000\n010936599702411310797039001433708318", 1, 49, 0},
        {" -.\t", 1, 0, 0},
        {"", 1, 0, 0},
    };
    for (size_t i = 0; i < sizeof texts / sizeof texts[0]; i++) {
        const char *typed = texts[i].typed;
        size_t length = 0;
        while (typed[length] != '\0')
            length++;
        hollytrot_typed stripped = hollytrot_digits(typed, length);
        hollytrot_decoded decoded = hollytrot_line_decode(stripped.digits, stripped.length, NULL, 0);
        SAME(stripped.count, texts[i].count);
        SAME(stripped.length, texts[i].count < 49 ? texts[i].count : 49);
        SAME(decoded.answer.number, texts[i].number);
        SAME(hollytrot_place_typed(typed, length, decoded.answer.place), texts[i].place);
    }
}

/* All other bytes are kept, NUL and those above 127 too. */
void odd_bytes(void)
{
    const char typed[] = {'8', '\0', ' ', '\xA0', '-'};
    hollytrot_typed stripped = hollytrot_digits(typed, sizeof typed);
    SAME(stripped.length, 3);
    same_bytes(HERE, stripped.digits, "8\0\xA0", 3);
    SAME(hollytrot_place_typed(typed, sizeof typed, 3), 4);
}
