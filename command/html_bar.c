/* The bars of the planner's page, as SVG, which browsers print as they show it. Lengths are percentages of the bar's
 * width with two decimals, computed in whole numbers; heights are in the font's size. */
#include "html.h"

/* The bits behind the point of a logarithm. */
enum { FRACTION = 16 };
/* The first grey line is at R$ 1; each is a thousand times the one before, and the last a tenth of the scale's end. */
enum { FIRST_LINE = 100, STEP = 1000 };

/* The logarithm of a number of at least 1 to the base 2, in units of 2^-FRACTION: exact for a power of 2, else less
 * than two units too small. It never falls when the number rises. */
static uint64_t logarithm(uint64_t number)
{
    uint64_t log = 63;
    while (number >> 63 == 0) {
        number <<= 1;
        log--;
    }
    /* the highest 32 bits are a number from 1 to below 2, whose square is from 1 to below 4: if it is 2 or more, the
     * next bit of the logarithm is 1 */
    uint64_t mantissa = number >> 32;
    for (int bit = 0; bit < FRACTION; bit++) {
        const uint64_t square = mantissa * mantissa;
        const uint64_t next = square >> 63;
        mantissa = square >> (31 + next);
        log = log << 1 | next;
    }
    return log;
}

uint64_t html_scale_end(const hollytrot_board *board)
{
    uint64_t end = 1000000000000u;
    while (end < board->total.centavos && end < 1000000000000000000u)
        end *= STEP;
    return end;
}

/* A length as an attribute has it. */
enum { LENGTH_BYTES = 16 };
static const char *percent(unsigned hundredths, char out[LENGTH_BYTES])
{
    snprintf(out, LENGTH_BYTES, "%u.%02u%%", hundredths / 100, hundredths % 100);
    return out;
}

/* Where a sum is on the scale, in hundredths of a percent: 0 for no centavo, as for one. */
static unsigned place(uint64_t centavos, uint64_t end)
{
    if (centavos == 0)
        return 0;
    return (unsigned)(logarithm(centavos < end ? centavos : end) * 10000 / logarithm(end));
}

/* A vertical line at a place, from a height on. */
static void mark(FILE *out, const char *class, unsigned at, const char *height)
{
    char x[LENGTH_BYTES];
    percent(at, x);
    fprintf(out, "<line class=\"%s\" x1=\"%s\" x2=\"%s\" y1=\"%s\" y2=\"100%%\"/>", class, x, x, height);
}

void html_bar(FILE *out, uint64_t centavos, uint64_t end)
{
    const unsigned shown = place(centavos % OLD_LIMIT, end), whole = place(centavos, end);
    char from[LENGTH_BYTES], to[LENGTH_BYTES], width[LENGTH_BYTES];
    fprintf(out, "<svg class=\"bar\" aria-hidden=\"true\">");
    /* the grey lines begin below the cell's text */
    mark(out, "grid", 0, "2em");
    for (uint64_t line = end / 10; line >= FIRST_LINE; line /= STEP)
        mark(out, "grid", place(line, end), "2em");
    percent(shown, from);
    if (centavos >= OLD_LIMIT) {
        percent(whole, to);
        percent(whole - shown, width);
        fprintf(out, "<rect class=\"lost\" x=\"%s\" y=\"2.25em\" width=\"%s\" height=\"0.75em\"/>", from, width);
        fprintf(out, "<line class=\"stripes\" x1=\"%s\" x2=\"%s\" y1=\"2.625em\" y2=\"2.625em\"/>", from, to);
    }
    if (shown != 0)
        fprintf(out, "<rect class=\"shown\" x=\"0\" y=\"2.25em\" width=\"%s\" height=\"0.75em\"/>", from);
    mark(out, "limit", place(OLD_LIMIT, end), "0");
    fprintf(out, "</svg>");
}

void html_axis(FILE *out, uint64_t end)
{
    /* in the longest scale there is room for no more of them */
    static const enum word names[] = {WORD_HTML_THOUSAND, WORD_HTML_MILLION, WORD_HTML_BILLION, WORD_HTML_TRILLION};
    uint64_t line = FIRST_LINE;
    char x[LENGTH_BYTES];
    fprintf(out, "<svg class=\"axis\" aria-hidden=\"true\">");
    fprintf(out, "<text x=\"%s\" y=\"1em\">R$ 1</text>", percent(place(line, end), x));
    for (size_t i = 0; i < sizeof names / sizeof *names && line * STEP < end; i++) {
        line *= STEP;
        fprintf(out, "<text x=\"%s\" y=\"1em\">%s</text>", percent(place(line, end), x), word(names[i]));
    }
    fprintf(out, "</svg>");
}
