/* The table of the planner's page. Every element has its role, since the style sheet shows rows as cards on narrow
 * screens, and some browsers then forget that they are rows. */
#include "html.h"

/* A cell's start: its class, and its column's words, which cards show in front of it. */
static void cell(FILE *out, const char *class, enum word column)
{
    fprintf(out, "<td role=\"cell\" class=\"%s\" data-column=\"%s\">", class, word(column));
}

/* The part of the 32-bit number, in percent with four decimals. It is rounded down: 100 or more exactly if the old
 * engine's sum would have wrapped. */
static void part(FILE *out, uint64_t centavos)
{
    char whole[REAIS_BYTES];
    /* in millionths; the second factor is below 2^32, so nothing wraps here */
    const uint64_t millionths = centavos / OLD_LIMIT * 1000000 + centavos % OLD_LIMIT * 1000000 / OLD_LIMIT;
    const bool tiny = centavos != 0 && millionths == 0;
    fprintf(out, "%s%s%s%04u %%", tiny ? "&lt; " : "", parted(millionths / 10000, whole), word(WORD_HTML_DECIMAL),
            tiny ? 1 : (unsigned)(millionths % 10000));
}

/* What the old engine would have shown, and in words whether that is wrong. */
static void old(FILE *out, uint64_t centavos)
{
    char text[REAIS_BYTES];
    const uint64_t times = centavos / OLD_LIMIT;
    fprintf(out, "<span>%s", reais(centavos % OLD_LIMIT, text));
    if (times != 0)
        fputs(" <strong>", out);
    if (times == 1)
        fputs(word(WORD_HTML_WRAPPED), out);
    else if (times > 1)
        fprintf(out, word(WORD_HTML_WRAPPED_TIMES), parted(times, text));
    fprintf(out, "%s</span>", times != 0 ? "</strong>" : "");
}

/* The rest of a row behind its first cell. */
static void sums(FILE *out, const hollytrot_tally *tally, uint64_t end)
{
    char text[REAIS_BYTES];
    cell(out, "payments", WORD_HTML_PAYMENTS);
    fprintf(out, "%s</td>", parted(tally->payments, text));
    cell(out, "received", WORD_HTML_RECEIVED);
    fprintf(out, "%s</td>", reais(tally->centavos, text));
    cell(out, "tariffs", WORD_HTML_TARIFFS);
    fprintf(out, "%s</td>\n", reais(tally->tariff, text));
    cell(out, "part", WORD_HTML_PART);
    part(out, tally->centavos);
    html_bar(out, tally->centavos, end);
    fprintf(out, "</td>\n");
    cell(out, "old", WORD_HTML_OLD);
    old(out, tally->centavos);
    fprintf(out, "</td></tr>\n");
}

/* A row's start, which is marked if the old engine would have shown it wrong, and its first cell's. */
static void row(FILE *out, const hollytrot_tally *tally)
{
    fprintf(out, "<tr role=\"row\"%s><th role=\"rowheader\" scope=\"row\">",
            tally->centavos >= OLD_LIMIT ? " class=\"wraps\"" : "");
}

static void column(FILE *out, const char *class, enum word name)
{
    fprintf(out, "<th role=\"columnheader\" scope=\"col\" class=\"%s\">%s</th>\n", class, word(name));
}

static void table_head(FILE *out, uint64_t end)
{
    fprintf(out, "<thead role=\"rowgroup\">\n<tr role=\"row\">\n");
    column(out, "insurer", WORD_HTML_INSURER);
    column(out, "payments", WORD_HTML_PAYMENTS);
    column(out, "received", WORD_HTML_RECEIVED);
    column(out, "tariffs", WORD_HTML_TARIFFS);
    fprintf(out, "<th role=\"columnheader\" scope=\"col\" class=\"part\"><span>%s</span>", word(WORD_HTML_PART));
    html_axis(out, end);
    fprintf(out, "</th>\n");
    column(out, "old", WORD_HTML_OLD);
    fprintf(out, "</tr>\n</thead>\n");
}

/* An item of the legend: a small picture and its words. */
static void key(FILE *out, const char *class, enum word words, const char *picture)
{
    fprintf(out, "<span><svg class=\"%s\">%s</svg>%s</span>\n", class, picture, word(words));
}

/* The title of the table and the legend of its bars, which are pictures only: the notes say the same in full. */
static void caption(FILE *out)
{
    fprintf(out, "<caption>%s\n<span class=\"legend\" aria-hidden=\"true\">\n", word(WORD_HTML_CAPTION));
    key(out, "key", WORD_HTML_KEY_SHOWN,
        "<rect class=\"shown\" x=\"0\" y=\"0.125em\" width=\"100%\" height=\"0.75em\"/>");
    key(out, "key", WORD_HTML_KEY_LOST,
        "<rect class=\"lost\" x=\"0\" y=\"0.125em\" width=\"100%\" height=\"0.75em\"/>"
        "<line class=\"stripes\" x1=\"0\" x2=\"100%\" y1=\"0.5em\" y2=\"0.5em\"/>");
    key(out, "key thin", WORD_HTML_KEY_LIMIT,
        "<line class=\"limit\" x1=\"50%\" x2=\"50%\" y1=\"0\" y2=\"100%\"/>");
    fprintf(out, "</span></caption>\n");
}

static void note(FILE *out, enum word name, enum word text)
{
    fprintf(out, "<div><dt>%s</dt><dd>%s</dd></div>\n", word(name), word(text));
}

static void notes(FILE *out)
{
    fprintf(out, "<h2>%s</h2>\n<dl class=\"notes\">\n", word(WORD_HTML_NOTES));
    note(out, WORD_HTML_RECEIVED, WORD_HTML_NOTE_RECEIVED);
    note(out, WORD_HTML_PART, WORD_HTML_NOTE_PART);
    note(out, WORD_HTML_BAR, WORD_HTML_NOTE_BAR);
    note(out, WORD_HTML_LIMIT, WORD_HTML_NOTE_LIMIT);
    note(out, WORD_HTML_OLD, WORD_HTML_NOTE_OLD);
    fprintf(out, "</dl>\n");
}

void html_table(FILE *out, const struct shown *shown)
{
    const hollytrot_board *board = shown->board;
    const uint64_t end = html_scale_end(board);
    char issuer[HOLLYTROT_ISSUER_TEXT];
    fprintf(out, "<table role=\"table\">\n");
    caption(out);
    table_head(out, end);
    fprintf(out, "<tbody role=\"rowgroup\">\n");
    for (size_t i = 0; i < board->used; i++) {
        row(out, &board->lanes[i].tally);
        fprintf(out, "<span class=\"issuer\">%s</span>", hollytrot_issuer_text(board->lanes[i].issuer, issuer));
        if (shown->names->of[i][0] != '\0') {
            fprintf(out, " <bdi class=\"name\">");
            html_text(out, shown->names->of[i]);
            fprintf(out, "</bdi>");
        }
        fprintf(out, "</th>");
        sums(out, &board->lanes[i].tally, end);
    }
    fprintf(out, "</tbody>\n<tfoot role=\"rowgroup\">\n");
    row(out, &board->total);
    fprintf(out, "%s</th>", word(WORD_HTML_TOTAL));
    sums(out, &board->total, end);
    fprintf(out, "</tfoot>\n</table>\n");
    notes(out);
}
