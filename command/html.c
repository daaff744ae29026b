/* The planner's page: one HTML file without scripts, which a browser shows without a network. */
#include "html.h"

#include <string.h>

void html_text(FILE *out, const char *text)
{
    const size_t length = strlen(text);
    for (size_t at = 0; at < length;) {
        const struct character next = character_first(text + at, length - at);
        at += next.taken;
        switch (next.point) {
        case '&': fputs("&amp;", out); break;
        case '<': fputs("&lt;", out); break;
        case '>': fputs("&gt;", out); break;
        case '"': fputs("&quot;", out); break;
        case '\'': fputs("&#39;", out); break;
        default:
            if (is_control(next.point))
                fputc('?', out);
            else
                fwrite(next.bytes, 1, next.length, out);
        }
    }
}

static void head(FILE *out, bool refused)
{
    fprintf(out, "<!doctype html>\n<html lang=\"%s\">\n<head>\n<meta charset=\"utf-8\">\n", word(WORD_HTML_LANGUAGE));
    /* nothing may be fetched or run, whatever a name has in it */
    fprintf(out, "<meta http-equiv=\"Content-Security-Policy\" content=\"default-src 'none'; "
                 "style-src 'unsafe-inline'\">\n");
    fprintf(out, "<meta name=\"viewport\" content=\"width=device-width, initial-scale=1\">\n");
    fprintf(out, "<meta name=\"color-scheme\" content=\"light dark\">\n");
    fprintf(out, "<title>%s</title>\n", word(refused ? WORD_HTML_TITLE_REFUSED : WORD_HTML_TITLE_ACCEPTED));
    fputs("<style>\n", out);
    html_style(out);
    fputs("</style>\n</head>\n", out);
}

/* The start of the page's first sentence: a tick or a cross. */
static void verdict(FILE *out, bool refused)
{
    fprintf(out, "<h1><svg class=\"%s\" viewBox=\"0 0 20 20\" aria-hidden=\"true\">", refused ? "refused" : "accepted");
    fprintf(out, "<circle cx=\"10\" cy=\"10\" r=\"10\"/><path d=\"%s\"/></svg>",
            refused ? "M6 6L14 14M14 6L6 14" : "M5 10.5L8.5 14L15 6.5");
}

static void accepted(FILE *out, const struct shown *shown)
{
    verdict(out, false);
    fprintf(out, "<span>%s</span></h1>\n", word(shown->files != 0 ? WORD_HTML_ACCEPTED : WORD_HTML_NOTHING));
}

static void refused(FILE *out, const struct shown *shown)
{
    verdict(out, true);
    fprintf(out, "<span><bdi>");
    html_text(out, input_name(shown->first.input));
    fprintf(out, "</bdi>: ");
    refusal_words(out, &shown->first);
    fprintf(out, "</span></h1>\n<p>");
    refusal_rest(out, shown);
    fputc('\n', out);
    fprintf(out, word(WORD_HTML_FROM), (unsigned long long)shown->first.from);
    fprintf(out, "\n%s</p>\n", word(WORD_HTML_COMPLETE));
}

/* How many lanes the old engine would have shown wrong. */
static size_t wrapped_lanes(const hollytrot_board *board)
{
    size_t count = 0;
    for (size_t i = 0; i < board->used; i++)
        count += board->lanes[i].tally.centavos >= OLD_LIMIT;
    return count;
}

/* Whether the old engine would have shown the sums right. */
static void old_sums(FILE *out, const hollytrot_board *board)
{
    const size_t wrapped = wrapped_lanes(board);
    char some[REAIS_BYTES], all[REAIS_BYTES];
    const bool wrong = board->total.centavos >= OLD_LIMIT;
    fprintf(out, "<p%s>", wrong ? " class=\"warning\"" : "");
    if (wrapped != 0)
        fprintf(out, word(WORD_HTML_SOME_WRAPPED), parted(wrapped, some), parted(board->used, all));
    else
        fputs(word(wrong ? WORD_HTML_TOTAL_WRAPPED : WORD_HTML_NONE_WRAPPED), out);
    fprintf(out, "</p>\n");
}

static void figure(FILE *out, enum word name, const char *value)
{
    fprintf(out, "<div><dt>%s</dt><dd>%s</dd></div>\n", word(name), value);
}

/* What was accepted, and the totals. */
static void figures(FILE *out, const struct shown *shown)
{
    char text[REAIS_BYTES];
    const hollytrot_tally *total = &shown->board->total;
    fprintf(out, "<dl class=\"figures\">\n");
    figure(out, WORD_HTML_FILES, parted(shown->files, text));
    figure(out, WORD_HTML_RECORDS, parted(shown->records, text));
    figure(out, WORD_HTML_INSURERS, parted(shown->board->used, text));
    figure(out, WORD_HTML_PAYMENTS, parted(total->payments, text));
    figure(out, WORD_HTML_RECEIVED, reais(total->centavos, text));
    figure(out, WORD_HTML_TARIFFS, reais(total->tariff, text));
    fprintf(out, "</dl>\n");
}

static void name(FILE *out, const char *path)
{
    fputs(" <bdi>", out);
    html_text(out, input_name(path));
    fputs("</bdi>", out);
}

/* What the page is, and of which inputs, so that two printed pages can be told apart. */
static void brand(FILE *out, const struct shown *shown)
{
    char number[REAIS_BYTES];
    fprintf(out, "<p class=\"brand\">%s ·", word(WORD_HTML_BRAND));
    if (shown->count > 1) {
        fputc(' ', out);
        fprintf(out, word(WORD_HTML_INPUTS), parted(shown->count, number));
        name(out, shown->inputs[0]);
        fputs(" –", out);
    }
    name(out, shown->inputs[shown->count - 1]);
    fputs("</p>\n", out);
}

void board_html(FILE *out, const struct shown *shown)
{
    head(out, shown->refused != 0);
    fprintf(out, "<body>\n<main>\n<header>\n");
    brand(out, shown);
    if (shown->refused != 0)
        refused(out, shown);
    else
        accepted(out, shown);
    if (shown->board->used != 0)
        old_sums(out, shown->board);
    fprintf(out, "</header>\n");
    figures(out, shown);
    if (shown->board->used != 0)
        html_table(out, shown);
    else
        fprintf(out, "<p class=\"empty\">%s</p>\n", word(WORD_HTML_EMPTY));
    fprintf(out, "</main>\n</body>\n</html>\n");
}
