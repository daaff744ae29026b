/* The board as a table for people. */
#include "command.h"

#include <string.h>

enum { ISSUER, NAME, PAYMENTS, RECEIVED, TARIFF, COLUMNS };

/* A row of the table. An empty column, as that of the names may be, is left out. */
struct row {
    const char *texts[COLUMNS];
    char numbers[COLUMNS][REAIS_BYTES];
    char issuer[HOLLYTROT_ISSUER_TEXT];
};

static void row_set_tally(struct row *row, hollytrot_tally tally)
{
    row->texts[PAYMENTS] = parted(tally.payments, row->numbers[PAYMENTS]);
    row->texts[RECEIVED] = reais(tally.centavos, row->numbers[RECEIVED]);
    row->texts[TARIFF] = reais(tally.tariff, row->numbers[TARIFF]);
}

/* Whether a lane has a name. */
static bool has_names(const struct shown *shown)
{
    size_t lane = 0;
    while (lane < shown->board->used && shown->names->of[lane][0] == '\0')
        lane++;
    return lane < shown->board->used;
}

/* The row of a number: 0 is the heading, then come the lanes, and behind them the total. */
static void row_make(struct row *row, const struct shown *shown, size_t number)
{
    const hollytrot_board *board = shown->board;
    row->texts[NAME] = "";
    if (number == 0) {
        row->texts[ISSUER] = word(WORD_TABLE_ISSUER);
        row->texts[NAME] = has_names(shown) ? word(WORD_TABLE_NAME) : "";
        row->texts[PAYMENTS] = word(WORD_TABLE_PAYMENTS);
        row->texts[RECEIVED] = word(WORD_TABLE_RECEIVED);
        row->texts[TARIFF] = word(WORD_TABLE_TARIFF);
    } else if (number <= board->used) {
        const hollytrot_lane lane = board->lanes[number - 1];
        row->texts[ISSUER] = hollytrot_issuer_text(lane.issuer, row->issuer);
        row->texts[NAME] = shown->names->of[number - 1];
        row_set_tally(row, lane.tally);
    } else {
        row->texts[ISSUER] = word(WORD_TABLE_TOTAL);
        row_set_tally(row, board->total);
    }
}

static size_t width_of(const char *text)
{
    return characters(text, strlen(text));
}

/* Writes a row: issuer and name from the left, numbers to the right. */
static void row_write(FILE *out, const struct row *row, const size_t widths[COLUMNS])
{
    for (size_t column = 0; column < COLUMNS; column++) {
        const char *text = row->texts[column];
        const int blanks = (int)(widths[column] - width_of(text));
        if (widths[column] == 0)
            continue;
        if (column > 0)
            fprintf(out, "  ");
        if (column < PAYMENTS)
            fprintf(out, "%s%*s", text, blanks, "");
        else
            fprintf(out, "%*s%s", blanks, "", text);
    }
    fprintf(out, "\n");
}

/* Says in a sentence whether all was accepted, or where it was refused. */
static void sentence_write(FILE *out, const struct shown *shown)
{
    char files[REAIS_BYTES], records[REAIS_BYTES];
    parted(shown->files, files);
    if (shown->first.answer.number == HOLLYTROT_ACCEPTED) {
        fprintf(out, word(WORD_TABLE_ACCEPTED), files, parted(shown->records, records));
        return;
    }
    fputs(word(WORD_TABLE_REFUSED), out);
    refusal_text(out, &shown->first);
    fputs(".\n", out);
    refusal_rest(out, shown);
    fputc('\n', out);
    fprintf(out, word(WORD_TABLE_FILES), files);
}

void board_reais(FILE *out, const struct shown *shown)
{
    const size_t rows = shown->board->used + 2;
    size_t widths[COLUMNS] = {0};
    struct row row;
    sentence_write(out, shown);
    fprintf(out, "\n");
    for (size_t number = 0; number < rows; number++) {
        row_make(&row, shown, number);
        for (size_t column = 0; column < COLUMNS; column++) {
            const size_t width = width_of(row.texts[column]);
            widths[column] = width > widths[column] ? width : widths[column];
        }
    }
    for (size_t number = 0; number < rows; number++) {
        row_make(&row, shown, number);
        row_write(out, &row, widths);
    }
}
