/* The board as quadro's page and as CSV. docs/COMMAND.md has both formats, which are stable. */
#include "board.h"

void board_page(FILE *out, const struct shown *shown)
{
    static uint8_t page[HOLLYTROT_PAGE];
    const size_t length =
        hollytrot_page(shown->first.answer, shown->records, shown->files, *shown->board, page, HOLLYTROT_PAGE).length;
    fwrite(page, 1, length, out);
}

void board_csv(FILE *out, const struct shown *shown)
{
    char issuer[HOLLYTROT_ISSUER_TEXT];
    fputs("issuer,segment,number,payments,centavos,tariff\n", out);
    for (size_t at = 0; at < shown->board->used; at++) {
        const hollytrot_lane *lane = &shown->board->lanes[at];
        fprintf(out, "%s,%llu,%llu,%llu,%llu,%llu\n", hollytrot_issuer_text(lane->issuer, issuer),
                (unsigned long long)lane->issuer.segment, (unsigned long long)lane->issuer.number,
                (unsigned long long)lane->tally.payments, (unsigned long long)lane->tally.centavos,
                (unsigned long long)lane->tally.tariff);
    }
}
