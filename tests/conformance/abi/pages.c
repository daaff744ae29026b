/* The page. */
#include "abi.h"

void pages(void)
{
    static uint8_t page[HOLLYTROT_PAGE];
    const char wanted[] = "answer=14\nplace=8\nrecord=11\nfiles=12\nlanes=3\npayments=55\ncentavos=56\ntariff=57\n"
                          "lane=1\nissuer=50-0051\npayments=52\ncentavos=53\ntariff=54\n"
                          "lane=2\nissuer=60-0061\npayments=62\ncentavos=63\ntariff=64\n"
                          "lane=3\nissuer=70-0071\npayments=72\ncentavos=73\ntariff=74\n";
    size_t length = sizeof wanted - 1;
    hollytrot_board board = numbered_board(50);
    hollytrot_page_result result = hollytrot_page((hollytrot_answer){14, 8}, 11, 12, board, page, HOLLYTROT_PAGE);
    SAME_ANSWER(result.answer, 0, 0);
    SAME(result.length, length);
    same_bytes(HERE, page, wanted, length);
    /* an answer of any number and any place */
    const char largest[] = "answer=18446744073709551615\nplace=18446744073709551614\nrecord=11\n";
    hollytrot_answer answer = {UINT64_MAX, SIZE_MAX - 1};
    result = hollytrot_page(answer, 11, 12, board, page, HOLLYTROT_PAGE);
    SAME_ANSWER(result.answer, 0, 0);
    SAME(result.length, length + 18 + 19);
    same_bytes(HERE, page, largest, sizeof largest - 1);
    result = hollytrot_page(answer, 11, 12, board, page, HOLLYTROT_PAGE - 1);
    SAME_ANSWER(result.answer, 1, 0);
    SAME(result.length, 0);
    /* tariffs of more than 32 bits, behind the centavos of the total and of the last lane */
    const char total[] = "centavos=56\ntariff=18446744073709551615\nlane=1\n";
    const char last[] = "centavos=73\ntariff=4294967296\n";
    board.total.tariff = UINT64_MAX;
    board.lanes[2].tally.tariff = 1ull << 32;
    length += 18 + 8;
    result = hollytrot_page((hollytrot_answer){14, 8}, 11, 12, board, page, HOLLYTROT_PAGE);
    SAME(result.length, length);
    same_bytes(HERE, page + 57, total, sizeof total - 1);
    same_bytes(HERE, page + length - (sizeof last - 1), last, sizeof last - 1);
}

/* A page has all lanes if more are in use than there are. */
void page_of_lanes_above(void)
{
    static uint8_t page[HOLLYTROT_PAGE];
    const char wanted[] = "answer=0\nplace=0\nrecord=11\nfiles=12\nlanes=64\npayments=55\n";
    hollytrot_board board = numbered_board(50);
    board.used = HOLLYTROT_LANES;
    size_t length = hollytrot_page((hollytrot_answer){0, 0}, 11, 12, board, page, HOLLYTROT_PAGE).length;
    board.used = SIZE_MAX;
    memset(page, 0, sizeof page);
    hollytrot_page_result result = hollytrot_page((hollytrot_answer){0, 0}, 11, 12, board, page, HOLLYTROT_PAGE);
    SAME_ANSWER(result.answer, 0, 0);
    SAME(result.length, length);
    same_bytes(HERE, page, wanted, sizeof wanted - 1);
}
