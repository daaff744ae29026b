/* How much stack a call needs: what the header says. The stack below a call is painted, and what it overwrote is
 * counted. */
#include "abi.h"

#define DEEP (256 * 1024)
#define PAINT 0xA5

/* A little more than is looked at, since the two arrays need not start at the same address. */
__attribute__((noinline)) static void paint(void)
{
    uint8_t below[DEEP + 1024];
    memset(below, PAINT, sizeof below);
    __asm__ volatile("" : : "r"(below) : "memory");
}

/* The bytes from the deepest that was overwritten on. The assembler line leaves the array as it is: for the compiler it
 * sets all of it. */
__attribute__((noinline)) static size_t used(void)
{
    uint8_t below[DEEP];
    size_t untouched = 0;
    __asm__ volatile("" : "=m"(below));
    while (untouched < DEEP && below[untouched] == PAINT)
        untouched++;
    return DEEP - untouched;
}

/* Results are kept here, so that the calls are made and a caller's own stack is its arguments. */
static hollytrot_session session;
static hollytrot_take_result taken;
static hollytrot_run_result run;
static hollytrot_feed_result fed;
static hollytrot_board board;
static hollytrot_record record;
static hollytrot_decoded decoded;
static hollytrot_write_result written;
static hollytrot_page_result printed;
static hollytrot_answer answer;
static hollytrot_part part;
static uint64_t number;
static uint8_t page[HOLLYTROT_PAGE], out[HOLLYTROT_LINED];
/* The record that a call reads. */
static const uint8_t *given;
static const hollytrot_writer fresh, writer = {1, {7, 1000, 6, false}};

static void new_session(void) { session = hollytrot_session_new(); }
static void take(void) { taken = hollytrot_session_take(session, given, 150, MINE); }
static void run_over(void) { run = hollytrot_session_run(session, given, 150, false, MINE); }
static void feed(void) { fed = hollytrot_session_feed(&session, given, 150, false, MINE); }
static void abandon(void) { session = hollytrot_session_abandon(session); }
static void finish(void) { taken = hollytrot_session_finish(session); }
static void shown(void) { board = hollytrot_session_board(session); }

static void print(void) { printed = hollytrot_page(answer, 1, 2, board, page, HOLLYTROT_PAGE); }
static void decode_code(void) { decoded = hollytrot_barcode_decode(code, 44, MINE); }
static void free_field(void) { part = hollytrot_barcode_free_field(code, 44, MINE); }
static void make_line(void) { answer = hollytrot_line_from_barcode(code, 44, MINE, out, 48); }
static void decode_line(void) { decoded = hollytrot_line_decode(out, 48, MINE); }
static void decode_record(void) { record = hollytrot_record_decode(given, 150, 6, MINE); }
static void join(void) { answer = hollytrot_record_join(given, 150, 6, MINE, page, 121); }
static void write_header(void) { written = hollytrot_writer_header(fresh, text(header), 80, out, 152); }
static void write_payment(void) { written = hollytrot_writer_payment(writer, fields, 121, 1, 2, MINE, out, 150); }
static void write_trailer(void) { written = hollytrot_writer_trailer(writer, out, 150); }
static void check(void) { number = hollytrot_check_ten(code, 44) + hollytrot_date_read(text("20240229"), 8).year; }

/* The most that any of the calls needs: with no file open and in an open one, over each record, and over a payment with
 * a wrong general check, which the fast path leaves to the slow one. */
static size_t most_of(void (*const calls[])(void), size_t count)
{
    uint8_t wrong[HOLLYTROT_RECORD];
    const uint8_t *records[] = {a, g, z, wrong};
    size_t most = 0;
    memcpy(wrong, g, sizeof wrong);
    wrong[40] = g[40] == '0' ? '1' : '0';
    for (size_t i = 0; i < 8 * count; i++) {
        given = records[i % 4];
        session = i / 4 % 2 == 0 ? hollytrot_session_new() : open_session(8);
        paint();
        calls[i / 8]();
        size_t depth = used();
        most = depth > most ? depth : most;
    }
    return most;
}

void stacks(void)
{
    static void (*const with_session[])(void) = {new_session, take, run_over, feed, abandon, finish, shown};
    static void (*const without[])(void) = {
        print, decode_code, free_field, make_line, decode_line, decode_record, join, write_header, write_payment,
        write_trailer, check,
    };
    size_t large = most_of(with_session, sizeof with_session / sizeof with_session[0]);
    size_t small = most_of(without, sizeof without / sizeof without[0]);
    /* a session or a board is at least copied: less would mean that the paint was not looked at */
    SAME(large >= sizeof(hollytrot_session) && large <= 96 * 1024, true);
    SAME(small >= sizeof(hollytrot_board) && small <= 8 * 1024, true);
}
