/* Calls the engine for a program that cannot link with it: reads requests from standard input and writes the whole
 * outcome of each to standard output. Both come in frames: a length of four bytes, then that many bytes. Numbers are
 * little-endian and have eight bytes; a length has one byte unless a comment says otherwise. A call's output buffer is
 * filled with FILL before the call, and its bytes follow the answer. src/wire.rs has the other side. */
#include <hollytrot.h>
#include <stdio.h>
#include <stdlib.h>
#include <string.h>

#define FILL 0xA5
#define GUARD 64
#define MOST_OUT 11000
#define MOST_AGREED 255

/* The frame of requests, and the frame of replies. */
static uint8_t *request, *reply;
static size_t at, request_length, reply_length, request_capacity, reply_capacity;

/* The state that calls use and replace, and the output buffer between its guard bytes. */
static hollytrot_session session;
static hollytrot_writer writer;
static uint8_t guarded[GUARD + MOST_OUT + GUARD];

/* The list of agreed issuers of the present call. */
static uint64_t agreed[MOST_AGREED];
static size_t agreed_length;

static _Noreturn void fail(const char *why)
{
    fprintf(stderr, "serve: %s\n", why);
    exit(2);
}

/* The bytes, moved if need be, with a capacity of at least `length`. */
static uint8_t *grown(uint8_t *bytes, size_t *capacity, size_t length)
{
    if (length <= *capacity)
        return bytes;
    bytes = realloc(bytes, 2 * length);
    if (bytes == NULL)
        fail("no memory");
    *capacity = 2 * length;
    return bytes;
}

static const uint8_t *bytes_in(size_t length)
{
    if (request_length - at < length)
        fail("a request is cut off");
    const uint8_t *bytes = request + at;
    at += length;
    return bytes;
}

static uint8_t byte_in(void) { return *bytes_in(1); }

static uint64_t number_in(void)
{
    uint64_t n;
    memcpy(&n, bytes_in(8), 8);
    return n;
}

/* The list of agreed issuers is the last of a request: how many there are, then a number for each. */
static void agreed_in(void)
{
    agreed_length = byte_in();
    memcpy(agreed, bytes_in(8 * agreed_length), 8 * agreed_length);
}

static void bytes_out(const void *bytes, size_t length)
{
    reply = grown(reply, &reply_capacity, reply_length + length);
    memcpy(reply + reply_length, bytes, length);
    reply_length += length;
}

static void number_out(uint64_t n) { bytes_out(&n, 8); }

static void answer_out(hollytrot_answer a) { bytes_out(&a, sizeof a); }

static void part_out(hollytrot_part p) { bytes_out(&p, sizeof p); }

/* Structs with a bool, and pairs, have padding, so their members are written one by one. A bool is written as the byte
 * that it is in memory, 0 or 1. */
static void flag_out(const bool *flag) { bytes_out(flag, 1); }

static void file_out(const hollytrot_file *f)
{
    number_out(f->taken);
    number_out(f->total);
    number_out(f->version);
    flag_out(&f->lined);
}

static void pair_out(const hollytrot_pair *p)
{
    bytes_out(p->bank, sizeof p->bank);
    bytes_out(p->agreement, sizeof p->agreement);
    number_out(p->sequence);
}

static void session_out(const hollytrot_session *s)
{
    bytes_out(&s->shown, sizeof s->shown);
    bytes_out(&s->work, sizeof s->work);
    flag_out(&s->opened);
    file_out(&s->file);
    pair_out(&s->opening);
    for (size_t i = 0; i < HOLLYTROT_PAIRS; i++)
        pair_out(&s->memory.pairs[i]);
    number_out(s->memory.used);
}

static void writer_out(const hollytrot_writer *w)
{
    number_out(w->stage);
    file_out(&w->file);
}

/* An output buffer for a call. */
static uint8_t *new_buffer(size_t length)
{
    if (length > MOST_OUT)
        fail("too large a buffer");
    memset(guarded, FILL, GUARD + length + GUARD);
    return guarded + GUARD;
}

/* Writes the output buffer; the call must not have written to the guard bytes. */
static void buffer_out(size_t length)
{
    for (size_t i = 0; i < GUARD; i++)
        if (guarded[i] != FILL || guarded[GUARD + length + i] != FILL)
            fail("a call wrote outside its output buffer");
    bytes_out(guarded + GUARD, length);
}

static void barcode(void)
{
    size_t length = byte_in();
    const uint8_t *bytes = bytes_in(length);
    agreed_in();
    answer_out(hollytrot_barcode_check(bytes, length, agreed, agreed_length));
    hollytrot_decoded decoded = hollytrot_barcode_decode(bytes, length, agreed, agreed_length);
    bytes_out(&decoded, sizeof decoded);
    part_out(hollytrot_barcode_free_field(bytes, length, agreed, agreed_length));
    answer_out(hollytrot_line_from_barcode(bytes, length, agreed, agreed_length, new_buffer(48), 48));
    buffer_out(48);
}

static void line(void)
{
    size_t length = byte_in();
    const uint8_t *bytes = bytes_in(length);
    agreed_in();
    answer_out(hollytrot_line_check(bytes, length, agreed, agreed_length));
    hollytrot_decoded decoded = hollytrot_line_decode(bytes, length, agreed, agreed_length);
    bytes_out(&decoded, sizeof decoded);
    answer_out(hollytrot_line_to_barcode(bytes, length, agreed, agreed_length, new_buffer(44), 44));
    buffer_out(44);
}

static void record(void)
{
    size_t length = byte_in();
    const uint8_t *bytes = bytes_in(length);
    uint64_t version = number_in();
    agreed_in();
    answer_out(hollytrot_record_check(bytes, length, version, agreed, agreed_length));
    hollytrot_record record = hollytrot_record_decode(bytes, length, version, agreed, agreed_length);
    bytes_out(&record, sizeof record);
    size_t out_length = length > 0 && bytes[0] == 'A' ? HOLLYTROT_HEADER_FIELDS : HOLLYTROT_PAYMENT_FIELDS;
    uint8_t *out = new_buffer(out_length);
    answer_out(hollytrot_record_join(bytes, length, version, agreed, agreed_length, out, out_length));
    buffer_out(out_length);
}

/* The field of every row of the table, and of two rows past it. */
static void fields(void)
{
    size_t length = byte_in();
    const uint8_t *bytes = bytes_in(length);
    uint64_t version = number_in();
    agreed_in();
    for (size_t row = 0; row <= HOLLYTROT_ROWS; row++)
        part_out(hollytrot_record_field(bytes, length, version, row, agreed, agreed_length));
    part_out(hollytrot_record_field(bytes, length, version, SIZE_MAX, agreed, agreed_length));
}

/* The field bytes of a record, into a buffer of any length. */
static void join(void)
{
    size_t out_length = byte_in(), length = byte_in();
    const uint8_t *bytes = bytes_in(length);
    uint64_t version = number_in();
    agreed_in();
    uint8_t *out = new_buffer(out_length);
    answer_out(hollytrot_record_join(bytes, length, version, agreed, agreed_length, out, out_length));
    buffer_out(out_length);
}

/* A conversion, into a buffer of any length. */
static void conversion(void)
{
    uint8_t which = byte_in();
    size_t out_length = byte_in(), length = byte_in();
    const uint8_t *bytes = bytes_in(length);
    agreed_in();
    uint8_t *out = new_buffer(out_length);
    if (which == 0)
        answer_out(hollytrot_line_to_barcode(bytes, length, agreed, agreed_length, out, out_length));
    else
        answer_out(hollytrot_line_from_barcode(bytes, length, agreed, agreed_length, out, out_length));
    buffer_out(out_length);
}

static hollytrot_issuer issuer_in(void)
{
    hollytrot_issuer issuer;
    issuer.segment = number_in();
    issuer.number = number_in();
    return issuer;
}

static void build(void)
{
    hollytrot_issuer issuer = issuer_in();
    uint64_t kind = number_in(), value = number_in();
    size_t out_length = byte_in(), length = byte_in();
    const uint8_t *bytes = bytes_in(length);
    agreed_in();
    uint8_t *out = new_buffer(out_length);
    answer_out(
        hollytrot_barcode_build(issuer, kind, value, bytes, length, agreed, agreed_length, out, out_length));
    buffer_out(out_length);
}

static void date_read(void)
{
    size_t length = byte_in();
    hollytrot_date date = hollytrot_date_read(bytes_in(length), length);
    bytes_out(&date, sizeof date);
}

static void date_check(void)
{
    hollytrot_date date;
    date.year = number_in();
    date.month = number_in();
    date.day = number_in();
    number_out(hollytrot_date_check(date));
}

static void check_digits(void)
{
    size_t length = byte_in();
    const uint8_t *bytes = bytes_in(length);
    number_out(hollytrot_check_ten(bytes, length));
    number_out(hollytrot_check_eleven(bytes, length));
}

static bool flag_in(void) { return byte_in() != 0; }

static hollytrot_file file_in(void)
{
    hollytrot_file file;
    file.taken = number_in();
    file.total = number_in();
    file.version = number_in();
    file.lined = flag_in();
    return file;
}

static hollytrot_pair pair_in(void)
{
    hollytrot_pair pair;
    memcpy(pair.bank, bytes_in(sizeof pair.bank), sizeof pair.bank);
    memcpy(pair.agreement, bytes_in(sizeof pair.agreement), sizeof pair.agreement);
    pair.sequence = number_in();
    return pair;
}

static void session_in(void)
{
    memcpy(&session.shown, bytes_in(sizeof session.shown), sizeof session.shown);
    memcpy(&session.work, bytes_in(sizeof session.work), sizeof session.work);
    session.opened = flag_in();
    session.file = file_in();
    session.opening = pair_in();
    for (size_t i = 0; i < HOLLYTROT_PAIRS; i++)
        session.memory.pairs[i] = pair_in();
    session.memory.used = number_in();
}

static void take_result_out(hollytrot_take_result result)
{
    answer_out(result.answer);
    session = result.session;
    session_out(&session);
}

static void take(void)
{
    size_t length = byte_in();
    const uint8_t *bytes = bytes_in(length);
    agreed_in();
    take_result_out(hollytrot_session_take(session, bytes, length, agreed, agreed_length));
}

/* Whether more bytes are to come, then a length of eight bytes. */
static void run(void)
{
    bool more = flag_in();
    size_t length = number_in();
    const uint8_t *bytes = bytes_in(length);
    agreed_in();
    hollytrot_run_result result = hollytrot_session_run(session, bytes, length, more, agreed, agreed_length);
    answer_out(result.answer);
    number_out(result.records);
    number_out(result.files);
    number_out(result.bytes);
    session = result.session;
    session_out(&session);
}

static void board(void)
{
    hollytrot_board b = hollytrot_session_board(session);
    bytes_out(&b, sizeof b);
}

static void writer_in(void)
{
    writer.stage = number_in();
    writer.file = file_in();
}

static void write_result_out(hollytrot_write_result result, size_t out_length)
{
    answer_out(result.answer);
    writer = result.writer;
    writer_out(&writer);
    buffer_out(out_length);
}

static void header(void)
{
    size_t out_length = byte_in(), length = byte_in();
    const uint8_t *fields = bytes_in(length);
    uint8_t *out = new_buffer(out_length);
    write_result_out(hollytrot_writer_header(writer, fields, length, out, out_length), out_length);
}

static void payment(void)
{
    uint64_t received = number_in(), tariff = number_in();
    size_t out_length = byte_in(), length = byte_in();
    const uint8_t *fields = bytes_in(length);
    agreed_in();
    uint8_t *out = new_buffer(out_length);
    write_result_out(hollytrot_writer_payment(writer, fields, length, received, tariff, agreed, agreed_length, out,
                                              out_length),
                     out_length);
}

static void trailer(void)
{
    size_t out_length = byte_in();
    write_result_out(hollytrot_writer_trailer(writer, new_buffer(out_length), out_length), out_length);
}

/* The page of the session's board shown. The length of the buffer has eight bytes. */
static void page(void)
{
    hollytrot_answer answer;
    answer.number = number_in();
    answer.place = number_in();
    uint64_t records = number_in(), files = number_in();
    size_t out_length = number_in();
    uint8_t *out = new_buffer(out_length);
    hollytrot_page_result result = hollytrot_page(answer, records, files, session.shown, out, out_length);
    bytes_out(&result, sizeof result);
    buffer_out(out_length);
}

static void serve(uint8_t which)
{
    switch (which) {
    case 'b': barcode(); break;
    case 'l': line(); break;
    case 'r': record(); break;
    case 'f': fields(); break;
    case 'j': join(); break;
    case 'c': conversion(); break;
    case 'u': build(); break;
    case 'k': number_out(hollytrot_issuer_key(issuer_in())); break;
    case 'd': date_read(); break;
    case 'D': date_check(); break;
    case 'm': check_digits(); break;
    case 'n': session = hollytrot_session_new(); session_out(&session); break;
    case 's': session_in(); break;
    case 't': take(); break;
    case 'R': run(); break;
    case 'x': session = hollytrot_session_abandon(session); session_out(&session); break;
    case 'e': take_result_out(hollytrot_session_finish(session)); break;
    case 'B': board(); break;
    case 'w': writer_in(); break;
    case 'N': writer = hollytrot_writer_new(); writer_out(&writer); break;
    case 'h': header(); break;
    case 'g': payment(); break;
    case 'z': trailer(); break;
    case 'p': page(); break;
    default: fail("no such request");
    }
}

int main(void)
{
    uint32_t length;
    while (fread(&length, 1, 4, stdin) == 4) {
        request_length = length;
        request = grown(request, &request_capacity, request_length);
        if (fread(request, 1, request_length, stdin) != request_length)
            fail("a frame is cut off");
        reply_length = 0;
        for (at = 0; at < request_length;)
            serve(byte_in());
        length = (uint32_t)reply_length;
        if (fwrite(&length, 1, 4, stdout) != 4 || fwrite(reply, 1, reply_length, stdout) != reply_length ||
            fflush(stdout) != 0)
            fail("standard output");
    }
    return 0;
}
