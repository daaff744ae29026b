/* The subcommands `line` and `code`: what a clerk types from a slip, as arguments or on standard input. */
#include "command.h"

#include <string.h>

/* A longer typed text is not shown below its refusal. */
enum { SHOWN_BYTES = 1024 };

/* A typed text of any length, added a byte at a time. */
struct typed {
    uint64_t length;
    char text[SHOWN_BYTES]; /* its first bytes */
    bool blank;             /* whether it has nothing but blanks and tabs */
    uint64_t found;         /* how many bytes it has without the separators */
    /* the first of these, and the place of each in the text: one more than a line has, so that the engine sees a length
     * that is too long */
    uint8_t digits[HOLLYTROT_LINE + 1];
    uint64_t places[HOLLYTROT_LINE + 1];
};

/* What a subcommand asks for. */
struct asked {
    uint64_t digits;
    /* the answer and the fields of a typed text, and its 44 digits if it is accepted */
    hollytrot_decoded (*decode)(const struct typed *typed, const struct agreed *agreed, uint8_t *barcode);
    enum word kind;
    enum word accepted;
};

/* A subcommand at work. */
struct slips {
    const struct asked *asked;
    struct agreed agreed;
    struct typed typed;
    unsigned long long number; /* of the typed text, from 1 on, over all that are given */
    int status;
};

static void typed_begin(struct typed *typed)
{
    typed->length = 0;
    typed->blank = true;
    typed->found = 0;
}

static void typed_add(struct typed *typed, char byte)
{
    if (typed->length < SHOWN_BYTES)
        typed->text[typed->length] = byte;
    typed->length++;
    typed->blank = typed->blank && (byte == ' ' || byte == '\t');
    if (hollytrot_is_separator(byte))
        return;
    if (typed->found < sizeof typed->digits) {
        typed->digits[typed->found] = (uint8_t)byte;
        typed->places[typed->found] = typed->length;
    }
    typed->found++;
}

/* Reads a line, without the mark of UTF-8 if it is the first; false if there is none or if reading failed. */
static bool typed_read(struct typed *typed, FILE *input, bool first)
{
    int byte = line_byte(input);
    const bool found = byte != EOF;
    typed_begin(typed);
    for (; byte != '\n' && byte != EOF; byte = line_byte(input)) {
        typed_add(typed, (char)byte);
        if (first && typed->length == mark_length(typed->text, (size_t)typed->length)) {
            typed_begin(typed);
            first = false;
        }
    }
    return found && !ferror(input);
}

/* How many digits the engine is given. */
static size_t typed_digits(const struct typed *typed)
{
    return typed->found < sizeof typed->digits ? (size_t)typed->found : sizeof typed->digits;
}

static hollytrot_decoded decode_line(const struct typed *typed, const struct agreed *agreed, uint8_t *barcode)
{
    hollytrot_decoded decoded = {0};
    decoded.answer = hollytrot_line_to_barcode(typed->digits, typed_digits(typed), agreed->keys, agreed->length,
                                               barcode, HOLLYTROT_BARCODE);
    if (decoded.answer.number != HOLLYTROT_ACCEPTED)
        return decoded;
    return hollytrot_barcode_decode(barcode, HOLLYTROT_BARCODE, agreed->keys, agreed->length);
}

static hollytrot_decoded decode_code(const struct typed *typed, const struct agreed *agreed, uint8_t *barcode)
{
    memcpy(barcode, typed->digits, HOLLYTROT_BARCODE);
    return hollytrot_barcode_decode(typed->digits, typed_digits(typed), agreed->keys, agreed->length);
}

/* `accepted  R$ 1.234,56  issuer 1-3659  due 2019-09-01  code 8160..` on standard output. */
static void print_accepted(const struct asked *asked, hollytrot_fields fields, const uint8_t *barcode)
{
    char value[REAIS_BYTES], issuer[HOLLYTROT_ISSUER_TEXT];
    printf("%s  ", word(asked->accepted));
    if (hollytrot_is_money(fields))
        printf("%s", reais(fields.value, value));
    else
        printf(word(WORD_SLIP_QUANTITY), (unsigned long long)fields.value);
    printf(word(WORD_SLIP_ISSUER), hollytrot_issuer_text(fields.issuer, issuer));
    if (fields.due.year == 0)
        printf("-");
    else
        printf("%04llu-%02llu-%02llu", (unsigned long long)fields.due.year, (unsigned long long)fields.due.month,
               (unsigned long long)fields.due.day);
    printf(word(WORD_SLIP_CODE), HOLLYTROT_BARCODE, (const char *)barcode);
}

/* The refusal on standard error, and below it the text as typed with a mark under the place. */
static void print_refused(const struct slips *slips, hollytrot_answer answer)
{
    const struct typed *typed = &slips->typed;
    const struct asked *asked = slips->asked;
    const unsigned long long number = answer.number;
    fflush(stdout); /* the answers come in their order if standard error goes to the same place */
    if (answer.place == 0) { /* the length: no other refusal of a line or a barcode is without a place */
        fprintf(stderr, word(WORD_SLIP_REFUSED_LENGTH), word(asked->kind), slips->number, number, reason(number),
                (unsigned long long)typed->found, (unsigned long long)asked->digits);
        return;
    }
    const uint64_t place = typed->places[answer.place - 1];
    fprintf(stderr, word(WORD_SLIP_REFUSED_AT), word(asked->kind), slips->number, number, reason(number),
            (unsigned long long)place);
    if (typed->length <= SHOWN_BYTES) {
        char shown[3 * SHOWN_BYTES + 1]; /* a byte that is not UTF-8 becomes three */
        clean_copy(shown, sizeof shown, typed->text, (size_t)typed->length, '?');
        fprintf(stderr, "  %s\n  %*s^\n", shown, (int)characters(typed->text, (size_t)place - 1), "");
    }
}

/* Checks the typed text. */
static void slips_check(struct slips *slips)
{
    uint8_t barcode[HOLLYTROT_BARCODE];
    const hollytrot_decoded decoded = slips->asked->decode(&slips->typed, &slips->agreed, barcode);
    if (decoded.answer.number == HOLLYTROT_ACCEPTED) {
        print_accepted(slips->asked, decoded.fields, barcode);
        return;
    }
    print_refused(slips, decoded.answer);
    if (slips->status == ACCEPTED)
        slips->status = REFUSED;
}

static void slips_check_argument(struct slips *slips, const char *text)
{
    typed_begin(&slips->typed);
    while (*text != '\0')
        typed_add(&slips->typed, *text++);
    slips->number++;
    slips_check(slips);
}

/* Checks each line of standard input that is not blank, unless nobody can read the answers. Blank ones are counted, so
 * that the number is that of the line in a text. */
static void slips_check_input(struct slips *slips)
{
    FILE *input = input_open("-");
    if (input == NULL) {
        slips->status = FAILED;
        return;
    }
    for (bool first = true; !ferror(stdout) && typed_read(&slips->typed, input, first); first = false) {
        slips->number++;
        if (!slips->typed.blank)
            slips_check(slips);
    }
    if (ferror(input))
        slips->status = failed(input_name("-"));
    input_close(input);
}

static int slips_run(const struct asked *asked, int count, char **words)
{
    struct slips slips = {.asked = asked, .status = ACCEPTED};
    const char *path = NULL;
    const struct option table[] = {{"agreed", NULL, &path}, {NULL, NULL, NULL}};
    int status = options_read(table, &count, words);
    if (status == ACCEPTED)
        status = agreed_read(&slips.agreed, path);
    if (status != ACCEPTED)
        return status;
    if (count == 0)
        slips_check_input(&slips);
    for (int i = 0; i < count; i++) {
        if (strcmp(words[i], "-") == 0)
            slips_check_input(&slips);
        else
            slips_check_argument(&slips, words[i]);
    }
    return slips.status;
}

int line(int count, char **words)
{
    static const struct asked asked = {HOLLYTROT_LINE, decode_line, WORD_LINE, WORD_LINE_ACCEPTED};
    return slips_run(&asked, count, words);
}

int code(int count, char **words)
{
    static const struct asked asked = {HOLLYTROT_BARCODE, decode_code, WORD_CODE, WORD_CODE_ACCEPTED};
    return slips_run(&asked, count, words);
}
