/* Hollytrot, the engine of a premium collector, for C from C99 and C++ from C++98 on.
 *
 * Collection barcodes (44 digits), typed lines (48 digits), return files of 150-byte A, G and Z records, and the
 * board of each insurer's payments, centavos and tariffs. docs/SPEC.md of the sources has the rules, and the order in
 * which each function gives its refusals; they are not repeated here: each part below names its section ("Barcode").
 * docs/REFUSALS.md there has the causes and places of every refusal, and what to do about some of them.
 *
 * Call hollytrot_check_version first. Every function accepts every input. A bad line, record or call gets one refusal,
 * a number and a place, and leaves the session, the writer and your buffers unchanged. Only hollytrot_session_run and
 * hollytrot_session_feed, which take many records, keep those before the refused one. Nothing is allocated, nothing is
 * kept between calls, and no function calls back, so all of them may be called from any thread.
 *
 * What the caller guarantees:
 *   - `bytes`, `fields`, `free_field` and `typed` point to as many bytes, and `agreed` to as many numbers, as the
 *     length behind them says. They do not change during the call.
 *   - `out` points to as many bytes as the length behind it says, which only this call writes and reads. It overlaps no
 *     other argument of the same call.
 *   - Each of these pointers may be NULL if its length is 0, as for an empty list or for the data of an empty vector
 *     of C++: nothing is read or written there.
 *   - A `bool` is 0 or 1, as in every C program. Sessions and writers have some: do not copy one from bytes of unknown
 *     origin.
 * Nothing else: the outcome is defined for every number, every session, every board and every writer. What those get
 * that the program filled itself is under "Arbitrary states" in the sections of docs/SPEC.md.
 *
 * Link with libhollytrot.a or libhollytrot.so, for x86-64 Linux. It needs memcpy, memmove and memset, and nothing
 * else. A call that takes or returns a session needs at most 96 KiB of stack, every other at most 8 KiB, arguments and
 * result included.
 */
#ifndef HOLLYTROT_H
#define HOLLYTROT_H

#include <stdbool.h>
#include <stddef.h>
#include <stdint.h>

#ifdef __cplusplus
extern "C" {
#endif

/* In front of every function: the compiler warns where a program drops an answer, a session or another result. */
#if defined(__cplusplus) && __cplusplus >= 201703L
#define HOLLYTROT_NODISCARD [[nodiscard]]
#elif defined(__has_c_attribute) && defined(__STDC_VERSION__) && __STDC_VERSION__ > 201710L
#define HOLLYTROT_NODISCARD [[nodiscard]]
#elif defined(__GNUC__)
#define HOLLYTROT_NODISCARD __attribute__((warn_unused_result))
#else
#define HOLLYTROT_NODISCARD
#endif

/* The version of this header, as text and as a number: major * 1000000 + minor * 1000 + patch. */
#define HOLLYTROT_VERSION "0.8.0"
#define HOLLYTROT_VERSION_NUMBER 8000

/* The version of the library that the program is linked with, as such a number. */
HOLLYTROT_NODISCARD
uint64_t hollytrot_version(void);

/* Whether the library fits the header that the program was compiled with: both have the same major and minor version,
 * since a patch changes no struct and no number. Call this once, before all other functions, and go no further if it is
 * false: another library may have larger structs, and would then read and write memory that is not its own. Libraries
 * before 0.8.0 have no hollytrot_version: linking fails. */
HOLLYTROT_NODISCARD
static inline bool hollytrot_check_version(void)
{
    return hollytrot_version() / 1000 == HOLLYTROT_VERSION_NUMBER / 1000;
}

/* The lengths that buffers must have, exactly ("Limits"). */
#define HOLLYTROT_BARCODE 44
#define HOLLYTROT_LINE 48
#define HOLLYTROT_RECORD 150
#define HOLLYTROT_LINED 152 /* a record with CR and LF behind it */
#define HOLLYTROT_HEADER_FIELDS 80
#define HOLLYTROT_PAYMENT_FIELDS 121
#define HOLLYTROT_PAGE 10657
/* How many lanes a board has. */
#define HOLLYTROT_LANES 64
/* How many pairs of a bank and an agreement a session remembers. */
#define HOLLYTROT_PAIRS 16
/* The most entries of a list of agreed issuers. */
#define HOLLYTROT_AGREED 64

/* An answer ("Refusals"): number 0 and place 0 if accepted, else the number of the refusal and its place. Places count
 * from 1 in the barcode, line or record that is read; those of the builder, hollytrot_barcode_build, and of the writer
 * in the barcode or record that would be written, not in the free field or the field bytes that they read. Place 0
 * means that the refusal has none. */
typedef struct hollytrot_answer {
    uint64_t number;
    size_t place;
} hollytrot_answer;

/* Every refusal: its number, its name, and what is wrong in English and in Portuguese (UTF-8). This is the one table of
 * these words: the command and the Rust crate use it too. Later versions may add numbers, in any order and with gaps;
 * docs/REFUSALS.md has the causes and places. */
#define HOLLYTROT_REASONS(X) \
    X(1, WRONG_LENGTH, "the length is not the required one", \
      "o tamanho não é o exigido") \
    X(2, NO_DIGIT, "a byte is not a digit", \
      "um byte não é um dígito") \
    X(3, WRONG_PRODUCT, "the product is not 8", \
      "a identificação do produto não é 8") \
    X(4, UNKNOWN_SEGMENT, "the segment is not 1 to 7 or 9", \
      "o segmento não está entre 1 e 7 nem é 9") \
    X(5, UNKNOWN_KIND, "the value kind is not 6 to 9", \
      "o identificador de valor não está entre 6 e 9") \
    X(6, WRONG_BOX_CHECK, "the check of a box is wrong", \
      "o dígito verificador de um bloco está errado") \
    X(7, WRONG_GENERAL_CHECK, "the general check is wrong", \
      "o dígito verificador geral está errado") \
    X(8, NO_TEXT, "a byte is not a text byte", \
      "um byte não é um byte de texto") \
    X(9, NOT_EXPECTED, "the first byte names no record expected now", \
      "o primeiro byte não indica um registro esperado neste ponto") \
    X(10, FIXED_DIFFERS, "a fixed field or the version has other bytes", \
      "um campo fixo ou a versão tem outro conteúdo") \
    X(11, NO_DATE, "eight digits are not a date", \
      "os oito dígitos não são uma data válida") \
    X(12, UNKNOWN_CODE, "the capture or the payment form is unknown", \
      "a forma de captura ou a forma de pagamento é desconhecida") \
    X(13, COUNT_DIFFERS, "the trailer's count is not the file's", \
      "a quantidade de registros do trailer não é a do arquivo") \
    X(14, TOTAL_DIFFERS, "the trailer's total is not the file's", \
      "o total do trailer não é o do arquivo") \
    X(15, FILE_FULL, "the file has as many payments as a file can have", \
      "o arquivo já tem o máximo de pagamentos") \
    X(16, FILE_TOTAL_PASSED, "the file's total would pass its limit", \
      "o total do arquivo passaria do limite") \
    X(17, BOARD_FULL, "a new issuer when all lanes are in use", \
      "um emissor novo, mas todas as linhas do quadro já estão em uso") \
    X(18, BOARD_TOTAL_PASSED, "a total of the board would pass its limit", \
      "um total do quadro passaria do limite") \
    X(19, FILE_OPEN, "the end of the input while a file is open", \
      "a entrada terminou com um arquivo ainda aberto") \
    /* 20 is retired and is not used again */ \
    X(21, TOO_WIDE, "a number is too wide for its field", \
      "um número tem dígitos demais para o seu campo") \
    X(22, NO_LINE_END, "a record of a lined file without CR and LF behind it", \
      "um registro sem CR e LF no fim, em um arquivo que os tem") \
    X(25, WRONG_LIST, "the list of agreed issuers has over 64 entries, one that names no issuer, or an issuer twice", \
      "a lista de emissores com vencimento acordado tem mais de 64, um que não existe ou um repetido") \
    X(26, NOT_FOLLOWING, "the file's number is not the next of its bank and agreement", \
      "o número sequencial (NSA) do arquivo não é o seguinte do seu banco e convênio") \
    X(27, PAIRS_FULL, "a new bank and agreement when 16 are remembered", \
      "um banco e convênio novos, mas 16 já estão na memória")

/* The numbers of answers: HOLLYTROT_ACCEPTED, and HOLLYTROT_ with the name of each refusal, HOLLYTROT_NO_DIGIT. */
enum {
#define HOLLYTROT_NUMBER(number, name, english, portuguese) HOLLYTROT_##name = number,
    HOLLYTROT_REASONS(HOLLYTROT_NUMBER)
#undef HOLLYTROT_NUMBER
    HOLLYTROT_ACCEPTED = 0
};

/* What is wrong, in English and in Portuguese: the words of a refusal's number; those of HOLLYTROT_ACCEPTED say
 * "accepted", and those of a number that is in no row, which this library never answers, "unknown". */
HOLLYTROT_NODISCARD
static inline const char *hollytrot_reason(uint64_t number)
{
    switch (number) {
    case HOLLYTROT_ACCEPTED: return "accepted";
#define HOLLYTROT_WORDS(number, name, english, portuguese) case number: return english;
    HOLLYTROT_REASONS(HOLLYTROT_WORDS)
#undef HOLLYTROT_WORDS
    default: return "unknown";
    }
}

HOLLYTROT_NODISCARD
static inline const char *hollytrot_reason_pt(uint64_t number)
{
    switch (number) {
    case HOLLYTROT_ACCEPTED: return "aceito";
#define HOLLYTROT_WORDS(number, name, english, portuguese) case number: return portuguese;
    HOLLYTROT_REASONS(HOLLYTROT_WORDS)
#undef HOLLYTROT_WORDS
    default: return "desconhecido";
    }
}

/* A part of the caller's bytes: `length` bytes from `bytes + from` on. The empty part is 0 and 0. */
typedef struct hollytrot_part {
    size_t from;
    size_t length;
} hollytrot_part;

/* A date of the years 1900 to 2199 ("Dates"). If there is none, all three are 0. */
typedef struct hollytrot_date {
    uint64_t year;
    uint64_t month;
    uint64_t day;
} hollytrot_date;

/* An issuer is the segment together with its number: 3659 in segments 1 and 2 is two issuers. */
typedef struct hollytrot_issuer {
    uint64_t segment;
    uint64_t number;
} hollytrot_issuer;

/* The fields of a barcode or a typed line. The value is in centavos for kinds 6 and 8, else a reference quantity.
 * `due` is the due date of an agreed issuer; for every other issuer it is three zeros, whatever the free field has. */
typedef struct hollytrot_fields {
    uint64_t kind;
    uint64_t value;
    hollytrot_issuer issuer;
    hollytrot_date due;
} hollytrot_fields;

/* Whether the value of these fields is money, in centavos: kinds 6 and 8. Else it is a reference quantity. The fields
 * of a refused barcode or line are no money. */
HOLLYTROT_NODISCARD
static inline bool hollytrot_is_money(hollytrot_fields fields)
{
    return fields.kind == 6 || fields.kind == 8;
}

/* The bytes that hollytrot_issuer_text may write: two numbers of 20 digits, a hyphen and the NUL. */
#define HOLLYTROT_ISSUER_TEXT 42

/* Writes an issuer into `out` as the page shows it, with a NUL behind it, and returns `out`: the segment, a hyphen, and
 * the number in 4 digits, in segment 6 in 8, so `1-3659` or `6-33041260`. Every number is written in full, also a
 * segment above 9 and a number that needs more digits, which no accepted barcode has. */
HOLLYTROT_NODISCARD
static inline const char *hollytrot_issuer_text(hollytrot_issuer issuer, char out[HOLLYTROT_ISSUER_TEXT])
{
    const size_t width = issuer.segment == 6 ? 8 : 4;
    char reversed[HOLLYTROT_ISSUER_TEXT];
    size_t count = 0, length = 0;
    do {
        reversed[count++] = "0123456789"[issuer.number % 10];
        issuer.number /= 10;
    } while (issuer.number != 0 || count < width);
    reversed[count++] = '-';
    do {
        reversed[count++] = "0123456789"[issuer.segment % 10];
        issuer.segment /= 10;
    } while (issuer.segment != 0);
    while (count != 0)
        out[length++] = reversed[--count];
    out[length] = '\0';
    return out;
}

/* A decoded barcode or typed line. The fields are all 0 if the answer is a refusal. */
typedef struct hollytrot_decoded {
    hollytrot_answer answer;
    hollytrot_fields fields;
} hollytrot_decoded;

/* Agreed issuers ("Agreed issuers").
 *
 * Each call that reads or makes a barcode takes a list, `agreed`, of the issuers that agreed to put a due date first in
 * their free fields. Their due dates are shown, and a barcode of theirs without one is refused 11 at the free field's
 * first place; of all other issuers no due date is shown, so a contract number is never taken for one. A treasury that
 * forecasts by due date then counts real ones only, and every accepted barcode of an agreed issuer has one.
 *
 * A due date is shown in the member `due` of a decoded barcode or line, `fields.due`, and of a decoded G,
 * `payment.barcode.due`. A session only checks due dates: to sum by due date, decode each G with
 * hollytrot_record_decode under the same list, and only those of files that the session accepted to their Z.
 *
 * A list has at most HOLLYTROT_AGREED numbers, in any order: the key of each issuer, by hollytrot_issuer_key. A longer
 * list, a number that is no issuer's key, or an issuer twice is refused 25 at 0, before everything else and whatever
 * the call reads. A list in rising order is checked fastest. Under an empty list no due date is shown and none is
 * required. A list of one issuer, and a line that is due on 2019-09-01:
 *
 *     uint64_t agreed[1] = {hollytrot_issuer_key((hollytrot_issuer){1, 3659})};
 *     const uint8_t *line = (const uint8_t *)"817000000007010936592012909010000000000000000000";
 *     hollytrot_decoded decoded = hollytrot_line_decode(line, HOLLYTROT_LINE, agreed, 1);
 *
 * To check a list alone, pass it to hollytrot_barcode_check with no bytes. The answer is 25 if the list is wrong, else
 * 1:
 *
 *     hollytrot_answer answer = hollytrot_barcode_check(NULL, 0, agreed, 1);
 *
 * Each call has its own list; sessions and writers keep none, and the next call may have another one. A file whose
 * payments were all written under one right list is accepted by a new session that is given that list, unless it names
 * more than 64 issuers. */

/* The key of an issuer, for such a list; 0 if the segment is not 1 to 7 or 9, or the number has more than 4 digits, in
 * segment 6 more than 8. A list that has 0 is refused 25. */
HOLLYTROT_NODISCARD
uint64_t hollytrot_issuer_key(hollytrot_issuer issuer);

/* Barcodes ("Barcode", "Builder"). */

/* Accepted, or the barcode's first refusal. */
HOLLYTROT_NODISCARD
hollytrot_answer hollytrot_barcode_check(const uint8_t *bytes, size_t length, const uint64_t *agreed,
                                         size_t agreed_length);

/* The same answer, with the fields of an accepted barcode. */
HOLLYTROT_NODISCARD
hollytrot_decoded hollytrot_barcode_decode(const uint8_t *bytes, size_t length, const uint64_t *agreed,
                                           size_t agreed_length);

/* The free field as a part of the barcode: 25 bytes, in segment 6 21. The empty part if the barcode or the list is
 * refused. */
HOLLYTROT_NODISCARD
hollytrot_part hollytrot_barcode_free_field(const uint8_t *bytes, size_t length, const uint64_t *agreed,
                                            size_t agreed_length);

/* Writes a barcode into `out`, 44 bytes, from its fields and the digits of the free field: 25, in segment 6 21. The
 * first digit of the free field is place 20, in segment 6 place 24, of the barcode that would be written. */
HOLLYTROT_NODISCARD
hollytrot_answer hollytrot_barcode_build(hollytrot_issuer issuer, uint64_t kind, uint64_t value,
                                         const uint8_t *free_field, size_t free_length, const uint64_t *agreed,
                                         size_t agreed_length, uint8_t *out, size_t out_length);

/* Typed lines: 48 digits, without blanks ("Typed line"). */

/* Accepted, or the line's first refusal. */
HOLLYTROT_NODISCARD
hollytrot_answer hollytrot_line_check(const uint8_t *bytes, size_t length, const uint64_t *agreed,
                                      size_t agreed_length);

/* The same answer, with the fields of an accepted line. For the free field, convert the line to its barcode. */
HOLLYTROT_NODISCARD
hollytrot_decoded hollytrot_line_decode(const uint8_t *bytes, size_t length, const uint64_t *agreed,
                                        size_t agreed_length);

/* Writes the barcode of a line into `out`, 44 bytes. */
HOLLYTROT_NODISCARD
hollytrot_answer hollytrot_line_to_barcode(const uint8_t *bytes, size_t length, const uint64_t *agreed,
                                           size_t agreed_length, uint8_t *out, size_t out_length);

/* Writes the line of a barcode into `out`, 48 bytes. */
HOLLYTROT_NODISCARD
hollytrot_answer hollytrot_line_from_barcode(const uint8_t *bytes, size_t length, const uint64_t *agreed,
                                             size_t agreed_length, uint8_t *out, size_t out_length);

/* Typed text: what a person typed, or pasted from a slip, which prints blanks, dots and hyphens between the digits. The
 * functions of barcodes and lines take digits only, so strip the text first. Then the place of a refusal, which counts
 * in the digits, is turned into the place in the text:
 *
 *     hollytrot_typed line = hollytrot_digits(typed, length);
 *     hollytrot_decoded decoded = hollytrot_line_decode(line.digits, line.length, NULL, 0);
 *     size_t place = hollytrot_place_typed(typed, length, decoded.answer.place);
 */

/* A typed text without its separators: the first `length` bytes of `digits`. They need not be digits: that is for the
 * engine to check. Of a longer text they are the first 49, one more than a line has, so that it is refused 1 and never
 * taken for a line. `count` is how many there are in all. */
typedef struct hollytrot_typed {
    uint8_t digits[HOLLYTROT_LINE + 1];
    size_t length;
    size_t count;
} hollytrot_typed;

/* Whether a byte is one that slips print between digits: a blank, a tab, a dot or a hyphen. */
HOLLYTROT_NODISCARD
static inline bool hollytrot_is_separator(char byte)
{
    return byte == ' ' || byte == '\t' || byte == '.' || byte == '-';
}

/* The typed text without its separators. */
HOLLYTROT_NODISCARD
static inline hollytrot_typed hollytrot_digits(const char *typed, size_t length)
{
    hollytrot_typed text = {{0}, 0, 0};
    for (size_t at = 0; at < length; at++) {
        if (hollytrot_is_separator(typed[at]))
            continue;
        if (text.length < sizeof text.digits)
            text.digits[text.length++] = (uint8_t)typed[at];
        text.count++;
    }
    return text;
}

/* The place in the typed text, in bytes counted from 1, of a place in what hollytrot_digits makes of it. 0 if there is
 * no such place, as for place 0. */
HOLLYTROT_NODISCARD
static inline size_t hollytrot_place_typed(const char *typed, size_t length, size_t place)
{
    size_t count = 0;
    for (size_t at = 0; at < length; at++) {
        if (!hollytrot_is_separator(typed[at]) && ++count == place)
            return at + 1;
    }
    return 0;
}

/* Dates and check digits ("Dates", "Check digits"). */

/* The date of eight digits, YYYYMMDD; three zeros if they are not a date. */
HOLLYTROT_NODISCARD
hollytrot_date hollytrot_date_read(const uint8_t *bytes, size_t length);

/* Whether the three numbers are a date. */
HOLLYTROT_NODISCARD
bool hollytrot_date_check(hollytrot_date date);

/* The check digit, 0 to 9, of any number of digits under modulo 10 and under modulo 11. A byte that is not a digit
 * counts as 0: check the bytes first. */
HOLLYTROT_NODISCARD
uint64_t hollytrot_check_ten(const uint8_t *bytes, size_t length);
HOLLYTROT_NODISCARD
uint64_t hollytrot_check_eleven(const uint8_t *bytes, size_t length);

/* Single records ("Records", "Field bytes").
 *
 * A file is bare, with nothing between its records, or lined, with CR and LF (bytes 13 and 10) behind each of them, the
 * last included ("Line ends"). The functions for a single record take its 150 bytes, without CR and LF.
 *
 * A file has a version of the layout, 4 or 6, which its A names and which decides the captures and payment forms that
 * its Gs may have. A session and a writer know the version of their file. The functions for a single record are told
 * it: pass the member `version` of the file's decoded A. A G that is told any other number is refused 10 at 80, after
 * 25, 1 and 9 and before its fields. For an A or a Z the version does not matter: pass any number. */

/* The values of an A. `version` is 4 or 6. */
typedef struct hollytrot_header {
    uint64_t bank;
    hollytrot_date date;
    uint64_t sequence;
    uint64_t version;
} hollytrot_header;

/* The values of a G: the payment date and the credit date, the barcode, and `received` and `tariff` in centavos. */
typedef struct hollytrot_payment {
    hollytrot_date paid;
    hollytrot_date credited;
    hollytrot_fields barcode;
    uint64_t received;
    uint64_t tariff;
    uint64_t number;
} hollytrot_payment;

/* The values of a Z: the count of all records of the file, A and Z included, and the centavos of its payments. */
typedef struct hollytrot_trailer {
    uint64_t count;
    uint64_t total;
} hollytrot_trailer;

/* A decoded record. `letter` is 'A', 'G' or 'Z' and says which of the three members has the record's values; the
 * others are all 0. If the answer is a refusal, `letter` is 0 too. */
typedef struct hollytrot_record {
    hollytrot_answer answer;
    uint64_t letter;
    hollytrot_header header;
    hollytrot_payment payment;
    hollytrot_trailer trailer;
} hollytrot_record;

/* Rows of the table of fields, with the places of each field: 0 to 10 are those of A, 11 to 23 of G, 24 to 27 of Z. The
 * rows without a name are the letter and, in an A, the `2` behind it, and the blanks at the end. */
enum {
    HOLLYTROT_A_AGREEMENT = 2,       /* 3 to 22 */
    HOLLYTROT_A_COMPANY = 3,         /* 23 to 42 */
    HOLLYTROT_A_BANK = 4,            /* 43 to 45 */
    HOLLYTROT_A_BANK_NAME = 5,       /* 46 to 65 */
    HOLLYTROT_A_DATE = 6,            /* 66 to 73 */
    HOLLYTROT_A_SEQUENCE = 7,        /* 74 to 79 */
    HOLLYTROT_A_VERSION = 8,         /* 80 to 81 */
    HOLLYTROT_A_SERVICE = 9,         /* 82 to 98 */
    HOLLYTROT_G_ACCOUNT = 12,        /* 2 to 21 */
    HOLLYTROT_G_PAID = 13,           /* 22 to 29 */
    HOLLYTROT_G_CREDITED = 14,       /* 30 to 37 */
    HOLLYTROT_G_BARCODE = 15,        /* 38 to 81 */
    HOLLYTROT_G_RECEIVED = 16,       /* 82 to 93 */
    HOLLYTROT_G_TARIFF = 17,         /* 94 to 100 */
    HOLLYTROT_G_NUMBER = 18,         /* 101 to 108 */
    HOLLYTROT_G_BRANCH = 19,         /* 109 to 116 */
    HOLLYTROT_G_CAPTURE = 20,        /* 117 */
    HOLLYTROT_G_AUTHENTICATION = 21, /* 118 to 140 */
    HOLLYTROT_G_FORM = 22,           /* 141 */
    HOLLYTROT_Z_COUNT = 25,          /* 2 to 7 */
    HOLLYTROT_Z_TOTAL = 26,          /* 8 to 24 */
    HOLLYTROT_ROWS = 28
};

/* Accepted, or the first refusal of the record, as one of a file of this version. Neither the order of records nor any
 * sum is checked, nor what follows the record: the next one starts 150 bytes on, 152 in a file whose header is followed
 * by CR and LF. To check a file, run a session over it. */
HOLLYTROT_NODISCARD
hollytrot_answer hollytrot_record_check(const uint8_t *bytes, size_t length, uint64_t version, const uint64_t *agreed,
                                        size_t agreed_length);

/* The same answer, with the values of an accepted record. */
HOLLYTROT_NODISCARD
hollytrot_record hollytrot_record_decode(const uint8_t *bytes, size_t length, uint64_t version, const uint64_t *agreed,
                                         size_t agreed_length);

/* The field of a row, as a part of an accepted record. The empty part if the record or the list is refused, and for a
 * row of another letter or past the table. */
HOLLYTROT_NODISCARD
hollytrot_part hollytrot_record_field(const uint8_t *bytes, size_t length, uint64_t version, size_t row,
                                      const uint64_t *agreed, size_t agreed_length);

/* Writes the field bytes of an accepted A (80) or G (121) into `out`: what the writer takes for the same record. The
 * letter is checked before the length of `out`, which depends on it: a Z, which has no field bytes, is refused 9 at 1,
 * whatever `out` is. Both lengths are checked before the version and the fields. */
HOLLYTROT_NODISCARD
hollytrot_answer hollytrot_record_join(const uint8_t *bytes, size_t length, uint64_t version, const uint64_t *agreed,
                                       size_t agreed_length, uint8_t *out, size_t out_length);

/* The writer of one return file ("Writer"): a value that you keep. Each call returns the next writer, which is equal to
 * the given one if the call is refused.
 *
 * The length of `out` in the header's call decides the form: 150 bytes for a bare file, 152 for a lined one, whose
 * records all get their CR and LF from the writer. In the later calls `out` has the same length.
 *
 * A call that is not expected now is refused 9 at 1, and so is every call of a closed writer: use a new one for each
 * file. 9 comes after 1 for a wrong length; for a payment, which is lent a list, after 25 for a wrong list and 1 for a
 * wrong length.
 *
 * Places count in the record that would be written, not in the field bytes: a bad byte 81 of a G's field bytes is
 * refused at 101. */

/* The figures of an open file, its payments and the centavos they received, the version that its header names, 4 or 6,
 * and whether it is lined. They are 0 and false in a new writer and in a session with no file open. If you set another
 * version yourself, each G is refused 10 at 80. */
typedef struct hollytrot_file {
    uint64_t taken;
    uint64_t total;
    uint64_t version;
    bool lined;
} hollytrot_file;

/* `stage` is 0 before the header and 1 while the file is open; every other number means that it is closed. A closed
 * writer keeps its file. */
typedef struct hollytrot_writer {
    uint64_t stage;
    hollytrot_file file;
} hollytrot_writer;

/* The answer of a call, and the writer after it. */
typedef struct hollytrot_write_result {
    hollytrot_answer answer;
    hollytrot_writer writer;
} hollytrot_write_result;

/* A new writer, which expects a header. */
HOLLYTROT_NODISCARD
hollytrot_writer hollytrot_writer_new(void);

/* Writes the A into `out`, 150 or 152 bytes, from its 80 field bytes: those of places 3 to 81, of which the last two
 * are the version, `04` or `06`, and the second byte of the service field, 79 or 211. */
HOLLYTROT_NODISCARD
hollytrot_write_result hollytrot_writer_header(hollytrot_writer writer, const uint8_t *fields, size_t fields_length,
                                               uint8_t *out, size_t out_length);

/* Writes a G into `out`, as long as the A's, from its 121 field bytes, those of places 2 to 81 and 101 to 141, and the
 * two amounts in centavos. Its capture and payment form must be codes of the version that the writer's header names. */
HOLLYTROT_NODISCARD
hollytrot_write_result hollytrot_writer_payment(hollytrot_writer writer, const uint8_t *fields, size_t fields_length,
                                                uint64_t received, uint64_t tariff, const uint64_t *agreed,
                                                size_t agreed_length, uint8_t *out, size_t out_length);

/* Writes the Z into `out`, as long as the A's, with the file's own count and total, and closes the writer. */
HOLLYTROT_NODISCARD
hollytrot_write_result hollytrot_writer_trailer(hollytrot_writer writer, uint8_t *out, size_t out_length);

/* The board ("Board"): at most 64 lanes, in the order in which issuers first appeared. */

/* The sums of a lane, or of a board: its payments, the centavos they received, and the banks' tariffs, in centavos. */
typedef struct hollytrot_tally {
    uint64_t payments;
    uint64_t centavos;
    uint64_t tariff;
} hollytrot_tally;

/* An issuer and its sums. */
typedef struct hollytrot_lane {
    hollytrot_issuer issuer;
    hollytrot_tally tally;
} hollytrot_lane;

/* The first `used` lanes are in use; `total` is the sum over them. In a board that you filled yourself all lanes are in
 * use if `used` is above 64, and `used` stays as it is; a page shows 64 of them. A payment is refused 18 if a sum of
 * its lane or of the total is past 10^18 already, even a payment of 0 centavos: nothing wraps. */
typedef struct hollytrot_board {
    hollytrot_lane lanes[HOLLYTROT_LANES];
    size_t used;
    hollytrot_tally total;
} hollytrot_board;

/* Sequence numbers ("Sequence numbers"): a session remembers the number of the last accepted file of each pair of bank
 * and agreement, and accepts only the next: a file that comes again is refused 26. */

/* The bank and the agreement of a file, the bytes of its A at places 43 to 45 and 3 to 22, and its number. */
typedef struct hollytrot_pair {
    uint8_t bank[3];
    uint8_t agreement[20];
    uint64_t sequence;
} hollytrot_pair;

/* The first `used` pairs are in use, in the order in which they were first accepted; if `used` is above 16, all are. */
typedef struct hollytrot_memory {
    hollytrot_pair pairs[HOLLYTROT_PAIRS];
    size_t used;
} hollytrot_memory;

/* Sessions ("Sessions"): a value of some 6 KB that you keep. Each call returns the next session, which is equal to the
 * given one if the call is refused; after a run it is the one after the accepted records. */

/* The board shown, which has accepted files only; the working board, which has the open file's payments too; whether a
 * file is open, and its figures, version and form; its bank, agreement and number, all 0 if none is open; and the
 * memory, which has accepted files only.
 *
 * To go on tomorrow where today ended, keep the session. To begin tomorrow with an empty board, keep only its memory,
 * which is plain data, and put it into a new session: a file of today is then refused 26 tomorrow.
 *
 *     hollytrot_session tomorrow = hollytrot_session_new();
 *     tomorrow.memory = today.memory;
 *
 * If you store it outside the program, store it member by member: a pair has padding.
 *
 * A session that you filled yourself is taken as it is. With no file open `work`, `file` and `opening` do not matter:
 * an A starts from `shown`. In an open file a Z with the figures of `file` shows `work`, whatever it has, and remembers
 * `opening`, unless its pair is new and there is no room for it. */
typedef struct hollytrot_session {
    hollytrot_board shown;
    hollytrot_board work;
    bool opened;
    hollytrot_file file;
    hollytrot_pair opening;
    hollytrot_memory memory;
} hollytrot_session;

/* The answer of a call, and the session after it. */
typedef struct hollytrot_take_result {
    hollytrot_answer answer;
    hollytrot_session session;
} hollytrot_take_result;

/* The answer of a run, the session after it, how many records and files were accepted before the first refusal, and how
 * many bytes these records had, CR and LF included. */
typedef struct hollytrot_run_result {
    hollytrot_answer answer;
    hollytrot_session session;
    uint64_t records;
    uint64_t files;
    size_t bytes;
} hollytrot_run_result;

/* The limits of every session ("Limits"): the lanes of its board, the bytes of a record, the most payments and the most
 * centavos of a file, the most that the payments, the centavos or the tariffs of its board may reach, and the pairs
 * that it remembers. */
typedef struct hollytrot_limits {
    size_t lanes;
    size_t record_length;
    uint64_t payments;
    uint64_t file_total;
    uint64_t board_total;
    size_t pairs;
} hollytrot_limits;

/* The limits that this library checks; they are the same for every session and no call changes them. */
HOLLYTROT_NODISCARD
hollytrot_limits hollytrot_session_limits(void);

/* A session with no file open, an empty board and no number remembered. */
HOLLYTROT_NODISCARD
hollytrot_session hollytrot_session_new(void);

/* Takes one record: any bytes of any length. An A of 150 bytes opens a bare file; with CR and LF, 152 bytes, it opens a
 * lined one, whose records are passed with CR and LF too. One that is right but for them is refused 22 at 151; you may
 * pass it again with them. In a bare file a record with CR and LF is refused 1. */
HOLLYTROT_NODISCARD
hollytrot_take_result hollytrot_session_take(hollytrot_session session, const uint8_t *bytes, size_t length,
                                             const uint64_t *agreed, size_t agreed_length);

/* Takes consecutive records, of bare and lined files in any order, up to the first that is refused; those before it
 * remain accepted. This is the fast way to take many records: it copies the session and checks the list once, not for
 * each of them. Under a wrong list nothing is taken.
 *
 * An input may come in parts, split anywhere. While more of it may follow, pass `more` true: nothing is taken then once
 * fewer than 152 bytes are left. This rest, which starts behind the result's `bytes`, goes in front of the next part,
 * so your buffer has at least HOLLYTROT_LINED bytes. At the end of the input run the rest with `more` false: one that
 * is no record is refused then. examples/day.c does this. */
HOLLYTROT_NODISCARD
hollytrot_run_result hollytrot_session_run(hollytrot_session session, const uint8_t *bytes, size_t length, bool more,
                                           const uint64_t *agreed, size_t agreed_length);

/* What hollytrot_session_feed returns: the members of a run's result without the session. */
typedef struct hollytrot_feed_result {
    hollytrot_answer answer;
    uint64_t records;
    uint64_t files;
    size_t bytes;
} hollytrot_feed_result;

/* The same run for a session that you keep in one place: the session after it is put back into `*session`, which must
 * not be NULL. */
HOLLYTROT_NODISCARD
static inline hollytrot_feed_result hollytrot_session_feed(hollytrot_session *session, const uint8_t *bytes,
                                                           size_t length, bool more, const uint64_t *agreed,
                                                           size_t agreed_length)
{
    const hollytrot_run_result run = hollytrot_session_run(*session, bytes, length, more, agreed, agreed_length);
    hollytrot_feed_result result;
    *session = run.session;
    result.answer = run.answer;
    result.records = run.records;
    result.files = run.files;
    result.bytes = run.bytes;
    return result;
}

/* Drops the open file, whose number is not remembered and may come again; the same session if none is open. */
HOLLYTROT_NODISCARD
hollytrot_session hollytrot_session_abandon(hollytrot_session session);

/* The end of the input: 19 if a file is open. The session does not change, and knows nothing of bytes that a run left:
 * run those first, with `more` false. */
HOLLYTROT_NODISCARD
hollytrot_take_result hollytrot_session_finish(hollytrot_session session);

/* The board shown, which is the session's member `shown`. */
HOLLYTROT_NODISCARD
hollytrot_board hollytrot_session_board(hollytrot_session session);

/* The page ("Page"). */

/* How many bytes of the buffer are the page; 0 if the call is refused. */
typedef struct hollytrot_page_result {
    hollytrot_answer answer;
    size_t length;
} hollytrot_page_result;

/* Writes the page into `out`, HOLLYTROT_PAGE bytes: an answer, the records and files accepted, then the board. Bytes
 * after the page do not change. The answer may have any number and any place: the page has whatever they are. */
HOLLYTROT_NODISCARD
hollytrot_page_result hollytrot_page(hollytrot_answer answer, uint64_t records, uint64_t files, hollytrot_board board,
                                     uint8_t *out, size_t out_length);

#ifdef __cplusplus
}
#endif

#endif
