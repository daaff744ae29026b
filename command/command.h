/* What the files of the command share. The command is thin: every answer, place and sum is the engine's. */
#ifndef COMMAND_H
#define COMMAND_H

#include <hollytrot.h>
#include <stdio.h>
#include "words.h"

/* The exit statuses: everything accepted; something refused; could not read, write or understand the arguments. */
enum { ACCEPTED = 0, REFUSED = 1, FAILED = 2 };

/* Languages (words.c). The words are in the table of words.h. */
enum language { ENGLISH, PORTUGUESE };
extern enum language language;
/* The language that LC_ALL, LC_MESSAGES or LANG names, the first of them that is not empty: Portuguese if it starts
 * with "pt", else English. */
enum language language_of_environment(void);
/* Sets the language to that of `en` or `pt`; false, and no change, for any other text. */
bool language_set(const char *text);

/* Messages on standard error (messages.c), in the language: one line each, written at once. */

/* The subcommand that runs, which a message of misuse names; NULL if there is none. */
extern const char *subcommand;
/* `hollytrot: WHAT: the system's words for errno`; returns FAILED. */
int failed(const char *what);
/* `hollytrot: ` and a message that printf's format makes; returns FAILED. */
int failed_with(const char *format, ...);
/* The arguments are wrong: the same, with the subcommand in front of the message and a pointer to --help behind it. */
int misused(const char *format, ...);
/* The words of a refusal in the language. */
const char *reason(uint64_t number);
/* Writes text with its control characters as `?`, so that a file's name cannot break a line or a terminal. */
void clean_text(FILE *out, const char *text);

/* Options (options.c): `--name`, or `--name VALUE` and `--name=VALUE`. Options and operands may be mixed; `--` ends the
 * options, and `-` is an operand. Each option may be given once. */
struct option {
    const char *name;   /* without the hyphens */
    bool *given;        /* set by an option without a value, else NULL */
    const char **value; /* set by an option with a value, else NULL; it must be NULL before */
};
/* Reads the options of a subcommand: those of the table, whose last row has no name, and --lang, which all have. Puts
 * the operands at the front of `words`, in their order, and their number into `*count`. ACCEPTED or FAILED (said on
 * standard error). */
int options_read(const struct option *table, int *count, char **words);
/* Whether --help is among the words that come before `--`. */
bool options_ask_help(int count, char **words);
/* Sets the language by --lang among these words, if it is a right one, so that every message has it. */
void options_set_language(int count, char **words);

/* The texts of --help (help.c), by language: of the command itself and of each subcommand. */
extern const char *const command_help[2], *const board_help[2], *const line_help[2], *const code_help[2];

/* Inputs (inputs.c). */

/* The name of an input in messages and for people: `standard input` in the language for "-", else the path itself. */
const char *input_name(const char *path);
/* Opens a path for reading; "-" is standard input, which can be read once. NULL if it cannot be opened, with a message
 * on standard error: the status is then FAILED. */
FILE *input_open(const char *path);
/* Closes it; standard input stays open. */
void input_close(FILE *input);

/* The agreed issuers of --agreed (agreed.c): one a line, `1-3659`; blank lines are passed over. */
struct agreed {
    /* one entry more than a list may have: a longer file gives a list that the engine refuses */
    uint64_t keys[HOLLYTROT_AGREED + 1];
    size_t length;
};
/* Reads the list; the empty one if path is NULL. ACCEPTED, REFUSED (25, said on standard error) or FAILED. */
int agreed_read(struct agreed *agreed, const char *path);
/* The issuer of a text as the page has it, `1-3659` or `6-33041260`, with `length` bytes: a digit, a hyphen and 4
 * digits, behind segment 6 8. False if it is no such text; whether there is such an issuer, hollytrot_issuer_key
 * says. */
bool issuer_from_text(const char *text, size_t length, hollytrot_issuer *issuer);

/* Names of issuers from --names (names.c): `1-3659<tab>Name` a line. */
enum { NAME_BYTES = 256 };
struct names {
    char of[HOLLYTROT_LANES][NAME_BYTES]; /* of each lane of a board; empty if the file has none */
};
/* Reads the names of the board's issuers; all empty if input is NULL. ACCEPTED or FAILED (said on standard error). */
int names_read(struct names *names, FILE *input, const char *path, const hollytrot_board *board);

/* Text (text.c). */

/* Centavos as reais: R$ 42.949.672,97. */
enum { REAIS_BYTES = 40 };
const char *reais(uint64_t centavos, char out[REAIS_BYTES]);
/* A whole number with its thousands parted: 4.294.967.296 in Portuguese, 4,294,967,296 in English. */
const char *parted(uint64_t number, char out[REAIS_BYTES]);
/* A string in JSON, with its quotes. Bytes that are not UTF-8 become U+FFFD. */
void json_text(FILE *out, const char *text, size_t length);
/* The first character of a text of at least one byte: its code point and its UTF-8. Bytes that are not UTF-8 are the
 * character U+FFFD: as many of them together as a cut sequence has, else one. */
enum { REPLACEMENT = 0xFFFD };
struct character {
    uint32_t point;
    size_t taken;      /* how many bytes of the text it has */
    const char *bytes; /* the code point in UTF-8: those bytes, or the three of U+FFFD */
    size_t length;
};
struct character character_first(const char *text, size_t length);
/* Whether a code point is a control character: U+0000 to U+001F and U+007F to U+009F. */
bool is_control(uint32_t point);
/* How many characters a text has. */
size_t characters(const char *text, size_t length);
/* Writes a text with a NUL behind it as people are shown it: a tab is a blank, another control character is `control`,
 * and bytes that are not UTF-8 are U+FFFD. A text that does not fit into `room` bytes is cut behind a whole character.
 * Returns its length without the NUL. */
size_t clean_copy(char *out, size_t room, const char *text, size_t length, char control);
/* The next byte of an input of lines: '\n' at the end of a line, which is LF or CR LF; EOF at the end of the input, and
 * if reading failed. A CR in front of the end of the input is passed over too. */
int line_byte(FILE *input);
/* Reads a line without the blanks, tabs and CRs at its end: its first bytes into `kept`, as much as `room` bytes hold,
 * and the number of all of them into `*length`, which is 0 for a blank line. The last line may lack its LF. False if
 * there is no further line or if reading failed. */
bool line_read(FILE *input, char *kept, size_t room, size_t *length);
/* How many bytes of a text are the mark of UTF-8 that some editors put in front of a file: 3, or 0 if it has none. */
size_t mark_length(const char *text, size_t length);

/* The subcommand `board` (board.c). */

/* A refusal of an input. Records and bytes count from 1 in that input. */
struct refusal {
    const char *input; /* as given on the command line, "-" for standard input */
    hollytrot_answer answer;
    uint64_t record; /* the refused record; for 19, the end of the input in an open file, the last record */
    uint64_t byte;   /* the byte at its place, the record's first if it has no place; for 19 the last byte */
    uint64_t from;   /* nothing of the input is on the board from this byte on */
};
/* Writes `day.ret: refused 2 (a byte is not a digit) at place 87 of record 4, byte 537` in the language, without a newline
 * (messages.c); and the same without the name. */
void refusal_text(FILE *out, const struct refusal *refusal);
void refusal_words(FILE *out, const struct refusal *refusal);

/* What the formats print of all inputs. */
struct shown {
    struct refusal first; /* the first refusal; its answer is accepted if there is none */
    uint64_t refused;     /* how many inputs were refused: more than 1 only under --keep-going */
    bool keep_going;      /* whether reading took up behind a refusal; else the first one ended it */
    uint64_t records;     /* accepted records and files of all inputs */
    uint64_t files;
    char **inputs; /* the inputs that were given, at least one: all of them, even if reading ended before */
    size_t count;
    const hollytrot_board *board;
    const struct names *names;
};
/* Writes what a refusal means for the reading: that it ended there, or how many inputs were set aside (messages.c). */
void refusal_rest(FILE *out, const struct shown *shown);
/* The formats: each writes all of its text to `out`, whose errors the caller checks. */
void board_page(FILE *out, const struct shown *shown);  /* quadro's page */
void board_csv(FILE *out, const struct shown *shown);
void board_reais(FILE *out, const struct shown *shown); /* a table for people */
void board_html(FILE *out, const struct shown *shown);  /* the planner's page */

/* Subcommands. `words` are the command's words behind the subcommand, `count` of them. They return the exit status;
 * main sees to errors of standard output. */
int board(int count, char **words);
int line(int count, char **words);
int code(int count, char **words);

#endif
