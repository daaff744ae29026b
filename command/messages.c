/* Messages on standard error, which main makes line-buffered: a line is one write, however it is put together. */
#include "command.h"

#include <errno.h>
#include <stdarg.h>
#include <string.h>

/* The most bytes of a message that is made by a format; a longer one is cut. */
enum { MESSAGE_BYTES = 4096 };

const char *subcommand = NULL;

void clean_text(FILE *out, const char *text)
{
    for (size_t length = strlen(text); length != 0;) {
        const struct character next = character_first(text, length);
        /* of bytes that are not UTF-8 the first decides: terminals of one byte a character have controls there too */
        const bool control = is_control(next.point == REPLACEMENT ? (unsigned char)*text : next.point);
        if (control)
            fputc('?', out);
        else
            fwrite(text, 1, next.taken, out);
        text += next.taken;
        length -= next.taken;
    }
}

/* The system's words for an error. The system itself has them in English only, unless its languages are installed. */
static const char *error_words(int error)
{
    switch (error) {
    case EACCES: return word(WORD_NO_PERMISSION);
    case ENOENT: return word(WORD_NO_FILE);
    case EISDIR: return word(WORD_DIRECTORY);
    case ENOSPC: return word(WORD_NO_SPACE);
    case EPIPE: return word(WORD_NO_READER);
    case EBADF: return word(WORD_NOT_OPEN);
    case EIO: return word(WORD_INPUT_OUTPUT);
    default: return strerror(error);
    }
}

int failed(const char *what)
{
    const char *words = error_words(errno);
    fputs("hollytrot: ", stderr);
    clean_text(stderr, what);
    fprintf(stderr, ": %s\n", words);
    return FAILED;
}

/* The message of a format, with no control byte in it. */
static void formatted_text(const char *format, va_list arguments)
{
    char text[MESSAGE_BYTES];
    vsnprintf(text, sizeof text, format, arguments);
    clean_text(stderr, text);
}

int failed_with(const char *format, ...)
{
    va_list arguments;
    fputs("hollytrot: ", stderr);
    va_start(arguments, format);
    formatted_text(format, arguments);
    va_end(arguments);
    fputc('\n', stderr);
    return FAILED;
}

int misused(const char *format, ...)
{
    const bool known = subcommand != NULL;
    va_list arguments;
    fprintf(stderr, "hollytrot: %s%s", known ? subcommand : "", known ? ": " : "");
    va_start(arguments, format);
    formatted_text(format, arguments);
    va_end(arguments);
    fprintf(stderr, word(WORD_SEE_HELP), known ? " " : "", known ? subcommand : "");
    fputc('\n', stderr);
    return FAILED;
}

const char *reason(uint64_t number)
{
    return language == PORTUGUESE ? hollytrot_reason_pt(number) : hollytrot_reason(number);
}

void refusal_words(FILE *out, const struct refusal *refusal)
{
    const unsigned long long number = refusal->answer.number, record = refusal->record, byte = refusal->byte;
    const char *words = reason(number);
    if (refusal->answer.place != 0)
        fprintf(out, word(WORD_REFUSED_AT_PLACE), number, words, refusal->answer.place, record, byte);
    else if (number == HOLLYTROT_FILE_OPEN)
        fprintf(out, word(WORD_REFUSED_AFTER_RECORD), number, words, record, byte);
    else
        fprintf(out, word(WORD_REFUSED_AT_RECORD), number, words, record, byte);
}

void refusal_text(FILE *out, const struct refusal *refusal)
{
    clean_text(out, input_name(refusal->input));
    fputs(": ", out);
    refusal_words(out, refusal);
}

void refusal_rest(FILE *out, const struct shown *shown)
{
    char number[REAIS_BYTES];
    if (shown->keep_going)
        fprintf(out, word(WORD_INPUTS_SET_ASIDE), parted(shown->refused, number));
    else
        fputs(word(WORD_READING_ENDED), out);
}
