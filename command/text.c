/* Text: numbers for people, UTF-8, JSON strings, and lines of an input. */
#include "command.h"

#include <string.h>

/* Numbers. */

/* Writes a number with a mark between its thousands, and at least `least` digits, so that it ends before `end`; returns
 * where it starts. */
static char *thousands_before(char *end, uint64_t number, unsigned least, char mark)
{
    for (unsigned digits = 0; number != 0 || digits < least; digits++) {
        if (digits != 0 && digits % 3 == 0)
            *--end = mark;
        *--end = (char)('0' + number % 10);
        number /= 10;
    }
    return end;
}

/* Moves a text with its NUL to the start of its buffer. */
static const char *moved_to_start(char *out, const char *text)
{
    memmove(out, text, strlen(text) + 1);
    return out;
}

const char *reais(uint64_t centavos, char out[REAIS_BYTES])
{
    char *start = out + REAIS_BYTES;
    *--start = '\0';
    start = thousands_before(start, centavos % 100, 2, '.');
    *--start = ',';
    start = thousands_before(start, centavos / 100, 1, '.');
    *--start = ' ';
    *--start = '$';
    *--start = 'R';
    return moved_to_start(out, start);
}

const char *parted(uint64_t number, char out[REAIS_BYTES])
{
    char *start = out + REAIS_BYTES;
    *--start = '\0';
    return moved_to_start(out, thousands_before(start, number, 1, language == PORTUGUESE ? '.' : ','));
}

/* UTF-8. */

struct character character_first(const char *text, size_t length)
{
    const unsigned char *bytes = (const unsigned char *)text;
    const unsigned char lead = bytes[0];
    struct character replaced = {REPLACEMENT, 1, "\xEF\xBF\xBD", 3};
    if (lead < 0x80)
        return (struct character){lead, 1, text, 1};
    if (lead < 0xC2 || lead > 0xF4)
        return replaced;
    const size_t size = lead < 0xE0 ? 2 : lead < 0xF0 ? 3 : 4;
    uint32_t point = lead & (0xFFu >> (size + 1));
    /* the second byte's limits exclude what a shorter sequence encodes, surrogates, and points above U+10FFFF */
    unsigned char least = lead == 0xE0 ? 0xA0 : lead == 0xF0 ? 0x90 : 0x80;
    unsigned char most = lead == 0xED ? 0x9F : lead == 0xF4 ? 0x8F : 0xBF;
    for (size_t i = 1; i < size; i++) {
        if (i == length || bytes[i] < least || bytes[i] > most) {
            replaced.taken = i;
            return replaced;
        }
        point = point << 6 | (bytes[i] & 0x3Fu);
        least = 0x80;
        most = 0xBF;
    }
    return (struct character){point, size, text, size};
}

bool is_control(uint32_t point)
{
    return point < 0x20 || (point >= 0x7F && point <= 0x9F);
}

size_t characters(const char *text, size_t length)
{
    size_t count = 0;
    for (size_t at = 0; at < length; count++)
        at += character_first(text + at, length - at).taken;
    return count;
}

size_t clean_copy(char *out, size_t room, const char *text, size_t length, char control)
{
    size_t end = 0;
    for (size_t at = 0; at < length;) {
        struct character next = character_first(text + at, length - at);
        const char sign = next.point == '\t' ? ' ' : control;
        at += next.taken;
        if (is_control(next.point)) {
            next.bytes = &sign;
            next.length = 1;
        }
        if (end + next.length >= room)
            break;
        memcpy(out + end, next.bytes, next.length);
        end += next.length;
    }
    out[end] = '\0';
    return end;
}

/* JSON. */

void json_text(FILE *out, const char *text, size_t length)
{
    fputc('"', out);
    for (size_t at = 0; at < length;) {
        const struct character next = character_first(text + at, length - at);
        at += next.taken;
        if (next.point < 0x20) {
            fprintf(out, "\\u%04X", (unsigned)next.point);
            continue;
        }
        if (next.point == '"' || next.point == '\\')
            fputc('\\', out);
        fwrite(next.bytes, 1, next.length, out);
    }
    fputc('"', out);
}

/* Lines. */

int line_byte(FILE *input)
{
    const int byte = fgetc(input);
    if (byte != '\r')
        return byte;
    const int next = fgetc(input);
    if (next == '\n' || next == EOF)
        return next;
    ungetc(next, input);
    return byte;
}

bool line_read(FILE *input, char *kept, size_t room, size_t *length)
{
    size_t count = 0;
    int byte = fgetc(input);
    const bool found = byte != EOF;
    *length = 0;
    for (; byte != '\n' && byte != EOF; byte = fgetc(input)) {
        if (count < room)
            kept[count] = (char)byte;
        count++;
        if (byte != ' ' && byte != '\t' && byte != '\r')
            *length = count;
    }
    return found && !ferror(input);
}

size_t mark_length(const char *text, size_t length)
{
    return length >= 3 && memcmp(text, "\xEF\xBB\xBF", 3) == 0 ? 3 : 0;
}
