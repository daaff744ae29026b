/* The list of agreed issuers, from the file of --agreed. */
#include "command.h"

/* The bytes of a line that are kept: more than any issuer has. */
enum { ENTRY_BYTES = 16 };

bool issuer_from_text(const char *text, size_t length, hollytrot_issuer *issuer)
{
    if (length < 2 || text[0] < '0' || text[0] > '9' || text[1] != '-')
        return false;
    issuer->segment = (uint64_t)(text[0] - '0');
    issuer->number = 0;
    if (length != (issuer->segment == 6 ? 10 : 6))
        return false;
    for (size_t at = 2; at < length; at++) {
        if (text[at] < '0' || text[at] > '9')
            return false;
        issuer->number = issuer->number * 10 + (uint64_t)(text[at] - '0');
    }
    return true;
}

/* Adds the issuer of a text, or 0, which is no issuer's key; false if the engine then refuses the list. */
static bool entry_add(struct agreed *agreed, const char *text, size_t length)
{
    hollytrot_issuer issuer;
    agreed->keys[agreed->length++] = issuer_from_text(text, length, &issuer) ? hollytrot_issuer_key(issuer) : 0;
    const hollytrot_answer answer = hollytrot_barcode_check((const uint8_t *)"", 0, agreed->keys, agreed->length);
    return answer.number != HOLLYTROT_WRONG_LIST;
}

int agreed_read(struct agreed *agreed, const char *path)
{
    char text[ENTRY_BYTES];
    size_t length;
    int status = ACCEPTED;
    agreed->length = 0;
    if (path == NULL)
        return ACCEPTED;
    FILE *input = input_open(path);
    if (input == NULL)
        return FAILED;
    for (unsigned long long line = 1; status == ACCEPTED && line_read(input, text, sizeof text, &length); line++) {
        const size_t mark = line == 1 ? mark_length(text, length) : 0;
        if (length == mark || entry_add(agreed, text + mark, length - mark))
            continue;
        clean_text(stderr, input_name(path));
        fputs(": ", stderr);
        fprintf(stderr, word(WORD_REFUSED_AT_LINE), (unsigned long long)HOLLYTROT_WRONG_LIST,
                reason(HOLLYTROT_WRONG_LIST), line);
        fputc('\n', stderr);
        status = REFUSED;
    }
    if (ferror(input))
        status = failed(input_name(path));
    input_close(input);
    return status;
}
