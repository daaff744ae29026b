/* Names of issuers, from the file of --names. */
#include "command.h"

#include <string.h>

/* The bytes of a line that are kept: enough for an issuer, a tab and a name that fills NAME_BYTES even if each of its
 * characters is a control character of two bytes, which becomes a blank. */
enum { KEPT = 3 * NAME_BYTES };

/* The issuer of a line, and its name without the blanks and tabs around it; false if the line has not both. */
static bool line_parts(const char *text, size_t length, hollytrot_issuer *issuer, char name[NAME_BYTES])
{
    size_t tab = 0;
    while (tab < length && text[tab] != '\t')
        tab++;
    if (tab == length || !issuer_from_text(text, tab, issuer) || hollytrot_issuer_key(*issuer) == 0)
        return false;
    while (tab < length && (text[tab] == '\t' || text[tab] == ' '))
        tab++;
    size_t end = clean_copy(name, NAME_BYTES, text + tab, length - tab, ' ');
    while (end > 0 && name[end - 1] == ' ')
        end--;
    name[end] = '\0';
    return end > 0;
}

/* Puts a name to the lane of its issuer, if there is one. */
static void name_keep(struct names *names, const hollytrot_board *board, hollytrot_issuer issuer, const char *name)
{
    for (size_t lane = 0; lane < board->used; lane++) {
        const hollytrot_issuer other = board->lanes[lane].issuer;
        if (other.segment == issuer.segment && other.number == issuer.number)
            memcpy(names->of[lane], name, strlen(name) + 1);
    }
}

int names_read(struct names *names, FILE *input, const char *path, const hollytrot_board *board)
{
    char kept[KEPT], name[NAME_BYTES];
    hollytrot_issuer issuer;
    size_t length;
    memset(names, 0, sizeof *names);
    if (input == NULL)
        return ACCEPTED;
    for (unsigned long long number = 1; line_read(input, kept, KEPT, &length); number++) {
        const size_t mark = number == 1 ? mark_length(kept, length) : 0;
        const char *text = kept + mark;
        const size_t known = (length < KEPT ? length : KEPT) - mark;
        if (known == 0 || text[0] == '#')
            continue;
        if (!line_parts(text, known, &issuer, name))
            return failed_with(word(WORD_NAMES_LINE), input_name(path), number);
        name_keep(names, board, issuer, name);
    }
    return ferror(input) ? failed(input_name(path)) : ACCEPTED;
}
