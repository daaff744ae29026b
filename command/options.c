/* Options, in one form for all subcommands. */
#include "command.h"

#include <string.h>

/* The name of --lang, which options_read takes for all subcommands. */
#define LANGUAGE "lang"

/* The value of a word like `--name=VALUE`, NULL if it is another word. */
static const char *value_in(const char *text, const char *name)
{
    const size_t length = strlen(name);
    if (strncmp(text, "--", 2) != 0 || strncmp(text + 2, name, length) != 0 || text[2 + length] != '=')
        return NULL;
    return text + 2 + length + 1;
}

/* Whether a word is `--name` or `--name=VALUE`. */
static bool names_option(const char *text, const char *name)
{
    return (strncmp(text, "--", 2) == 0 && strcmp(text + 2, name) == 0) || value_in(text, name) != NULL;
}

bool options_ask_help(int count, char **words)
{
    for (int at = 0; at < count && strcmp(words[at], "--") != 0; at++)
        if (strcmp(words[at], "--help") == 0)
            return true;
    return false;
}

void options_set_language(int count, char **words)
{
    for (int at = 0; at < count && strcmp(words[at], "--") != 0; at++) {
        if (!names_option(words[at], LANGUAGE))
            continue;
        const char *value = value_in(words[at], LANGUAGE);
        if (value == NULL && at + 1 < count)
            value = words[at + 1];
        if (value != NULL)
            language_set(value);
        return;
    }
}

/* Reads the option at `*at`, and its value if that is the next word: `*at` is then that word. */
static int option_read(const struct option *option, int *at, int count, char **words)
{
    const char *value = value_in(words[*at], option->name);
    if (option->given != NULL ? *option->given : *option->value != NULL)
        return misused(word(WORD_OPTION_TWICE), option->name);
    if (option->given != NULL) {
        *option->given = true;
        return value == NULL ? ACCEPTED : misused(word(WORD_VALUE_GIVEN), option->name);
    }
    if (value == NULL) {
        if (++*at == count)
            return misused(word(WORD_VALUE_MISSING), option->name);
        value = words[*at];
    }
    *option->value = value;
    return ACCEPTED;
}

int options_read(const struct option *table, int *count, char **words)
{
    const char *lang = NULL;
    const struct option common = {LANGUAGE, NULL, &lang};
    int operands = 0, status = ACCEPTED;
    bool ended = false;
    for (int at = 0; at < *count && status == ACCEPTED; at++) {
        char *text = words[at];
        if (ended || text[0] != '-' || text[1] == '\0') {
            words[operands++] = text;
        } else if (strcmp(text, "--") == 0) {
            ended = true;
        } else {
            const struct option *row = table;
            while (row->name != NULL && !names_option(text, row->name))
                row++;
            if (row->name == NULL && names_option(text, common.name))
                row = &common;
            if (row->name == NULL)
                status = misused(word(WORD_UNKNOWN_OPTION), text);
            else
                status = option_read(row, &at, *count, words);
        }
    }
    *count = operands;
    if (status == ACCEPTED && lang != NULL && !language_set(lang))
        return misused(word(WORD_UNKNOWN_LANGUAGE), lang);
    return status;
}
