/* The words of the command, and the language in which they are said. */
#include "command.h"

#include <stdlib.h>
#include <string.h>

enum language language = ENGLISH;

static const char *const words[][2] = {
#define ROW(name, english, portuguese) {english, portuguese},
    WORDS(ROW)
#undef ROW
};

const char *word(enum word word)
{
    return words[word][language];
}

enum language language_of_environment(void)
{
    static const char *const names[] = {"LC_ALL", "LC_MESSAGES", "LANG"};
    for (size_t i = 0; i < sizeof names / sizeof names[0]; i++) {
        const char *value = getenv(names[i]);
        if (value != NULL && value[0] != '\0')
            return strncmp(value, "pt", 2) == 0 ? PORTUGUESE : ENGLISH;
    }
    return ENGLISH;
}

bool language_set(const char *text)
{
    if (strcmp(text, "en") == 0)
        language = ENGLISH;
    else if (strcmp(text, "pt") == 0)
        language = PORTUGUESE;
    else
        return false;
    return true;
}
