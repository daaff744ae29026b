/* Compares the two languages of each row of command/words.h: both must have the same conversions of printf in the same
 * order, since the compiler cannot see which of the two is used. Exit status 1 if a row differs. */
#include <stdbool.h>
#include <stdio.h>
#include <string.h>
#include "words.h"

static const struct {
    const char *name, *english, *portuguese;
} rows[] = {
#define ROW(name, english, portuguese) {#name, english, portuguese},
    WORDS(ROW)
#undef ROW
};

/* Longer than the conversions of any row. */
enum { ROOM = 64 };

/* Writes the conversions of a text, each from its % to its letter: `%s%llu`. False if there are too many. */
static bool conversions(const char *text, char out[ROOM])
{
    size_t length = 0;
    while ((text = strchr(text, '%')) != NULL) {
        const size_t more = strcspn(text + 1, "%csdux") + 2;
        if (length + more >= ROOM)
            return false;
        memcpy(out + length, text, more);
        length += more;
        text += more;
    }
    out[length] = '\0';
    return true;
}

int main(void)
{
    const size_t count = sizeof rows / sizeof rows[0];
    char english[ROOM], portuguese[ROOM];
    int status = 0;
    for (size_t row = 0; row < count; row++) {
        if (conversions(rows[row].english, english) && conversions(rows[row].portuguese, portuguese) &&
            strcmp(english, portuguese) == 0)
            continue;
        fprintf(stderr, "words: %s: the conversions of the two languages differ\n", rows[row].name);
        status = 1;
    }
    if (status == 0)
        printf("words: %zu rows have the same conversions in both languages\n", count);
    return status;
}
