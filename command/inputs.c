/* The inputs of the command: files, and standard input. */
#include "command.h"

#include <string.h>

static bool is_standard_input(const char *path)
{
    return strcmp(path, "-") == 0;
}

const char *input_name(const char *path)
{
    return is_standard_input(path) ? word(WORD_STANDARD_INPUT) : path;
}

FILE *input_open(const char *path)
{
    static bool taken = false; /* standard input: a second reader would take it for an empty one */
    if (is_standard_input(path)) {
        if (taken) {
            failed_with(word(WORD_INPUT_AGAIN), input_name(path));
            return NULL;
        }
        taken = true;
        return stdin;
    }
    FILE *input = fopen(path, "r");
    if (input == NULL)
        failed(path);
    return input;
}

void input_close(FILE *input)
{
    if (input != stdin)
        fclose(input);
}
