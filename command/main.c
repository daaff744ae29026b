/* The operator's command `hollytrot`: its start, its subcommands, and its end. docs/COMMAND.md says what it does.
 *
 * A new subcommand is a function and a text of --help, declared in command.h, and a row here. */
#include "command.h"

#include <errno.h>
#include <fcntl.h>
#include <signal.h>
#include <string.h>

static const struct subcommand {
    const char *name;
    int (*run)(int count, char **words);
    const char *const *help;
} subcommands[] = {{"board", board, board_help}, {"line", line, line_help}, {"code", code, code_help}};

/* Gives each of the descriptors 0, 1 and 2 that is closed a file on which its use fails, so that no input that is
 * opened later is taken for standard output. False if that is not possible. */
static bool descriptors_filled(void)
{
    for (int descriptor = 0; descriptor <= 2; descriptor++) {
        if (fcntl(descriptor, F_GETFD) != -1)
            continue;
        if (open("/dev/null", descriptor == 0 ? O_WRONLY : O_RDONLY) != descriptor)
            return false;
    }
    return true;
}

/* The command without a subcommand. */
static int run_alone(int count, char **words)
{
    bool version = false;
    const struct option table[] = {{"version", &version, NULL}, {NULL, NULL, NULL}};
    const int status = options_read(table, &count, words);
    if (status != ACCEPTED)
        return status;
    if (!version || count != 0)
        return misused("%s", word(WORD_NO_SUBCOMMAND));
    printf("hollytrot %s\n", HOLLYTROT_VERSION);
    return ACCEPTED;
}

/* The subcommand that a word names, NULL if there is none. */
static const struct subcommand *subcommand_of(const char *name)
{
    for (size_t at = 0; at < sizeof subcommands / sizeof subcommands[0]; at++)
        if (strcmp(name, subcommands[at].name) == 0)
            return &subcommands[at];
    return NULL;
}

/* Whether the library is that of the header; else says so on standard error. */
static bool has_own_library(void)
{
    const unsigned long long version = hollytrot_version();
    if (hollytrot_check_version())
        return true;
    failed_with(word(WORD_OTHER_VERSION), version / 1000000, version / 1000 % 1000, version % 1000, HOLLYTROT_VERSION);
    return false;
}

static int run(int count, char **words)
{
    const struct subcommand *chosen = &(const struct subcommand){NULL, run_alone, command_help};
    options_set_language(count, words);
    if (!has_own_library())
        return FAILED;
    if (count != 0 && words[0][0] != '-') {
        chosen = subcommand_of(words[0]);
        if (chosen == NULL)
            return misused(word(WORD_UNKNOWN_SUBCOMMAND), words[0]);
        subcommand = chosen->name;
        count--;
        words++;
    }
    if (!options_ask_help(count, words))
        return chosen->run(count, words);
    fputs(chosen->help[language], stdout);
    return ACCEPTED;
}

/* The end of every run: what was written is whole, or the status is FAILED. */
static int ended(int status)
{
    const bool broken = ferror(stdout) != 0;
    const int error = errno;
    if (fclose(stdout) == 0 && !broken)
        return status;
    if (broken)
        errno = error; /* that of the write, not of closing */
    return failed(word(WORD_STANDARD_OUTPUT));
}

int main(int count, char **words)
{
    static char errors[BUFSIZ];
    if (!descriptors_filled())
        return FAILED;
    /* a pipe without a reader, and a file at the limit of its size, are errors of writing and not the end */
    signal(SIGPIPE, SIG_IGN);
    signal(SIGXFSZ, SIG_IGN);
    setvbuf(stderr, errors, _IOLBF, sizeof errors);
    language = language_of_environment();
    return ended(run(count > 0 ? count - 1 : 0, words + 1));
}
