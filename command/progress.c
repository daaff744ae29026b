/* Progress of a long input on standard error, if that is a terminal. */
#include "board.h"

#include <errno.h>
#include <string.h>
#include <time.h>
#include <unistd.h>

/* How many seconds nothing is shown, and how many bytes of the input's name are: its last ones, so that the whole line
 * fits into a terminal of 80 columns. */
enum { QUIET_SECONDS = 2, NAME_SHOWN = 24, LINE_BYTES = 160 };

static bool is_terminal;
static time_t started;
static time_t last;  /* when the line was written last */
static size_t shown; /* how many bytes it has, 0 if there is none */

void progress_begin(bool printing)
{
    is_terminal = isatty(2) == 1 && !(printing && isatty(1) == 1);
    started = last = is_terminal ? time(NULL) : 0;
}

void progress_erase(void)
{
    const int error = errno;
    if (shown != 0) {
        fprintf(stderr, "\r%*s\r", (int)shown, "");
        fflush(stderr);
        shown = 0;
    }
    errno = error;
}

/* The end of a name, from the start of a UTF-8 character on. */
static const char *name_end(const char *name)
{
    const size_t length = strlen(name);
    if (length <= NAME_SHOWN)
        return name;
    name += length - NAME_SHOWN;
    while ((*name & 0xC0) == 0x80)
        name++;
    return name;
}

void progress_show(const struct input *input)
{
    char line[LINE_BYTES], bytes[REAIS_BYTES], records[REAIS_BYTES];
    if (!is_terminal)
        return;
    const time_t now = time(NULL);
    if (now - started <= QUIET_SECONDS || now == last)
        return;
    progress_erase();
    snprintf(line, sizeof line, word(WORD_PROGRESS), name_end(input_name(input->path)), parted(input->bytes, bytes),
             parted(input->records, records), (unsigned long long)(now - started));
    clean_text(stderr, line);
    fflush(stderr);
    last = now;
    shown = strlen(line);
}
