/* Takes the return files of standard input and prints the page, as quadro does.
 *
 *   day < FILE
 *
 * Exit status: 0 if all of the input was accepted, 1 if some of it was refused, 2 if reading or writing failed.
 */
#include <hollytrot.h>
#include <stdio.h>
#include <string.h>

/* How many bytes are run at a time: any number from HOLLYTROT_LINED on. */
#ifndef PART
#define PART 65536
#endif

static uint8_t part[PART];
static uint8_t page[HOLLYTROT_PAGE];
/* The page shows no due dates, so the list is the empty one: its length is 0, but its address must not be NULL. */
static const uint64_t none[1] = {0};

int main(void)
{
    hollytrot_answer answer;
    hollytrot_session session = hollytrot_session_new();
    uint64_t records = 0, files = 0;
    size_t length = 0;
    bool more;

    do {
        /* what the run before left is at the start of the part */
        length += fread(part + length, 1, PART - length, stdin);
        more = length == PART;
        hollytrot_run_result run = hollytrot_session_run(session, part, length, more, none, 0);
        answer = run.answer;
        session = run.session;
        records += run.records;
        files += run.files;
        length -= run.bytes;
        memmove(part, part + run.bytes, length);
    } while (more && answer.number == HOLLYTROT_ACCEPTED);
    if (ferror(stdin)) {
        perror("day: standard input");
        return 2;
    }
    if (answer.number == HOLLYTROT_ACCEPTED)
        answer = hollytrot_session_finish(session).answer;

    length = hollytrot_page(answer, records, files, session.shown, page, HOLLYTROT_PAGE).length;
    if (fwrite(page, 1, length, stdout) != length || fflush(stdout) != 0) {
        perror("day: standard output");
        return 2;
    }
    return answer.number == HOLLYTROT_ACCEPTED ? 0 : 1;
}
