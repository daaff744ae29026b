/* The subcommand `board`: one session over all inputs, and the board in the format asked for. */
#include "board.h"

#include <string.h>

/* How many bytes of an input are run at a time: any number from HOLLYTROT_LINED on. */
#ifndef PART
#define PART 262144
#endif

/* What is asked for on the command line. */
struct request {
    bool json, csv, html, reais;
    bool keep_going;
    const char *names;
    const char *agreed;
};

/* The reading of all inputs. */
struct reading {
    const struct request *request;
    struct agreed agreed;
    hollytrot_session session;
    struct files files; /* of the input that is read, for --json */
    struct shown shown;
};

/* Runs the session over an input, up to its end or its first refusal. False if reading failed, with the error in errno,
 * or if what --json writes meanwhile fails. */
static bool input_run(struct reading *reading, struct input *input)
{
    static uint8_t part[PART];
    const struct agreed *agreed = &reading->agreed;
    size_t length = 0;
    bool more;
    do {
        /* what the run before left is at the start of the part */
        length += fread(part + length, 1, PART - length, input->stream);
        if (ferror(input->stream))
            return false;
        more = length == PART;
        const hollytrot_feed_result fed = hollytrot_session_feed(&reading->session, part, length, more, agreed->keys,
                                                                 agreed->length);
        input->answer = fed.answer;
        input->records += fed.records;
        input->bytes += fed.bytes;
        reading->shown.files += fed.files;
        if (reading->request->json)
            files_list(stdout, &reading->files, part, fed.bytes);
        progress_show(input);
        length -= fed.bytes;
        memmove(part, part + fed.bytes, length);
    } while (more && input->answer.number == HOLLYTROT_ACCEPTED && !ferror(stdout));
    if (input->answer.number == HOLLYTROT_ACCEPTED)
        input->answer = hollytrot_session_finish(reading->session).answer;
    return !ferror(stdout);
}

/* The refusal of an input, with its record and bytes. */
static struct refusal refusal_of(const struct input *input, const hollytrot_session *session)
{
    struct refusal refusal = {.input = input->path, .answer = input->answer};
    refusal.record = input->records;
    refusal.byte = input->bytes;
    if (input->answer.number != HOLLYTROT_FILE_OPEN) {
        refusal.record++;
        refusal.byte += input->answer.place != 0 ? input->answer.place : 1;
    }
    refusal.from = input->bytes + 1;
    if (session->opened) /* its header, and the payments that it has taken, are accepted records */
        refusal.from -= (session->file.taken + 1) * (session->file.lined ? HOLLYTROT_LINED : HOLLYTROT_RECORD);
    return refusal;
}

/* Says a refusal, and keeps the first. Under --keep-going its open file is set aside. */
static void refusal_take(struct reading *reading, const struct refusal *refusal)
{
    if (reading->shown.refused++ == 0)
        reading->shown.first = *refusal;
    refusal_text(stderr, refusal);
    if (reading->request->keep_going) {
        reading->session = hollytrot_session_abandon(reading->session);
        fprintf(stderr, word(WORD_SET_ASIDE), (unsigned long long)refusal->from);
    }
    fputc('\n', stderr);
}

/* Takes one input. False if it cannot be read, which is said on standard error, or if standard output fails. */
static bool input_take(struct reading *reading, const char *path, bool first)
{
    const bool json = reading->request->json;
    struct input input = {.path = path, .stream = input_open(path)};
    if (input.stream == NULL)
        return false;
    if (json)
        json_input_begin(stdout, path, first);
    files_begin(&reading->files, &reading->agreed);
    const bool whole = input_run(reading, &input);
    progress_erase();
    if (ferror(input.stream))
        failed(input_name(path));
    input_close(input.stream);
    if (!whole)
        return false;
    const bool refused = input.answer.number != HOLLYTROT_ACCEPTED;
    const struct refusal refusal = refusal_of(&input, &reading->session);
    if (refused)
        refusal_take(reading, &refusal);
    if (json)
        json_input_end(stdout, &reading->files, &input, refused ? &refusal : NULL);
    reading->shown.records += input.records;
    return true;
}

/* Takes all inputs, or up to the first that is refused. False if one cannot be read, or if standard output fails. */
static bool inputs_take(struct reading *reading, int count, char **paths)
{
    progress_begin(reading->request->json);
    for (int at = 0; at < count && (reading->shown.refused == 0 || reading->request->keep_going); at++)
        if (!input_take(reading, paths[at], at == 0))
            return false;
    return true;
}

/* Reads the options, which must go together. */
static int request_read(struct request *request, int *count, char **words)
{
    const struct option table[] = {
        {"json", &request->json, NULL},
        {"csv", &request->csv, NULL},
        {"html", &request->html, NULL},
        {"reais", &request->reais, NULL},
        {"keep-going", &request->keep_going, NULL},
        {"names", NULL, &request->names},
        {"agreed", NULL, &request->agreed},
        {NULL, NULL, NULL},
    };
    if (options_read(table, count, words) != ACCEPTED)
        return FAILED;
    if (request->json + request->csv + request->html + request->reais > 1)
        return misused("%s", word(WORD_ONE_FORMAT));
    if (request->names != NULL && !request->html && !request->reais)
        return misused("%s", word(WORD_NAMES_ALONE));
    return ACCEPTED;
}

/* Prints what is shown in the format asked for. FAILED if the names cannot be read. */
static int shown_print(const struct request *request, struct shown *shown, FILE *names_input)
{
    static struct names names;
    if (names_read(&names, names_input, request->names, shown->board) != ACCEPTED)
        return FAILED;
    shown->names = &names;
    if (request->json)
        json_end(stdout, shown);
    else if (request->csv)
        board_csv(stdout, shown);
    else if (request->html)
        board_html(stdout, shown);
    else if (request->reais)
        board_reais(stdout, shown);
    else
        board_page(stdout, shown);
    return shown->refused == 0 ? ACCEPTED : REFUSED;
}

/* The board of all inputs, when the options are read and the names opened. */
static int board_of(const struct request *request, FILE *names_input, int count, char **paths)
{
    static struct reading reading;
    const int status = agreed_read(&reading.agreed, request->agreed);
    if (status != ACCEPTED)
        return status;
    reading.request = request;
    reading.session = hollytrot_session_new();
    reading.shown.board = &reading.session.shown;
    reading.shown.keep_going = request->keep_going;
    reading.shown.inputs = paths;
    reading.shown.count = (size_t)count;
    if (!inputs_take(&reading, count, paths))
        return FAILED;
    return shown_print(request, &reading.shown, names_input);
}

int board(int count, char **words)
{
    static char dash[] = "-", *standard_input[] = {dash};
    struct request request = {0};
    FILE *names_input = NULL;
    if (request_read(&request, &count, words) != ACCEPTED)
        return FAILED;
    /* opened now, so that a missing file is noticed before a long reading; read when the issuers are known */
    if (request.names != NULL && (names_input = input_open(request.names)) == NULL)
        return FAILED;
    const int status = count != 0 ? board_of(&request, names_input, count, words)
                                  : board_of(&request, names_input, 1, standard_input);
    if (names_input != NULL)
        input_close(names_input);
    return status;
}
