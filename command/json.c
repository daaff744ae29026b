/* The board and its inputs in JSON. docs/COMMAND.md has the format, which is stable: its words are the same in every
 * language. */
#include "board.h"

#include <string.h>

/* A member with a whole number, and what follows it. */
static void member(FILE *out, const char *name, uint64_t number, const char *end)
{
    fprintf(out, "\"%s\": %llu%s", name, (unsigned long long)number, end);
}

static void tally(FILE *out, const hollytrot_tally *tally)
{
    member(out, "payments", tally->payments, ", ");
    member(out, "centavos", tally->centavos, ", ");
    member(out, "tariff", tally->tariff, "}");
}

void json_input_begin(FILE *out, const char *path, bool first)
{
    fputs(first ? "{\n  \"format\": 1,\n  \"inputs\": [" : ",", out);
    fputs("\n    {\n      \"name\": ", out);
    json_text(out, path, strlen(path));
    fputs(",\n      \"files\": [", out);
}

void json_file(FILE *out, const struct files *files)
{
    const hollytrot_header *header = &files->header;
    fprintf(out, "%s\n        {\"bank\": \"%03llu\", \"agreement\": ", files->listed == 0 ? "" : ",",
            (unsigned long long)header->bank);
    json_text(out, files->agreement, files->agreement_length);
    fprintf(out, ", \"date\": \"%04llu-%02llu-%02llu\", ", (unsigned long long)header->date.year,
            (unsigned long long)header->date.month, (unsigned long long)header->date.day);
    member(out, "sequence", header->sequence, ", ");
    member(out, "version", header->version, ", ");
    member(out, "records", files->trailer.count, ", ");
    member(out, "centavos", files->trailer.total, "}");
}

void json_input_end(FILE *out, const struct files *files, const struct input *input, const struct refusal *refusal)
{
    fputs(files->listed == 0 ? "],\n      " : "\n      ],\n      ", out);
    member(out, "records", input->records, ",\n      \"refusal\": ");
    if (refusal == NULL) {
        fputs("null", out);
    } else {
        fputc('{', out);
        member(out, "number", refusal->answer.number, ", \"words\": ");
        const char *words = hollytrot_reason(refusal->answer.number);
        json_text(out, words, strlen(words));
        fputs(", ", out);
        member(out, "place", refusal->answer.place, ", ");
        member(out, "record", refusal->record, ", ");
        member(out, "byte", refusal->byte, ", ");
        member(out, "from", refusal->from, "}");
    }
    fputs("\n    }", out);
}

void json_end(FILE *out, const struct shown *shown)
{
    char issuer[HOLLYTROT_ISSUER_TEXT];
    fputs("\n  ],\n  ", out);
    member(out, "answer", shown->first.answer.number, ",\n  ");
    member(out, "place", shown->first.answer.place, ",\n  ");
    member(out, "records", shown->records, ",\n  ");
    member(out, "files", shown->files, ",\n  \"total\": {");
    tally(out, &shown->board->total);
    fputs(",\n  \"lanes\": [", out);
    for (size_t at = 0; at < shown->board->used; at++) {
        const hollytrot_lane *lane = &shown->board->lanes[at];
        fprintf(out, "%s\n    {\"issuer\": \"%s\", ", at == 0 ? "" : ",", hollytrot_issuer_text(lane->issuer, issuer));
        member(out, "segment", lane->issuer.segment, ", ");
        member(out, "number", lane->issuer.number, ", ");
        tally(out, &lane->tally);
    }
    fputs(shown->board->used == 0 ? "]\n}\n" : "\n  ]\n}\n", out);
}
