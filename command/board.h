/* What the files of the subcommand `board` share. */
#ifndef BOARD_H
#define BOARD_H

#include "command.h"

/* An input that is read. */
struct input {
    const char *path;
    FILE *stream;
    uint64_t records; /* accepted, and their bytes */
    uint64_t bytes;
    hollytrot_answer answer;
};

/* The accepted return files of an input (files.c), which --json lists. */

/* An agreement in UTF-8: each byte of ISO 8859-1 becomes at most two. */
enum { AGREEMENT_BYTES = 40 };

/* A return file whose header was accepted, and what the walk over its bytes needs. */
struct files {
    const struct agreed *agreed;
    bool opened;
    bool lined;
    hollytrot_header header;
    hollytrot_trailer trailer;
    char agreement[AGREEMENT_BYTES];
    size_t agreement_length;
    uint64_t listed; /* return files of this input */
};
/* Begins with an input: no file is open. */
void files_begin(struct files *files, const struct agreed *agreed);
/* Walks over the bytes that a run accepted, and writes an entry by json_file for each return file that ends in them. A
 * file may begin in one run and end in a later one. */
void files_list(FILE *out, struct files *files, const uint8_t *bytes, size_t length);

/* --json (json.c), written while the inputs are read, so that the list of return files needs no memory. The first input
 * begins the whole text, so nothing is written if it cannot be opened. */
void json_input_begin(FILE *out, const char *path, bool first);
void json_file(FILE *out, const struct files *files);
void json_input_end(FILE *out, const struct files *files, const struct input *input, const struct refusal *refusal);
void json_end(FILE *out, const struct shown *shown);

/* Progress (progress.c): a line on standard error that is written over and over, at most once a second and not in the
 * first seconds; nothing where standard error is no terminal, or where standard output is one and `printing` says that
 * it is written meanwhile. */
void progress_begin(bool printing);
void progress_show(const struct input *input);
/* Erases the line, if there is one. Leaves errno as it is. */
void progress_erase(void);

#endif
