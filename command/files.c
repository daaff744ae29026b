/* The accepted return files of an input, found in the bytes that a session has accepted. */
#include "board.h"

void files_begin(struct files *files, const struct agreed *agreed)
{
    *files = (struct files){.agreed = agreed};
}

static hollytrot_record decoded(const struct files *files, const uint8_t *bytes)
{
    /* an A and a Z ignore the version */
    return hollytrot_record_decode(bytes, HOLLYTROT_RECORD, 0, files->agreed->keys, files->agreed->length);
}

/* The agreement of an A: from ISO 8859-1 to UTF-8, without the blanks at its end. */
static void agreement_read(struct files *files, const uint8_t *bytes)
{
    hollytrot_part part = hollytrot_record_field(bytes, HOLLYTROT_RECORD, 0, HOLLYTROT_A_AGREEMENT, files->agreed->keys,
                                                 files->agreed->length);
    while (part.length != 0 && bytes[part.from + part.length - 1] == ' ')
        part.length--;
    files->agreement_length = 0;
    for (size_t at = part.from; at < part.from + part.length; at++) {
        if (bytes[at] < 0x80) {
            files->agreement[files->agreement_length++] = (char)bytes[at];
        } else {
            files->agreement[files->agreement_length++] = (char)(0xC0 | bytes[at] >> 6);
            files->agreement[files->agreement_length++] = (char)(0x80 | (bytes[at] & 0x3F));
        }
    }
}

void files_list(FILE *out, struct files *files, const uint8_t *bytes, size_t length)
{
    for (size_t at = 0; at < length; at += files->lined ? HOLLYTROT_LINED : HOLLYTROT_RECORD) {
        const uint8_t *record = bytes + at;
        if (!files->opened) {
            /* CR and LF behind an A are accepted bytes too, and nothing else starts with CR */
            files->lined = length - at >= HOLLYTROT_LINED && record[HOLLYTROT_RECORD] == '\r';
            files->header = decoded(files, record).header;
            agreement_read(files, record);
            files->opened = true;
        } else if (record[0] == 'Z') {
            files->trailer = decoded(files, record).trailer;
            json_file(out, files);
            files->listed++;
            files->opened = false;
        }
    }
}
