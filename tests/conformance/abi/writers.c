/* Writers, bare and lined. They write the records that later tests read. */
#include "abi.h"

static void same_writer(hollytrot_writer found, uint64_t stage, hollytrot_file file)
{
    SAME(found.stage, stage);
    SAME(found.file.taken, file.taken);
    SAME(found.file.total, file.total);
    SAME(found.file.version, file.version);
    SAME(found.file.lined, file.lined);
}

static void fill_fields(void)
{
    memset(fields, ' ', sizeof fields);
    memcpy(fields + 20, "2024010220240304", 16);
    memcpy(fields + 36, code, 44);
    memcpy(fields + 80, "00056789", 8);
    fields[96] = 'g';
    fields[120] = '2';
}

/* The three records, written by a writer with a value in each of its fields. */
void writers(void)
{
    hollytrot_writer writer = hollytrot_writer_new();
    same_writer(writer, 0, (hollytrot_file){0, 0, 0, false});
    hollytrot_write_result result = hollytrot_writer_header(writer, text(header), HOLLYTROT_HEADER_FIELDS, a, 150);
    SAME_ANSWER(result.answer, 0, 0);
    same_writer(result.writer, 1, (hollytrot_file){0, 0, 6, false});

    fill_fields();
    /* with a version that does not have the capture, then with a number that is no version */
    writer = (hollytrot_writer){1, {7, 1000, 4, false}};
    result = hollytrot_writer_payment(writer, fields, 121, 123456, 789, NONE, g, 150);
    SAME_ANSWER(result.answer, 12, 117);
    writer.file.version = (1ull << 32) + 6;
    result = hollytrot_writer_payment(writer, fields, 121, 123456, 789, NONE, g, 150);
    SAME_ANSWER(result.answer, 10, 80);
    same_writer(result.writer, 1, writer.file);
    writer.file.version = 6;
    result = hollytrot_writer_payment(writer, fields, 121, 123456, 789, NONE, g, 150);
    SAME_ANSWER(result.answer, 0, 0);
    same_writer(result.writer, 1, (hollytrot_file){8, 124456, 6, false});

    result = hollytrot_writer_trailer(result.writer, z, 150);
    SAME_ANSWER(result.answer, 0, 0);
    same_writer(result.writer, 2, (hollytrot_file){8, 124456, 6, false});
    same_bytes(HERE, z, "Z00001000000000000124456 ", 25);
    /* a closed writer with another stage number is returned unchanged */
    writer = (hollytrot_writer){77, {8, 9, 10, false}};
    result = hollytrot_writer_trailer(writer, z, 150);
    SAME_ANSWER(result.answer, 9, 1);
    same_writer(result.writer, 77, writer.file);
}

/* A new writer takes buffers of both lengths, whatever its `lined` is. */
void lined_headers(void)
{
    for (int given = 0; given < 2; given++) {
        hollytrot_writer writer = {0, {0, 0, 0, given}};
        SAME_ANSWER(hollytrot_writer_trailer(writer, lined, 150).answer, 9, 1);
        SAME_ANSWER(hollytrot_writer_payment(writer, fields, 121, 1, 0, NONE, lined, 152).answer, 9, 1);
        hollytrot_write_result result = hollytrot_writer_header(writer, text(header), 80, lined, 151);
        SAME_ANSWER(result.answer, 1, 0);
        same_writer(result.writer, 0, writer.file);
        result = hollytrot_writer_header(writer, text(header), 80, lined, 150);
        SAME_ANSWER(result.answer, 0, 0);
        same_writer(result.writer, 1, (hollytrot_file){0, 0, 6, false});
        result = hollytrot_writer_header(writer, text(header), 80, lined, HOLLYTROT_LINED);
        SAME_ANSWER(result.answer, 0, 0);
        same_writer(result.writer, 1, (hollytrot_file){0, 0, 6, true});
    }
}

void lined_writers(void)
{
    uint8_t *out = lined + 152;
    hollytrot_writer writer = {1, {7, 1000, 6, true}};
    hollytrot_write_result result = hollytrot_writer_payment(writer, fields, 121, 123456, 789, NONE, out, 150);
    SAME_ANSWER(result.answer, 1, 0);
    same_writer(result.writer, 1, writer.file);
    result = hollytrot_writer_payment(writer, fields, 121, 123456, 789, NONE, out, 152);
    SAME_ANSWER(result.answer, 0, 0);
    same_writer(result.writer, 1, (hollytrot_file){8, 124456, 6, true});
    out += 152;
    SAME_ANSWER(hollytrot_writer_trailer(result.writer, out, 150).answer, 1, 0);
    result = hollytrot_writer_trailer(result.writer, out, 152);
    SAME_ANSWER(result.answer, 0, 0);
    same_writer(result.writer, 2, (hollytrot_file){8, 124456, 6, true});
    /* closed, it keeps its form */
    SAME_ANSWER(hollytrot_writer_trailer(result.writer, out, 150).answer, 1, 0);
    SAME_ANSWER(hollytrot_writer_trailer(result.writer, out, 152).answer, 9, 1);

    const uint8_t *bare[] = {a, g, z};
    for (size_t i = 0; i < 3; i++) {
        same_bytes(HERE, lined + 152 * i, bare[i], 150);
        same_bytes(HERE, lined + 152 * i + 150, "\r\n", 2);
    }
}

/* The places of the writer count in the record that would be written, not in the field bytes. A byte of 31 is right in
 * no field; it is refused at its own place, in the version and the service field at the field's first. */
void writing_places(void)
{
    uint8_t given[HOLLYTROT_PAYMENT_FIELDS], out[HOLLYTROT_RECORD];
    const hollytrot_writer open = {1, {7, 1000, 6, false}};
    for (size_t i = 0; i < HOLLYTROT_HEADER_FIELDS; i++) {
        size_t place = i + 3;
        memcpy(given, header, HOLLYTROT_HEADER_FIELDS);
        given[i] = 31;
        if (place >= 80)
            place = i == 79 ? 82 : 80;
        SAME(hollytrot_writer_header(hollytrot_writer_new(), given, 80, out, 150).answer.place, place);
    }
    for (size_t i = 0; i < HOLLYTROT_PAYMENT_FIELDS; i++) {
        memcpy(given, fields, sizeof given);
        given[i] = 31;
        size_t place = i < 80 ? i + 2 : i + 21;
        SAME(hollytrot_writer_payment(open, given, 121, 1, 0, NONE, out, 150).answer.place, place);
    }
}
