/* A study written as text, in C: reads a file in the format of docs/STUDY.md, prints its settings, bodies and joints by name, the line and the words of each call that it holds (reading runs none), and the rows
 * that a build makes of each joint. Then it writes the model as text, reads that text, and says whether the model is the same, bit for bit.
 *
 *   cc -Iinclude examples/c/study.c target/lib/libkatydidzinc.a -o target/study-c && target/study-c examples/studies/knee.study
 *
 * A text that cannot be read ends it with 2, as the command `study` does: FILE:LINE:COLUMN: what was expected.
 */
#include "katydidzinc_study.h"

#include <inttypes.h>
#include <stdio.h>
#include <stdlib.h>
#include <string.h>

#define MOST_BYTES 524288

static uint8_t text[MOST_BYTES], again[MOST_BYTES];
static katydidzinc_text storage, second;
static float rows[KATYDIDZINC_TEXT_MOST * KATYDIDZINC_MOST_ROWS * KATYDIDZINC_ROW_WIDTH];

static void refused(const char *call, uint64_t answer)
{
    printf("%s = refused %" PRIu64 ": %s\n", call, answer, katydidzinc_rule(answer));
    exit(1);
}

/* The words of each line from a byte on, with its number; comments are left out. */
static void print_calls(const uint8_t *bytes, size_t length, size_t from)
{
    unsigned line = 1;
    size_t at, end;
    for (at = 0; at < from; at++) {
        line += bytes[at] == '\n';
    }
    for (; at < length; at = end + 1, line++) {
        for (end = at; end < length && bytes[end] != '\n'; end++) {
        }
        while (at < end && (bytes[at] == ' ' || bytes[at] == '\t' || bytes[at] == '\r')) {
            at++;
        }
        if (at < end && bytes[at] != '#') {
            printf("call, line %u: %.*s\n", line, (int)strcspn((const char *)bytes + at, "#\r\n"), (const char *)bytes + at);
        }
    }
}

int main(int argc, char **argv)
{
    katydidzinc_study study, back;
    katydidzinc_text_read read, reread;
    const uint8_t *name;
    size_t length, name_len;
    uint64_t answer;
    uint32_t i;
    FILE *file = argc == 2 ? fopen(argv[1], "rb") : NULL;
    if (file == NULL) {
        fprintf(stderr, "usage: study-c FILE.study\n");
        return 2;
    }
    length = fread(text, 1, sizeof text - 1, file);
    fclose(file);

    memset(&study, 0, sizeof study);
    study.rows = rows;
    study.rows_len = sizeof rows / sizeof *rows;
    back = study;
    read = katydidzinc_study_read(&study, &storage, text, length);
    if (read.fault != 0) {
        fprintf(stderr, "%s:%" PRIu64 ":%" PRIu64 ": %s\n", argv[1], read.line, read.column, katydidzinc_study_fault(read.fault));
        return 2;
    }
    printf("%u bodies, %u joints, dt %" PRId64 " millionths\n", read.bodies, read.joints, katydidzinc_micro_report(study.dt));
    for (i = 0; i < read.bodies; i++) {
        name = katydidzinc_body_name(&storage, text, i, &name_len);
        printf("body %.*s\n", (int)name_len, (const char *)name);
    }
    print_calls(text, length, read.calls);

    answer = katydidzinc_study_load(&study);
    if (!katydidzinc_granted(answer)) {
        refused("load", answer);
    }
    answer = katydidzinc_study_build(&study, 0, 0.0f, 0);
    if (!katydidzinc_granted(answer)) {
        refused("build", answer);
    }
    for (i = 0; i < read.joints; i++) {
        float out[KATYDIDZINC_READ_NUMBERS];
        uint32_t ids[KATYDIDZINC_READ_IDS];
        name = katydidzinc_joint_name(&storage, text, i, &name_len);
        printf("joint %.*s: %u rows\n", (int)name_len, (const char *)name,
               katydidzinc_rows_of(katydidzinc_study_read_rows(&study, i, out, KATYDIDZINC_READ_NUMBERS, ids, KATYDIDZINC_READ_IDS)));
    }

    /* a load writes first rows, which are no part of a text: compare what was read */
    read = katydidzinc_study_read(&study, &storage, text, length);
    answer = katydidzinc_study_write(&study, again, sizeof again);
    if (!katydidzinc_granted(answer)) {
        refused("write", answer);
    }
    reread = katydidzinc_study_read(&back, &second, again, katydidzinc_text_length(answer));
    printf("its text has %zu bytes and reads as %s model\n", katydidzinc_text_length(answer),
           reread.fault == 0 && reread.bodies == read.bodies && reread.joints == read.joints && memcmp(storage.numbers, second.numbers, sizeof storage.numbers) == 0 &&
                   memcmp(storage.words, second.words, sizeof storage.words) == 0
               ? "the same"
               : "another");
    return 0;
}
