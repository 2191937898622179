/* Replays the stored answers of the unchanged Rust in space: studies with lists of calls, each with the Rust's answer and a checksum of all storage after it.
 *
 *   replay_space < tests/space.answers
 *
 * oracle/README.md has the format (Space, Stored answers). The calls are katydidzinc_space.h's checked ones, which keep the mark; it is not stored, and shows in what later calls answer. Compared are every answer, and by the
 * checksum every number and word of all slices, lent or not, and of what a call read or counted: in bits, all NaNs as one. Printed are the first line that comes out otherwise than stored, with all that was handed over, in bits;
 * then how many lines there are, and how many come out otherwise. The exit is 1 where one does, or is not as the format has it.
 */
#include "katydidzinc_space.h"

#include <inttypes.h>
#include <stdio.h>
#include <stdlib.h>
#include <string.h>

/* In the order in which the format numbers them. */
enum { LOAD, PLACE, BUILD, WARM_START, SWEEP, REMOVE_BIAS, WRITE_BACK, READ_ROWS, READ_VELOCITY, SET, HAND, OPCODES };
static const char *const names[OPCODES] = {"load", "place", "build", "warm start", "sweep", "bias removal", "write-back", "row read", "velocity read", "the caller writes", "the caller hands over less"};
static const int arguments[OPCODES] = {0, 8, 3, 0, 1, 0, 0, 1, 1, 3, 4};

enum { BODIES, WORDS, NUMBERS, ROWS, SLICES, SETTINGS = SLICES, MARK };
static const char *const slice_names[SLICES] = {"bodies", "words", "numbers", "rows"};
static const size_t widths[SLICES] = {KATYDIDZINC_SPACE_BODY_WIDTH, KATYDIDZINC_SPACE_WORDS_WIDTH, KATYDIDZINC_SPACE_NUMBERS_WIDTH, KATYDIDZINC_SPACE_ROW_WIDTH};

/* Storage of one body or joint more than a model may have, and of all their rows. */
#define MOST ((KATYDIDZINC_MOST_JOINTS + 1) * KATYDIDZINC_SPACE_MOST_ROWS * KATYDIDZINC_SPACE_ROW_WIDTH)

/* A study in bits: what it has, of which calls get the first so many. */
static uint32_t settings[3], all[SLICES][MOST], lengths[SLICES];
static uint32_t before[SLICES][MOST]; /* the same before a line */
static katydidzinc_space_study study; /* what is handed over */
static uint32_t out[KATYDIDZINC_SPACE_READ_NUMBERS], ids[KATYDIDZINC_SPACE_READ_IDS];

#define HEADER 8 /* tokens: four lengths, how many lines, three settings */
#define LINE 12  /* tokens: opcode, eight arguments, answer high and low, checksum */
static unsigned long text_line;

static void malformed(const char *what)
{
    printf("malformed: line %lu: %s\n", text_line, what);
    exit(1);
}

/* A line of n tokens. */
static void read_line(uint32_t *tokens, size_t n)
{
    size_t k;
    int i, c;
    text_line++;
    for (k = 0; k < n; k++) {
        tokens[k] = 0;
        for (i = 0; i < 8; i++) {
            c = getchar();
            if (!(c >= '0' && c <= '9') && !(c >= 'A' && c <= 'F')) {
                malformed("a token is eight digits, 0 to 9 and A to F");
            }
            tokens[k] = tokens[k] * 16 + (uint32_t)(c <= '9' ? c - '0' : c - 'A' + 10);
        }
        if (getchar() != (k + 1 < n ? ' ' : '\n')) {
            malformed("another number of tokens");
        }
    }
}

static float number(uint32_t bits)
{
    float x;
    memcpy(&x, &bits, sizeof x);
    return x;
}

/* A number's bits, those of all NaNs as one. */
static uint32_t as_one(uint32_t bits)
{
    return (bits & 0x7FFFFFFF) > 0x7F800000 ? 0x7FC00000 : bits;
}

static uint32_t mixed(uint32_t h, uint32_t x)
{
    return 31 * h + x;
}

/* Of all storage, handed over or not, and of what a granted call has read or counted. */
static uint32_t checksum(uint32_t opcode, uint64_t answer)
{
    uint32_t h = 0, k, rows = katydidzinc_rows_of(answer);
    int i;
    rows = opcode != READ_ROWS ? 0 : rows < KATYDIDZINC_SPACE_MOST_ROWS ? rows : KATYDIDZINC_SPACE_MOST_ROWS;
    for (i = 0; i < SLICES; i++) {
        for (k = 0; k < lengths[i]; k++) {
            h = mixed(h, i == WORDS ? all[i][k] : as_one(all[i][k]));
        }
    }
    if (!katydidzinc_granted(answer)) {
        return h;
    }
    for (k = 0; k < (opcode == READ_VELOCITY ? KATYDIDZINC_SPACE_VELOCITY_NUMBERS : rows * KATYDIDZINC_SPACE_ROW_WIDTH); k++) {
        h = mixed(h, as_one(out[k]));
    }
    for (k = 0; k < rows; k++) {
        h = mixed(h, ids[k]);
    }
    for (k = 0; opcode == SWEEP && k < KATYDIDZINC_MOST_JOINTS; k++) {
        h = mixed(h, study.counts[k]);
    }
    return h;
}

static void hand_over(const uint32_t *lens)
{
    int i;
    for (i = 0; i < SLICES; i++) {
        if (lens[i] > lengths[i]) {
            malformed("more than the study has");
        }
    }
    study.bodies = (float *)(void *)all[BODIES], study.bodies_len = lens[BODIES];
    study.words = all[WORDS], study.words_len = lens[WORDS];
    study.numbers = (float *)(void *)all[NUMBERS], study.numbers_len = lens[NUMBERS];
    study.rows = (float *)(void *)all[ROWS], study.rows_len = lens[ROWS];
}

static void set(uint32_t slice, uint32_t index, uint32_t value)
{
    if (slice > MARK || index >= (slice < SLICES ? lengths[slice] : slice == SETTINGS ? 3 : 1)) {
        malformed("no such place");
    }
    if (slice < SLICES) {
        all[slice][index] = value;
    } else if (slice == SETTINGS) {
        settings[index] = value;
    } else {
        study.built = value;
    }
}

/* Does what a line says. */
static uint64_t done(const uint32_t *t)
{
    float *lent = (float *)(void *)out;
    switch (t[0]) {
    case LOAD: return katydidzinc_space_study_load(&study);
    case PLACE: return katydidzinc_space_study_place(&study, t[1], number(t[2]), number(t[3]), number(t[4]), number(t[5]), number(t[6]), number(t[7]), number(t[8]));
    case BUILD: return katydidzinc_space_study_build(&study, t[1], number(t[2]), t[3]);
    case WARM_START: return katydidzinc_space_study_warm_start(&study);
    case SWEEP: return katydidzinc_space_study_sweep(&study, t[1]);
    case REMOVE_BIAS: return katydidzinc_space_study_remove_bias(&study);
    case WRITE_BACK: return katydidzinc_space_study_write_back(&study);
    case READ_ROWS: return katydidzinc_space_study_read_rows(&study, t[1], lent, KATYDIDZINC_SPACE_READ_NUMBERS, ids, KATYDIDZINC_SPACE_READ_IDS);
    case READ_VELOCITY: return katydidzinc_space_study_read_velocity(&study, t[1], lent, KATYDIDZINC_SPACE_VELOCITY_NUMBERS);
    case SET: set(t[1], t[2], t[3]); return 0;
    default: hand_over(t + 1); return 0;
    }
}

/* What the line says, and with what it was done; `was` is what was handed over before it. */
static void print_difference(const uint32_t *t, uint64_t answer, uint32_t sum, const katydidzinc_space_study *was)
{
    const size_t handed[SLICES] = {was->bodies_len, was->words_len, was->numbers_len, was->rows_len};
    size_t k;
    int i;
    printf("line %lu: %s", text_line, names[t[0]]);
    for (i = 1; i <= arguments[t[0]]; i++) {
        printf(" %08" PRIX32, t[i]);
    }
    printf("\nanswers %08" PRIX32 " %08" PRIX32 ", checksum %08" PRIX32 "; stored are %08" PRIX32 " %08" PRIX32 ", %08" PRIX32 "\n", (uint32_t)(answer >> 32), (uint32_t)answer, sum, t[9], t[10], t[11]);
    printf("settings %08" PRIX32 " %08" PRIX32 " %08" PRIX32 ", built %" PRIu32 "\n", settings[0], settings[1], settings[2], was->built);
    for (i = 0; i < SLICES; i++) {
        printf("%s: %zu of %" PRIu32 "\n", slice_names[i], handed[i], lengths[i]);
        for (k = 0; k < handed[i]; k++) {
            printf("%08" PRIX32 "%c", before[i][k], k + 1 == handed[i] || (k + 1) % widths[i] == 0 ? '\n' : ' ');
        }
    }
}

/* Reads a line, does it, and compares; whether it comes out as stored. */
static int as_stored(int tell)
{
    katydidzinc_space_study was = study;
    uint32_t t[LINE], sum;
    uint64_t answer;
    int i;
    read_line(t, LINE);
    if (t[0] >= OPCODES) {
        malformed("no such opcode");
    }
    for (i = arguments[t[0]] + 1; i < 9; i++) {
        if (t[i] != 0) {
            malformed("an argument too many");
        }
    }
    for (i = 0; i < SLICES; i++) {
        memcpy(before[i], all[i], lengths[i] * sizeof *all[i]);
    }
    /* what a read or a sweep leaves out is not taken from one before */
    memset(out, 0xA9, sizeof out);
    memset(ids, 0xA9, sizeof ids);
    memset(study.counts, 0xA9, sizeof study.counts);
    study.dt = number(settings[0]), study.length_unit = number(settings[1]), study.normalized_max_corrective_velocity = number(settings[2]);
    answer = done(t);
    sum = checksum(t[0], answer);
    if (answer == ((uint64_t)t[9] << 32 | t[10]) && sum == t[11]) {
        return 1;
    }
    if (tell) {
        print_difference(t, answer, sum, &was);
    }
    return 0;
}

int main(void)
{
    uint32_t studies, header[HEADER], i, k;
    unsigned long lines = 0, otherwise = 0;
    size_t at;
    read_line(&studies, 1);
    for (i = 0; i < studies; i++) {
        read_line(header, HEADER);
        memcpy(lengths, header, sizeof lengths);
        for (k = 0; k < SLICES; k++) {
            if (lengths[k] > MOST) {
                malformed("too long a slice");
            }
        }
        memcpy(settings, header + 5, sizeof settings);
        study.built = 0;
        hand_over(lengths);
        for (k = 0; k < SLICES; k++) {
            for (at = 0; at < lengths[k]; at += widths[k]) {
                read_line(all[k] + at, lengths[k] - at < widths[k] ? lengths[k] - at : widths[k]);
            }
        }
        for (k = 0; k < header[4]; k++) {
            lines++;
            otherwise += !as_stored(otherwise == 0);
        }
    }
    text_line++;
    if (getchar() != EOF) {
        malformed("more than the studies");
    }
    printf("replay in space: %" PRIu32 " studies, %lu lines, %lu come out otherwise than stored\n", studies, lines, otherwise);
    return otherwise > 0;
}
