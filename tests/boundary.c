/* The library's boundary: COUNT calls with slices of every length around the records' ends, from SEED.
 *
 *   boundary [COUNT] [SEED]
 *
 * Slices lie between pages that cannot be read (tests/lent.h). A refused call, and one whose
 * slice is too short, must leave every slice as it was; a granted one may change only the slices that the header names, a build and a row read only so
 * many rows as they answer, a sweep and a frame only the first 128 of the bytes for their counts, a frame no mass and no part of a record, a load only first rows, a mask change these and four masks. The program itself is to be compiled with -fsanitize=address,undefined.
 */
#define _DEFAULT_SOURCE
#include "katydidzinc.h"
#include "lent.h"

#include <inttypes.h>
#include <stdio.h>
#include <stdlib.h>
#include <string.h>

#define JOINTS 3
#define BODIES 3
static const size_t whole[SLICES] = {BODIES * KATYDIDZINC_BODY_WIDTH,
                                     JOINTS *KATYDIDZINC_WORDS_WIDTH,
                                     JOINTS *KATYDIDZINC_NUMBERS_WIDTH,
                                     JOINTS *KATYDIDZINC_MOST_ROWS *KATYDIDZINC_ROW_WIDTH,
                                     KATYDIDZINC_READ_NUMBERS,
                                     KATYDIDZINC_READ_IDS};

enum { LOAD, PLACE, BUILD, WARM_START, SWEEP, REMOVE_BIAS, WRITE_BACK, READ_ROWS, READ_VELOCITY, SET_TARGETS, SET_MASKS, FRAME, REACTION, RESIDUAL, CALLS };
static const char *const call_names[CALLS] = {"load",          "place",       "build",       "warm start", "sweep",   "bias removal", "write-back", "row read",
                                              "velocity read", "motor table", "mask change", "frame",      "reaction", "residual"};
/* which slices a granted call may write */
static const unsigned writes[CALLS] = {1 << IN_WORDS, 1 << IN_BODIES, 1 << IN_ROWS, 1 << IN_BODIES, 1 << IN_BODIES | 1 << IN_ROWS,
                                       1 << IN_ROWS, 1 << IN_NUMBERS, 1 << IN_OUT | 1 << IN_IDS, 1 << IN_OUT, 1 << IN_NUMBERS, 1 << IN_WORDS, 1 << IN_BODIES | 1 << IN_NUMBERS | 1 << IN_ROWS, 1 << IN_OUT, 0};

static uint64_t answers[CALLS][18]; /* granted, refused with 1 to 16, short */
#define SHORT 17

static uint64_t motors_at_bound; /* counted by granted sweeps and frames */
static uint64_t moves;           /* bodies that granted frames moved */
static uint64_t first_rows;      /* above 0, stored by granted loads and mask changes */
static uint64_t tables_read;
static uint64_t models_drawn, models_short;
static uint64_t residuals; /* that are not 0 */

static uint32_t bits(float x)
{
    uint32_t w;
    memcpy(&w, &x, sizeof w);
    return w;
}

static void set(int slice, int at, float x)
{
    model[slice][at] = bits(x);
}

/* A chain of three bodies from the world on, with limits and motors that any mask may name. */
static void sound_model(void)
{
    float body[KATYDIDZINC_BODY_WIDTH], numbers[KATYDIDZINC_NUMBERS_WIDTH];
    uint32_t words[KATYDIDZINC_WORDS_WIDTH];
    int i, k;
    for (i = 0; i < BODIES; i++) {
        katydidzinc_default_body(body);
        body[KATYDIDZINC_POSE + KATYDIDZINC_POSE_Y] = -0.5f * (float)i;
        body[KATYDIDZINC_INERTIA] = 8.0f;
        body[KATYDIDZINC_MASS_X] = body[KATYDIDZINC_MASS_Y] = 0.5f;
        body[KATYDIDZINC_VELOCITY_X] = 0.25f * (float)i;
        memcpy(model[IN_BODIES] + i * KATYDIDZINC_BODY_WIDTH, body, sizeof body);
    }
    for (i = 0; i < JOINTS; i++) {
        katydidzinc_default_joint(words, numbers, i == 0 ? KATYDIDZINC_WORLD : (uint32_t)i - 1, (uint32_t)i);
        numbers[KATYDIDZINC_FRAME1 + KATYDIDZINC_POSE_Y] = -0.25f;
        numbers[KATYDIDZINC_FRAME2 + KATYDIDZINC_POSE_Y] = 0.25f;
        for (k = 0; k < 3; k++) {
            numbers[KATYDIDZINC_LIMITS_X + k * KATYDIDZINC_LIMITS_WIDTH + KATYDIDZINC_LIMIT_MIN] = -0.125f;
            numbers[KATYDIDZINC_LIMITS_X + k * KATYDIDZINC_LIMITS_WIDTH + KATYDIDZINC_LIMIT_MAX] = 0.5f;
            numbers[KATYDIDZINC_MOTOR_X + k * KATYDIDZINC_MOTOR_WIDTH + KATYDIDZINC_MOTOR_TARGET_VEL] = 1.0f;
            numbers[KATYDIDZINC_MOTOR_X + k * KATYDIDZINC_MOTOR_WIDTH + KATYDIDZINC_MOTOR_DAMPING] = 3.0f;
        }
        memcpy(model[IN_WORDS] + i * KATYDIDZINC_WORDS_WIDTH, words, sizeof words);
        memcpy(model[IN_NUMBERS] + i * KATYDIDZINC_NUMBERS_WIDTH, numbers, sizeof numbers);
    }
}

/* The words that change from call to call: any masks, and now and then a fault. */
static void vary(void)
{
    int j, k;
    sound_model();
    for (j = 0; j < JOINTS; j++) {
        for (k = KATYDIDZINC_LOCKED_AXES; k <= KATYDIDZINC_COUPLED_AXES; k++) {
            model[IN_WORDS][j * KATYDIDZINC_WORDS_WIDTH + k] = draw(k == KATYDIDZINC_COUPLED_AXES && draw(4) > 0 ? 1 : 8);
        }
        model[IN_WORDS][j * KATYDIDZINC_WORDS_WIDTH + KATYDIDZINC_ENABLED] = draw(8) == 0 ? draw(3) : 0;
        model[IN_WORDS][j * KATYDIDZINC_WORDS_WIDTH + KATYDIDZINC_CENTER_CHOICE] = draw(4) == 0;
        model[IN_WORDS][j * KATYDIDZINC_WORDS_WIDTH + KATYDIDZINC_FIRST_ROW] = draw(2) ? UINT32_C(0xFFFFFF00) : draw(20);
    }
    j = (int)draw(JOINTS);
    switch (draw(24)) {
    case 0: model[IN_WORDS][j * KATYDIDZINC_WORDS_WIDTH + KATYDIDZINC_LIMIT_AXES] = 8 + draw(1000); break;
    case 1: model[IN_WORDS][j * KATYDIDZINC_WORDS_WIDTH + KATYDIDZINC_BODY2] = draw(2) ? BODIES : KATYDIDZINC_WORLD - 1; break;
    case 2: model[IN_WORDS][j * KATYDIDZINC_WORDS_WIDTH + KATYDIDZINC_BODY1] = model[IN_WORDS][j * KATYDIDZINC_WORDS_WIDTH + KATYDIDZINC_BODY2]; break;
    case 3: model[IN_NUMBERS][j * KATYDIDZINC_NUMBERS_WIDTH + (int)draw(KATYDIDZINC_NUMBERS_WIDTH)] = 0x7FC00000; break;
    case 4: model[IN_BODIES][draw(BODIES * KATYDIDZINC_BODY_WIDTH)] = 0x7F800000; break;
    case 5:
        model[IN_WORDS][j * KATYDIDZINC_WORDS_WIDTH + KATYDIDZINC_CENTER_CHOICE] = 1;
        set(IN_NUMBERS, j * KATYDIDZINC_NUMBERS_WIDTH + KATYDIDZINC_CENTER_RE, 1025.0f);
        break;
    default: break;
    }
}

/* A motor table's bytes: mostly of records that are read, now and then with a fault; and its length, around 128 too. */
static size_t draw_table(void)
{
    size_t len = 0, wanted = draw(3) == 0 ? draw(BYTES - 32) : draw(40), k;
    char record[32];
    while (len < wanted) {
        int width = snprintf(record, sizeof record, draw(4) == 0 ? "\"%u\",%u,\"%d\"" : "%u,%u,%d", draw(JOINTS), draw(3), (int)draw(16000001) - 8000000);
        memcpy(byte_model + len, record, (size_t)width);
        len += (size_t)width;
        if (len < wanted || draw(2)) {
            byte_model[len++] = '\r';
            byte_model[len++] = '\n';
        }
    }
    if (len > 0 && draw(4) == 0) {
        for (k = 0; k < 1 + draw(2); k++) {
            byte_model[draw((uint32_t)len)] = (unsigned char)"\"\r\n,09-+ a"[draw(10)];
        }
    }
    if (draw(8) == 0) {
        len = draw((uint32_t)len + 1);
    }
    return len;
}

static void fail(const char *what, int call, int slice, uint64_t answer, const size_t *lens)
{
    int i;
    printf("%s: %s, slice %s, answer %" PRIu64 ", lengths", what, call_names[call], slice < SLICES ? slice_names[slice] : "none", answer);
    for (i = 0; i < SLICES; i++) {
        printf(" %zu", lens[i]);
    }
    printf("\n");
    exit(1);
}

/* The words after a granted load, or a mask change of a joint: the joints that are there have their first rows, each at most six rows after the one before; that joint has the
 * new masks; every other word is as it was. */
static int right_words(const uint32_t *words, const size_t *lens, int changes, uint32_t joint, const uint32_t *masks)
{
    size_t joints = lens[IN_WORDS] / KATYDIDZINC_WORDS_WIDTH, of_numbers = lens[IN_NUMBERS] / KATYDIDZINC_NUMBERS_WIDTH, k;
    uint32_t last = 0, most = 0;
    joints = joints < of_numbers ? joints : of_numbers;
    for (k = 0; k < lens[IN_WORDS]; k++) {
        size_t j = k / KATYDIDZINC_WORDS_WIDTH, place = k % KATYDIDZINC_WORDS_WIDTH;
        uint32_t wanted = model[IN_WORDS][k];
        if (j < joints && place == KATYDIDZINC_FIRST_ROW) {
            if (words[k] < last || words[k] - last > most) {
                return 0;
            }
            last = words[k];
            most = KATYDIDZINC_MOST_ROWS;
            first_rows += last > 0;
            continue;
        }
        if (changes && j == joint && place >= KATYDIDZINC_LOCKED_AXES && place <= KATYDIDZINC_COUPLED_AXES) {
            wanted = masks[place - KATYDIDZINC_LOCKED_AXES];
        }
        if (words[k] != wanted) {
            return 0;
        }
    }
    return 1;
}

static void one_call(void)
{
    katydidzinc_study s;
    size_t lens[SLICES];
    uint32_t *at[SLICES];
    int call = (int)draw(CALLS), i, at_end = (int)draw(2);
    uint32_t index = draw(3) == 0 ? draw(2) ? KATYDIDZINC_WORLD : 3 : draw(3), n = draw(16) == 0 ? 65 + draw(3) : draw(4);
    uint32_t mark = draw(4) == 0 ? 0 : draw(2) ? 1 : UINT32_C(0xFFFFFF00), before = mark;
    uint32_t masks[4];
    uint64_t answer = 0;
    size_t filled[SLICES], bytes_len, k;
    unsigned char *bytes_at;
    vary();
    for (i = 0; i < 4; i++) {
        masks[i] = draw(32) == 0 ? 8 + draw(1000) : draw(i == 3 && draw(4) > 0 ? 1 : 8);
    }
    bytes_len = call == SET_TARGETS ? draw_table() : draw_counts();
    bytes_at = lend_bytes(bytes_len, at_end);
    if (call == SWEEP || call == FRAME) {
        byte_lengths_seen[bytes_len] = 1;
    }
    for (i = 0; i < SLICES; i++) {
        lens[i] = draw(3) > 0 ? whole[i] : draw((uint32_t)whole[i] + 3);
        lengths_seen[i][lens[i]] = 1;
        at[i] = lend(i, lens[i], at_end);
        filled[i] = lens[i];
    }
    katydidzinc_default_settings(&s);
    s.dt = draw(32) == 0 ? -1.0f : s.dt;
    s.built = mark;
    s.bodies = (float *)(void *)at[IN_BODIES], s.bodies_len = lens[IN_BODIES];
    s.words = at[IN_WORDS], s.words_len = lens[IN_WORDS];
    s.numbers = (float *)(void *)at[IN_NUMBERS], s.numbers_len = lens[IN_NUMBERS];
    s.rows = (float *)(void *)at[IN_ROWS], s.rows_len = lens[IN_ROWS];
    switch (call) {
    case LOAD: answer = katydidzinc_study_load(&s); break;
    case PLACE: answer = katydidzinc_study_place(&s, index, 0.6f, 0.8f, 1.0f, 2.0f); break;
    case BUILD: answer = katydidzinc_study_build(&s, draw(2), 0.5f, draw(2)); break;
    case WARM_START: answer = katydidzinc_study_warm_start(&s); break;
    case SWEEP: answer = katydidzinc_sweep(KATYDIDZINC_MODEL_OF(&s), KATYDIDZINC_ROWS_OF(&s), n, bytes_at, bytes_len); break;
    case REMOVE_BIAS: answer = katydidzinc_study_remove_bias(&s); break;
    case WRITE_BACK: answer = katydidzinc_study_write_back(&s); break;
    case READ_ROWS: answer = katydidzinc_study_read_rows(&s, index, (float *)(void *)at[IN_OUT], lens[IN_OUT], at[IN_IDS], lens[IN_IDS]); break;
    case READ_VELOCITY: answer = katydidzinc_study_read_velocity(&s, index, (float *)(void *)at[IN_OUT], lens[IN_OUT]); break;
    case SET_TARGETS: answer = katydidzinc_study_set_targets(&s, bytes_at, bytes_len); break;
    case SET_MASKS: answer = katydidzinc_study_set_masks(&s, index, masks[0], masks[1], masks[2], masks[3]); break;
    case FRAME:
        if (bytes_len == KATYDIDZINC_MOST_JOINTS && draw(2)) {
            memcpy(s.counts, bytes_at, KATYDIDZINC_MOST_JOINTS);
            answer = katydidzinc_study_frame(&s, draw(2), 0.5f, n, draw(8) == 0 ? 17 * draw(2) : 1 + draw(3));
            memcpy(bytes_at, s.counts, KATYDIDZINC_MOST_JOINTS);
        } else {
            answer = katydidzinc_frame(KATYDIDZINC_MODEL_OF(&s), KATYDIDZINC_ROWS_OF(&s), draw(2), 0.5f, n, draw(8) == 0 ? 17 * draw(2) : 1 + draw(3), bytes_at, bytes_len);
            s.built = katydidzinc_granted(answer) ? 1 : s.built;
        }
        break;
    /* no calls on a model: any rows, any joint, any number of rows, and nothing is refused */
    case REACTION:
        answer = katydidzinc_reaction(s.bodies, s.bodies_len, s.words, s.words_len, s.numbers, s.numbers_len, index, s.rows, s.rows_len, draw(2) ? draw(9) : KATYDIDZINC_WORLD,
                                      (float *)(void *)at[IN_OUT], lens[IN_OUT]);
        break;
    default: residuals += katydidzinc_residual(s.bodies, s.bodies_len, s.words, s.words_len, index, s.rows, s.rows_len, draw(2) ? draw(20) : KATYDIDZINC_WORLD) != 0.0f; break;
    }

    if (katydidzinc_granted(answer)) {
        answers[call][0]++;
        if ((call == BUILD || call == READ_ROWS) != (answer >= KATYDIDZINC_ROWS_GRANTED)) {
            fail("a wrong kind of answer", call, SLICES, answer, lens);
        }
        before = call == LOAD || call == SET_MASKS ? 0 : call == BUILD || call == FRAME ? 1 : mark;
        if ((call == LOAD || call == SET_MASKS) && !right_words(at[IN_WORDS], lens, call == SET_MASKS, index, masks)) {
            fail("other words than first rows and new masks", call, IN_WORDS, answer, lens);
        }
        if (call == READ_ROWS && (lens[IN_OUT] < KATYDIDZINC_READ_NUMBERS || lens[IN_IDS] < KATYDIDZINC_READ_IDS)) {
            fail("granted into a short slice", call, IN_OUT, answer, lens);
        }
        if ((call == READ_VELOCITY && lens[IN_OUT] < KATYDIDZINC_VELOCITY_NUMBERS) || (call == REACTION && lens[IN_OUT] < KATYDIDZINC_REACTION_NUMBERS)) {
            fail("granted into a short slice", call, IN_OUT, answer, lens);
        }
    } else if (answer == KATYDIDZINC_SHORT_SLICE) {
        answers[call][SHORT]++;
        if (call == READ_ROWS       ? lens[IN_OUT] >= KATYDIDZINC_READ_NUMBERS && lens[IN_IDS] >= KATYDIDZINC_READ_IDS
            : call == READ_VELOCITY ? lens[IN_OUT] >= KATYDIDZINC_VELOCITY_NUMBERS
            : call == REACTION      ? lens[IN_OUT] >= KATYDIDZINC_REACTION_NUMBERS
                                    : (call != SWEEP && call != FRAME) || bytes_len >= KATYDIDZINC_MOST_JOINTS) {
            fail("no slice is short", call, IN_OUT, answer, lens);
        }
    } else if (call != REACTION && ((answer >= 1 && answer <= (call == SET_TARGETS ? 15 : 12)) || (call == FRAME && answer == KATYDIDZINC_SUBSTEPS))) {
        answers[call][answer]++;
    } else {
        fail("no answer of the model", call, SLICES, answer, lens);
    }
    if (s.built != before) {
        fail("a wrong mark", call, SLICES, answer, lens);
    }
    if ((call == SWEEP || call == FRAME) && (bytes_len < KATYDIDZINC_MOST_JOINTS) != (answer == KATYDIDZINC_SHORT_SLICE)) {
        fail("counts: too short a slice, or not", call, SLICES, answer, lens);
    }
    for (k = 0; k < bytes_len; k++) {
        int counted = (call == SWEEP || call == FRAME) && katydidzinc_granted(answer) && k < KATYDIDZINC_MOST_JOINTS;
        if (counted ? bytes_at[k] > (k < JOINTS ? 3 : 0) : bytes_at[k] != byte_model[k]) {
            fail("bytes written where none may be, or no count", call, SLICES, answer, lens);
        }
        motors_at_bound += counted ? bytes_at[k] : 0;
    }
    if (!guarded_bytes(bytes_at, bytes_len)) {
        fail("a guard of the bytes is broken", call, SLICES, answer, lens);
    }

    /* from where on each slice must be as it was */
    for (i = 0; i < SLICES; i++) {
        size_t from = 0, rows = katydidzinc_rows_of(answer);
        if (katydidzinc_granted(answer) && (writes[call] >> i & 1)) {
            from = call == BUILD                     ? rows * KATYDIDZINC_ROW_WIDTH
                   : call == READ_ROWS && i == IN_OUT ? rows * KATYDIDZINC_ROW_WIDTH
                   : call == READ_ROWS                ? rows
                   : call == READ_VELOCITY            ? KATYDIDZINC_VELOCITY_NUMBERS
                   : call == REACTION                 ? KATYDIDZINC_REACTION_NUMBERS
                                                      : lens[i];
        }
        for (k = from; k < lens[i]; k++) {
            if (at[i][k] != model[i][k]) {
                fail("written where nothing may be", call, i, answer, lens);
            }
        }
        if (i == IN_BODIES && call == FRAME && katydidzinc_granted(answer)) {
            for (k = 0; k < lens[i]; k++) {
                size_t place = k % KATYDIDZINC_BODY_WIDTH;
                int may = k / KATYDIDZINC_BODY_WIDTH < lens[i] / KATYDIDZINC_BODY_WIDTH && (place < KATYDIDZINC_INERTIA || place >= KATYDIDZINC_VELOCITY_X);
                if (!may && at[i][k] != model[i][k]) {
                    fail("neither a pose nor a velocity", call, i, answer, lens);
                }
                moves += place == KATYDIDZINC_POSE_X && at[i][k] != model[i][k];
            }
        }
        /* what a build left is the next call's row storage */
        if (i == IN_ROWS && call == BUILD && katydidzinc_granted(answer)) {
            memcpy(model[i], at[i], filled[i] * sizeof *at[i]);
        }
        if (!guarded(i, at[i], lens[i])) {
            fail("a guard is broken", call, i, answer, lens);
        }
    }
}

/* Motor tables without a model: each slice flush with the end of its page. A text is read record by record, written by its words, and read again. */
static void one_table(void)
{
    size_t len = draw_table(), at = 0, written, room;
    unsigned char *text = lend_bytes(len, 1), *out;
    uint32_t *words = pages[IN_OUT] + page_words - 3, *table = pages[IN_ROWS];
    uint64_t answer = katydidzinc_motor_table_read(text, len, JOINTS), n = 0;
    size_t none[SLICES] = {0};
    int i;
    if (katydidzinc_table_refusal(answer) == 0) {
        for (n = 0; n < answer; n++) {
            at = katydidzinc_motor_table_record(text, len, at, words, 3);
            memcpy(table + 3 * n, words, 3 * sizeof *words);
        }
        if (at != (answer == 0 ? 0 : len)) {
            fail("records end elsewhere", SET_TARGETS, SLICES, answer, none);
        }
        memmove(pages[IN_ROWS] + page_words - 3 * n, table, 3 * n * sizeof *table);
        table = pages[IN_ROWS] + page_words - 3 * n;
        written = (size_t)katydidzinc_motor_table_write(table, 3 * n, JOINTS, (unsigned char *)pages[IN_NUMBERS], 0);
        for (i = 0; i < 2; i++) {
            room = i == 0 && written > 0 ? written - 1 : written;
            out = (unsigned char *)(pages[IN_NUMBERS] + page_words) - room;
            if (katydidzinc_motor_table_write(table, 3 * n, JOINTS, out, room) != written) {
                fail("a text's length depends on the room for it", SET_TARGETS, SLICES, written, none);
            }
            if (room < written && room >= sizeof(uint32_t) && pages[IN_NUMBERS][page_words - 1] != PATTERN) {
                fail("a part of a text is written", SET_TARGETS, SLICES, written, none);
            }
        }
        if (katydidzinc_motor_table_read(out, written, JOINTS) != n) {
            fail("a text that was written does not read back", SET_TARGETS, SLICES, written, none);
        }
        tables_read++;
    } else if (katydidzinc_table_refusal(answer) < 13 || katydidzinc_table_refusal(answer) > 15) {
        fail("no answer of a table", SET_TARGETS, SLICES, answer, none);
    }
    for (i = 0; i < SLICES; i++) {
        size_t k;
        for (k = 0; k < page_words; k++) {
            pages[i][k] = PATTERN;
        }
    }
    memset(text, 0xA9, len);
}

/* A model drawn from a seed: slices about the room that it asks for, and where one is too short nothing is written. Granted, it writes so many records as it answers, and its load and build are granted in 48 rows. */
static void one_seeded(void)
{
    static const int in[4] = {IN_OUT, IN_BODIES, IN_WORDS, IN_NUMBERS};
    static const size_t rooms[4] = {KATYDIDZINC_SEEDED_SETTINGS, KATYDIDZINC_SEEDED_BODIES, KATYDIDZINC_SEEDED_WORDS, KATYDIDZINC_SEEDED_NUMBERS};
    static float rows[KATYDIDZINC_SEEDED_ROWS * KATYDIDZINC_ROW_WIDTH];
    size_t lens[SLICES] = {0}, from[4], k, n, joints;
    uint32_t *at[4], seed = draw(4) == 0 ? draw(2) ? UINT32_C(0xFFFFFFFF) - draw(3) : draw(3) : draw(UINT32_C(0xFFFFFFFF));
    int i, at_end = (int)draw(2), is_short = 0;
    uint64_t answer;
    katydidzinc_study s;
    for (i = 0; i < 4; i++) {
        lens[in[i]] = draw(6) > 0 ? rooms[i] + draw(3) : draw((uint32_t)rooms[i]);
        is_short |= lens[in[i]] < rooms[i];
        at[i] = lend(in[i], lens[in[i]], at_end);
    }
    answer = katydidzinc_seeded(seed, (float *)(void *)at[0], lens[IN_OUT], (float *)(void *)at[1], lens[IN_BODIES], at[2], lens[IN_WORDS], (float *)(void *)at[3], lens[IN_NUMBERS]);
    n = katydidzinc_seeded_bodies(answer);
    joints = katydidzinc_seeded_joints(answer);
    if (is_short ? answer != KATYDIDZINC_SHORT_SLICE : answer < KATYDIDZINC_SEEDED_GRANTED || n < 1 || n > 8 || joints > 8) {
        fail("a wrong answer of a seed", LOAD, SLICES, answer, lens);
    }
    from[0] = is_short ? 0 : KATYDIDZINC_SEEDED_SETTINGS;
    from[1] = n * KATYDIDZINC_BODY_WIDTH;
    from[2] = joints * KATYDIDZINC_WORDS_WIDTH;
    from[3] = joints * KATYDIDZINC_NUMBERS_WIDTH;
    for (i = 0; i < 4; i++) {
        for (k = from[i]; k < lens[in[i]]; k++) {
            if (at[i][k] != model[in[i]][k]) {
                fail("a seed writes where nothing may be", LOAD, in[i], answer, lens);
            }
        }
    }
    /* by the study, which is cut to what is drawn; then its load and build */
    s.bodies = (float *)(void *)at[1], s.bodies_len = lens[IN_BODIES];
    s.words = at[2], s.words_len = lens[IN_WORDS];
    s.numbers = (float *)(void *)at[3], s.numbers_len = lens[IN_NUMBERS];
    s.rows = rows, s.rows_len = sizeof rows / sizeof *rows;
    s.built = 1;
    if (lens[IN_OUT] >= rooms[0]) {
        if (katydidzinc_study_seeded(&s, seed) != answer || s.built != (uint32_t)is_short || s.bodies_len != (is_short ? lens[IN_BODIES] : from[1])) {
            fail("a seed's study", LOAD, SLICES, answer, lens);
        }
        if (!is_short && (s.dt != 0.015625f || katydidzinc_study_load(&s) != KATYDIDZINC_GRANTED || katydidzinc_study_build(&s, 0, 0.0f, 0) < KATYDIDZINC_ROWS_GRANTED)) {
            fail("a seed's study is not granted", LOAD, SLICES, answer, lens);
        }
    }
    for (i = 0; i < 4; i++) {
        if (!guarded(in[i], at[i], lens[in[i]])) {
            fail("a guard is broken", LOAD, in[i], answer, lens);
        }
    }
    models_drawn += !is_short;
    models_short += (uint64_t)is_short;
}

/* What the checked calls find before they make a call. */
#define CHECKS 24
static void checks(void)
{
    static float bodies[KATYDIDZINC_BODY_WIDTH], numbers[KATYDIDZINC_NUMBERS_WIDTH], rows[KATYDIDZINC_ROW_WIDTH], out[KATYDIDZINC_READ_NUMBERS + 1];
    static uint32_t words[KATYDIDZINC_WORDS_WIDTH], ids[KATYDIDZINC_READ_IDS];
    katydidzinc_study s = {0.0f, 1.0f, 3.0f, 0, bodies, KATYDIDZINC_BODY_WIDTH, words, 0, numbers, 0, rows, 0, {0}}, t = s;
    uint64_t got[CHECKS];
    static const uint64_t wanted[CHECKS] = {0,
                                        KATYDIDZINC_BAD_SLICE,
                                        0,
                                        KATYDIDZINC_BAD_SLICE,
                                        KATYDIDZINC_BAD_SLICE,
                                        KATYDIDZINC_OVERLAP,
                                        KATYDIDZINC_OVERLAP,
                                        0,
                                        KATYDIDZINC_BAD_SLICE,
                                        KATYDIDZINC_OVERLAP,
                                        0,
                                        KATYDIDZINC_BAD_SLICE,
                                        KATYDIDZINC_OVERLAP,
                                        KATYDIDZINC_BROKEN_TABLE,
                                        KATYDIDZINC_NOT_THREE_NUMBERS,
                                        KATYDIDZINC_ABSENT_AXIS,
                                        KATYDIDZINC_BAD_SLICE,
                                        KATYDIDZINC_NOT_BUILT,
                                        KATYDIDZINC_OVERLAP,
                                        KATYDIDZINC_BAD_SLICE,
                                        KATYDIDZINC_ABSENT,
                                        0,
                                        KATYDIDZINC_SUBSTEPS,
                                        KATYDIDZINC_OVERLAP};
    static const uint8_t table[] = "0,2,1\n0,2\r\n0,2,1";
    int i;
    katydidzinc_default_body(bodies);
    got[0] = katydidzinc_study_load(&s);
    t = s, t.bodies = NULL;
    got[1] = katydidzinc_study_load(&t);
    t = s, t.words = NULL, t.rows = NULL;
    got[2] = katydidzinc_study_load(&t);
    t = s, t.numbers = (float *)(void *)((char *)numbers + 1), t.numbers_len = 1;
    got[3] = katydidzinc_study_load(&t);
    t = s, t.rows_len = SIZE_MAX / 4;
    got[4] = katydidzinc_study_load(&t);
    t = s, t.numbers = bodies + KATYDIDZINC_BODY_WIDTH - 1, t.numbers_len = 1;
    got[5] = katydidzinc_study_load(&t);
    got[6] = katydidzinc_study_read_velocity(&s, 0, bodies + 7, 3);
    got[7] = katydidzinc_study_read_velocity(&s, 0, out, KATYDIDZINC_VELOCITY_NUMBERS);
    got[8] = katydidzinc_study_read_velocity(&s, 0, NULL, KATYDIDZINC_VELOCITY_NUMBERS);
    got[9] = katydidzinc_study_read_rows(&s, 0, out, KATYDIDZINC_READ_NUMBERS, (uint32_t *)(void *)out, 6);
    got[10] = katydidzinc_study_set_targets(&s, NULL, 0);
    got[11] = katydidzinc_study_set_targets(&s, NULL, 1);
    got[12] = katydidzinc_study_set_targets(&s, (const uint8_t *)(const void *)bodies + 39, 2);
    got[13] = katydidzinc_study_set_targets(&s, table, 6);
    got[14] = katydidzinc_study_set_targets(&s, table + 6, 5);
    got[15] = katydidzinc_study_set_targets(&s, table + 11, 5);
    got[16] = katydidzinc_study_set_targets(&s, table, SIZE_MAX);
    got[17] = katydidzinc_study_reaction(&s, 0, out, KATYDIDZINC_REACTION_NUMBERS);
    got[18] = katydidzinc_study_reaction(&s, 0, bodies, KATYDIDZINC_REACTION_NUMBERS);
    got[19] = katydidzinc_study_residuals(&s, 0, NULL, KATYDIDZINC_MOST_ROWS);
    t = s, t.built = 1;
    got[20] = katydidzinc_study_residuals(&t, 0, out, KATYDIDZINC_MOST_ROWS);
    t = s;
    got[21] = katydidzinc_study_frame(&t, 0, 0.0f, 4, KATYDIDZINC_MOST_SUBSTEPS);
    got[22] = katydidzinc_study_frame(&t, 0, 0.0f, 4, 0);
    t.rows = bodies + 1, t.rows_len = 1;
    got[23] = katydidzinc_study_frame(&t, 0, 0.0f, 4, 1);
    (void)ids;
    for (i = 0; i < CHECKS; i++) {
        if (got[i] != wanted[i]) {
            printf("check %d answers %" PRIu64 ", not %" PRIu64 "\n", i, got[i], wanted[i]);
            exit(1);
        }
    }
}

int main(int argc, char **argv)
{
    long count = argc > 1 ? atol(argv[1]) : 1000000, i;
    size_t k;
    int call;
    state = (argc > 2 ? (uint64_t)atol(argv[2]) : 1) * UINT64_C(0x9E3779B97F4A7C15) + 1;
    if (!lay_pages()) {
        printf("no pages\n");
        return 1;
    }
    checks();
    for (i = 0; i < count; i++) {
        one_call();
    }
    for (i = 0; i < count / 20; i++) {
        one_table();
    }
    for (i = 0; i < count / 20; i++) {
        one_seeded();
    }
    printf("%-14s %8s", "", "granted");
    for (k = 1; k <= 16; k++) {
        printf(" %6zu", k);
    }
    printf("  short\n");
    for (call = 0; call < CALLS; call++) {
        printf("%-14s %8" PRIu64, call_names[call], answers[call][0]);
        for (k = 1; k <= SHORT; k++) {
            printf(" %6" PRIu64, answers[call][k]);
        }
        printf("\n");
    }
    if (!every_length(whole)) {
        return count >= 100000;
    }
    printf("%" PRIu64 " motors at a bound in the last rounds; %" PRIu64 " bodies moved by frames; %" PRIu64 " residuals that are not 0; %" PRIu64 " motor tables read, written and read again; %" PRIu64 " first rows above 0 stored\n",
           motors_at_bound, moves, residuals, tables_read, first_rows);
    printf("%" PRIu64 " models drawn from seeds, and %" PRIu64 " of which nothing is written, since a slice is too short\n", models_drawn, models_short);
    printf("%ld calls, every length from 0 to two past the last record, no guard broken\n", count);
    return 0;
}
