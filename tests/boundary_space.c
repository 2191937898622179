/* The boundary of the calls in space: COUNT calls with slices of every length around the records' ends, from SEED.
 *
 *   boundary_space [COUNT] [SEED]
 *
 * Slices lie between pages that cannot be read (tests/lent.h). A refused call, and one whose slice is too short, must leave every slice as it was, and a load always. A granted one may change only
 * what katydidzinc_space.h names: a place seven numbers of its body, a warm start and a sweep velocities, a sweep impulses, a bias removal right-hand sides, a write-back stored impulses, a build and a row read
 * so many rows as they answer. That number, and the ids of a row read, are those of the joints' masks. The program itself is to be compiled with -fsanitize=address,undefined.
 */
#define _DEFAULT_SOURCE
#include "katydidzinc_space.h"
#include "lent.h"

#include <inttypes.h>
#include <stdio.h>
#include <stdlib.h>
#include <string.h>

#define JOINTS 3
#define BODIES 3

static const size_t whole[SLICES] = {BODIES * KATYDIDZINC_SPACE_BODY_WIDTH,
                                     JOINTS *KATYDIDZINC_SPACE_WORDS_WIDTH,
                                     JOINTS *KATYDIDZINC_SPACE_NUMBERS_WIDTH,
                                     JOINTS *KATYDIDZINC_SPACE_MOST_ROWS *KATYDIDZINC_SPACE_ROW_WIDTH,
                                     KATYDIDZINC_SPACE_READ_NUMBERS,
                                     KATYDIDZINC_SPACE_READ_IDS};

enum { LOAD, PLACE, BUILD, WARM_START, SWEEP, REMOVE_BIAS, WRITE_BACK, READ_ROWS, READ_VELOCITY, CALLS };
static const char *const call_names[CALLS] = {"load", "place", "build", "warm start", "sweep", "bias removal", "write-back", "row read", "velocity read"};

static uint64_t answers[CALLS][19]; /* granted, refused with 1 to 17, short */
#define SHORT 18
static uint64_t motors_at_bound; /* counted by granted sweeps */
static uint64_t nine;            /* rows read of a joint that has nine */

/* A chain of three bodies from the world on, with limits and motors that any mask may name. */
static void sound_model(void)
{
    float body[KATYDIDZINC_SPACE_BODY_WIDTH], numbers[KATYDIDZINC_SPACE_NUMBERS_WIDTH];
    uint32_t words[KATYDIDZINC_SPACE_WORDS_WIDTH];
    int i, k;
    for (i = 0; i < BODIES; i++) {
        katydidzinc_space_default_body(body);
        body[KATYDIDZINC_SPACE_POSE + KATYDIDZINC_SPACE_POSE_QX] = 0.5f * (float)i;
        body[KATYDIDZINC_SPACE_POSE + KATYDIDZINC_SPACE_POSE_Y] = -0.5f * (float)i;
        for (k = 0; k < 6; k++) {
            body[KATYDIDZINC_SPACE_INERTIA + k] = k == 0 || k == 3 || k == 5 ? 8.0f : 0.5f;
        }
        for (k = 0; k < 3; k++) {
            body[KATYDIDZINC_SPACE_MASS_X + k] = 0.5f;
        }
        body[KATYDIDZINC_SPACE_VELOCITY] = 0.25f * (float)i;
        body[KATYDIDZINC_SPACE_VELOCITY + 4] = 0.5f;
        memcpy(model[IN_BODIES] + i * KATYDIDZINC_SPACE_BODY_WIDTH, body, sizeof body);
    }
    for (i = 0; i < JOINTS; i++) {
        katydidzinc_space_default_joint(words, numbers, i == 0 ? KATYDIDZINC_WORLD : (uint32_t)i - 1, (uint32_t)i);
        numbers[KATYDIDZINC_SPACE_FRAME1 + KATYDIDZINC_SPACE_POSE_Y] = -0.25f;
        numbers[KATYDIDZINC_SPACE_FRAME2 + KATYDIDZINC_SPACE_POSE_Z] = 0.25f;
        for (k = 0; k < 3; k++) {
            katydidzinc_space_set_limits(words, numbers, (uint32_t)k, -0.125f, 0.5f);
            numbers[KATYDIDZINC_SPACE_MOTOR_X + k * KATYDIDZINC_MOTOR_WIDTH + KATYDIDZINC_MOTOR_TARGET_VEL] = 1.0f;
            numbers[KATYDIDZINC_SPACE_MOTOR_X + k * KATYDIDZINC_MOTOR_WIDTH + KATYDIDZINC_MOTOR_DAMPING] = 3.0f;
            numbers[KATYDIDZINC_SPACE_MOTOR_X + k * KATYDIDZINC_MOTOR_WIDTH + KATYDIDZINC_MOTOR_MAX_FORCE] = 1.0f;
        }
        memcpy(model[IN_WORDS] + i * KATYDIDZINC_SPACE_WORDS_WIDTH, words, sizeof words);
        memcpy(model[IN_NUMBERS] + i * KATYDIDZINC_SPACE_NUMBERS_WIDTH, numbers, sizeof numbers);
    }
}

static uint32_t *word(int joint, int place)
{
    return model[IN_WORDS] + joint * KATYDIDZINC_SPACE_WORDS_WIDTH + place;
}

/* The words that change from call to call: any masks, and now and then a fault. */
static void vary(void)
{
    int j;
    sound_model();
    for (j = 0; j < JOINTS; j++) {
        *word(j, KATYDIDZINC_SPACE_LOCKED_AXES) = draw(KATYDIDZINC_SPACE_ALL_AXES + 1);
        *word(j, KATYDIDZINC_SPACE_LIMIT_AXES) = draw(KATYDIDZINC_SPACE_LINEAR_AXES + 1);
        *word(j, KATYDIDZINC_SPACE_MOTOR_AXES) = draw(KATYDIDZINC_SPACE_LINEAR_AXES + 1);
        *word(j, KATYDIDZINC_SPACE_ENABLED) = draw(8) == 0 ? draw(3) : 0;
    }
    j = (int)draw(JOINTS);
    if (draw(8) == 0) { /* the one choice of nine rows */
        *word(j, KATYDIDZINC_SPACE_LOCKED_AXES) = KATYDIDZINC_SPACE_ALL_AXES - KATYDIDZINC_SPACE_LINEAR_AXES;
        *word(j, KATYDIDZINC_SPACE_LIMIT_AXES) = *word(j, KATYDIDZINC_SPACE_MOTOR_AXES) = KATYDIDZINC_SPACE_LINEAR_AXES;
    }
    switch (draw(24)) {
    case 0: *word(j, KATYDIDZINC_SPACE_LOCKED_AXES + (int)draw(4)) = 64 + draw(1000); break;
    case 1: *word(j, KATYDIDZINC_SPACE_BODY2) = draw(2) ? BODIES : KATYDIDZINC_WORLD - 1; break;
    case 2: *word(j, KATYDIDZINC_SPACE_BODY1) = *word(j, KATYDIDZINC_SPACE_BODY2); break;
    case 3: model[IN_NUMBERS][j * KATYDIDZINC_SPACE_NUMBERS_WIDTH + (int)draw(KATYDIDZINC_SPACE_NUMBERS_WIDTH)] = 0x7FC00000; break;
    case 4: model[IN_BODIES][draw(BODIES * KATYDIDZINC_SPACE_BODY_WIDTH)] = 0x7F800000; break;
    case 5: *word(j, KATYDIDZINC_SPACE_COUPLED_AXES) = 1 + draw(63); break;
    case 6: *word(j, KATYDIDZINC_SPACE_LIMIT_AXES + (int)draw(2)) = 8 + draw(56); break;
    default: break;
    }
}

static void fail(const char *what, int call, int slice, uint64_t answer, const size_t *lens)
{
    int i;
    printf("%s: %s, slice %s, answer %" PRIu64 ", lengths", what, call_names[call], slice < SLICES ? slice_names[slice] : "none", answer);
    for (i = 0; i < SLICES; i++) {
        printf(" %zu", lens[i]);
    }
    printf("\n");
    exit(1);
}

static size_t joints_in(const size_t *lens)
{
    size_t words = lens[IN_WORDS] / KATYDIDZINC_SPACE_WORDS_WIDTH, numbers = lens[IN_NUMBERS] / KATYDIDZINC_SPACE_NUMBERS_WIDTH;
    return words < numbers ? words : numbers;
}

/* The ids of a joint's rows by its masks, in document 02's order; how many. */
static uint32_t ids_of(int joint, uint32_t *ids)
{
    uint32_t n = 0, locked = *word(joint, KATYDIDZINC_SPACE_LOCKED_AXES), axis;
    uint32_t driven = *word(joint, KATYDIDZINC_SPACE_MOTOR_AXES) & ~locked, limited = *word(joint, KATYDIDZINC_SPACE_LIMIT_AXES) & ~locked;
    if (*word(joint, KATYDIDZINC_SPACE_ENABLED) != KATYDIDZINC_JOINT_ENABLED) {
        return 0;
    }
    for (axis = 0; axis < 3; axis++) {
        if (driven >> axis & 1) {
            ids[n++] = KATYDIDZINC_SPACE_ID_MOTOR + axis;
        }
    }
    for (axis = 3; axis < 9; axis++) {
        if (locked >> axis % 6 & 1) {
            ids[n++] = KATYDIDZINC_SPACE_ID_DOF + axis % 6;
        }
    }
    for (axis = 0; axis < 3; axis++) {
        if (limited >> axis & 1) {
            ids[n++] = KATYDIDZINC_SPACE_ID_LIMIT + axis;
        }
    }
    return n;
}

/* Whether a granted call may change word k of a slice; `rows` is the number that it answers. */
static int may_change(int call, int slice, size_t k, uint32_t index, uint32_t rows, const size_t *lens)
{
    size_t place;
    switch (slice) {
    case IN_BODIES:
        place = k % KATYDIDZINC_SPACE_BODY_WIDTH;
        return k / KATYDIDZINC_SPACE_BODY_WIDTH < lens[slice] / KATYDIDZINC_SPACE_BODY_WIDTH &&
               (call == PLACE ? k / KATYDIDZINC_SPACE_BODY_WIDTH == index && place <= KATYDIDZINC_SPACE_POSE_Z
                              : (call == WARM_START || call == SWEEP) && place >= KATYDIDZINC_SPACE_VELOCITY);
    case IN_NUMBERS:
        place = k % KATYDIDZINC_SPACE_NUMBERS_WIDTH;
        return call == WRITE_BACK && k / KATYDIDZINC_SPACE_NUMBERS_WIDTH < joints_in(lens) &&
               (place >= KATYDIDZINC_SPACE_DOFS ||
                (place >= KATYDIDZINC_SPACE_MOTOR_X && place < KATYDIDZINC_SPACE_NATURAL_FREQUENCY &&
                 (place - KATYDIDZINC_SPACE_MOTOR_X) % KATYDIDZINC_MOTOR_WIDTH == KATYDIDZINC_MOTOR_IMPULSE) ||
                (place >= KATYDIDZINC_SPACE_LIMITS_X && place < KATYDIDZINC_SPACE_MOTOR_X &&
                 (place - KATYDIDZINC_SPACE_LIMITS_X) % KATYDIDZINC_LIMITS_WIDTH == KATYDIDZINC_LIMIT_IMPULSE));
    case IN_ROWS:
        place = k % KATYDIDZINC_SPACE_ROW_WIDTH;
        return call == BUILD         ? k < rows * (size_t)KATYDIDZINC_SPACE_ROW_WIDTH
               : call == SWEEP       ? place == KATYDIDZINC_SPACE_ROW_IMPULSE
               : call == REMOVE_BIAS && place == KATYDIDZINC_SPACE_ROW_RHS;
    case IN_OUT: return call == READ_VELOCITY ? k < KATYDIDZINC_SPACE_VELOCITY_NUMBERS : call == READ_ROWS && k < rows * (size_t)KATYDIDZINC_SPACE_ROW_WIDTH;
    case IN_IDS: return call == READ_ROWS && k < rows;
    default: return 0;
    }
}

static void one_call(void)
{
    katydidzinc_space_study s;
    size_t lens[SLICES], bytes_len, k;
    uint32_t *at[SLICES], wanted[KATYDIDZINC_SPACE_READ_IDS];
    int call = (int)draw(CALLS), i, at_end = (int)draw(2), granted;
    uint32_t index = draw(3) == 0 ? draw(2) ? KATYDIDZINC_WORLD : 3 : draw(3), n = draw(16) == 0 ? 65 + draw(3) : draw(4), rows;
    uint32_t mark = draw(4) == 0 ? 0 : draw(2) ? 1 : UINT32_C(0xFFFFFF00), before = mark;
    uint64_t answer = 0;
    unsigned char *bytes_at;
    vary();
    bytes_len = draw_counts();
    bytes_at = lend_bytes(bytes_len, at_end);
    if (call == SWEEP) {
        byte_lengths_seen[bytes_len] = 1;
    }
    for (i = 0; i < SLICES; i++) {
        lens[i] = draw(3) > 0 ? whole[i] : draw((uint32_t)whole[i] + 3);
        lengths_seen[i][lens[i]] = 1;
        at[i] = lend(i, lens[i], at_end);
    }
    katydidzinc_space_default_settings(&s);
    s.dt = draw(32) == 0 ? -1.0f : s.dt;
    s.built = mark;
    s.bodies = (float *)(void *)at[IN_BODIES], s.bodies_len = lens[IN_BODIES];
    s.words = at[IN_WORDS], s.words_len = lens[IN_WORDS];
    s.numbers = (float *)(void *)at[IN_NUMBERS], s.numbers_len = lens[IN_NUMBERS];
    s.rows = (float *)(void *)at[IN_ROWS], s.rows_len = lens[IN_ROWS];
    switch (call) {
    case LOAD: answer = katydidzinc_space_study_load(&s); break;
    case PLACE: answer = katydidzinc_space_study_place(&s, index, 0.5f, 0.5f, 0.5f, 0.5f, 1.0f, 2.0f, 3.0f); break;
    case BUILD: answer = katydidzinc_space_study_build(&s, draw(2), 0.5f, draw(2)); break;
    case WARM_START: answer = katydidzinc_space_study_warm_start(&s); break;
    case SWEEP: answer = katydidzinc_space_sweep(KATYDIDZINC_MODEL_OF(&s), KATYDIDZINC_ROWS_OF(&s), n, bytes_at, bytes_len); break;
    case REMOVE_BIAS: answer = katydidzinc_space_study_remove_bias(&s); break;
    case WRITE_BACK: answer = katydidzinc_space_study_write_back(&s); break;
    case READ_ROWS: answer = katydidzinc_space_study_read_rows(&s, index, (float *)(void *)at[IN_OUT], lens[IN_OUT], at[IN_IDS], lens[IN_IDS]); break;
    default: answer = katydidzinc_space_study_read_velocity(&s, index, (float *)(void *)at[IN_OUT], lens[IN_OUT]); break;
    }

    granted = katydidzinc_granted(answer);
    rows = katydidzinc_rows_of(answer);
    if (granted) {
        answers[call][0]++;
        if ((call == BUILD || call == READ_ROWS) != (answer >= KATYDIDZINC_ROWS_GRANTED)) {
            fail("a wrong kind of answer", call, SLICES, answer, lens);
        }
        before = call == LOAD ? 0 : call == BUILD ? 1 : mark;
        if ((call == READ_ROWS && (lens[IN_OUT] < KATYDIDZINC_SPACE_READ_NUMBERS || lens[IN_IDS] < KATYDIDZINC_SPACE_READ_IDS)) ||
            (call == READ_VELOCITY && lens[IN_OUT] < KATYDIDZINC_SPACE_VELOCITY_NUMBERS)) {
            fail("granted into a short slice", call, IN_OUT, answer, lens);
        }
        if (call == BUILD) {
            uint32_t total = 0;
            for (k = 0; k < joints_in(lens); k++) {
                total += ids_of((int)k, wanted);
            }
            if (rows != total) {
                fail("another number of rows than the masks have", call, IN_ROWS, answer, lens);
            }
        }
        if (call == READ_ROWS && (rows != ids_of((int)index, wanted) || memcmp(wanted, at[IN_IDS], rows * sizeof *wanted) != 0)) {
            fail("other ids than the masks have", call, IN_IDS, answer, lens);
        }
        nine += call == READ_ROWS && rows == KATYDIDZINC_SPACE_MOST_ROWS;
    } else if (answer == KATYDIDZINC_SHORT_SLICE) {
        answers[call][SHORT]++;
        if (call == READ_ROWS       ? lens[IN_OUT] >= KATYDIDZINC_SPACE_READ_NUMBERS && lens[IN_IDS] >= KATYDIDZINC_SPACE_READ_IDS
            : call == READ_VELOCITY ? lens[IN_OUT] >= KATYDIDZINC_SPACE_VELOCITY_NUMBERS
                                    : call != SWEEP || bytes_len >= KATYDIDZINC_MOST_JOINTS) {
            fail("no slice is short", call, IN_OUT, answer, lens);
        }
    } else if ((answer >= 1 && answer <= 11) || answer == KATYDIDZINC_NOT_LINEAR) {
        answers[call][answer]++;
    } else {
        fail("no answer of the model", call, SLICES, answer, lens);
    }
    if (s.built != before) {
        fail("a wrong mark", call, SLICES, answer, lens);
    }
    if (call == SWEEP && (bytes_len < KATYDIDZINC_MOST_JOINTS) != (answer == KATYDIDZINC_SHORT_SLICE)) {
        fail("counts: too short a slice, or not", call, SLICES, answer, lens);
    }
    for (k = 0; k < bytes_len; k++) {
        int counted = call == SWEEP && granted && k < KATYDIDZINC_MOST_JOINTS;
        if (counted ? bytes_at[k] > (k < JOINTS ? 3 : 0) : bytes_at[k] != byte_model[k]) {
            fail("bytes written where none may be, or no count", call, SLICES, answer, lens);
        }
        motors_at_bound += counted ? bytes_at[k] : 0;
    }
    if (!guarded_bytes(bytes_at, bytes_len)) {
        fail("a guard of the bytes is broken", call, SLICES, answer, lens);
    }
    for (i = 0; i < SLICES; i++) {
        for (k = 0; k < lens[i]; k++) {
            if (at[i][k] != model[i][k] && !(granted && may_change(call, i, k, index, rows, lens))) {
                fail("written where nothing may be", call, i, answer, lens);
            }
        }
        /* what a build left is the next call's row storage */
        if (i == IN_ROWS && call == BUILD && granted) {
            memcpy(model[i], at[i], rows * (size_t)KATYDIDZINC_SPACE_ROW_WIDTH * sizeof *at[i]);
        }
        if (!guarded(i, at[i], lens[i])) {
            fail("a guard is broken", call, i, answer, lens);
        }
    }
}

/* What the checked calls find before they make a call, and answers at the ends of what is granted. */
#define CHECKS 20
static void checks(void)
{
    static float bodies[129 * KATYDIDZINC_SPACE_BODY_WIDTH], numbers[129 * KATYDIDZINC_SPACE_NUMBERS_WIDTH], rows[KATYDIDZINC_SPACE_ROW_WIDTH], out[KATYDIDZINC_SPACE_READ_NUMBERS + 1];
    static uint32_t words[129 * KATYDIDZINC_SPACE_WORDS_WIDTH];
    katydidzinc_space_study s = {0.0f, 1.0f, 3.0f, 0, bodies, KATYDIDZINC_SPACE_BODY_WIDTH, words, 0, numbers, 0, rows, 0, {0}}, t;
    uint64_t got[CHECKS];
    static const uint64_t wanted[CHECKS] = {0,
                                            KATYDIDZINC_BAD_SLICE,
                                            0,
                                            KATYDIDZINC_BAD_SLICE,
                                            KATYDIDZINC_BAD_SLICE,
                                            KATYDIDZINC_OVERLAP,
                                            KATYDIDZINC_OVERLAP,
                                            0,
                                            KATYDIDZINC_BAD_SLICE,
                                            KATYDIDZINC_OVERLAP,
                                            KATYDIDZINC_NOT_BUILT,
                                            KATYDIDZINC_SHORT_SLICE,
                                            0,
                                            KATYDIDZINC_LARGE_MASK,
                                            KATYDIDZINC_NOT_LINEAR,
                                            KATYDIDZINC_NOT_LINEAR,
                                            KATYDIDZINC_TOO_MANY_BODIES,
                                            KATYDIDZINC_TOO_MANY_JOINTS,
                                            0,
                                            KATYDIDZINC_NOT_FINITE};
    int i;
    for (i = 0; i < 129; i++) {
        katydidzinc_space_default_body(bodies + i * KATYDIDZINC_SPACE_BODY_WIDTH);
        katydidzinc_space_default_joint(words + i * KATYDIDZINC_SPACE_WORDS_WIDTH, numbers + i * KATYDIDZINC_SPACE_NUMBERS_WIDTH, KATYDIDZINC_WORLD, 0);
    }
    got[0] = katydidzinc_space_study_load(&s);
    t = s, t.bodies = NULL;
    got[1] = katydidzinc_space_study_load(&t);
    t = s, t.words = NULL, t.rows = NULL;
    got[2] = katydidzinc_space_study_load(&t);
    t = s, t.numbers = (float *)(void *)((char *)numbers + 1), t.numbers_len = 1;
    got[3] = katydidzinc_space_study_load(&t);
    t = s, t.rows_len = SIZE_MAX / 4;
    got[4] = katydidzinc_space_study_load(&t);
    t = s, t.numbers = bodies + KATYDIDZINC_SPACE_BODY_WIDTH - 1, t.numbers_len = 1;
    got[5] = katydidzinc_space_study_load(&t);
    got[6] = katydidzinc_space_study_read_velocity(&s, 0, bodies + KATYDIDZINC_SPACE_VELOCITY, KATYDIDZINC_SPACE_VELOCITY_NUMBERS);
    got[7] = katydidzinc_space_study_read_velocity(&s, 0, out, KATYDIDZINC_SPACE_VELOCITY_NUMBERS);
    got[8] = katydidzinc_space_study_read_velocity(&s, 0, NULL, KATYDIDZINC_SPACE_VELOCITY_NUMBERS);
    got[9] = katydidzinc_space_study_read_rows(&s, 0, out, KATYDIDZINC_SPACE_READ_NUMBERS, (uint32_t *)(void *)out, KATYDIDZINC_SPACE_READ_IDS);
    got[10] = katydidzinc_space_study_reaction(&s, 0, out, KATYDIDZINC_SPACE_REACTION_NUMBERS);
    t = s, t.built = 1, t.words_len = KATYDIDZINC_SPACE_WORDS_WIDTH, t.numbers_len = KATYDIDZINC_SPACE_NUMBERS_WIDTH;
    got[11] = katydidzinc_space_study_reaction(&t, 0, out, KATYDIDZINC_SPACE_REACTION_NUMBERS - 1);
    got[12] = katydidzinc_space_study_reaction(&t, 0, out, KATYDIDZINC_SPACE_REACTION_NUMBERS);
    words[KATYDIDZINC_SPACE_COUPLED_AXES] = 64;
    got[13] = katydidzinc_space_study_load(&t);
    words[KATYDIDZINC_SPACE_COUPLED_AXES] = 1, words[KATYDIDZINC_SPACE_ENABLED] = KATYDIDZINC_JOINT_DISABLED;
    got[14] = katydidzinc_space_study_load(&t);
    words[KATYDIDZINC_SPACE_COUPLED_AXES] = 0, words[KATYDIDZINC_SPACE_LIMIT_AXES] = KATYDIDZINC_SPACE_ANG_X, words[KATYDIDZINC_SPACE_LOCKED_AXES] = KATYDIDZINC_SPACE_ALL_AXES;
    got[15] = katydidzinc_space_study_load(&t);
    words[KATYDIDZINC_SPACE_LIMIT_AXES] = 0;
    t = s, t.bodies_len = 129 * KATYDIDZINC_SPACE_BODY_WIDTH;
    got[16] = katydidzinc_space_study_load(&t);
    t = s, t.words_len = 129 * KATYDIDZINC_SPACE_WORDS_WIDTH, t.numbers_len = 129 * KATYDIDZINC_SPACE_NUMBERS_WIDTH;
    got[17] = katydidzinc_space_study_load(&t);
    t.words_len -= 1;
    got[18] = katydidzinc_space_study_load(&t);
    got[19] = katydidzinc_space_study_place(&s, 0, 0.0f, 0.0f, 0.0f, 1.0f, 0.0f, 0.0f, 1.0f / s.dt);
    for (i = 0; i < CHECKS; i++) {
        if (got[i] != wanted[i]) {
            printf("check %d answers %" PRIu64 ", not %" PRIu64 "\n", i, got[i], wanted[i]);
            exit(1);
        }
    }
}

int main(int argc, char **argv)
{
    long count = argc > 1 ? atol(argv[1]) : 1000000, i;
    size_t k;
    int call;
    state = (argc > 2 ? (uint64_t)atol(argv[2]) : 1) * UINT64_C(0x9E3779B97F4A7C15) + 1;
    if (!lay_pages()) {
        printf("no pages\n");
        return 1;
    }
    checks();
    for (i = 0; i < count; i++) {
        one_call();
    }
    printf("%-14s %8s", "in space", "granted");
    for (k = 1; k <= 17; k++) {
        if (k < 12 || k == 17) {
            printf(" %6zu", k);
        }
    }
    printf("  short\n");
    for (call = 0; call < CALLS; call++) {
        printf("%-14s %8" PRIu64, call_names[call], answers[call][0]);
        for (k = 1; k <= SHORT; k++) {
            if (k < 12 || k > 16) {
                printf(" %6" PRIu64, answers[call][k]);
            }
        }
        printf("\n");
    }
    if (!every_length(whole)) {
        return count >= 100000;
    }
    printf("%" PRIu64 " motors at a bound in the last rounds; %" PRIu64 " reads of nine rows\n", motors_at_bound, nine);
    printf("%ld calls in space, every length from 0 to two past the last record, no guard broken\n", count);
    return 0;
}
