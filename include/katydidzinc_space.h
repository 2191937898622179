/* Katydidzinc in space: the scalar f32 joint rows of rapier 0.36.1 with three linear and three angular axes, for C and C++ on x86-64.
 *
 * A model in space lies in lent slices as a planar one does, and its calls answer and refuse as the planar ones do: katydidzinc.h says what a caller has to keep, what an answer is, what each
 * call does, and which version and layout this is. Here are the records' widths, the calls, and the same calls on a struct, checked. A spatial model has no motor tables, no mask changes, no frames and no seeds.
 *
 * A joint locks any of its six axes. Limits and motors are for linear axes only, and no axis is coupled: else the model is refused with 17. A joint has at most nine rows.
 */
#ifndef KATYDIDZINC_SPACE_H
#define KATYDIDZINC_SPACE_H

#include "katydidzinc.h"

#ifdef __cplusplus
extern "C" {
#endif

/* ---- Records. The world, the numbers of bodies, joints and rounds, the words of a motor's model and of JointEnabled, and the places within an axis's limits and its motor are those of
 * katydidzinc.h. */

/* A joint has at most so many rows: row storage of 9 rows a joint is always enough. */
#define KATYDIDZINC_SPACE_MOST_ROWS 9

/* A pose, of a body or of a joint's frame: its rotation, a quaternion that nothing normalises, then its place. */
#define KATYDIDZINC_SPACE_POSE_QX 0
#define KATYDIDZINC_SPACE_POSE_QY 1
#define KATYDIDZINC_SPACE_POSE_QZ 2
#define KATYDIDZINC_SPACE_POSE_QW 3
#define KATYDIDZINC_SPACE_POSE_X 4
#define KATYDIDZINC_SPACE_POSE_Y 5
#define KATYDIDZINC_SPACE_POSE_Z 6

/* A body, in `bodies`: 22 numbers. */
#define KATYDIDZINC_SPACE_BODY_WIDTH 22
#define KATYDIDZINC_SPACE_POSE 0       /* its pose, from here on: the place is its centre of mass */
#define KATYDIDZINC_SPACE_INERTIA 7    /* inverse inertia, a symmetric matrix in the axes of the world: m11, m12, m13, m22, m23, m33. Place does not turn it. */
#define KATYDIDZINC_SPACE_MASS_X 13    /* inverse masses, one a direction */
#define KATYDIDZINC_SPACE_MASS_Y 14
#define KATYDIDZINC_SPACE_MASS_Z 15
#define KATYDIDZINC_SPACE_VELOCITY 16  /* linear x, y, z, then angular x, y, z */

/* A joint's words, in `words`: 10. */
#define KATYDIDZINC_SPACE_WORDS_WIDTH 10
#define KATYDIDZINC_SPACE_BODY1 0      /* the number of a body, or KATYDIDZINC_WORLD */
#define KATYDIDZINC_SPACE_BODY2 1
#define KATYDIDZINC_SPACE_LOCKED_AXES 2 /* masks of axes */
#define KATYDIDZINC_SPACE_LIMIT_AXES 3
#define KATYDIDZINC_SPACE_MOTOR_AXES 4
#define KATYDIDZINC_SPACE_COUPLED_AXES 5
#define KATYDIDZINC_SPACE_MODEL_X 6    /* a motor's model, a linear axis each */
#define KATYDIDZINC_SPACE_MODEL_Y 7
#define KATYDIDZINC_SPACE_MODEL_Z 8
#define KATYDIDZINC_SPACE_ENABLED 9    /* whether the joint makes rows */

/* The axes in a mask: linear, then angular. */
#define KATYDIDZINC_SPACE_LIN_X 1
#define KATYDIDZINC_SPACE_LIN_Y 2
#define KATYDIDZINC_SPACE_LIN_Z 4
#define KATYDIDZINC_SPACE_ANG_X 8
#define KATYDIDZINC_SPACE_ANG_Y 16
#define KATYDIDZINC_SPACE_ANG_Z 32
#define KATYDIDZINC_SPACE_LINEAR_AXES 7
#define KATYDIDZINC_SPACE_ALL_AXES 63

/* A joint's numbers, in `numbers`: 49. */
#define KATYDIDZINC_SPACE_NUMBERS_WIDTH 49
#define KATYDIDZINC_SPACE_FRAME1 0     /* a pose each, seen from the body's centre of mass */
#define KATYDIDZINC_SPACE_FRAME2 7
#define KATYDIDZINC_SPACE_LIMITS_X 14  /* limits, a linear axis each */
#define KATYDIDZINC_SPACE_LIMITS_Y 17
#define KATYDIDZINC_SPACE_LIMITS_Z 20
#define KATYDIDZINC_SPACE_MOTOR_X 23   /* motors, a linear axis each */
#define KATYDIDZINC_SPACE_MOTOR_Y 29
#define KATYDIDZINC_SPACE_MOTOR_Z 35
#define KATYDIDZINC_SPACE_NATURAL_FREQUENCY 41 /* softness */
#define KATYDIDZINC_SPACE_DAMPING_RATIO 42
#define KATYDIDZINC_SPACE_DOFS 43      /* stored impulses of the locks, an axis each: linear x, y, z, then angular x, y, z */

/* A row, in `rows` and in what a row read writes: 29 numbers, the Rust's JointConstraint; a vector is x, y, z. Signs and units are those of the plane: a positive impulse moves body 1 along
 * lin_jac and body 2 the other way; with lengths in metres, a linear row's impulse is in N s and an angular row's in N m s. An angular lock's ang_jac is half as long as a unit vector where both
 * frames turn alike, so that a couple of 1 N m s shows there as an impulse of 2: what a body got is impulse times ang_jac, summed over the joint's rows. */
#define KATYDIDZINC_SPACE_ROW_WIDTH 29
#define KATYDIDZINC_SPACE_ROW_IMPULSE 0
#define KATYDIDZINC_SPACE_ROW_IMPULSE_MIN 1
#define KATYDIDZINC_SPACE_ROW_IMPULSE_MAX 2
#define KATYDIDZINC_SPACE_ROW_LIN_JAC 3
#define KATYDIDZINC_SPACE_ROW_ANG_JAC1 6
#define KATYDIDZINC_SPACE_ROW_ANG_JAC2 9
#define KATYDIDZINC_SPACE_ROW_II_ANG_JAC1 12
#define KATYDIDZINC_SPACE_ROW_II_ANG_JAC2 15
#define KATYDIDZINC_SPACE_ROW_INV_LHS 18
#define KATYDIDZINC_SPACE_ROW_RHS 19
#define KATYDIDZINC_SPACE_ROW_RHS_WO_BIAS 20
#define KATYDIDZINC_SPACE_ROW_CFM_GAIN 21
#define KATYDIDZINC_SPACE_ROW_CFM_COEFF 22
#define KATYDIDZINC_SPACE_ROW_IM1 23
#define KATYDIDZINC_SPACE_ROW_IM2 26

/* A row's id is a kind plus an axis: 0, 1, 2 linear x, y, z, and 3, 4, 5 angular x, y, z. The numbers are other ones than in the plane, which has four axes' room for a kind. */
#define KATYDIDZINC_SPACE_ID_DOF 0     /* a lock */
#define KATYDIDZINC_SPACE_ID_LIMIT 8
#define KATYDIDZINC_SPACE_ID_MOTOR 16

/* What a row read and a velocity read are lent: room for so many numbers and ids. */
#define KATYDIDZINC_SPACE_READ_NUMBERS 261
#define KATYDIDZINC_SPACE_READ_IDS 9
#define KATYDIDZINC_SPACE_VELOCITY_NUMBERS 6 /* linear x, y, z, angular x, y, z */

/* ---- The calls. Each is the planar call of that name. A load writes nothing: a spatial joint's words hold no first row. */

uint64_t katydidzinc_space_load(float dt, float length_unit, float normalized_max_corrective_velocity, uint32_t built,
                                const float *bodies, size_t bodies_len, const uint32_t *words, size_t words_len,
                                const float *numbers, size_t numbers_len, const float *rows, size_t rows_len);

/* The new pose: its rotation, then its place. */
uint64_t katydidzinc_space_place(float dt, float length_unit, float normalized_max_corrective_velocity, uint32_t built,
                                 float *bodies, size_t bodies_len, const uint32_t *words, size_t words_len,
                                 const float *numbers, size_t numbers_len,
                                 uint32_t body, float qx, float qy, float qz, float qw, float x, float y, float z);

uint64_t katydidzinc_space_build(float dt, float length_unit, float normalized_max_corrective_velocity, uint32_t built,
                                 const float *bodies, size_t bodies_len, const uint32_t *words, size_t words_len,
                                 const float *numbers, size_t numbers_len, float *rows, size_t rows_len,
                                 uint32_t warm, float coefficient, uint32_t substep_id);

uint64_t katydidzinc_space_warm_start(float dt, float length_unit, float normalized_max_corrective_velocity, uint32_t built,
                                      float *bodies, size_t bodies_len, const uint32_t *words, size_t words_len,
                                      const float *numbers, size_t numbers_len, const float *rows, size_t rows_len);

/* `counts` as of katydidzinc_sweep: at least KATYDIDZINC_MOST_JOINTS bytes. */
uint64_t katydidzinc_space_sweep(float dt, float length_unit, float normalized_max_corrective_velocity, uint32_t built,
                                 float *bodies, size_t bodies_len, const uint32_t *words, size_t words_len,
                                 const float *numbers, size_t numbers_len, float *rows, size_t rows_len,
                                 uint32_t n, uint8_t *counts, size_t counts_len);

uint64_t katydidzinc_space_remove_bias(float dt, float length_unit, float normalized_max_corrective_velocity, uint32_t built,
                                       const float *bodies, size_t bodies_len, const uint32_t *words, size_t words_len,
                                       const float *numbers, size_t numbers_len, float *rows, size_t rows_len);

uint64_t katydidzinc_space_write_back(float dt, float length_unit, float normalized_max_corrective_velocity, uint32_t built,
                                      const float *bodies, size_t bodies_len, const uint32_t *words, size_t words_len,
                                      float *numbers, size_t numbers_len, const float *rows, size_t rows_len);

/* Answers 2^32 plus the number of rows, 0 to 9. `out` has at least KATYDIDZINC_SPACE_READ_NUMBERS numbers and `ids` at least KATYDIDZINC_SPACE_READ_IDS. */
uint64_t katydidzinc_space_read_rows(float dt, float length_unit, float normalized_max_corrective_velocity, uint32_t built,
                                     const float *bodies, size_t bodies_len, const uint32_t *words, size_t words_len,
                                     const float *numbers, size_t numbers_len, const float *rows, size_t rows_len,
                                     uint32_t joint, float *out, size_t out_len, uint32_t *ids, size_t ids_len);

/* `out` has at least KATYDIDZINC_SPACE_VELOCITY_NUMBERS numbers. */
uint64_t katydidzinc_space_read_velocity(float dt, float length_unit, float normalized_max_corrective_velocity, uint32_t built,
                                         const float *bodies, size_t bodies_len, const uint32_t *words, size_t words_len,
                                         const float *numbers, size_t numbers_len,
                                         uint32_t body, float *out, size_t out_len);

/* ---- The same calls on a struct, checked, as the planar ones of a katydidzinc_study are: the float mode and the slices first (1001 to 1003), then the call. They keep the mark. */

typedef struct katydidzinc_space_study {
    float dt;
    float length_unit;
    float normalized_max_corrective_velocity;
    uint32_t built;
    float *bodies;
    size_t bodies_len;
    uint32_t *words;
    size_t words_len;
    float *numbers;
    size_t numbers_len;
    float *rows;
    size_t rows_len;
    uint8_t counts[KATYDIDZINC_MOST_JOINTS]; /* of the last granted sweep */
} katydidzinc_space_study;

/* 0, or what is wrong with the study's slices and two more, of numbers and words. */
static inline uint64_t katydidzinc_space_study_check(const katydidzinc_space_study *s, const void *out, size_t out_len, const void *ids, size_t ids_len)
{
    katydidzinc_study lent;
    lent.bodies = s->bodies, lent.bodies_len = s->bodies_len;
    lent.words = s->words, lent.words_len = s->words_len;
    lent.numbers = s->numbers, lent.numbers_len = s->numbers_len;
    lent.rows = s->rows, lent.rows_len = s->rows_len;
    return katydidzinc_study_check(&lent, out, out_len, ids, ids_len, NULL, 0);
}

static inline uint64_t katydidzinc_space_study_load(katydidzinc_space_study *s)
{
    uint64_t answer = katydidzinc_space_study_check(s, NULL, 0, NULL, 0);
    if (answer == KATYDIDZINC_GRANTED) {
        answer = katydidzinc_space_load(KATYDIDZINC_MODEL_OF(s), KATYDIDZINC_ROWS_OF(s));
        if (katydidzinc_granted(answer)) {
            s->built = 0;
        }
    }
    return answer;
}

static inline uint64_t katydidzinc_space_study_place(katydidzinc_space_study *s, uint32_t body, float qx, float qy, float qz, float qw, float x, float y, float z)
{
    uint64_t answer = katydidzinc_space_study_check(s, NULL, 0, NULL, 0);
    return answer != KATYDIDZINC_GRANTED ? answer : katydidzinc_space_place(KATYDIDZINC_MODEL_OF(s), body, qx, qy, qz, qw, x, y, z);
}

static inline uint64_t katydidzinc_space_study_build(katydidzinc_space_study *s, uint32_t warm, float coefficient, uint32_t substep_id)
{
    uint64_t answer = katydidzinc_space_study_check(s, NULL, 0, NULL, 0);
    if (answer == KATYDIDZINC_GRANTED) {
        answer = katydidzinc_space_build(KATYDIDZINC_MODEL_OF(s), KATYDIDZINC_ROWS_OF(s), warm, coefficient, substep_id);
        if (katydidzinc_granted(answer)) {
            s->built = 1;
        }
    }
    return answer;
}

static inline uint64_t katydidzinc_space_study_warm_start(katydidzinc_space_study *s)
{
    uint64_t answer = katydidzinc_space_study_check(s, NULL, 0, NULL, 0);
    return answer != KATYDIDZINC_GRANTED ? answer : katydidzinc_space_warm_start(KATYDIDZINC_MODEL_OF(s), KATYDIDZINC_ROWS_OF(s));
}

/* The counts go to the struct. */
static inline uint64_t katydidzinc_space_study_sweep(katydidzinc_space_study *s, uint32_t n)
{
    uint64_t answer = katydidzinc_space_study_check(s, NULL, 0, NULL, 0);
    return answer != KATYDIDZINC_GRANTED
               ? answer
               : katydidzinc_space_sweep(KATYDIDZINC_MODEL_OF(s), KATYDIDZINC_ROWS_OF(s), n, s->counts, KATYDIDZINC_MOST_JOINTS);
}

static inline uint64_t katydidzinc_space_study_remove_bias(katydidzinc_space_study *s)
{
    uint64_t answer = katydidzinc_space_study_check(s, NULL, 0, NULL, 0);
    return answer != KATYDIDZINC_GRANTED ? answer : katydidzinc_space_remove_bias(KATYDIDZINC_MODEL_OF(s), KATYDIDZINC_ROWS_OF(s));
}

static inline uint64_t katydidzinc_space_study_write_back(katydidzinc_space_study *s)
{
    uint64_t answer = katydidzinc_space_study_check(s, NULL, 0, NULL, 0);
    return answer != KATYDIDZINC_GRANTED ? answer : katydidzinc_space_write_back(KATYDIDZINC_MODEL_OF(s), KATYDIDZINC_ROWS_OF(s));
}

static inline uint64_t katydidzinc_space_study_read_rows(const katydidzinc_space_study *s, uint32_t joint, float *out, size_t out_len, uint32_t *ids, size_t ids_len)
{
    uint64_t answer = katydidzinc_space_study_check(s, out, out_len, ids, ids_len);
    return answer != KATYDIDZINC_GRANTED ? answer
                                         : katydidzinc_space_read_rows(KATYDIDZINC_MODEL_OF(s), KATYDIDZINC_ROWS_OF(s), joint, katydidzinc_numbers_at(out), out_len,
                                                                       katydidzinc_words_at(ids), ids_len);
}

static inline uint64_t katydidzinc_space_study_read_velocity(const katydidzinc_space_study *s, uint32_t body, float *out, size_t out_len)
{
    uint64_t answer = katydidzinc_space_study_check(s, out, out_len, NULL, 0);
    return answer != KATYDIDZINC_GRANTED ? answer : katydidzinc_space_read_velocity(KATYDIDZINC_MODEL_OF(s), body, katydidzinc_numbers_at(out), out_len);
}

/* ---- Reactions. A row's impulse is not the joint's reaction along its axis, since the row was made orthogonal to the locks before it; the sums over all of a joint's rows are what its bodies got. In space
 * they are this header's own sums, of f32 in the order of the rows: no proof stands behind them, as one does behind katydidzinc_reaction. */

/* What the first n of `rows`, as a row read wrote them, gave body 1: the force's impulse x, y, z, and the moment's about its centre of mass x, y, z; then the same of body 2. */
#define KATYDIDZINC_SPACE_REACTION_NUMBERS 12

static inline void katydidzinc_space_reaction(const float *rows, uint32_t n, float *out)
{
    uint32_t k;
    int i;
    for (i = 0; i < KATYDIDZINC_SPACE_REACTION_NUMBERS; i++) {
        out[i] = 0.0f;
    }
    for (k = 0; k < n; k++) {
        const float *row = rows + k * KATYDIDZINC_SPACE_ROW_WIDTH;
        const float impulse = row[KATYDIDZINC_SPACE_ROW_IMPULSE];
        for (i = 0; i < 3; i++) {
            const float force = row[KATYDIDZINC_SPACE_ROW_LIN_JAC + i] * impulse;
            const float moment1 = row[KATYDIDZINC_SPACE_ROW_ANG_JAC1 + i] * impulse;
            const float moment2 = row[KATYDIDZINC_SPACE_ROW_ANG_JAC2 + i] * impulse;
            out[i] += force;
            out[3 + i] += moment1;
            out[6 + i] -= force;
            out[9 + i] -= moment2;
        }
    }
}

/* A row read, then the joint's reaction: writes it to `out`, which has at least KATYDIDZINC_SPACE_REACTION_NUMBERS numbers, and answers as the row read does, a granted one as KATYDIDZINC_GRANTED. */
static inline uint64_t katydidzinc_space_study_reaction(const katydidzinc_space_study *s, uint32_t joint, float *out, size_t out_len)
{
    float rows[KATYDIDZINC_SPACE_READ_NUMBERS];
    uint32_t ids[KATYDIDZINC_SPACE_READ_IDS];
    uint64_t answer = katydidzinc_space_study_check(s, out, out_len, NULL, 0);
    if (answer == KATYDIDZINC_GRANTED) {
        answer = katydidzinc_space_study_read_rows(s, joint, rows, KATYDIDZINC_SPACE_READ_NUMBERS, ids, KATYDIDZINC_SPACE_READ_IDS);
    }
    if (answer < KATYDIDZINC_ROWS_GRANTED) {
        return answer;
    }
    if (out_len < KATYDIDZINC_SPACE_REACTION_NUMBERS) {
        return KATYDIDZINC_SHORT_SLICE;
    }
    katydidzinc_space_reaction(rows, katydidzinc_rows_of(answer), out);
    return KATYDIDZINC_GRANTED;
}

/* ---- The Rust's defaults, as in katydidzinc.h: settings; a body at rest at the origin that no impulse moves; a joint that makes no row. */

static inline void katydidzinc_space_default_settings(katydidzinc_space_study *s)
{
    s->dt = 1.0f / 60.0f;
    s->length_unit = 1.0f;
    s->normalized_max_corrective_velocity = 3.0f;
    s->built = 0;
}

static inline void katydidzinc_space_default_body(float *body)
{
    int i;
    for (i = 0; i < KATYDIDZINC_SPACE_BODY_WIDTH; i++) {
        body[i] = 0.0f;
    }
    body[KATYDIDZINC_SPACE_POSE + KATYDIDZINC_SPACE_POSE_QW] = 1.0f;
}

static inline void katydidzinc_space_default_joint(uint32_t *words, float *numbers, uint32_t body1, uint32_t body2)
{
    const float most = 3.40282347e38f; /* f32::MAX */
    int i;
    for (i = 0; i < KATYDIDZINC_SPACE_WORDS_WIDTH; i++) {
        words[i] = 0;
    }
    for (i = 0; i < KATYDIDZINC_SPACE_NUMBERS_WIDTH; i++) {
        numbers[i] = 0.0f;
    }
    words[KATYDIDZINC_SPACE_BODY1] = body1;
    words[KATYDIDZINC_SPACE_BODY2] = body2;
    numbers[KATYDIDZINC_SPACE_FRAME1 + KATYDIDZINC_SPACE_POSE_QW] = 1.0f;
    numbers[KATYDIDZINC_SPACE_FRAME2 + KATYDIDZINC_SPACE_POSE_QW] = 1.0f;
    for (i = 0; i < 3; i++) {
        numbers[KATYDIDZINC_SPACE_LIMITS_X + i * KATYDIDZINC_LIMITS_WIDTH + KATYDIDZINC_LIMIT_MIN] = -most;
        numbers[KATYDIDZINC_SPACE_LIMITS_X + i * KATYDIDZINC_LIMITS_WIDTH + KATYDIDZINC_LIMIT_MAX] = most;
        numbers[KATYDIDZINC_SPACE_MOTOR_X + i * KATYDIDZINC_MOTOR_WIDTH + KATYDIDZINC_MOTOR_MAX_FORCE] = most;
    }
    numbers[KATYDIDZINC_SPACE_NATURAL_FREQUENCY] = 1.0e6f;
    numbers[KATYDIDZINC_SPACE_DAMPING_RATIO] = 1.0f;
}

/* The Rust's `set_limits`: limits a linear axis, 0, 1 or 2, of a joint. */
static inline void katydidzinc_space_set_limits(uint32_t *words, float *numbers, uint32_t axis, float min, float max)
{
    float *limits = numbers + KATYDIDZINC_SPACE_LIMITS_X + axis * KATYDIDZINC_LIMITS_WIDTH;
    words[KATYDIDZINC_SPACE_LIMIT_AXES] |= UINT32_C(1) << axis;
    limits[KATYDIDZINC_LIMIT_MIN] = min;
    limits[KATYDIDZINC_LIMIT_MAX] = max;
}

#ifdef __cplusplus
}
#endif

#endif
