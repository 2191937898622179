/* Katydidzinc: the planar scalar f32 joint rows of rapier2d 0.36.1, for C and C++ on x86-64.
 *
 * A model of up to 128 bodies and 128 joints lies in slices that the caller lends: bodies, the joints' words, the joints'
 * numbers, and row storage. A call answers what it grants or the number of a refusal, and a refused call leaves everything as it
 * was. The functions keep nothing between calls, allocate nothing and may run on several threads at once, each on its own slices.
 *
 * In this file: the version, the records, the answers, the calls, motor tables, models drawn from seeds; and, over these, the same calls on a struct, checked for what the library
 * cannot see (katydidzinc_study_load and so on), and the Rust's defaults.
 */
#ifndef KATYDIDZINC_H
#define KATYDIDZINC_H

#include <stddef.h>
#include <stdint.h>

#ifdef __cplusplus
extern "C" {
#endif

/* ---- Version. A program that is linked to a shared object may meet one of another version than its header's. Records are the same where katydidzinc_layout() is
 * KATYDIDZINC_LAYOUT; else every call would read them wrongly, and a program should stop. */

/* The header's own version: new calls or refusals move the minor number, a record that changes the major one and the layout. */
#define KATYDIDZINC_VERSION "1.0.0"
#define KATYDIDZINC_VERSION_MAJOR 1
#define KATYDIDZINC_VERSION_MINOR 0
#define KATYDIDZINC_VERSION_PATCH 0
#define KATYDIDZINC_LAYOUT 1

/* The library's version: major * 1000000 + minor * 1000 + patch. */
uint32_t katydidzinc_version(void);

/* The number of the library's records, in the plane and in space: another one wherever a record has another width, or its parts another order. */
uint32_t katydidzinc_layout(void);

/* ---- Records. Storage is flat: record i of a slice starts at i times its width. A part of a record at a slice's end is passed over. A joint
 * is there where both its words and its numbers are whole. Angles are in radians. */

/* The number of no body: the world, at the origin, which no impulse moves. */
#define KATYDIDZINC_WORLD UINT32_C(4294967295)

#define KATYDIDZINC_MOST_BODIES 128
#define KATYDIDZINC_MOST_JOINTS 128
#define KATYDIDZINC_MOST_ROUNDS 64
#define KATYDIDZINC_MOST_SUBSTEPS 16
/* A joint has at most so many rows: row storage of 6 rows a joint is always enough. */
#define KATYDIDZINC_MOST_ROWS 6

/* A pose, of a body or of a joint's frame: cosine and sine of its angle, then its place. */
#define KATYDIDZINC_POSE_RE 0
#define KATYDIDZINC_POSE_IM 1
#define KATYDIDZINC_POSE_X 2
#define KATYDIDZINC_POSE_Y 3

/* A body, in `bodies`: 10 numbers. */
#define KATYDIDZINC_BODY_WIDTH 10
#define KATYDIDZINC_POSE 0             /* its pose, from here on: the place is its centre of mass */
#define KATYDIDZINC_INERTIA 4          /* inverse inertia */
#define KATYDIDZINC_MASS_X 5           /* inverse masses, one a direction */
#define KATYDIDZINC_MASS_Y 6
#define KATYDIDZINC_VELOCITY_X 7
#define KATYDIDZINC_VELOCITY_Y 8
#define KATYDIDZINC_VELOCITY_ANGULAR 9

/* A joint's words, in `words`: 12. */
#define KATYDIDZINC_WORDS_WIDTH 12
#define KATYDIDZINC_BODY1 0            /* the number of a body, or KATYDIDZINC_WORLD */
#define KATYDIDZINC_BODY2 1
#define KATYDIDZINC_LOCKED_AXES 2      /* masks of axes */
#define KATYDIDZINC_LIMIT_AXES 3
#define KATYDIDZINC_MOTOR_AXES 4
#define KATYDIDZINC_COUPLED_AXES 5
#define KATYDIDZINC_MODEL_X 6          /* a motor's model, an axis each */
#define KATYDIDZINC_MODEL_Y 7
#define KATYDIDZINC_MODEL_ANGULAR 8
#define KATYDIDZINC_ENABLED 9          /* whether the joint makes rows */
#define KATYDIDZINC_CENTER_CHOICE 10   /* how the centre of the angular limit is typed */
#define KATYDIDZINC_FIRST_ROW 11       /* where the joint's rows begin in `rows`, counted in rows: written by load and by set_masks, read by no call */

/* The axes in a mask. */
#define KATYDIDZINC_LIN_X 1
#define KATYDIDZINC_LIN_Y 2
#define KATYDIDZINC_ANG_X 4            /* the angle, by the Rust's name */
#define KATYDIDZINC_ALL_AXES 7

/* A motor's model: 0, or any other number. */
#define KATYDIDZINC_ACCELERATION_BASED 0
#define KATYDIDZINC_FORCE_BASED 1

/* JointEnabled: 0, 1, or any other number. */
#define KATYDIDZINC_JOINT_ENABLED 0
#define KATYDIDZINC_JOINT_DISABLED_BY_ATTACHED_BODY 1
#define KATYDIDZINC_JOINT_DISABLED 2

/* How the centre is typed: 0, or any other number. */
#define KATYDIDZINC_CENTER_COSINE_SINE 0
#define KATYDIDZINC_CENTER_ANGLE 1

/* A joint's numbers, in `numbers`: 42. */
#define KATYDIDZINC_NUMBERS_WIDTH 42
#define KATYDIDZINC_FRAME1 0           /* a pose each, seen from the body's centre of mass */
#define KATYDIDZINC_FRAME2 4
#define KATYDIDZINC_LIMITS_X 8         /* limits, an axis each */
#define KATYDIDZINC_LIMITS_Y 11
#define KATYDIDZINC_LIMITS_ANGULAR 14
#define KATYDIDZINC_MOTOR_X 17         /* motors, an axis each */
#define KATYDIDZINC_MOTOR_Y 23
#define KATYDIDZINC_MOTOR_ANGULAR 29
#define KATYDIDZINC_NATURAL_FREQUENCY 35 /* softness */
#define KATYDIDZINC_DAMPING_RATIO 36
#define KATYDIDZINC_DOF_X 37           /* stored impulses of the locks */
#define KATYDIDZINC_DOF_Y 38
#define KATYDIDZINC_DOF_ANGULAR 39
#define KATYDIDZINC_CENTER_RE 40       /* cosine and sine of the middle of the angular limit; or that angle, */
#define KATYDIDZINC_CENTER_IM 41       /* in the cosine's place, and then this one is not looked at */

/* The limits of an axis: 3 numbers. */
#define KATYDIDZINC_LIMITS_WIDTH 3
#define KATYDIDZINC_LIMIT_MIN 0
#define KATYDIDZINC_LIMIT_MAX 1
#define KATYDIDZINC_LIMIT_IMPULSE 2    /* stored */

/* The motor of an axis: 6 numbers. */
#define KATYDIDZINC_MOTOR_WIDTH 6
#define KATYDIDZINC_MOTOR_TARGET_VEL 0
#define KATYDIDZINC_MOTOR_TARGET_POS 1
#define KATYDIDZINC_MOTOR_STIFFNESS 2
#define KATYDIDZINC_MOTOR_DAMPING 3
#define KATYDIDZINC_MOTOR_MAX_FORCE 4
#define KATYDIDZINC_MOTOR_IMPULSE 5    /* stored */

/* A row, in `rows` and in what a row read writes: 18 numbers, the Rust's JointConstraint. Joint j's rows stand in `rows` after those of the
 * joints before it. A positive impulse moves body 1 along lin_jac and body 2 the other way; with lengths in metres, a linear
 * row's impulse is in N s and an angular row's in N m s. The lin_jac of a row is no more its axis once the row has been made orthogonal to the locks before it, so
 * its impulse is not the joint's reaction along that axis: katydidzinc_reaction says that. */
#define KATYDIDZINC_ROW_WIDTH 18
#define KATYDIDZINC_ROW_IMPULSE 0
#define KATYDIDZINC_ROW_IMPULSE_MIN 1
#define KATYDIDZINC_ROW_IMPULSE_MAX 2
#define KATYDIDZINC_ROW_LIN_JAC 3      /* x, y */
#define KATYDIDZINC_ROW_ANG_JAC1 5
#define KATYDIDZINC_ROW_ANG_JAC2 6
#define KATYDIDZINC_ROW_II_ANG_JAC1 7
#define KATYDIDZINC_ROW_II_ANG_JAC2 8
#define KATYDIDZINC_ROW_INV_LHS 9
#define KATYDIDZINC_ROW_RHS 10
#define KATYDIDZINC_ROW_RHS_WO_BIAS 11
#define KATYDIDZINC_ROW_CFM_GAIN 12
#define KATYDIDZINC_ROW_CFM_COEFF 13
#define KATYDIDZINC_ROW_IM1 14         /* x, y */
#define KATYDIDZINC_ROW_IM2 16         /* x, y */

/* A row's id is a kind plus an axis: 0 and 1 linear, 2 the angle. */
#define KATYDIDZINC_ID_DOF 0           /* a lock */
#define KATYDIDZINC_ID_LIMIT 4
#define KATYDIDZINC_ID_MOTOR 8

/* What a row read, a velocity read and a reaction are lent: room for so many numbers and ids. */
#define KATYDIDZINC_READ_NUMBERS 108
#define KATYDIDZINC_READ_IDS 6
#define KATYDIDZINC_VELOCITY_NUMBERS 3 /* x, y, angular */
#define KATYDIDZINC_REACTION_NUMBERS 9 /* what body 1 got: x, y, angular; what body 2 got; along the joint's axes x, y; the moment */

/* A motor table holds at most so many records. Its numbers are at most so large in size. */
#define KATYDIDZINC_MOST_RECORDS 4096
#define KATYDIDZINC_LARGEST_SIZE 8000000

/* ---- Answers. An answer is 64 bits wide. Granted is 0, or, of a build and of a row read, 2^32 plus the number of rows (of a drawn model: see there). Every other
 * answer is a number of the list below, and then nothing was written. Cut to 32 bits, a granted number of rows would read as a refusal. */

#define KATYDIDZINC_GRANTED UINT64_C(0)
#define KATYDIDZINC_ROWS_GRANTED UINT64_C(4294967296)

enum katydidzinc_refusal {
    /* The model's rules: a call is refused with the number of the first that fails, in the order 1 to 6, 12, 7 to 11, 13 to 15, of a frame 16 after 9 and its moves' 6 last, and in space (katydidzinc_space.h) 17 after 3. Each of 1 to 12 is tried
     * on the whole model before the next; 13 to 15, in this order, on one record of the motor table before the next record. A call that is handed no row
     * storage passes over 8. */
    KATYDIDZINC_TOO_MANY_BODIES = 1,   /* More than 128 bodies are given. */
    KATYDIDZINC_TOO_MANY_JOINTS = 2,   /* More than 128 joints are given. */
    KATYDIDZINC_LARGE_MASK = 3,        /* A mask exceeds 7, of a joint or of the new ones; in space 63. */
    KATYDIDZINC_ABSENT_BODY = 4,       /* A joint names a body that is neither present nor the world. */
    KATYDIDZINC_SAME_BODY = 5,         /* A joint names one body twice, the world included. */
    KATYDIDZINC_NOT_FINITE = 6,        /* A pose, mass, inertia, setting, centre, joint frame, softness or motor number, limit end or warm
                                        * coefficient is NaN or infinite; only limit ends and maximum forces may be infinite. Velocities
                                        * and stored impulses are not looked at. Or a frame would give a body a pose that is NaN or infinite. */
    KATYDIDZINC_NEGATIVE_DT = 7,       /* dt is below zero. */
    KATYDIDZINC_SMALL_STORAGE = 8,     /* Row storage holds fewer rows than the joints make, with the new masks where a call brings such. */
    KATYDIDZINC_TOO_MANY_ROUNDS = 9,   /* A sweep of more than 64 rounds is wanted. */
    KATYDIDZINC_NOT_BUILT = 10,        /* Warm start, sweep, bias removal, write-back or a row read comes before a build, or a build of a
                                        * model that is not built has both a warm coefficient and a substep above 0. */
    KATYDIDZINC_ABSENT = 11,           /* The joint or body asked for by index is absent. */
    KATYDIDZINC_LARGE_ANGLE = 12,      /* A centre's typed angle exceeds 1024 in size. */
    KATYDIDZINC_BROKEN_TABLE = 13,     /* A motor table's bytes break RFC 4180's grammar, or hold more than 4096 records. */
    KATYDIDZINC_NOT_THREE_NUMBERS = 14, /* A record of the table is not exactly three whole numbers, each at most 8000000 in size. */
    KATYDIDZINC_ABSENT_AXIS = 15,      /* A record's joint or axis is absent. */
    KATYDIDZINC_SUBSTEPS = 16,         /* A frame of no substep or of more than 16 is wanted. */
    KATYDIDZINC_NOT_LINEAR = 17,       /* A joint in space, enabled or not, has a coupled axis, or a limit or motor bit on an angular axis, locked or not. */

    /* Tried after all of these by a read, and before all of these by a sweep and by a frame. */
    KATYDIDZINC_SHORT_SLICE = 1000,    /* The model grants the read, and a slice that the read is to write is too short for it; or the slice for a
                                        * sweep's or a frame's counts is, or one that a model is drawn into. */

    /* Tried before all of these, by the checked calls alone. */
    KATYDIDZINC_BAD_SLICE = 1001,      /* A slice of a length above 0 is NULL, is not aligned, or is longer than memory. */
    KATYDIDZINC_OVERLAP = 1002,        /* Two slices overlap. */
    KATYDIDZINC_FLOAT_MODE = 1003      /* The processor does not round to nearest, or takes subnormal numbers for zero. */
};

/* The micro report of a number that has no millionths in 32 bits. */
#define KATYDIDZINC_MICRO_OVER INT64_C(4294967296)
#define KATYDIDZINC_MICRO_NAN INT64_C(8589934592)

/* ---- The calls. All take the three settings and the mark, then the slices, each as pointer and length in numbers, and then arguments
 * of their own. A slice that is not const may be written; where the call is refused it is not.
 *
 * The mark `built` says that the rows are those of a build: 0 no, any other number yes. The caller keeps it: a granted load or mask change clears it, a
 * granted build or frame sets it, nothing else changes it. Place and every other change of the model leave the mark as it is.
 *
 * What a caller has to keep:
 * - A pointer is aligned and points to as many numbers as its length says. No pointer is NULL, of a slice of length 0 neither.
 * - A slice that a call may write overlaps no other slice of that call, and no other thread reads or writes it meanwhile. Slices that are only read may overlap.
 * - The processor rounds to nearest, ties to even, and takes subnormal numbers for what they are, as it does when a program starts. Compilers change
 *   this where they are asked to (-ffast-math, when linking), as do fesetround and _MM_SET_FLUSH_ZERO_MODE. Otherwise a call's numbers are not the
 *   defined ones, and no answer says so; which records are read and written does not depend on it.
 * - Between a build and the calls that read its rows, the row storage and the joints' words are left as they are. A caller who alters them
 *   still gets every call granted or refused by the rules, but of rows that no build made. First rows alone may be altered: every call counts the rows anew.
 */

/* Checks the model. Writes each joint's first row in `words`. Granted: the mark is to be 0. */
uint64_t katydidzinc_load(float dt, float length_unit, float normalized_max_corrective_velocity, uint32_t built,
                          const float *bodies, size_t bodies_len, uint32_t *words, size_t words_len,
                          const float *numbers, size_t numbers_len, const float *rows, size_t rows_len);

/* Gives a joint new masks. Writes them and each joint's first row in `words`; stored impulses stay. Row storage is asked for the rows that the joints make with the new
 * masks, and not written: what it holds are no rows of this model any more. Granted: the mark is to be 0, whatever the masks were. */
uint64_t katydidzinc_set_masks(float dt, float length_unit, float normalized_max_corrective_velocity, uint32_t built,
                               const float *bodies, size_t bodies_len, uint32_t *words, size_t words_len,
                               const float *numbers, size_t numbers_len, const float *rows, size_t rows_len,
                               uint32_t joint, uint32_t locked_axes, uint32_t limit_axes, uint32_t motor_axes, uint32_t coupled_axes);

/* Gives a body a new pose. Writes its pose in `bodies`. */
uint64_t katydidzinc_place(float dt, float length_unit, float normalized_max_corrective_velocity, uint32_t built,
                           float *bodies, size_t bodies_len, const uint32_t *words, size_t words_len,
                           const float *numbers, size_t numbers_len,
                           uint32_t body, float re, float im, float x, float y);

/* Makes all rows. Writes them to `rows`, from its start; storage after the last row stays. Answers 2^32 plus their number; the mark is to be 1. Impulses start at 0 where
 * `warm` is 0. Elsewhere they start at the coefficient times the stored impulse in substep 0, and times the row's last impulse in a later one. */
uint64_t katydidzinc_build(float dt, float length_unit, float normalized_max_corrective_velocity, uint32_t built,
                           const float *bodies, size_t bodies_len, const uint32_t *words, size_t words_len,
                           const float *numbers, size_t numbers_len, float *rows, size_t rows_len,
                           uint32_t warm, float coefficient, uint32_t substep_id);

/* Applies the impulses that the rows hold. Writes velocities in `bodies`. */
uint64_t katydidzinc_warm_start(float dt, float length_unit, float normalized_max_corrective_velocity, uint32_t built,
                                float *bodies, size_t bodies_len, const uint32_t *words, size_t words_len,
                                const float *numbers, size_t numbers_len, const float *rows, size_t rows_len);

/* Solves each row n times, joints ascending. Writes velocities in `bodies`, the rows' impulses, and to `counts`, a byte a joint, how many of the joint's motor
 * rows were at their lower or upper bound in the last round; 0 where n is 0. `counts` has at least KATYDIDZINC_MOST_JOINTS bytes; else the answer is
 * KATYDIDZINC_SHORT_SLICE, and nothing is done. A granted sweep writes the first KATYDIDZINC_MOST_JOINTS, zeros past the joints; the rest stays. A motor is at a bound where the impulse that its
 * row wants lies beyond it, and so was cut. */
uint64_t katydidzinc_sweep(float dt, float length_unit, float normalized_max_corrective_velocity, uint32_t built,
                           float *bodies, size_t bodies_len, const uint32_t *words, size_t words_len,
                           const float *numbers, size_t numbers_len, float *rows, size_t rows_len,
                           uint32_t n, uint8_t *counts, size_t counts_len);

/* Sets each row's rhs to its rhs_wo_bias. Writes `rows`. */
uint64_t katydidzinc_remove_bias(float dt, float length_unit, float normalized_max_corrective_velocity, uint32_t built,
                                 const float *bodies, size_t bodies_len, const uint32_t *words, size_t words_len,
                                 const float *numbers, size_t numbers_len, float *rows, size_t rows_len);

/* Stores each row's impulse in its joint. Writes the stored impulses in `numbers`. */
uint64_t katydidzinc_write_back(float dt, float length_unit, float normalized_max_corrective_velocity, uint32_t built,
                                const float *bodies, size_t bodies_len, const uint32_t *words, size_t words_len,
                                float *numbers, size_t numbers_len, const float *rows, size_t rows_len);

/* Reads a joint's rows and their ids. Answers 2^32 plus their number, 0 to 6, and writes so many rows to `out` and ids to `ids`, from their starts; the
 * rest of both stays. `out` has at least KATYDIDZINC_READ_NUMBERS numbers and `ids` at least KATYDIDZINC_READ_IDS, however many rows there are; else the answer is
 * KATYDIDZINC_SHORT_SLICE. */
uint64_t katydidzinc_read_rows(float dt, float length_unit, float normalized_max_corrective_velocity, uint32_t built,
                               const float *bodies, size_t bodies_len, const uint32_t *words, size_t words_len,
                               const float *numbers, size_t numbers_len, const float *rows, size_t rows_len,
                               uint32_t joint, float *out, size_t out_len, uint32_t *ids, size_t ids_len);

/* Reads a body's velocity. Writes x, y and angular to `out`, which has at least KATYDIDZINC_VELOCITY_NUMBERS numbers; else the answer is
 * KATYDIDZINC_SHORT_SLICE. */
uint64_t katydidzinc_read_velocity(float dt, float length_unit, float normalized_max_corrective_velocity, uint32_t built,
                                   const float *bodies, size_t bodies_len, const uint32_t *words, size_t words_len,
                                   const float *numbers, size_t numbers_len,
                                   uint32_t body, float *out, size_t out_len);

/* Sets the motors' target velocities that a motor table names (see there). Writes them in `numbers`. The first faulty record decides, and then no target is set. */
uint64_t katydidzinc_set_targets(float dt, float length_unit, float normalized_max_corrective_velocity, uint32_t built,
                                 const float *bodies, size_t bodies_len, const uint32_t *words, size_t words_len,
                                 float *numbers, size_t numbers_len, const uint8_t *table, size_t table_len);

/* Runs a frame, in which the bodies move: n substeps of dt/n, n from 1 to KATYDIDZINC_MOST_SUBSTEPS. A substep is a build with dt/n for dt and the substep's number from 0, a warm start, a sweep of so many rounds, a
 * move of every body by its velocity, bias removal, and a second sweep of as many rounds; after the last substep comes a write-back. `warm` and `coefficient` are those of the builds. Writes poses and velocities in `bodies`, `rows`, the stored impulses in
 * `numbers`, and to `counts` what the last substep's second sweep counts, as katydidzinc_sweep does; `counts` is asked for and answered likewise. The mark is to be 1; the model keeps its dt. The mark before may be any. A frame in which a new
 * pose is NaN or infinite is refused with KATYDIDZINC_NOT_FINITE: bodies and rows are put back, so that nothing is changed. For that a frame keeps copies on the stack, of 8 KB for storage of at most 16 bodies and joints and of 60 KB for more; give a thread that runs one at least 128 KB. */
uint64_t katydidzinc_frame(float dt, float length_unit, float normalized_max_corrective_velocity, uint32_t built,
                           float *bodies, size_t bodies_len, const uint32_t *words, size_t words_len,
                           float *numbers, size_t numbers_len, float *rows, size_t rows_len,
                           uint32_t warm, float coefficient, uint32_t sweeps, uint32_t n, uint8_t *counts, size_t counts_len);

/* ---- Reactions and residuals: functions of the rows that a row read wrote, no calls on a model. They refuse nothing: a joint that is not there counts as one of zeros between the world and the
 * world, a body as the world, a row as a row of zeros. */

/* The reaction of a joint: what the first n of `rows`, at most 6, together gave its bodies, the angular parts about their centres of mass; what body 1 got along the joint's own axes, the directions of
 * frame 1; and the moment that body 1 got at the place of frame 2, where the rows act on body 2 (body 2 the opposite). Frames are taken at the poses that `bodies` has. Writes KATYDIDZINC_REACTION_NUMBERS numbers
 * to `out` and answers KATYDIDZINC_GRANTED; where `out` has fewer, it answers KATYDIDZINC_SHORT_SLICE and writes nothing. */
uint64_t katydidzinc_reaction(const float *bodies, size_t bodies_len, const uint32_t *words, size_t words_len, const float *numbers, size_t numbers_len,
                              uint32_t joint, const float *rows, size_t rows_len, uint32_t n, float *out, size_t out_len);

/* The residual of row k of `rows`, a row of that joint: the change that one more step would make to its impulse, at the velocities that `bodies` has. */
float katydidzinc_residual(const float *bodies, size_t bodies_len, const uint32_t *words, size_t words_len, uint32_t joint,
                           const float *rows, size_t rows_len, uint32_t k);

/* A number in millionths, exactly, rounded half to even: a whole number below 2^31 in size, KATYDIDZINC_MICRO_OVER where it is larger, KATYDIDZINC_MICRO_NAN. */
int64_t katydidzinc_micro_report(float x);

/* ---- Motor tables: the bytes of RFC 4180 records (comma-separated values), three whole numbers each: joint, axis (0 and 1 linear, 2 the angle), target velocity in
 * thousandths. Fields may be quoted. There is no heading; no bytes hold no record; the last record may end without CRLF. A later record for the same axis
 * wins. A call on a model reads one (katydidzinc_set_targets); these functions need no model, only its number of joints.
 *
 * As words, a record is three, each a number in two's complement. A refusal is answered as 2^32 plus its number, 13 to 15: what is granted is a length or a number of records.
 */

#define KATYDIDZINC_TABLE_REFUSED UINT64_C(4294967296)

/* How many records a table holds, or its refusal by a model of so many joints. */
uint64_t katydidzinc_motor_table_read(const uint8_t *text, size_t text_len, uint32_t joints);

/* The record at byte `at`, 0 or what this function answered last: writes its three words, where `words` has room for three, and answers where the next record starts, or the
 * text's length after the last. It answers 0, and writes nothing, where no record of three numbers stands there. Whether joint and axis are there is not looked at. */
size_t katydidzinc_motor_table_record(const uint8_t *text, size_t text_len, size_t at, uint32_t *words, size_t words_len);

/* The target velocity of a word of thousandths: divided once by 1000. */
float katydidzinc_motor_table_target(uint32_t word);

/* Writes the table of records in `table`, three words each, in one spelling: no quotes, no leading zeros or plus, CRLF after each record. A part of a record at the end is
 * passed over. Answers the text's length, or the table's refusal by a model of so many joints. Where `out` has fewer bytes than that, and where it is refused, nothing is written; bytes
 * past the text stay. */
uint64_t katydidzinc_motor_table_write(const uint32_t *table, size_t table_len, uint32_t joints, uint8_t *out, size_t out_len);

/* The number of the rule that a table's answer was refused by, or 0. */
static inline uint64_t katydidzinc_table_refusal(uint64_t answer)
{
    return answer >= KATYDIDZINC_TABLE_REFUSED ? answer - KATYDIDZINC_TABLE_REFUSED : 0;
}

/* ---- Models drawn from seeds: loads that others can repeat, so that a published timing names its seed. A seed is any 32 bits. It draws one to eight bodies, up to eight joints, their masks and all their
 * numbers; document 02, R-11, and crates/seeded/specs say how. The load of every such model is granted, given row storage for KATYDIDZINC_SEEDED_ROWS rows. */

/* What the slices have room for, whatever the seed: the three settings, eight bodies, eight joints' words and numbers. */
#define KATYDIDZINC_SEEDED_SETTINGS 3
#define KATYDIDZINC_SEEDED_BODIES 80
#define KATYDIDZINC_SEEDED_WORDS 96
#define KATYDIDZINC_SEEDED_NUMBERS 336
#define KATYDIDZINC_SEEDED_ROWS 48

#define KATYDIDZINC_SEEDED_GRANTED UINT64_C(4294967296)

/* Draws a model. Writes dt, length_unit and normalized_max_corrective_velocity to `settings`, and its records to the starts of the others; the rest of each stays. Answers 2^32 plus 2^16 times the number of
 * bodies plus the number of joints; where a slice has less room than the list above says, KATYDIDZINC_SHORT_SLICE, and then nothing is written. Calls on the model are lent so many records as there are. */
uint64_t katydidzinc_seeded(uint32_t seed, float *settings, size_t settings_len, float *bodies, size_t bodies_len, uint32_t *words, size_t words_len,
                            float *numbers, size_t numbers_len);

/* The numbers of bodies and of joints that it answers. */
static inline uint32_t katydidzinc_seeded_bodies(uint64_t answer)
{
    return answer >= KATYDIDZINC_SEEDED_GRANTED ? (uint32_t)((answer - KATYDIDZINC_SEEDED_GRANTED) >> 16) : 0;
}

static inline uint32_t katydidzinc_seeded_joints(uint64_t answer)
{
    return answer >= KATYDIDZINC_SEEDED_GRANTED ? (uint32_t)(answer & 0xFFFF) : 0;
}

/* ---- Answers, read. Those of motor tables are katydidzinc_table_refusal's. */

static inline int katydidzinc_granted(uint64_t answer)
{
    return answer == KATYDIDZINC_GRANTED || answer >= KATYDIDZINC_ROWS_GRANTED;
}

/* The number of rows that a granted build or row read answers. */
static inline uint32_t katydidzinc_rows_of(uint64_t answer)
{
    return answer >= KATYDIDZINC_ROWS_GRANTED ? (uint32_t)(answer - KATYDIDZINC_ROWS_GRANTED) : 0;
}

/* The rule of a refusal, in words. */
static inline const char *katydidzinc_rule(uint64_t answer)
{
    if (katydidzinc_granted(answer)) {
        return "granted";
    }
    switch (answer) {
    case KATYDIDZINC_TOO_MANY_BODIES: return "more than 128 bodies are given";
    case KATYDIDZINC_TOO_MANY_JOINTS: return "more than 128 joints are given";
    case KATYDIDZINC_LARGE_MASK: return "a mask exceeds 7, in space 63";
    case KATYDIDZINC_ABSENT_BODY: return "a joint names a body that is neither present nor the world";
    case KATYDIDZINC_SAME_BODY: return "a joint names one body twice";
    case KATYDIDZINC_NOT_FINITE: return "a number is NaN or infinite";
    case KATYDIDZINC_NEGATIVE_DT: return "dt is below zero";
    case KATYDIDZINC_SMALL_STORAGE: return "row storage holds fewer rows than the joints make";
    case KATYDIDZINC_TOO_MANY_ROUNDS: return "a sweep of more than 64 rounds is wanted";
    case KATYDIDZINC_NOT_BUILT: return "the model is not built";
    case KATYDIDZINC_ABSENT: return "the joint or body asked for is absent";
    case KATYDIDZINC_LARGE_ANGLE: return "a centre's typed angle exceeds 1024 in size";
    case KATYDIDZINC_BROKEN_TABLE: return "a motor table breaks RFC 4180's grammar or holds more than 4096 records";
    case KATYDIDZINC_NOT_THREE_NUMBERS: return "a record is not exactly three whole numbers, each at most 8000000 in size";
    case KATYDIDZINC_ABSENT_AXIS: return "a record's joint or axis is absent";
    case KATYDIDZINC_SUBSTEPS: return "a frame of no substep or of more than 16 is wanted";
    case KATYDIDZINC_NOT_LINEAR: return "a joint in space has a coupled axis, or a limit or a motor on an angular axis";
    case KATYDIDZINC_SHORT_SLICE: return "a slice is too short for what is read, counted or drawn";
    case KATYDIDZINC_BAD_SLICE: return "a slice is NULL, not aligned or longer than memory";
    case KATYDIDZINC_OVERLAP: return "two slices overlap";
    case KATYDIDZINC_FLOAT_MODE: return "the processor does not round to nearest, or takes subnormal numbers for zero";
    default: return "no answer of this library";
    }
}

/* ---- The same calls on a struct, checked. Each tries the float mode and the slices first (1001 to 1003), then makes the call, and keeps the mark. Of the
 * list above, what is left to the caller is that each pointer points to as many numbers as its length says, that no other thread writes them, and the last point. */

typedef struct katydidzinc_study {
    float dt;
    float length_unit;
    float normalized_max_corrective_velocity;
    uint32_t built;
    float *bodies;
    size_t bodies_len;
    uint32_t *words;
    size_t words_len;
    float *numbers;
    size_t numbers_len;
    float *rows;
    size_t rows_len;
    uint8_t counts[KATYDIDZINC_MOST_JOINTS]; /* of the last granted sweep or frame */
} katydidzinc_study;

/* Whether sums and quotients of the calling thread are those of IEEE 754, to nearest, with subnormal numbers. */
static inline int katydidzinc_float_mode(void)
{
    volatile float one = 1.0f;
    volatile float less = -1.0f;
    volatile float quarter = 2.98023224e-8f; /* 2^-25: a quarter of the distance from 1 to the next number */
    volatile float most = 8.94069672e-8f;    /* three quarters of it */
    volatile float smallest = 1.17549435e-38f; /* the smallest normal number */
    volatile float half = 0.5f;
    volatile float above = one + quarter;
    volatile float below = less - quarter;
    volatile float next = one + most;
    volatile float subnormal = smallest * half;
    volatile float again = subnormal + subnormal;
    return above == one && below == less && next != one && subnormal != 0.0f && again == smallest;
}

/* A slice of len elements, each of `width` bytes and aligned so. */
static inline int katydidzinc_slice_bad(const void *slice, size_t len, size_t width)
{
    return len > 0 && (slice == NULL || (uintptr_t)slice % width != 0 || len > PTRDIFF_MAX / width || (uintptr_t)slice > UINTPTR_MAX - width * len);
}

/* The lengths in bytes. */
static inline int katydidzinc_slices_meet(const void *a, size_t a_len, const void *b, size_t b_len)
{
    return a_len > 0 && b_len > 0 && (uintptr_t)a < (uintptr_t)b + b_len && (uintptr_t)b < (uintptr_t)a + a_len;
}

/* 0, or what is wrong with the study's slices and three more, of numbers, words and bytes. */
static inline uint64_t katydidzinc_study_check(const katydidzinc_study *s, const void *out, size_t out_len, const void *ids, size_t ids_len,
                                               const void *table, size_t table_len)
{
    const void *slices[7];
    size_t lens[7];
    int i, j;
    if (!katydidzinc_float_mode()) {
        return KATYDIDZINC_FLOAT_MODE;
    }
    slices[0] = s->bodies, lens[0] = s->bodies_len;
    slices[1] = s->words, lens[1] = s->words_len;
    slices[2] = s->numbers, lens[2] = s->numbers_len;
    slices[3] = s->rows, lens[3] = s->rows_len;
    slices[4] = out, lens[4] = out_len;
    slices[5] = ids, lens[5] = ids_len;
    slices[6] = table, lens[6] = table_len;
    for (i = 0; i < 7; i++) {
        size_t width = i < 6 ? 4 : 1;
        if (katydidzinc_slice_bad(slices[i], lens[i], width)) {
            return KATYDIDZINC_BAD_SLICE;
        }
        lens[i] *= width;
    }
    for (i = 0; i < 7; i++) {
        for (j = 0; j < i; j++) {
            if (katydidzinc_slices_meet(slices[i], lens[i], slices[j], lens[j])) {
                return KATYDIDZINC_OVERLAP;
            }
        }
    }
    return KATYDIDZINC_GRANTED;
}

/* A slice of length 0 may be NULL in a study. */
static inline float *katydidzinc_numbers_at(float *slice)
{
    static float none;
    return slice != NULL ? slice : &none;
}

static inline uint32_t *katydidzinc_words_at(uint32_t *slice)
{
    static uint32_t none;
    return slice != NULL ? slice : &none;
}

/* The arguments that all calls share, and those that follow where row storage is handed over. */
#define KATYDIDZINC_MODEL_OF(s)                                                                                                  \
    (s)->dt, (s)->length_unit, (s)->normalized_max_corrective_velocity, (s)->built, katydidzinc_numbers_at((s)->bodies),         \
        (s)->bodies_len, katydidzinc_words_at((s)->words), (s)->words_len, katydidzinc_numbers_at((s)->numbers), (s)->numbers_len
#define KATYDIDZINC_ROWS_OF(s) katydidzinc_numbers_at((s)->rows), (s)->rows_len

static inline uint64_t katydidzinc_study_load(katydidzinc_study *s)
{
    uint64_t answer = katydidzinc_study_check(s, NULL, 0, NULL, 0, NULL, 0);
    if (answer == KATYDIDZINC_GRANTED) {
        answer = katydidzinc_load(KATYDIDZINC_MODEL_OF(s), KATYDIDZINC_ROWS_OF(s));
        if (katydidzinc_granted(answer)) {
            s->built = 0;
        }
    }
    return answer;
}

static inline uint64_t katydidzinc_study_set_masks(katydidzinc_study *s, uint32_t joint, uint32_t locked_axes, uint32_t limit_axes, uint32_t motor_axes,
                                                   uint32_t coupled_axes)
{
    uint64_t answer = katydidzinc_study_check(s, NULL, 0, NULL, 0, NULL, 0);
    if (answer == KATYDIDZINC_GRANTED) {
        answer = katydidzinc_set_masks(KATYDIDZINC_MODEL_OF(s), KATYDIDZINC_ROWS_OF(s), joint, locked_axes, limit_axes, motor_axes, coupled_axes);
        if (katydidzinc_granted(answer)) {
            s->built = 0;
        }
    }
    return answer;
}

static inline uint64_t katydidzinc_study_place(katydidzinc_study *s, uint32_t body, float re, float im, float x, float y)
{
    uint64_t answer = katydidzinc_study_check(s, NULL, 0, NULL, 0, NULL, 0);
    return answer != KATYDIDZINC_GRANTED ? answer : katydidzinc_place(KATYDIDZINC_MODEL_OF(s), body, re, im, x, y);
}

static inline uint64_t katydidzinc_study_build(katydidzinc_study *s, uint32_t warm, float coefficient, uint32_t substep_id)
{
    uint64_t answer = katydidzinc_study_check(s, NULL, 0, NULL, 0, NULL, 0);
    if (answer == KATYDIDZINC_GRANTED) {
        answer = katydidzinc_build(KATYDIDZINC_MODEL_OF(s), KATYDIDZINC_ROWS_OF(s), warm, coefficient, substep_id);
        if (katydidzinc_granted(answer)) {
            s->built = 1;
        }
    }
    return answer;
}

static inline uint64_t katydidzinc_study_warm_start(katydidzinc_study *s)
{
    uint64_t answer = katydidzinc_study_check(s, NULL, 0, NULL, 0, NULL, 0);
    return answer != KATYDIDZINC_GRANTED ? answer : katydidzinc_warm_start(KATYDIDZINC_MODEL_OF(s), KATYDIDZINC_ROWS_OF(s));
}

/* The counts go to the struct. */
static inline uint64_t katydidzinc_study_sweep(katydidzinc_study *s, uint32_t n)
{
    uint64_t answer = katydidzinc_study_check(s, NULL, 0, NULL, 0, NULL, 0);
    return answer != KATYDIDZINC_GRANTED
               ? answer
               : katydidzinc_sweep(KATYDIDZINC_MODEL_OF(s), KATYDIDZINC_ROWS_OF(s), n, s->counts, KATYDIDZINC_MOST_JOINTS);
}

static inline uint64_t katydidzinc_study_remove_bias(katydidzinc_study *s)
{
    uint64_t answer = katydidzinc_study_check(s, NULL, 0, NULL, 0, NULL, 0);
    return answer != KATYDIDZINC_GRANTED ? answer : katydidzinc_remove_bias(KATYDIDZINC_MODEL_OF(s), KATYDIDZINC_ROWS_OF(s));
}

static inline uint64_t katydidzinc_study_write_back(katydidzinc_study *s)
{
    uint64_t answer = katydidzinc_study_check(s, NULL, 0, NULL, 0, NULL, 0);
    return answer != KATYDIDZINC_GRANTED ? answer : katydidzinc_write_back(KATYDIDZINC_MODEL_OF(s), KATYDIDZINC_ROWS_OF(s));
}

static inline uint64_t katydidzinc_study_read_rows(const katydidzinc_study *s, uint32_t joint, float *out, size_t out_len, uint32_t *ids, size_t ids_len)
{
    uint64_t answer = katydidzinc_study_check(s, out, out_len, ids, ids_len, NULL, 0);
    return answer != KATYDIDZINC_GRANTED ? answer
                                         : katydidzinc_read_rows(KATYDIDZINC_MODEL_OF(s), KATYDIDZINC_ROWS_OF(s), joint, katydidzinc_numbers_at(out), out_len,
                                                                 katydidzinc_words_at(ids), ids_len);
}

static inline uint64_t katydidzinc_study_read_velocity(const katydidzinc_study *s, uint32_t body, float *out, size_t out_len)
{
    uint64_t answer = katydidzinc_study_check(s, out, out_len, NULL, 0, NULL, 0);
    return answer != KATYDIDZINC_GRANTED ? answer : katydidzinc_read_velocity(KATYDIDZINC_MODEL_OF(s), body, katydidzinc_numbers_at(out), out_len);
}

/* A row read, then the joint's reaction: writes it to `out`, which has at least KATYDIDZINC_REACTION_NUMBERS numbers, and answers as the row read does, a granted one as KATYDIDZINC_GRANTED. */
static inline uint64_t katydidzinc_study_reaction(const katydidzinc_study *s, uint32_t joint, float *out, size_t out_len)
{
    float rows[KATYDIDZINC_READ_NUMBERS];
    uint32_t ids[KATYDIDZINC_READ_IDS];
    uint64_t answer = katydidzinc_study_check(s, out, out_len, NULL, 0, NULL, 0);
    if (answer == KATYDIDZINC_GRANTED) {
        answer = katydidzinc_study_read_rows(s, joint, rows, KATYDIDZINC_READ_NUMBERS, ids, KATYDIDZINC_READ_IDS);
    }
    if (answer < KATYDIDZINC_ROWS_GRANTED) {
        return answer;
    }
    return katydidzinc_reaction(katydidzinc_numbers_at(s->bodies), s->bodies_len, katydidzinc_words_at(s->words), s->words_len, katydidzinc_numbers_at(s->numbers), s->numbers_len,
                                joint, rows, KATYDIDZINC_READ_NUMBERS, katydidzinc_rows_of(answer), katydidzinc_numbers_at(out), out_len);
}

/* A row read, then the residual of each of the joint's rows: writes them to `out`, which has at least KATYDIDZINC_MOST_ROWS numbers, and answers as the row read does. */
static inline uint64_t katydidzinc_study_residuals(const katydidzinc_study *s, uint32_t joint, float *out, size_t out_len)
{
    float rows[KATYDIDZINC_READ_NUMBERS];
    uint32_t ids[KATYDIDZINC_READ_IDS], k;
    uint64_t answer = katydidzinc_study_check(s, out, out_len, NULL, 0, NULL, 0);
    if (answer == KATYDIDZINC_GRANTED) {
        answer = katydidzinc_study_read_rows(s, joint, rows, KATYDIDZINC_READ_NUMBERS, ids, KATYDIDZINC_READ_IDS);
    }
    if (answer >= KATYDIDZINC_ROWS_GRANTED && out_len < KATYDIDZINC_MOST_ROWS) {
        return KATYDIDZINC_SHORT_SLICE;
    }
    for (k = 0; k < katydidzinc_rows_of(answer); k++) {
        out[k] = katydidzinc_residual(katydidzinc_numbers_at(s->bodies), s->bodies_len, katydidzinc_words_at(s->words), s->words_len, joint, rows, KATYDIDZINC_READ_NUMBERS, k);
    }
    return answer;
}

static inline uint64_t katydidzinc_study_set_targets(katydidzinc_study *s, const uint8_t *table, size_t table_len)
{
    static const uint8_t none[1] = {0};
    uint64_t answer = katydidzinc_study_check(s, NULL, 0, NULL, 0, table, table_len);
    return answer != KATYDIDZINC_GRANTED ? answer : katydidzinc_set_targets(KATYDIDZINC_MODEL_OF(s), table != NULL ? table : none, table_len);
}

/* The study that a seed draws: its settings, its records, and their lengths, which are cut to them. The mark is cleared. Row storage is left as it is. */
static inline uint64_t katydidzinc_study_seeded(katydidzinc_study *s, uint32_t seed)
{
    float settings[KATYDIDZINC_SEEDED_SETTINGS];
    uint64_t answer = katydidzinc_study_check(s, NULL, 0, NULL, 0, NULL, 0);
    if (answer != KATYDIDZINC_GRANTED) {
        return answer;
    }
    answer = katydidzinc_seeded(seed, settings, KATYDIDZINC_SEEDED_SETTINGS, katydidzinc_numbers_at(s->bodies), s->bodies_len, katydidzinc_words_at(s->words), s->words_len,
                                katydidzinc_numbers_at(s->numbers), s->numbers_len);
    if (katydidzinc_granted(answer)) {
        s->dt = settings[0];
        s->length_unit = settings[1];
        s->normalized_max_corrective_velocity = settings[2];
        s->built = 0;
        s->bodies_len = (size_t)katydidzinc_seeded_bodies(answer) * KATYDIDZINC_BODY_WIDTH;
        s->words_len = (size_t)katydidzinc_seeded_joints(answer) * KATYDIDZINC_WORDS_WIDTH;
        s->numbers_len = (size_t)katydidzinc_seeded_joints(answer) * KATYDIDZINC_NUMBERS_WIDTH;
    }
    return answer;
}

/* The counts go to the struct. */
static inline uint64_t katydidzinc_study_frame(katydidzinc_study *s, uint32_t warm, float coefficient, uint32_t sweeps, uint32_t n)
{
    uint64_t answer = katydidzinc_study_check(s, NULL, 0, NULL, 0, NULL, 0);
    if (answer == KATYDIDZINC_GRANTED) {
        answer = katydidzinc_frame(KATYDIDZINC_MODEL_OF(s), KATYDIDZINC_ROWS_OF(s), warm, coefficient, sweeps, n, s->counts, KATYDIDZINC_MOST_JOINTS);
        if (katydidzinc_granted(answer)) {
            s->built = 1;
        }
    }
    return answer;
}

/* ---- The Rust's defaults: its settings; a body at rest at the origin that no impulse moves; a joint that makes no row. */

static inline void katydidzinc_default_settings(katydidzinc_study *s)
{
    s->dt = 1.0f / 60.0f;
    s->length_unit = 1.0f;
    s->normalized_max_corrective_velocity = 3.0f;
    s->built = 0;
}

static inline void katydidzinc_default_body(float *body)
{
    int i;
    for (i = 0; i < KATYDIDZINC_BODY_WIDTH; i++) {
        body[i] = 0.0f;
    }
    body[KATYDIDZINC_POSE + KATYDIDZINC_POSE_RE] = 1.0f;
}

static inline void katydidzinc_default_joint(uint32_t *words, float *numbers, uint32_t body1, uint32_t body2)
{
    const float most = 3.40282347e38f; /* f32::MAX */
    int i;
    for (i = 0; i < KATYDIDZINC_WORDS_WIDTH; i++) {
        words[i] = 0;
    }
    for (i = 0; i < KATYDIDZINC_NUMBERS_WIDTH; i++) {
        numbers[i] = 0.0f;
    }
    words[KATYDIDZINC_BODY1] = body1;
    words[KATYDIDZINC_BODY2] = body2;
    numbers[KATYDIDZINC_FRAME1 + KATYDIDZINC_POSE_RE] = 1.0f;
    numbers[KATYDIDZINC_FRAME2 + KATYDIDZINC_POSE_RE] = 1.0f;
    for (i = 0; i < 3; i++) {
        numbers[KATYDIDZINC_LIMITS_X + i * KATYDIDZINC_LIMITS_WIDTH + KATYDIDZINC_LIMIT_MIN] = -most;
        numbers[KATYDIDZINC_LIMITS_X + i * KATYDIDZINC_LIMITS_WIDTH + KATYDIDZINC_LIMIT_MAX] = most;
        numbers[KATYDIDZINC_MOTOR_X + i * KATYDIDZINC_MOTOR_WIDTH + KATYDIDZINC_MOTOR_MAX_FORCE] = most;
    }
    numbers[KATYDIDZINC_NATURAL_FREQUENCY] = 1.0e6f;
    numbers[KATYDIDZINC_DAMPING_RATIO] = 1.0f;
    numbers[KATYDIDZINC_CENTER_RE] = 1.0f;
}

/* The Rust's `set_limits`: limits an axis, 0, 1 or 2, of a joint. A centre of the angular limit that is not given is the middle of its ends, as the Rust has it, typed as an angle; where the ends are a turn or
 * more apart it stays. A centre that is given is written after this. */
static inline void katydidzinc_set_limits(uint32_t *words, float *numbers, uint32_t axis, float min, float max)
{
    const float half_turn = 3.14159274f; /* f32's pi */
    float *limits = numbers + KATYDIDZINC_LIMITS_X + axis * KATYDIDZINC_LIMITS_WIDTH;
    words[KATYDIDZINC_LIMIT_AXES] |= UINT32_C(1) << axis;
    limits[KATYDIDZINC_LIMIT_MIN] = min;
    limits[KATYDIDZINC_LIMIT_MAX] = max;
    if (axis == 2 && (max - min) * 0.5f < half_turn) {
        words[KATYDIDZINC_CENTER_CHOICE] = KATYDIDZINC_CENTER_ANGLE;
        numbers[KATYDIDZINC_CENTER_RE] = (min + max) * 0.5f;
        numbers[KATYDIDZINC_CENTER_IM] = 0.0f;
    }
}

#ifdef __cplusplus
}
#endif

#endif
