/* A leg in C: thigh, shank and foot hang from the world by hip, knee and ankle. The hip has a motor, the straight knee rests at its stop, the ankle
 * has both. It prints how many motors ran out of force, the impulse of every row and the velocity of every body, in millionths.
 *
 *   cc -Iinclude examples/c/leg.c target/lib/libkatydidzinc.a -o target/leg && target/leg
 */
#include "katydidzinc.h"

#include <inttypes.h>
#include <stdio.h>
#include <stdlib.h>

#define BODIES 3
#define JOINTS 3

static float bodies[BODIES * KATYDIDZINC_BODY_WIDTH];
static uint32_t words[JOINTS * KATYDIDZINC_WORDS_WIDTH];
static float numbers[JOINTS * KATYDIDZINC_NUMBERS_WIDTH];
static float rows[JOINTS * KATYDIDZINC_MOST_ROWS * KATYDIDZINC_ROW_WIDTH];

static const char *const body_names[BODIES] = {"thigh", "shank", "foot"};
static const char *const joint_names[JOINTS] = {"hip", "knee", "ankle"};

/* A body upright at (x, y). */
static void body(int i, float x, float y, float inverse_inertia, float inverse_mass, float vx, float vy, float turns)
{
    float *b = bodies + i * KATYDIDZINC_BODY_WIDTH;
    katydidzinc_default_body(b);
    b[KATYDIDZINC_POSE + KATYDIDZINC_POSE_X] = x;
    b[KATYDIDZINC_POSE + KATYDIDZINC_POSE_Y] = y;
    b[KATYDIDZINC_INERTIA] = inverse_inertia;
    b[KATYDIDZINC_MASS_X] = inverse_mass;
    b[KATYDIDZINC_MASS_Y] = inverse_mass;
    b[KATYDIDZINC_VELOCITY_X] = vx;
    b[KATYDIDZINC_VELOCITY_Y] = vy;
    b[KATYDIDZINC_VELOCITY_ANGULAR] = turns;
}

/* A joint locked in the plane: where it is, seen from the centre of mass of each of its bodies. */
static void joint(int j, uint32_t body1, uint32_t body2, float x1, float y1, float x2, float y2)
{
    float *n = numbers + j * KATYDIDZINC_NUMBERS_WIDTH;
    uint32_t *w = words + j * KATYDIDZINC_WORDS_WIDTH;
    katydidzinc_default_joint(w, n, body1, body2);
    w[KATYDIDZINC_LOCKED_AXES] = KATYDIDZINC_LIN_X | KATYDIDZINC_LIN_Y;
    n[KATYDIDZINC_FRAME1 + KATYDIDZINC_POSE_X] = x1;
    n[KATYDIDZINC_FRAME1 + KATYDIDZINC_POSE_Y] = y1;
    n[KATYDIDZINC_FRAME2 + KATYDIDZINC_POSE_X] = x2;
    n[KATYDIDZINC_FRAME2 + KATYDIDZINC_POSE_Y] = y2;
}

/* The ends of the angular limit. Its centre is their middle. */
static void stop(int j, float min, float max)
{
    katydidzinc_set_limits(words + j * KATYDIDZINC_WORDS_WIDTH, numbers + j * KATYDIDZINC_NUMBERS_WIDTH, 2, min, max);
}

static void motor(int j, float target_vel, float damping, float max_force)
{
    float *n = numbers + j * KATYDIDZINC_NUMBERS_WIDTH + KATYDIDZINC_MOTOR_ANGULAR;
    words[j * KATYDIDZINC_WORDS_WIDTH + KATYDIDZINC_MOTOR_AXES] = KATYDIDZINC_ANG_X;
    n[KATYDIDZINC_MOTOR_TARGET_VEL] = target_vel;
    n[KATYDIDZINC_MOTOR_DAMPING] = damping;
    n[KATYDIDZINC_MOTOR_MAX_FORCE] = max_force;
}

/* An answer's number of rows; a refusal ends the program. */
static uint32_t granted(const char *name, uint64_t answer)
{
    if (!katydidzinc_granted(answer)) {
        printf("%s = refused %" PRIu64 "\n", name, answer);
        fprintf(stderr, "%s: %s\n", name, katydidzinc_rule(answer));
        exit(1);
    }
    return katydidzinc_rows_of(answer);
}

static void said(const char *name, uint64_t answer)
{
    granted(name, answer);
    printf("%s = granted\n", name);
}

static void millionths(float x)
{
    int64_t n = katydidzinc_micro_report(x);
    if (n == KATYDIDZINC_MICRO_NAN) {
        printf("nan");
    } else if (n == KATYDIDZINC_MICRO_OVER) {
        printf("over");
    } else {
        printf("%" PRId64, n);
    }
}

static void print_joint(const katydidzinc_study *s, uint32_t j)
{
    float out[KATYDIDZINC_READ_NUMBERS];
    uint32_t ids[KATYDIDZINC_READ_IDS];
    uint32_t i, n = granted("row read", katydidzinc_study_read_rows(s, j, out, KATYDIDZINC_READ_NUMBERS, ids, KATYDIDZINC_READ_IDS));
    for (i = 0; i < n; i++) {
        const char *kind = ids[i] >= KATYDIDZINC_ID_MOTOR ? "motor" : ids[i] >= KATYDIDZINC_ID_LIMIT ? "stop" : ids[i] == 0 ? "lock x" : "lock y";
        printf("%s %s: ", joint_names[j], kind);
        millionths(out[i * KATYDIDZINC_ROW_WIDTH + KATYDIDZINC_ROW_IMPULSE]);
        printf("\n");
    }
}

static void print_body(const katydidzinc_study *s, uint32_t i)
{
    float v[KATYDIDZINC_VELOCITY_NUMBERS];
    granted("velocity", katydidzinc_study_read_velocity(s, i, v, KATYDIDZINC_VELOCITY_NUMBERS));
    printf("%s moves: ", body_names[i]);
    millionths(v[0]);
    printf(" ");
    millionths(v[1]);
    printf(", turns: ");
    millionths(v[2]);
    printf("\n");
}

int main(void)
{
    katydidzinc_study s = {0.015625f, 1.0f, 10.0f, 0, bodies, sizeof bodies / sizeof *bodies, words, sizeof words / sizeof *words,
                           numbers, sizeof numbers / sizeof *numbers, rows, sizeof rows / sizeof *rows, {0}};
    uint32_t i;
    body(0, 0.0f, 0.75f, 10.0f, 0.125f, 0.5f, -0.25f, 1.5f);
    body(1, 0.0f, 0.3f, 20.0f, 0.25f, 0.25f, -0.25f, -2.0f);
    body(2, 0.0625f, 0.03125f, 200.0f, 1.0f, 0.0f, -0.25f, 0.5f);
    joint(0, KATYDIDZINC_WORLD, 0, 0.0f, 1.0f, 0.0f, 0.25f);
    motor(0, 1.0f, 10.0f, 50.0f);
    joint(1, 0, 1, 0.0f, -0.25f, 0.0f, 0.2f);
    stop(1, 0.0f, 2.4f);
    joint(2, 1, 2, 0.0f, -0.2f, -0.0625f, 0.06875f);
    stop(2, -0.5f, 0.5f);
    motor(2, 0.0f, 5.0f, 30.0f);

    granted("load", katydidzinc_study_load(&s));
    printf("rows = %" PRIu32 "\n", granted("build", katydidzinc_study_build(&s, 0, 0.0f, 0)));
    said("sweep 20", katydidzinc_study_sweep(&s, 20));
    said("bias removal", katydidzinc_study_remove_bias(&s));
    said("sweep 4", katydidzinc_study_sweep(&s, 4));
    printf("hip motors out of force = %d\n", s.counts[0]);
    printf("ankle motors out of force = %d\n", s.counts[2]);
    said("write-back", katydidzinc_study_write_back(&s));
    for (i = 0; i < JOINTS; i++) {
        print_joint(&s, i);
    }
    for (i = 0; i < BODIES; i++) {
        print_body(&s, i);
    }
    return 0;
}
