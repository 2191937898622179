/* A wrist in space, in C: the forearm hangs from the world by an elbow that locks all six axes, and the hand from the forearm. The wrist locks x and the angles about x and y, and turns freely about z; along
 * y, the forearm's length, the hand has two millimetres of play and rests at the stop; across, along z, a motor slows it with all the force it has. (In space a stop and a motor are for linear axes: an angular axis is locked or free.)
 *
 * It prints, in millionths, each row with its id, its impulse, and the rule and the definition that made it; and each joint's reaction, of force and of moment, on both its bodies.
 *
 *   cc -Iinclude examples/c/wrist.c target/lib/libkatydidzinc.a -o target/wrist && target/wrist
 */
#include "katydidzinc_space.h"

#include <inttypes.h>
#include <stdio.h>
#include <stdlib.h>
#include <string.h>

#define BODIES 2
#define JOINTS 2

static float bodies[BODIES * KATYDIDZINC_SPACE_BODY_WIDTH];
static uint32_t words[JOINTS * KATYDIDZINC_SPACE_WORDS_WIDTH];
static float numbers[JOINTS * KATYDIDZINC_SPACE_NUMBERS_WIDTH];
static float rows[JOINTS * KATYDIDZINC_SPACE_MOST_ROWS * KATYDIDZINC_SPACE_ROW_WIDTH];

static const char *const body_names[BODIES] = {"forearm", "hand"};
static const char *const joint_names[JOINTS] = {"elbow", "wrist"};

/* docs/RULES.md, "Which rows in space, in which order": rule and definition by kind and axis. */
typedef struct rule {
    const char *number;
    const char *definition;
} rule;
static const rule dof_rules[6] = {{"S2.4", "lockLinearOf"}, {"S2.5", "lockLinearOf"}, {"S2.6", "lockLinearOf"}, {"S2.1", "lockAngularOf"}, {"S2.2", "lockAngularOf"}, {"S2.3", "lockAngularOf"}};
static const rule limit_rules[3] = {{"S2.7", "limitLinearOf"}, {"S2.8", "limitLinearOf"}, {"S2.9", "limitLinearOf"}};
static const rule motor_rules[3] = {{"S1.1", "motorLinearOf"}, {"S1.2", "motorLinearOf"}, {"S1.3", "motorLinearOf"}};

/* A body at rest on the y axis: inverse inertia m11, m12, m13, m22, m23, m33, and one inverse mass. */
static float *body(int i, float y, const float *inertia, float inverse_mass)
{
    float *b = bodies + i * KATYDIDZINC_SPACE_BODY_WIDTH;
    int k;
    katydidzinc_space_default_body(b);
    b[KATYDIDZINC_SPACE_POSE + KATYDIDZINC_SPACE_POSE_Y] = y;
    memcpy(b + KATYDIDZINC_SPACE_INERTIA, inertia, 6 * sizeof *inertia);
    for (k = 0; k < 3; k++) {
        b[KATYDIDZINC_SPACE_MASS_X + k] = inverse_mass;
    }
    return b;
}

/* A joint with some axes locked: how far along y it is from the centre of mass of each of its bodies. */
static void joint(int j, uint32_t body1, uint32_t body2, uint32_t locked_axes, float y1, float y2)
{
    float *n = numbers + j * KATYDIDZINC_SPACE_NUMBERS_WIDTH;
    uint32_t *w = words + j * KATYDIDZINC_SPACE_WORDS_WIDTH;
    katydidzinc_space_default_joint(w, n, body1, body2);
    w[KATYDIDZINC_SPACE_LOCKED_AXES] = locked_axes;
    n[KATYDIDZINC_SPACE_FRAME1 + KATYDIDZINC_SPACE_POSE_Y] = y1;
    n[KATYDIDZINC_SPACE_FRAME2 + KATYDIDZINC_SPACE_POSE_Y] = y2;
}

/* An answer's number of rows; a refusal ends the program. */
static uint32_t granted(const char *name, uint64_t answer)
{
    if (!katydidzinc_granted(answer)) {
        printf("%s = refused %" PRIu64 "\n", name, answer);
        fprintf(stderr, "%s: %s\n", name, katydidzinc_rule(answer));
        exit(1);
    }
    return katydidzinc_rows_of(answer);
}

static void millionths(const char *before, const float *x, int n)
{
    int i;
    printf("%s", before);
    for (i = 0; i < n; i++) {
        int64_t m = katydidzinc_micro_report(x[i]);
        printf(i > 0 ? " " : "");
        if (m == KATYDIDZINC_MICRO_NAN) {
            printf("nan");
        } else if (m == KATYDIDZINC_MICRO_OVER) {
            printf("over");
        } else {
            printf("%" PRId64, m);
        }
    }
}

static void print_rows(const katydidzinc_space_study *s, uint32_t j)
{
    static const char *const kinds[3] = {"Dof", "Limit", "Motor"};
    static const rule *const rules[3] = {dof_rules, limit_rules, motor_rules};
    float out[KATYDIDZINC_SPACE_READ_NUMBERS];
    uint32_t ids[KATYDIDZINC_SPACE_READ_IDS];
    uint32_t i, n = granted("row read", katydidzinc_space_study_read_rows(s, j, out, KATYDIDZINC_SPACE_READ_NUMBERS, ids, KATYDIDZINC_SPACE_READ_IDS));
    for (i = 0; i < n; i++) {
        uint32_t kind = ids[i] / KATYDIDZINC_SPACE_ID_LIMIT, axis = ids[i] % KATYDIDZINC_SPACE_ID_LIMIT;
        printf("%s %s%" PRIu32 ":", joint_names[j], kinds[kind], axis);
        millionths(" ", out + i * KATYDIDZINC_SPACE_ROW_WIDTH + KATYDIDZINC_SPACE_ROW_IMPULSE, 1);
        printf(", rule %s, %s\n", rules[kind][axis].number, rules[kind][axis].definition);
    }
}

static void print_reaction(const katydidzinc_space_study *s, uint32_t j)
{
    float got[KATYDIDZINC_SPACE_REACTION_NUMBERS];
    int k;
    granted("reaction", katydidzinc_space_study_reaction(s, j, got, KATYDIDZINC_SPACE_REACTION_NUMBERS));
    for (k = 0; k < 2; k++) {
        uint32_t name = words[j * KATYDIDZINC_SPACE_WORDS_WIDTH + (k == 0 ? KATYDIDZINC_SPACE_BODY1 : KATYDIDZINC_SPACE_BODY2)];
        printf("%s on %s:", joint_names[j], name == KATYDIDZINC_WORLD ? "world" : body_names[name]);
        millionths(" force ", got + 6 * k, 3);
        millionths(", moment ", got + 6 * k + 3, 3);
        printf("\n");
    }
}

static void print_body(const katydidzinc_space_study *s, uint32_t i)
{
    float v[KATYDIDZINC_SPACE_VELOCITY_NUMBERS];
    granted("velocity", katydidzinc_space_study_read_velocity(s, i, v, KATYDIDZINC_SPACE_VELOCITY_NUMBERS));
    printf("%s", body_names[i]);
    millionths(" moves: ", v, 3);
    millionths(", turns: ", v + 3, 3);
    printf("\n");
}

int main(void)
{
    static const float forearm[6] = {150.0f, 0.0f, 0.0f, 1000.0f, 0.0f, 150.0f}, hand[6] = {1200.0f, 0.0f, 100.0f, 4000.0f, 0.0f, 1000.0f};
    static const float turned[4] = {0.02f, -0.01f, 0.1f, 0.99f}, moving[6] = {0.25f, -0.5f, 0.125f, 1.0f, -0.5f, 2.0f};
    katydidzinc_space_study s = {0.015625f, 1.0f, 10.0f, 0, bodies, sizeof bodies / sizeof *bodies, words, sizeof words / sizeof *words,
                                 numbers, sizeof numbers / sizeof *numbers, rows, sizeof rows / sizeof *rows, {0}};
    float *b, *motor = numbers + KATYDIDZINC_SPACE_NUMBERS_WIDTH + KATYDIDZINC_SPACE_MOTOR_Z;
    uint32_t *wrist = words + KATYDIDZINC_SPACE_WORDS_WIDTH, i;
    body(0, 0.125f, forearm, 0.75f);
    b = body(1, -0.065f, hand, 2.5f);
    memcpy(b + KATYDIDZINC_SPACE_POSE, turned, sizeof turned);
    memcpy(b + KATYDIDZINC_SPACE_VELOCITY, moving, sizeof moving);
    joint(0, KATYDIDZINC_WORLD, 0, KATYDIDZINC_SPACE_ALL_AXES, 0.25f, 0.125f);
    joint(1, 0, 1, KATYDIDZINC_SPACE_LIN_X | KATYDIDZINC_SPACE_ANG_X | KATYDIDZINC_SPACE_ANG_Y, -0.125f, 0.0625f);
    katydidzinc_space_set_limits(wrist, numbers + KATYDIDZINC_SPACE_NUMBERS_WIDTH, 1, -0.002f, 0.002f);
    wrist[KATYDIDZINC_SPACE_MOTOR_AXES] = KATYDIDZINC_SPACE_LIN_Z;
    motor[KATYDIDZINC_MOTOR_DAMPING] = 20.0f;
    motor[KATYDIDZINC_MOTOR_MAX_FORCE] = 0.125f;

    granted("load", katydidzinc_space_study_load(&s));
    printf("rows = %" PRIu32 "\n", granted("build", katydidzinc_space_study_build(&s, 0, 0.0f, 0)));
    granted("sweep 20", katydidzinc_space_study_sweep(&s, 20));
    granted("bias removal", katydidzinc_space_study_remove_bias(&s));
    granted("sweep 4", katydidzinc_space_study_sweep(&s, 4));
    printf("wrist motors out of force = %d\n", s.counts[1]);
    granted("write-back", katydidzinc_space_study_write_back(&s));
    for (i = 0; i < JOINTS; i++) {
        print_rows(&s, i);
    }
    for (i = 0; i < JOINTS; i++) {
        print_reaction(&s, i);
    }
    for (i = 0; i < BODIES; i++) {
        print_body(&s, i);
    }
    return 0;
}
