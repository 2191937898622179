/* Faults at the boundary of the calls in space, each of which tests/boundary_space.c must find: the library's functions with one of them, which the variable FAULT names; 0 is none. Linked with --wrap
 * for load, place, build, sweep, write_back, read_rows and read_velocity. */
#include "katydidzinc_space.h"

#include <stdlib.h>

#define MODEL(BODIES, NUMBERS)                                                                                                     \
    float dt, float length_unit, float normalized, uint32_t built, BODIES *bodies, size_t bodies_len, const uint32_t *words,       \
        size_t words_len, NUMBERS *numbers, size_t numbers_len
#define HANDED dt, length_unit, normalized, built, bodies, bodies_len, words, words_len, numbers, numbers_len

/* A function and the one that stands in its place. */
#define WRAPPED(NAME, ...)                                     \
    uint64_t __real_katydidzinc_space_##NAME(__VA_ARGS__);     \
    uint64_t __wrap_katydidzinc_space_##NAME(__VA_ARGS__);     \
    uint64_t __wrap_katydidzinc_space_##NAME(__VA_ARGS__)

static volatile float read;

static int fault(void)
{
    static int number = -1;
    if (number < 0) {
        const char *name = getenv("FAULT");
        number = name != NULL ? atoi(name) : 0;
    }
    return number;
}

WRAPPED(load, MODEL(const float, const float), const float *rows, size_t rows_len)
{
    switch (fault()) {
    case 1: read = bodies[bodies_len]; break;
    case 2: read = *(numbers - 1); break;
    default: break;
    }
    return __real_katydidzinc_space_load(HANDED, rows, rows_len);
}

WRAPPED(place, MODEL(float, const float), uint32_t body, float qx, float qy, float qz, float qw, float x, float y, float z)
{
    uint64_t answer = __real_katydidzinc_space_place(HANDED, body, qx, qy, qz, qw, x, y, z);
    if (fault() == 3 && katydidzinc_granted(answer)) {
        bodies[body * KATYDIDZINC_SPACE_BODY_WIDTH + KATYDIDZINC_SPACE_INERTIA] = 0.25f; /* the inertia is turned too */
    }
    return answer;
}

WRAPPED(build, MODEL(const float, const float), float *rows, size_t rows_len, uint32_t warm, float coefficient, uint32_t substep_id)
{
    uint64_t answer = __real_katydidzinc_space_build(HANDED, rows, rows_len, warm, coefficient, substep_id);
    size_t total = katydidzinc_rows_of(answer) * (size_t)KATYDIDZINC_SPACE_ROW_WIDTH;
    if (fault() == 4 && !katydidzinc_granted(answer) && rows_len > 0) {
        rows[0] = 1.0f; /* a refused call writes */
    }
    if (fault() == 5 && katydidzinc_granted(answer) && total < rows_len) {
        rows[total] = 5.0f; /* past the total */
    }
    if (fault() == 6 && answer > KATYDIDZINC_ROWS_GRANTED) {
        return answer - 1; /* a row is not counted */
    }
    return fault() == 7 && katydidzinc_granted(answer) ? answer - KATYDIDZINC_ROWS_GRANTED : answer; /* cut to 32 bits */
}

WRAPPED(sweep, MODEL(float, const float), float *rows, size_t rows_len, uint32_t n, uint8_t *counts, size_t counts_len)
{
    uint64_t answer = __real_katydidzinc_space_sweep(HANDED, rows, rows_len, n, counts, counts_len);
    if (fault() == 8 && katydidzinc_granted(answer) && counts_len > KATYDIDZINC_MOST_JOINTS) {
        counts[KATYDIDZINC_MOST_JOINTS] = 0; /* a count past the last joint */
    }
    if (fault() == 9 && katydidzinc_granted(answer) && rows_len > KATYDIDZINC_SPACE_ROW_WIDTH) {
        rows[KATYDIDZINC_SPACE_ROW_WIDTH + KATYDIDZINC_SPACE_ROW_RHS] = 0.25f; /* more than an impulse */
    }
    return answer;
}

WRAPPED(write_back, MODEL(const float, float), const float *rows, size_t rows_len)
{
    uint64_t answer = __real_katydidzinc_space_write_back(HANDED, rows, rows_len);
    if (fault() == 10 && katydidzinc_granted(answer) && numbers_len > KATYDIDZINC_SPACE_NUMBERS_WIDTH) {
        numbers[KATYDIDZINC_SPACE_LIMITS_Z + KATYDIDZINC_LIMIT_MAX] = 0.25f; /* no stored impulse */
    }
    return answer;
}

WRAPPED(read_rows, MODEL(const float, const float), const float *rows, size_t rows_len, uint32_t joint, float *out, size_t out_len, uint32_t *ids, size_t ids_len)
{
    uint64_t answer = __real_katydidzinc_space_read_rows(HANDED, rows, rows_len, joint, out, out_len, ids, ids_len);
    if (fault() == 11 && katydidzinc_granted(answer)) {
        out[out_len] = 1.0f;
    }
    if (fault() == 12 && answer > KATYDIDZINC_ROWS_GRANTED) {
        ids[0] /= 2; /* the numbers of the plane */
    }
    return answer;
}

WRAPPED(read_velocity, MODEL(const float, const float), uint32_t body, float *out, size_t out_len)
{
    uint64_t answer = __real_katydidzinc_space_read_velocity(HANDED, body, out, out_len);
    if (fault() == 13 && answer == KATYDIDZINC_GRANTED && out_len > KATYDIDZINC_SPACE_VELOCITY_NUMBERS) {
        out[KATYDIDZINC_SPACE_VELOCITY_NUMBERS] = 1.0f;
    }
    if (fault() == 14 && answer == KATYDIDZINC_SHORT_SLICE && out_len > 0) {
        out[0] = 1.0f; /* a part, where there is no room for the whole */
    }
    return fault() == 15 && answer == KATYDIDZINC_SHORT_SLICE ? KATYDIDZINC_GRANTED : answer;
}
