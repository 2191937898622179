/* Faults at the boundary, each of which tests/boundary.c must find: the library's functions with one of them, which the variable FAULT names; 0 is
 * none. Linked with --wrap for load, set_masks, build, read_rows, read_velocity and frame. */
#include "katydidzinc.h"

#include <stdlib.h>

#define MODEL_OF(WORDS)                                                                                                                   \
    float dt, float length_unit, float normalized, uint32_t built, const float *bodies, size_t bodies_len, WORDS *words,                  \
        size_t words_len, const float *numbers, size_t numbers_len
#define MODEL MODEL_OF(const uint32_t)
#define MASKS uint32_t joint, uint32_t locked, uint32_t limit, uint32_t motor, uint32_t coupled
#define HANDED dt, length_unit, normalized, built, bodies, bodies_len, words, words_len, numbers, numbers_len

uint64_t __real_katydidzinc_load(MODEL_OF(uint32_t), const float *rows, size_t rows_len);
uint64_t __wrap_katydidzinc_load(MODEL_OF(uint32_t), const float *rows, size_t rows_len);
uint64_t __real_katydidzinc_set_masks(MODEL_OF(uint32_t), const float *rows, size_t rows_len, MASKS);
uint64_t __wrap_katydidzinc_set_masks(MODEL_OF(uint32_t), const float *rows, size_t rows_len, MASKS);
uint64_t __real_katydidzinc_build(MODEL, float *rows, size_t rows_len, uint32_t warm, float coefficient, uint32_t substep_id);
uint64_t __wrap_katydidzinc_build(MODEL, float *rows, size_t rows_len, uint32_t warm, float coefficient, uint32_t substep_id);
uint64_t __real_katydidzinc_read_rows(MODEL, const float *rows, size_t rows_len, uint32_t joint, float *out, size_t out_len, uint32_t *ids, size_t ids_len);
uint64_t __wrap_katydidzinc_read_rows(MODEL, const float *rows, size_t rows_len, uint32_t joint, float *out, size_t out_len, uint32_t *ids, size_t ids_len);
uint64_t __real_katydidzinc_read_velocity(MODEL, uint32_t body, float *out, size_t out_len);
uint64_t __wrap_katydidzinc_read_velocity(MODEL, uint32_t body, float *out, size_t out_len);

#define FRAME_OF                                                                                                                          \
    float dt, float length_unit, float normalized, uint32_t built, float *bodies, size_t bodies_len, const uint32_t *words,               \
        size_t words_len, float *numbers, size_t numbers_len, float *rows, size_t rows_len, uint32_t warm, float coefficient,             \
        uint32_t sweeps, uint32_t n, uint8_t *counts, size_t counts_len
uint64_t __real_katydidzinc_frame(FRAME_OF);
uint64_t __wrap_katydidzinc_frame(FRAME_OF);

static volatile float read;

static int fault(void)
{
    static int number = -1;
    if (number < 0) {
        const char *name = getenv("FAULT");
        number = name != NULL ? atoi(name) : 0;
    }
    return number;
}

uint64_t __wrap_katydidzinc_load(MODEL_OF(uint32_t), const float *rows, size_t rows_len)
{
    uint64_t answer;
    switch (fault()) {
    case 1: read = bodies[bodies_len]; break;
    case 2: read = *(numbers - 1); break;
    default: break;
    }
    answer = __real_katydidzinc_load(HANDED, rows, rows_len);
    if (fault() == 10 && !katydidzinc_granted(answer) && words_len > KATYDIDZINC_FIRST_ROW) {
        words[KATYDIDZINC_FIRST_ROW] = 0; /* a refused call writes */
    }
    if (fault() == 11 && katydidzinc_granted(answer) && words_len > KATYDIDZINC_WORDS_WIDTH) {
        words[words_len - 1] = 0; /* a word that is no first row */
    }
    return answer;
}

uint64_t __wrap_katydidzinc_set_masks(MODEL_OF(uint32_t), const float *rows, size_t rows_len, MASKS)
{
    uint32_t last = words_len == 3 * KATYDIDZINC_WORDS_WIDTH ? words[words_len - 1] : 0;
    uint64_t answer = __real_katydidzinc_set_masks(HANDED, rows, rows_len, joint, locked, limit, motor, coupled);
    if (fault() == 12 && !katydidzinc_granted(answer) && words_len > KATYDIDZINC_LOCKED_AXES) {
        words[KATYDIDZINC_LOCKED_AXES] = locked;
    }
    if (fault() == 13 && katydidzinc_granted(answer) && words_len == 3 * KATYDIDZINC_WORDS_WIDTH) {
        words[words_len - 1] = last; /* a later joint's first row is left */
    }
    return answer;
}

uint64_t __wrap_katydidzinc_build(MODEL, float *rows, size_t rows_len, uint32_t warm, float coefficient, uint32_t substep_id)
{
    uint64_t answer = __real_katydidzinc_build(HANDED, rows, rows_len, warm, coefficient, substep_id);
    size_t total = katydidzinc_rows_of(answer) * (size_t)KATYDIDZINC_ROW_WIDTH;
    if (fault() == 3 && !katydidzinc_granted(answer) && rows_len > 0) {
        rows[0] = 1.0f; /* a refused call writes */
    }
    if (fault() == 4 && katydidzinc_granted(answer) && total < rows_len) {
        rows[total] = 5.0f; /* past the total */
    }
    return fault() == 5 && katydidzinc_granted(answer) ? answer - KATYDIDZINC_ROWS_GRANTED : answer; /* cut to 32 bits */
}

uint64_t __wrap_katydidzinc_read_rows(MODEL, const float *rows, size_t rows_len, uint32_t joint, float *out, size_t out_len, uint32_t *ids, size_t ids_len)
{
    uint64_t answer = __real_katydidzinc_read_rows(HANDED, rows, rows_len, joint, out, out_len, ids, ids_len);
    if (fault() == 6 && katydidzinc_granted(answer)) {
        out[out_len] = 1.0f;
    }
    return answer;
}

uint64_t __wrap_katydidzinc_read_velocity(MODEL, uint32_t body, float *out, size_t out_len)
{
    uint64_t answer = __real_katydidzinc_read_velocity(HANDED, body, out, out_len);
    if (fault() == 7 && answer == KATYDIDZINC_GRANTED && out_len > KATYDIDZINC_VELOCITY_NUMBERS) {
        out[KATYDIDZINC_VELOCITY_NUMBERS] = 1.0f;
    }
    if (fault() == 8 && answer == KATYDIDZINC_SHORT_SLICE && out_len > 0) {
        out[0] = 1.0f; /* a part, where there is no room for the whole */
    }
    return fault() == 9 && answer == KATYDIDZINC_SHORT_SLICE ? KATYDIDZINC_GRANTED : answer;
}

uint64_t __wrap_katydidzinc_frame(FRAME_OF)
{
    uint64_t answer = __real_katydidzinc_frame(HANDED, rows, rows_len, warm, coefficient, sweeps, n, counts, counts_len);
    if (fault() == 14 && answer == KATYDIDZINC_NOT_FINITE && rows_len > 0) {
        rows[0] = 0.25f; /* a refused frame leaves rows */
    }
    if (fault() == 15 && katydidzinc_granted(answer) && bodies_len > KATYDIDZINC_INERTIA) {
        bodies[KATYDIDZINC_INERTIA] = 0.25f; /* a frame changes a mass */
    }
    return answer;
}
