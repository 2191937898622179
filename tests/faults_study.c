/* Faults at the boundary of the reader and the writer of studies, each of which tests/boundary_study.c must find: the two functions with one of them, which the variable FAULT names; 0 is none. Linked with
 * --wrap for both. */
#include "katydidzinc_study.h"

#include <stdlib.h>

/* A function and the one that stands in its place. */
#define WRAPPED(TYPE, NAME, ...)                       \
    TYPE __real_katydidzinc_##NAME(__VA_ARGS__);       \
    TYPE __wrap_katydidzinc_##NAME(__VA_ARGS__);       \
    TYPE __wrap_katydidzinc_##NAME(__VA_ARGS__)

static int fault(void)
{
    static int number = -1;
    if (number < 0) {
        const char *given = getenv("FAULT");
        number = given != NULL ? atoi(given) : 0;
    }
    return number;
}

WRAPPED(katydidzinc_text_read, read_study, const uint8_t *text, size_t text_len, float *numbers, size_t numbers_len, uint32_t *origins, size_t origins_len, uint32_t *words, size_t words_len, uint32_t *names,
        size_t names_len)
{
    uint32_t old = words_len > 20 ? words[20] : 0, bodies;
    katydidzinc_text_read told = __real_katydidzinc_read_study(text, text_len, numbers, numbers_len, origins, origins_len, words, words_len, names, names_len);
    int is_short = told.fault == KATYDIDZINC_SHORT_SLICE;
    switch (fault()) {
    case 1: /* a word that the storage held shows */
        if (!is_short && told.joints < 2) {
            words[20] = old;
        }
        break;
    case 2: /* a slice that is lent whole is cleared though another is short */
        if (is_short && origins_len > 0) {
            origins[0] = 0;
        }
        break;
    case 3: /* bodies and joints are exchanged */
        bodies = told.bodies;
        told.bodies = told.joints;
        told.joints = bodies;
        break;
    case 4: /* a name is stored past the names */
        if (!is_short) {
            names[names_len] = 0;
        }
        break;
    case 5: /* without a call the calls start at the first byte */
        if (told.calls == text_len) {
            told.calls = 0;
        }
        break;
    case 6: /* a column counted from 0 */
        told.column -= 1;
        break;
    case 7: /* a short slice is told as a study of nothing */
        if (is_short) {
            told.fault = 0;
        }
        break;
    default: break;
    }
    return told;
}

WRAPPED(size_t, write_study, float dt, float length_unit, float normalized_max_corrective_velocity, const float *bodies, size_t bodies_len, const uint32_t *words, size_t words_len, const float *numbers,
        size_t numbers_len, uint8_t *out, size_t out_len)
{
    size_t len = __real_katydidzinc_write_study(fault() == 8 ? length_unit : dt, fault() == 8 ? dt : length_unit, normalized_max_corrective_velocity, bodies, bodies_len, words, words_len, numbers,
                                                numbers_len, out, out_len);
    switch (fault()) {
    case 9: /* the start of a text that has no room */
        if (out_len > 0 && len > out_len) {
            out[0] = 's';
        }
        break;
    case 10: /* a zero after the text */
        if (len < out_len) {
            out[len] = 0;
        }
        break;
    case 11: /* the room for the length, where there is none */
        if (len > out_len) {
            len = out_len;
        }
        break;
    default: break;
    }
    return len;
}
