/* The float modes that a caller has to keep: the checked calls find each that is not. */
#include "katydidzinc_study.h"

#include <fenv.h>
#include <stdio.h>
#ifdef __SSE__
#include <xmmintrin.h>
#endif

static katydidzinc_study s, read;
static katydidzinc_text storage;

/* Of a load, and of a text that is read: 0 is granted and no fault. */
static int wrong(const char *mode, uint64_t wanted)
{
    uint64_t answer = katydidzinc_study_load(&s), fault = katydidzinc_study_read(&read, &storage, NULL, 0).fault;
    fesetround(FE_TONEAREST);
    if (answer != wanted || fault != wanted) {
        printf("%s: %lu and %lu, not %lu\n", mode, (unsigned long)answer, (unsigned long)fault, (unsigned long)wanted);
        return 1;
    }
    return 0;
}

int main(void)
{
    int failed = 0;
    s.dt = 1.0f;
    failed |= wrong("as the program starts", KATYDIDZINC_GRANTED);
    failed |= fesetround(FE_UPWARD) != 0 || wrong("upward", KATYDIDZINC_FLOAT_MODE);
    failed |= fesetround(FE_DOWNWARD) != 0 || wrong("downward", KATYDIDZINC_FLOAT_MODE);
    failed |= fesetround(FE_TOWARDZERO) != 0 || wrong("toward zero", KATYDIDZINC_FLOAT_MODE);
#ifdef __SSE__
    {
        unsigned was = _mm_getcsr();
        _mm_setcsr(was | 0x8000);
        failed |= wrong("flush to zero", KATYDIDZINC_FLOAT_MODE);
        _mm_setcsr(was | 0x0040);
        failed |= wrong("subnormal numbers are zero", KATYDIDZINC_FLOAT_MODE);
        _mm_setcsr(was);
    }
#endif
    failed |= wrong("to nearest again", KATYDIDZINC_GRANTED);
    if (!failed) {
        printf("float mode: three roundings, flush to zero and subnormal numbers as zero are found\n");
    }
    return failed;
}
