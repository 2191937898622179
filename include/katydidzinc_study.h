/* Katydidzinc's studies as text, for C and C++ on x86-64: the reader and the writer of the format that docs/STUDY.md describes.
 *
 * A text is read into storage that the caller lends: the settings, bodies and joints in the records of katydidzinc.h, so
 * that the calls of that header take them where they stand, and where each name and number stands in the text. The calls
 * that a text holds are read, so that a fault in one is told, and not run: their lines are the caller's to run. A model is
 * written as a text in one spelling, every number as its bits, with no call; bodies are named b0, b1, .. and joints j0,
 * j1, ... What is written is read as the same model: proved (crates/study_capi/specs/ReadBack.antt).
 *
 * In this file: the storage, the faults, the two functions; and, over these, the same on structs, checked for what the
 * library cannot see (katydidzinc_study_read, katydidzinc_study_write).
 */
#ifndef KATYDIDZINC_STUDY_H
#define KATYDIDZINC_STUDY_H

#include "katydidzinc.h"

#ifdef __cplusplus
extern "C" {
#endif

/* ---- Storage. So many bodies, and so many joints, are read: one more than a model may have, so that a load refuses it. */
#define KATYDIDZINC_TEXT_MOST 129

/* The numbers: the three settings, from KATYDIDZINC_TEXT_BODIES on the bodies' records, from KATYDIDZINC_TEXT_JOINTS on the
 * joints' numbers. So many numbers, and words of the joints, are lent. */
#define KATYDIDZINC_TEXT_DT 0
#define KATYDIDZINC_TEXT_LENGTH_UNIT 1
#define KATYDIDZINC_TEXT_MAX_CORRECTIVE_VELOCITY 2
#define KATYDIDZINC_TEXT_BODIES 3
#define KATYDIDZINC_TEXT_JOINTS 1293
#define KATYDIDZINC_TEXT_NUMBERS 6711
#define KATYDIDZINC_TEXT_WORDS 1548

/* Places: for each number, and after these for each word, the byte of the text at which the word stands that gave it; 0
 * where none did, and it is at its default. */
#define KATYDIDZINC_TEXT_ORIGINS 8259

/* Names: where each body's name starts and ends in the text, and from KATYDIDZINC_TEXT_JOINT_NAMES on each joint's. Places
 * are kept in 32 bits, one past them as 4294967295. */
#define KATYDIDZINC_TEXT_JOINT_NAMES 258
#define KATYDIDZINC_TEXT_NAMES 516

/* ---- What is wrong with a text that cannot be read: the first fault, by number. katydidzinc_study_fault has the words. */
enum katydidzinc_fault {
    KATYDIDZINC_FAULT_UNKNOWN = 1,
    KATYDIDZINC_FAULT_NAME = 2,
    KATYDIDZINC_FAULT_TAKEN = 3,
    KATYDIDZINC_FAULT_NO_BODY = 4,
    KATYDIDZINC_FAULT_NUMBER = 5,
    KATYDIDZINC_FAULT_DIGITS = 6,
    KATYDIDZINC_FAULT_LINE_END = 7,
    KATYDIDZINC_FAULT_AXIS = 8,
    KATYDIDZINC_FAULT_BODIES_FULL = 9,
    KATYDIDZINC_FAULT_JOINTS_FULL = 10,
    KATYDIDZINC_FAULT_AFTER_CALLS = 11,
    KATYDIDZINC_FAULT_ELSEWHERE = 12,
    KATYDIDZINC_FAULT_WHOLE_NUMBER = 13,
    KATYDIDZINC_FAULT_NO_JOINT = 14,
    KATYDIDZINC_FAULT_NO_REPEAT = 15,
    KATYDIDZINC_FAULT_NESTED = 16,
    KATYDIDZINC_FAULT_OPEN_REPEAT = 17,
    KATYDIDZINC_FAULT_MODEL = 18,
    KATYDIDZINC_FAULT_WORLD_NAME = 19,
    KATYDIDZINC_FAULT_WARM = 20,
    KATYDIDZINC_FAULT_CSV = 21,
    KATYDIDZINC_FAULT_FILE_NAME = 22,
    KATYDIDZINC_FAULT_LONG_NAME = 23,
    KATYDIDZINC_FAULT_PLAIN_NAME = 24,
    KATYDIDZINC_FAULT_MASK = 25,
    KATYDIDZINC_FAULT_SUBSTEPS = 26
};

/* A fault in words, as the command `study` tells it. A number from 1000 on is a refusal of katydidzinc.h. */
static inline const char *katydidzinc_study_fault(uint32_t fault)
{
    switch (fault) {
    case KATYDIDZINC_FAULT_UNKNOWN: return "no line starts with this word; `study --help` lists those that do";
    case KATYDIDZINC_FAULT_NAME: return "expected a name";
    case KATYDIDZINC_FAULT_TAKEN: return "this name is taken";
    case KATYDIDZINC_FAULT_NO_BODY: return "no body above has this name (`world` is the world)";
    case KATYDIDZINC_FAULT_NUMBER: return "expected a number: a decimal, 0x and eight hexadecimal digits, inf or -inf";
    case KATYDIDZINC_FAULT_DIGITS: return "more than 19 significant digits; write fewer, or its bits as 0x and eight digits";
    case KATYDIDZINC_FAULT_LINE_END: return "expected the end of the line";
    case KATYDIDZINC_FAULT_AXIS: return "expected an axis: x, y or angle";
    case KATYDIDZINC_FAULT_BODIES_FULL: return "more than 129 bodies cannot be read (a model has at most 128)";
    case KATYDIDZINC_FAULT_JOINTS_FULL: return "more than 129 joints cannot be read (a model has at most 128)";
    case KATYDIDZINC_FAULT_AFTER_CALLS: return "bodies, joints and settings stand before the first call";
    case KATYDIDZINC_FAULT_ELSEWHERE: return "this word belongs to another kind of item: settings, body or joint";
    case KATYDIDZINC_FAULT_WHOLE_NUMBER: return "expected a whole number from 0 to 4294967289";
    case KATYDIDZINC_FAULT_NO_JOINT: return "no joint has this name";
    case KATYDIDZINC_FAULT_NO_REPEAT: return "`end` without a `repeat`";
    case KATYDIDZINC_FAULT_NESTED: return "a `repeat` inside a `repeat` is not read";
    case KATYDIDZINC_FAULT_OPEN_REPEAT: return "this `repeat` has no `end`";
    case KATYDIDZINC_FAULT_MODEL: return "expected `acceleration` or `force`";
    case KATYDIDZINC_FAULT_WORLD_NAME: return "`world` is the world's name; expected another";
    case KATYDIDZINC_FAULT_WARM: return "expected `warm` and a coefficient, `substep` and a number, or the end of the line";
    case KATYDIDZINC_FAULT_CSV: return "expected `csv` or the end of the line";
    case KATYDIDZINC_FAULT_FILE_NAME: return "expected the name of a file";
    case KATYDIDZINC_FAULT_LONG_NAME: return "a name has at most 64 bytes";
    case KATYDIDZINC_FAULT_PLAIN_NAME: return "a name has no comma and no quote, so that it is a field of comma-separated values";
    case KATYDIDZINC_FAULT_MASK: return "expected `lock`, `limit`, `motor` or `couple`, and then axes (x, y, angle) or a mask as a number";
    case KATYDIDZINC_FAULT_SUBSTEPS: return "expected `sweeps` and a number, then `substeps` and a number (`warm` and a coefficient may stand before them)";
    default: return fault == 0 ? "read" : fault < KATYDIDZINC_SHORT_SLICE ? "no fault of this library" : katydidzinc_rule(fault);
    }
}

/* ---- The two functions. What a caller has to keep of slices and of the processor is katydidzinc.h's. */

/* What is told of a text. */
typedef struct katydidzinc_text_read {
    uint32_t fault;   /* 0: it was read; the first fault; or KATYDIDZINC_SHORT_SLICE */
    uint32_t bodies;  /* how many were read, up to the fault */
    uint32_t joints;
    uint64_t line;    /* the fault's, both from 1; a column is counted in bytes. Without a fault they are 1 and 1 */
    uint64_t column;
    size_t calls;     /* the byte at which the line of the first call starts; the text's length where there is no call */
} katydidzinc_text_read;

/* Reads a text. The four slices hold at least KATYDIDZINC_TEXT_NUMBERS, _ORIGINS, _WORDS and _NAMES; else the answer is
 * KATYDIDZINC_SHORT_SLICE and nothing is written. They are cleared first, so that what they held does not show. A joint's first row is left 0: a load writes it. */
katydidzinc_text_read katydidzinc_read_study(const uint8_t *text, size_t text_len, float *numbers, size_t numbers_len,
                                             uint32_t *origins, size_t origins_len, uint32_t *words, size_t words_len,
                                             uint32_t *names, size_t names_len);

/* Writes the text of a model and answers its length. Where `out` has fewer bytes nothing is written, and the length is
 * answered all the same; bytes past the text stay. A model of more than 128 bodies or 128 joints has no text: 0. */
size_t katydidzinc_write_study(float dt, float length_unit, float normalized_max_corrective_velocity,
                               const float *bodies, size_t bodies_len, const uint32_t *words, size_t words_len,
                               const float *numbers, size_t numbers_len, uint8_t *out, size_t out_len);

/* ---- The same on structs, checked. */

typedef struct katydidzinc_text {
    float numbers[KATYDIDZINC_TEXT_NUMBERS];
    uint32_t origins[KATYDIDZINC_TEXT_ORIGINS];
    uint32_t words[KATYDIDZINC_TEXT_WORDS];
    uint32_t names[KATYDIDZINC_TEXT_NAMES];
} katydidzinc_text;

/* Reads a text into a storage. Where there is no fault the study's settings are the text's, its slices are the bodies, words and numbers in the storage, as many as there are, and its mark is cleared; its
 * row storage is left as it is. Where there is one, or a slice is refused (1001 to 1003), the study stays as it was. */
static inline katydidzinc_text_read katydidzinc_study_read(katydidzinc_study *s, katydidzinc_text *storage, const uint8_t *text, size_t text_len)
{
    static const uint8_t none[1] = {0};
    katydidzinc_text_read read = {0, 0, 0, 1, 1, 0};
    if (!katydidzinc_float_mode()) {
        read.fault = KATYDIDZINC_FLOAT_MODE;
    } else if (katydidzinc_slice_bad(text, text_len, 1) || katydidzinc_slice_bad(storage, sizeof *storage / 4, 4)) {
        read.fault = KATYDIDZINC_BAD_SLICE;
    } else if (katydidzinc_slices_meet(text, text_len, storage, sizeof *storage)) {
        read.fault = KATYDIDZINC_OVERLAP;
    } else {
        read = katydidzinc_read_study(text != NULL ? text : none, text_len, storage->numbers, KATYDIDZINC_TEXT_NUMBERS, storage->origins, KATYDIDZINC_TEXT_ORIGINS,
                                      storage->words, KATYDIDZINC_TEXT_WORDS, storage->names, KATYDIDZINC_TEXT_NAMES);
    }
    if (read.fault == 0) {
        s->dt = storage->numbers[KATYDIDZINC_TEXT_DT];
        s->length_unit = storage->numbers[KATYDIDZINC_TEXT_LENGTH_UNIT];
        s->normalized_max_corrective_velocity = storage->numbers[KATYDIDZINC_TEXT_MAX_CORRECTIVE_VELOCITY];
        s->built = 0;
        s->bodies = storage->numbers + KATYDIDZINC_TEXT_BODIES;
        s->bodies_len = (size_t)read.bodies * KATYDIDZINC_BODY_WIDTH;
        s->words = storage->words;
        s->words_len = (size_t)read.joints * KATYDIDZINC_WORDS_WIDTH;
        s->numbers = storage->numbers + KATYDIDZINC_TEXT_JOINTS;
        s->numbers_len = (size_t)read.joints * KATYDIDZINC_NUMBERS_WIDTH;
    }
    return read;
}

/* The name of body i and of joint j, of so many as were read: where it starts in the text, and its length in bytes in *len. */
static inline const uint8_t *katydidzinc_body_name(const katydidzinc_text *storage, const uint8_t *text, uint32_t i, size_t *len)
{
    *len = storage->names[2 * i + 1] - storage->names[2 * i];
    return text + storage->names[2 * i];
}

static inline const uint8_t *katydidzinc_joint_name(const katydidzinc_text *storage, const uint8_t *text, uint32_t j, size_t *len)
{
    return katydidzinc_body_name(storage, text, KATYDIDZINC_TEXT_JOINT_NAMES / 2 + j, len);
}

/* A text's answer is 2^32 plus its length. */
#define KATYDIDZINC_TEXT_GRANTED UINT64_C(4294967296)

static inline size_t katydidzinc_text_length(uint64_t answer)
{
    return answer >= KATYDIDZINC_TEXT_GRANTED ? (size_t)(answer - KATYDIDZINC_TEXT_GRANTED) : 0;
}

/* Writes the text of a study's model to `out` and answers 2^32 plus its length; where `out` has fewer bytes nothing is written. Refused with 1 or 2 where there are too many bodies or
 * joints, and with 1001 to 1003. */
static inline uint64_t katydidzinc_study_write(const katydidzinc_study *s, uint8_t *out, size_t out_len)
{
    static uint8_t none[1];
    size_t length;
    uint64_t answer = katydidzinc_study_check(s, NULL, 0, NULL, 0, out, out_len);
    if (answer != KATYDIDZINC_GRANTED) {
        return answer;
    }
    length = katydidzinc_write_study(s->dt, s->length_unit, s->normalized_max_corrective_velocity, katydidzinc_numbers_at(s->bodies), s->bodies_len, katydidzinc_words_at(s->words),
                                     s->words_len, katydidzinc_numbers_at(s->numbers), s->numbers_len, out != NULL ? out : none, out_len);
    if (length == 0) {
        return s->bodies_len / KATYDIDZINC_BODY_WIDTH > KATYDIDZINC_MOST_BODIES ? KATYDIDZINC_TOO_MANY_BODIES : KATYDIDZINC_TOO_MANY_JOINTS;
    }
    return KATYDIDZINC_TEXT_GRANTED + length;
}

#ifdef __cplusplus
}
#endif

#endif
