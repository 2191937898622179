/* The boundary of the reader and the writer of studies: COUNT texts from SEED, each read into slices of every length around their sizes, and written again where it was read.
 *
 *   boundary_study [COUNT] [SEED]
 *
 * Slices lie between pages that cannot be read, flush with one of them; the rest of a page holds a pattern. A reading whose slice is too short must leave every slice as it was; any other must
 * leave the same in slices that held something else before, and the text as it is. A writing without room must leave the bytes as they were, and one with room those past the text; what is
 * written must be read as the same model. The checked calls must refuse what the library cannot see. The program itself is to be compiled with -fsanitize=address,undefined.
 */
#define _DEFAULT_SOURCE
#include "katydidzinc_study.h"

#include <inttypes.h>
#include <stdio.h>
#include <stdlib.h>
#include <string.h>
#include <sys/mman.h>

#define PATTERN 0xA9
#define MOST_TEXT 8192
#define MOST_OUT 262144

enum { NUMBERS, ORIGINS, WORDS, NAMES, SLICES };
static const size_t whole[SLICES] = {KATYDIDZINC_TEXT_NUMBERS, KATYDIDZINC_TEXT_ORIGINS, KATYDIDZINC_TEXT_WORDS, KATYDIDZINC_TEXT_NAMES};
static const char *const slice_names[SLICES] = {"numbers", "origins", "words", "names"};

/* Pages with a pattern between two that cannot be read. */
typedef struct area {
    unsigned char *start;
    size_t bytes;
} area;

static area lent[SLICES], text_area, out_area;
static unsigned char text[MOST_TEXT], before[SLICES][65536], first[SLICES][65536];
static unsigned char written[MOST_OUT], kept[MOST_OUT];
static uint64_t state, faults_told[KATYDIDZINC_FAULT_SUBSTEPS + 1], read_back, shorts, no_room;

static uint32_t draw(uint32_t below)
{
    state ^= state << 13;
    state ^= state >> 7;
    state ^= state << 17;
    return (uint32_t)((state >> 32) % below);
}

static void fail(const char *what, const char *of)
{
    printf("%s: %s, of the text\n%s\n", what, of, (const char *)text);
    exit(1);
}

static area area_of(size_t bytes)
{
    area a;
    char *pages;
    a.bytes = (bytes + 4095) / 4096 * 4096;
    pages = (char *)mmap(NULL, a.bytes + 8192, PROT_NONE, MAP_PRIVATE | MAP_ANONYMOUS, -1, 0);
    if (pages == (char *)MAP_FAILED || mprotect(pages + 4096, a.bytes, PROT_READ | PROT_WRITE) != 0) {
        printf("no pages\n");
        exit(1);
    }
    a.start = (unsigned char *)pages + 4096;
    memset(a.start, PATTERN, a.bytes);
    return a;
}

/* So many bytes of an area, flush with one of its ends. */
static unsigned char *flush(area a, size_t bytes, int at_end)
{
    return at_end ? a.start + a.bytes - bytes : a.start;
}

/* Whether the area about a slice still holds the pattern; the slice gets it again. */
static int guarded(area a, unsigned char *at, size_t bytes)
{
    unsigned char *p;
    for (p = a.start; p < at; p++) {
        if (*p != PATTERN) {
            return 0;
        }
    }
    for (p = at + bytes; p < a.start + a.bytes; p++) {
        if (*p != PATTERN) {
            return 0;
        }
    }
    memset(at, PATTERN, bytes);
    return 1;
}

/* Every word that a line may start with, each kind of item and call. */
static const char *const lines[] = {
    "settings", "dt 0.01", "length_unit 2", "normalized_max_corrective_velocity 0x40400000", "", "# a comment",
    "body %u", "position 0 0.75", "angle 0.5", "rotation 0.6 0.8", "mass 8", "inverse_mass 0.25", "inverse_masses 1 2", "inertia 0.125", "inverse_inertia 3", "velocity 0.2 -1e-3", "angular_velocity inf",
    "joint j%u world 1", "joint k%u 1 2", "joint l%u 2 world", "lock x y", "lock 7", "limit angle", "limit 9", "motor x angle", "couple x y", "frame1 0 -0.25", "frame1_angle 1", "frame2 1 2", "frame2_rotation 0 1",
    "limits angle 0 2.4", "limits x -1 1", "center_angle 0.25", "center 0.6 0.8", "target_velocity angle -6", "target_position y 0.5", "stiffness x 10", "damping angle 100", "max_force angle 12",
    "motor_model x force", "motor_model angle acceleration", "natural_frequency 30", "damping_ratio 5", "impulse x 0x7FC00001", "limit_impulse angle 0.5", "motor_impulse y -0.5", "enabled", "disabled",
    "disabled_by_attached_body"};
static const char *const calls[] = {"load", "place 1 0 0 1", "build", "build warm 0.5 substep 1", "warm_start", "sweep 3", "settle 1e-6 9", "remove_bias", "write_back", "frame warm 1 sweeps 4 substeps 2",
                                    "read_velocity 1", "set_targets file.csv", "repeat 2", "end", "table", "table csv"};

/* Settings, bodies, joints with some of their lines, calls; now and then a line of another kind, a byte changed, or the end cut off. */
static size_t draw_text(void)
{
    size_t len = 0, k;
    uint32_t bodies = draw(12) == 0 ? draw(131) : 2 + draw(3), joints = draw(12) == 0 ? draw(131) : draw(4), item, n = 0;
    char line[96];
    for (item = 0; item < 1 + bodies + joints; item++) {
        uint32_t from = item == 0 ? 0 : item <= bodies ? 6 : 17, to = item == 0 ? 6 : item <= bodies ? 17 : (uint32_t)(sizeof lines / sizeof *lines);
        uint32_t more = bodies + joints > 20 ? 0 : draw(8);
        for (k = 0; k <= more && len < MOST_TEXT - 400; k++) {
            uint32_t choice = k == 0 ? (item == 0 ? 0 : item <= bodies ? 6 : 17 + draw(3)) : from + 1 + draw(to - from - 1);
            if (k > 0 && item > bodies) {
                choice = 20 + draw(to - 20);
            }
            if (draw(200) == 0) {
                choice = draw((uint32_t)(sizeof lines / sizeof *lines));
            }
            snprintf(line, sizeof line, lines[choice], ++n > bodies && choice == 6 ? n : choice == 6 ? item : n);
            len += (size_t)snprintf((char *)text + len, MOST_TEXT - len, "%s%s%s", k > 0 ? "  " : "", line, draw(16) == 0 ? " # so\r\n" : "\n");
        }
    }
    for (k = 0; k < draw(6); k++) {
        len += (size_t)snprintf((char *)text + len, MOST_TEXT - len, "%s\n", calls[draw((uint32_t)(sizeof calls / sizeof *calls))]);
    }
    if (len > 0 && draw(4) == 0) {
        text[draw((uint32_t)len)] = (unsigned char)" \n#,\"x1-.e"[draw(10)];
    }
    if (draw(8) == 0) {
        len = draw((uint32_t)len + 1);
    }
    text[len] = 0;
    return len;
}

/* A reading of a text of so many bytes into slices of these lengths, which held bytes drawn here; what is left goes to `after`. */
static katydidzinc_text_read read_into(size_t len, const size_t *lens, unsigned char (*after)[65536])
{
    unsigned char *at[SLICES], *bytes = flush(text_area, len, (int)draw(2));
    katydidzinc_text_read told;
    int slice;
    size_t k;
    memcpy(bytes, text, len);
    for (slice = 0; slice < SLICES; slice++) {
        unsigned char filler = (unsigned char)draw(256);
        at[slice] = flush(lent[slice], 4 * lens[slice], (int)draw(2));
        for (k = 0; k < 4 * lens[slice]; k++) {
            before[slice][k] = (unsigned char)(filler + k * 7);
        }
        memcpy(at[slice], before[slice], 4 * lens[slice]);
    }
    told = katydidzinc_read_study(bytes, len, (float *)(void *)at[NUMBERS], lens[NUMBERS], (uint32_t *)(void *)at[ORIGINS], lens[ORIGINS], (uint32_t *)(void *)at[WORDS], lens[WORDS],
                                  (uint32_t *)(void *)at[NAMES], lens[NAMES]);
    if (memcmp(bytes, text, len) != 0 || !guarded(text_area, bytes, len)) {
        fail("the text is written", "read");
    }
    for (slice = 0; slice < SLICES; slice++) {
        memcpy(after[slice], at[slice], 4 * lens[slice]);
        if (!guarded(lent[slice], at[slice], 4 * lens[slice])) {
            fail("written outside of a slice", slice_names[slice]);
        }
    }
    return told;
}

static int same_told(katydidzinc_text_read a, katydidzinc_text_read b)
{
    return a.fault == b.fault && a.bodies == b.bodies && a.joints == b.joints && a.line == b.line && a.column == b.column && a.calls == b.calls;
}

/* Two storages hold the same model: in bits, all NaNs as one; but not the number beside a typed angle, which is no part of a text. */
static int same_model(unsigned char (*a)[65536], unsigned char (*b)[65536])
{
    const uint32_t *x = (const uint32_t *)(const void *)a[NUMBERS], *y = (const uint32_t *)(const void *)b[NUMBERS], *words = (const uint32_t *)(const void *)a[WORDS];
    size_t k;
    for (k = 0; k < KATYDIDZINC_TEXT_NUMBERS; k++) {
        int none = k >= KATYDIDZINC_TEXT_JOINTS && (k - KATYDIDZINC_TEXT_JOINTS) % KATYDIDZINC_NUMBERS_WIDTH == KATYDIDZINC_CENTER_IM &&
                   words[(k - KATYDIDZINC_TEXT_JOINTS) / KATYDIDZINC_NUMBERS_WIDTH * KATYDIDZINC_WORDS_WIDTH + KATYDIDZINC_CENTER_CHOICE] != 0;
        if (x[k] != y[k] && !none && !((x[k] & 0x7FFFFFFF) > 0x7F800000 && (y[k] & 0x7FFFFFFF) > 0x7F800000)) {
            return 0;
        }
    }
    return memcmp(a[WORDS], b[WORDS], 4 * KATYDIDZINC_TEXT_WORDS) == 0;
}

/* The text of what was read, into bytes of a drawn number. */
static size_t write_out(size_t room, katydidzinc_text_read told)
{
    unsigned char *at = flush(out_area, room, (int)draw(2));
    const float *numbers = (const float *)(const void *)first[NUMBERS];
    size_t len, k;
    for (k = 0; k < room; k++) {
        kept[k] = (unsigned char)(k * 11 + room);
    }
    memcpy(at, kept, room);
    len = katydidzinc_write_study(numbers[KATYDIDZINC_TEXT_DT], numbers[KATYDIDZINC_TEXT_LENGTH_UNIT], numbers[KATYDIDZINC_TEXT_MAX_CORRECTIVE_VELOCITY], numbers + KATYDIDZINC_TEXT_BODIES, (size_t)told.bodies * KATYDIDZINC_BODY_WIDTH,
                                  (const uint32_t *)(const void *)first[WORDS], (size_t)told.joints * KATYDIDZINC_WORDS_WIDTH, numbers + KATYDIDZINC_TEXT_JOINTS,
                                  (size_t)told.joints * KATYDIDZINC_NUMBERS_WIDTH, at, room);
    if (memcmp(at + (len <= room ? len : 0), kept + (len <= room ? len : 0), room - (len <= room ? len : 0)) != 0) {
        fail(len <= room ? "written past the text" : "written without room", "write");
    }
    if (len <= room) {
        memcpy(written, at, len);
    }
    if (!guarded(out_area, at, room)) {
        fail("written outside of the bytes", "write");
    }
    return len;
}

static void one_text(void)
{
    static unsigned char second[SLICES][65536];
    size_t len = draw_text(), lens[SLICES], wider[SLICES], k;
    katydidzinc_text_read told, again;
    int slice, is_short = 0;
    for (slice = 0; slice < SLICES; slice++) {
        lens[slice] = draw(40) == 0 ? whole[slice] - 1 - (draw(2) ? 0 : draw((uint32_t)whole[slice])) : whole[slice] + draw(3);
        wider[slice] = whole[slice] + draw(8);
        is_short |= lens[slice] < whole[slice];
    }
    told = read_into(len, lens, first);
    if (is_short) {
        if (told.fault != KATYDIDZINC_SHORT_SLICE || told.bodies != 0 || told.joints != 0 || told.calls != 0) {
            fail("a short slice is not told", "read");
        }
        for (slice = 0; slice < SLICES; slice++) {
            if (memcmp(first[slice], before[slice], 4 * lens[slice]) != 0) {
                fail("written though a slice is short", slice_names[slice]);
            }
        }
        shorts++;
        return;
    }
    again = read_into(len, wider, second);
    if (!same_told(told, again)) {
        fail("what is told depends on what the slices held", "read");
    }
    for (slice = 0; slice < SLICES; slice++) {
        if (memcmp(first[slice], second[slice], 4 * whole[slice]) != 0) {
            fail("what is left depends on what the slices held", slice_names[slice]);
        }
    }
    if (told.fault > KATYDIDZINC_FAULT_SUBSTEPS || told.bodies > KATYDIDZINC_TEXT_MOST || told.joints > KATYDIDZINC_TEXT_MOST || told.line < 1 || told.column < 1 || told.line + told.column > len + 2 ||
        told.calls > len || (told.calls > 0 && told.calls < len && text[told.calls - 1] != '\n')) {
        fail("no answer of a reading", "read");
    }
    faults_told[told.fault]++;
    if (told.fault != 0) {
        return;
    }
    for (k = 0; k < 2 * (size_t)told.bodies; k += 2) {
        const uint32_t *names = (const uint32_t *)(const void *)first[NAMES];
        if (names[k] < 5 || names[k + 1] <= names[k] || names[k + 1] > len || memcmp(text + names[k] - 5, "body ", 5) != 0) {
            fail("no name stands there", "names");
        }
    }
    k = write_out(draw(2) ? 0 : draw(1000), told);
    if (told.bodies > KATYDIDZINC_MOST_BODIES || told.joints > KATYDIDZINC_MOST_JOINTS) {
        if (k != 0) {
            fail("a model that is too large has a text", "write");
        }
        return;
    }
    if (k == 0 || k > MOST_OUT - 2 || write_out(k - 1, told) != k || write_out(k + draw(2), told) != k) {
        fail("the length depends on the room", "write");
    }
    no_room++;
    if (k > MOST_TEXT - 1) {
        return;
    }
    memcpy(text, written, k);
    text[k] = 0;
    again = read_into(k, wider, second);
    if (again.fault != 0 || again.bodies != told.bodies || again.joints != told.joints || again.calls != k || !same_model(first, second)) {
        fail("what is written is read as another model", "write");
    }
    read_back++;
}

static void expect(int holds, const char *what)
{
    if (!holds) {
        printf("checked calls: %s\n", what);
        exit(1);
    }
}

/* What the library cannot see is refused before it is called, and leaves the study as it was. */
static void checked(void)
{
    static katydidzinc_text storage;
    static union {
        katydidzinc_text storage;
        uint8_t bytes[sizeof(katydidzinc_text)];
    } both;
    static uint8_t out[65536];
    static const uint8_t knee[] = "settings\n dt 0.5\nbody a\nbody b\njoint j a b\n lock x y\nload\n", wrong[] = "body a\n mass\n";
    static float many[129 * KATYDIDZINC_BODY_WIDTH];
    static uint32_t many_words[129 * KATYDIDZINC_WORDS_WIDTH];
    static float many_numbers[129 * KATYDIDZINC_NUMBERS_WIDTH];
    katydidzinc_study s, was;
    katydidzinc_text_read told;
    const uint8_t *name;
    size_t len = 0;
    memset(&s, 0, sizeof s);
    was = s;
    told = katydidzinc_study_read(&s, &storage, NULL, 1);
    expect(told.fault == KATYDIDZINC_BAD_SLICE && told.bodies == 0, "a text that is NULL");
    told = katydidzinc_study_read(&s, NULL, knee, sizeof knee - 1);
    expect(told.fault == KATYDIDZINC_BAD_SLICE, "a storage that is NULL");
    told = katydidzinc_study_read(&s, (katydidzinc_text *)((uintptr_t)&storage + 1), knee, sizeof knee - 1);
    expect(told.fault == KATYDIDZINC_BAD_SLICE, "a storage that is not aligned");
    told = katydidzinc_study_read(&s, &storage, knee, SIZE_MAX);
    expect(told.fault == KATYDIDZINC_BAD_SLICE, "a text longer than memory");
    told = katydidzinc_study_read(&s, &both.storage, both.bytes + sizeof both.bytes - 1, 1);
    expect(told.fault == KATYDIDZINC_OVERLAP, "a text in the storage");
    told = katydidzinc_study_read(&s, &storage, wrong, sizeof wrong - 1);
    expect(told.fault == KATYDIDZINC_FAULT_NUMBER && told.line == 2 && told.column == 6, "a fault");
    expect(memcmp(&s, &was, sizeof s) == 0, "a study that was not read is changed");
    expect(katydidzinc_study_read(&s, &storage, NULL, 0).fault == 0 && s.bodies_len == 0 && s.numbers_len == 0, "no text");
    s.built = 1;
    told = katydidzinc_study_read(&s, &storage, knee, sizeof knee - 1);
    expect(told.fault == 0 && told.bodies == 2 && told.joints == 1 && told.calls == sizeof knee - 1 - 5, "a study");
    expect(s.dt == 0.5f && s.built == 0 && s.bodies_len == 20 && s.words_len == 12 && s.numbers_len == 42 && s.words[KATYDIDZINC_LOCKED_AXES] == 3 && s.bodies[10] == 1.0f, "what a study is");
    name = katydidzinc_body_name(&storage, knee, 1, &len);
    expect(len == 1 && *name == 'b', "a body's name");
    name = katydidzinc_joint_name(&storage, knee, 0, &len);
    expect(len == 1 && *name == 'j', "a joint's name");
    expect(storage.origins[0] == 13 && storage.origins[1] == 0, "where dt stands, and the length unit that is not given");
    expect(katydidzinc_study_write(&s, NULL, 1) == KATYDIDZINC_BAD_SLICE, "bytes that are NULL");
    expect(katydidzinc_study_write(&s, (uint8_t *)(storage.numbers + KATYDIDZINC_TEXT_BODIES), 1) == KATYDIDZINC_OVERLAP, "bytes in a slice of the study");
    len = katydidzinc_text_length(katydidzinc_study_write(&s, NULL, 0));
    expect(len > 0 && katydidzinc_study_write(&s, out, sizeof out) == KATYDIDZINC_TEXT_GRANTED + len && memcmp(out, "settings\n", 9) == 0, "a text's length");
    s.bodies = many, s.bodies_len = 129 * KATYDIDZINC_BODY_WIDTH;
    expect(katydidzinc_study_write(&s, out, sizeof out) == KATYDIDZINC_TOO_MANY_BODIES, "too many bodies");
    s.bodies_len = KATYDIDZINC_BODY_WIDTH;
    s.words = many_words, s.words_len = 129 * KATYDIDZINC_WORDS_WIDTH, s.numbers = many_numbers, s.numbers_len = 129 * KATYDIDZINC_NUMBERS_WIDTH;
    expect(katydidzinc_study_write(&s, out, sizeof out) == KATYDIDZINC_TOO_MANY_JOINTS, "too many joints");
    expect(strcmp(katydidzinc_study_fault(0), "read") == 0 && strcmp(katydidzinc_study_fault(KATYDIDZINC_OVERLAP), "two slices overlap") == 0 &&
               strcmp(katydidzinc_study_fault(27), "no fault of this library") == 0,
           "a fault's words");
}

int main(int argc, char **argv)
{
    long count = argc > 1 ? atol(argv[1]) : 100000, i;
    int slice, kinds = 0;
    state = argc > 2 ? strtoull(argv[2], NULL, 10) : 88172645463325252u;
    for (slice = 0; slice < SLICES; slice++) {
        lent[slice] = area_of(4 * (whole[slice] + 16));
    }
    text_area = area_of(MOST_TEXT);
    out_area = area_of(MOST_OUT);
    checked();
    for (i = 0; i < count; i++) {
        one_text();
    }
    for (slice = 0; slice <= KATYDIDZINC_FAULT_SUBSTEPS; slice++) {
        kinds += faults_told[slice] > 0;
    }
    printf("boundary of studies: %ld texts; %" PRIu64 " read, %" PRIu64 " written and read back the same, %" PRIu64 " with a short slice; %d kinds of fault\n", count, faults_told[0], read_back, shorts, kinds - 1);
    if (count >= 1000 && (read_back == 0 || shorts == 0 || no_room == 0 || kinds < 12)) {
        printf("too few kinds of texts\n");
        return 1;
    }
    return 0;
}
