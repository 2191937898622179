/* Slices lent to a call of the library, each in a page of its own between two pages that cannot be read, flush with one of them; the rest of the page holds a pattern. So a
 * number or byte read or written past an end of a slice that is flush there ends the program; one that is written elsewhere breaks the pattern. Numbers are drawn from one state. */
#ifndef LENT_H
#define LENT_H

#include "katydidzinc.h"

#include <stdint.h>
#include <stdio.h>
#include <stdlib.h>
#include <string.h>
#include <sys/mman.h>

#define MOST 800   /* words in a page that a slice may take */
#define BYTES 200  /* bytes of a motor table, at most */
#define COUNTS 160 /* bytes for the counts of a sweep or a frame are fewer */
#define GUARD 16
#define PATTERN UINT32_C(0x7FEDCBA9)

enum { IN_BODIES, IN_WORDS, IN_NUMBERS, IN_ROWS, IN_OUT, IN_IDS, SLICES };
static const char *const slice_names[SLICES] = {"bodies", "words", "numbers", "rows", "out", "ids"};

/* A slice of bytes beside those: the counts of a sweep or a frame, or a motor table. */
static unsigned char *byte_page;
static unsigned char byte_model[BYTES];
static unsigned char byte_lengths_seen[COUNTS];

static uint32_t *pages[SLICES];
static size_t page_words;
static uint32_t model[SLICES][MOST]; /* what a slice holds before the call */
static unsigned char lengths_seen[SLICES][MOST];

static uint64_t state;

static uint32_t draw(uint32_t below)
{
    state ^= state << 13;
    state ^= state >> 7;
    state ^= state << 17;
    return (uint32_t)((state >> 32) % below);
}

/* The slice's first words in its page: flush with one of the page's ends. */
static uint32_t *lend(int slice, size_t len, int at_end)
{
    uint32_t *at = at_end ? pages[slice] + page_words - len : pages[slice];
    if (len > 0) {
        memcpy(at, model[slice], len * sizeof *at);
    }
    return at;
}

/* Bytes for counts: their number around 128, and what they hold before the call. */
static size_t draw_counts(void)
{
    size_t k;
    for (k = 0; k < COUNTS; k++) {
        byte_model[k] = (unsigned char)(0x80 + draw(100));
    }
    return draw(2) ? KATYDIDZINC_MOST_JOINTS : draw(3) == 0 ? 120 + draw(16) : draw(COUNTS);
}

static unsigned char *lend_bytes(size_t len, int at_end)
{
    unsigned char *at = at_end ? byte_page + page_words * sizeof(uint32_t) - len : byte_page;
    memcpy(at, byte_model, len);
    return at;
}

/* Whether the bytes about the slice still hold the pattern; the slice's own get it again. */
static int guarded_bytes(unsigned char *at, size_t len)
{
    unsigned char *end = byte_page + page_words * sizeof(uint32_t), *p;
    for (p = at - byte_page < GUARD ? byte_page : at - GUARD; p < end && p < at + len + GUARD; p++) {
        if ((p < at || p >= at + len) && *p != 0xA9) {
            return 0;
        }
    }
    memset(at, 0xA9, len);
    return 1;
}

/* Whether the words about a slice still hold the pattern; the slice's own get it again. */
static int guarded(int slice, uint32_t *at, size_t len)
{
    uint32_t *from = at - pages[slice] < GUARD ? pages[slice] : at - GUARD;
    uint32_t *end = pages[slice] + page_words - (at + len) < GUARD ? pages[slice] + page_words : at + len + GUARD;
    uint32_t *p;
    for (p = from; p < end; p++) {
        if ((p < at || p >= at + len) && *p != PATTERN) {
            return 0;
        }
    }
    for (p = at; p < at + len; p++) {
        *p = PATTERN;
    }
    return 1;
}

/* A page between two that cannot be read. */
static unsigned char *page_alone(size_t bytes)
{
    char *three = (char *)mmap(NULL, 3 * bytes, PROT_NONE, MAP_PRIVATE | MAP_ANONYMOUS, -1, 0);
    if (three == (char *)MAP_FAILED || mprotect(three + bytes, bytes, PROT_READ | PROT_WRITE) != 0) {
        return NULL;
    }
    return (unsigned char *)three + bytes;
}

/* Every page, with its pattern, and numbers in every slice; 0 where there are no pages. */
static int lay_pages(void)
{
    size_t bytes = 4096, k;
    int slice;
    page_words = bytes / sizeof(uint32_t);
    for (slice = 0; slice < SLICES; slice++) {
        pages[slice] = (uint32_t *)(void *)page_alone(bytes);
        if (pages[slice] == NULL) {
            return 0;
        }
        for (k = 0; k < page_words; k++) {
            pages[slice][k] = PATTERN;
        }
        for (k = 0; k < MOST; k++) {
            model[slice][k] = UINT32_C(0x3F000000) + (uint32_t)k;
        }
    }
    byte_page = page_alone(bytes);
    if (byte_page == NULL) {
        return 0;
    }
    memset(byte_page, 0xA9, bytes);
    return 1;
}

/* Whether slices of every length from 0 to two past the whole, and bytes of every number, were lent. */
static int every_length(const size_t *lengths)
{
    int slice;
    size_t k;
    for (slice = 0; slice < SLICES; slice++) {
        for (k = 0; k < lengths[slice] + 3; k++) {
            if (!lengths_seen[slice][k]) {
                printf("no slice %s of length %zu was lent: too few calls\n", slice_names[slice], k);
                return 0;
            }
        }
    }
    for (k = 0; k < COUNTS; k++) {
        if (!byte_lengths_seen[k]) {
            printf("no counts of length %zu were lent: too few calls\n", k);
            return 0;
        }
    }
    return 1;
}

#endif
