/* Binary32 vectors by MPFR, which shares no code with this repository and uses no hardware
   floats: 24 bits of precision, the exponent range of binary32, gradual underflow by
   mpfr_subnormalize, nearest with ties to even.

   Each line is `OP AAAAAAAA BBBBBBBB RRRRRRRR` and a line feed, 29 bytes. OP is one of
   + - * / < l (at most) = s (root; B is zero). A comparison's result is 00000001 or 00000000.
   A NaN result is 7FC00000. The output is the same at every run. */

#include <mpfr.h>
#include <stdint.h>
#include <stdio.h>
#include <stdlib.h>

static mpfr_t left, right, result;

static uint64_t state = 20260101;

static uint64_t word(void)
{
    /* splitmix64 */
    uint64_t z = state += 0x9E3779B97F4A7C15u;
    z = (z ^ z >> 30) * 0xBF58476D1CE4E5B9u;
    z = (z ^ z >> 27) * 0x94D049BB133111EBu;
    return z ^ z >> 31;
}

static uint32_t below(uint32_t n)
{
    return (uint32_t)(word() % n);
}

static uint32_t sign(void)
{
    return (uint32_t)word() & 0x80000000u;
}

/* C leaves open in which order operands are evaluated, so no statement draws twice. */
static uint32_t signed_bits(uint32_t size)
{
    return sign() | size;
}

static void set_bits(mpfr_t x, uint32_t bits)
{
    int s = bits >> 31 ? -1 : 1;
    uint32_t field = bits >> 23 & 0xFF, low = bits & 0x7FFFFF;
    if (field == 0xFF) {
        if (low)
            mpfr_set_nan(x);
        else
            mpfr_set_inf(x, s);
    } else if (field == 0 && low == 0) {
        mpfr_set_zero(x, s);
    } else {
        uint32_t m = field ? low | 0x800000 : low;
        int e = field ? (int)field - 150 : -149;
        if (mpfr_set_ui_2exp(x, m, e, MPFR_RNDN) != 0)
            abort();
        mpfr_setsign(x, x, s < 0, MPFR_RNDN);
    }
}

static uint32_t get_bits(mpfr_t x)
{
    uint32_t s = mpfr_signbit(x) ? 0x80000000u : 0;
    if (mpfr_nan_p(x))
        return 0x7FC00000u;
    if (mpfr_inf_p(x))
        return s | 0x7F800000u;
    if (mpfr_zero_p(x))
        return s;
    mpz_t z;
    mpz_init(z);
    long e = mpfr_get_z_2exp(z, x);
    mpz_abs(z, z);
    /* MPFR gives all 24 bits of the significand, so a subnormal ends in zeros. */
    unsigned long m = mpz_get_ui(z);
    mpz_clear(z);
    while (e < -149) {
        if (m & 1)
            abort();
        m >>= 1;
        e++;
    }
    if (m >= 1u << 24 || e > 104 || (m < 1u << 23 && e != -149))
        abort();
    return s | (m < 1u << 23 ? (uint32_t)m : (uint32_t)(e + 150) << 23 | (uint32_t)(m & 0x7FFFFF));
}

static void line(char op, uint32_t a, uint32_t b)
{
    uint32_t r;
    int t;
    set_bits(left, a);
    set_bits(right, b);
    switch (op) {
    case '+': t = mpfr_add(result, left, right, MPFR_RNDN); break;
    case '-': t = mpfr_sub(result, left, right, MPFR_RNDN); break;
    case '*': t = mpfr_mul(result, left, right, MPFR_RNDN); break;
    case '/': t = mpfr_div(result, left, right, MPFR_RNDN); break;
    case 's': t = mpfr_sqrt(result, left, MPFR_RNDN); break;
    default: t = 0;
    }
    switch (op) {
    case '<': r = mpfr_less_p(left, right) != 0; break;
    case 'l': r = mpfr_lessequal_p(left, right) != 0; break;
    case '=': r = mpfr_equal_p(left, right) != 0; break;
    default:
        mpfr_subnormalize(result, t, MPFR_RNDN);
        r = get_bits(result);
    }
    printf("%c %08X %08X %08X\n", op, a, b, r);
}

static const uint32_t special[] = {
    0x00000000, 0x00000001, 0x00000002, 0x007FFFFF, 0x00800000, 0x00800001, 0x1E3CE508,
    0x3F000000, 0x3F7FFFFF, 0x3F800000, 0x3F800001, 0x40490FDB, 0x4B800000, 0x7F000000,
    0x7F7FFFFF, 0x7F800000, 0x7FC00000,
};
enum { SPECIALS = sizeof special / sizeof *special };

static uint32_t mantissa(void)
{
    static const uint32_t edge[] = {0, 1, 2, 0x7FFFFF, 0x7FFFFE, 0x400000, 0x3FFFFF, 0x400001};
    if (below(4) == 0)
        return edge[below(8)];
    return below(0x800000);
}

static uint32_t normal(int from, int to)
{
    uint32_t field = (uint32_t)from + below((uint32_t)(to - from + 1));
    uint32_t low = mantissa();
    return signed_bits(field << 23 | low);
}

/* Any pattern, the rare ones often. */
static uint32_t any(void)
{
    switch (below(8)) {
    case 0: return signed_bits(special[below(SPECIALS)]);
    case 1: return signed_bits(mantissa());
    case 2: return normal(250, 254);
    case 3: return normal(1, 30);
    case 4: return signed_bits((1 + below(254)) << 23);
    case 5: return (uint32_t)word();
    default: return normal(110, 144);
    }
}

/* A pattern near another: the same exponent, a neighbour, or its opposite. */
static uint32_t close_to(uint32_t a)
{
    switch (below(4)) {
    case 0: return a ^ 0x80000000u;
    case 1: return a + 1;
    case 2: return (a & 0xFF800000u) | mantissa();
    default: return signed_bits((a & 0x7F800000u) | mantissa());
    }
}

/* A whole number of n bits, the lowest one set, as a float scaled by 2^scale. */
static uint32_t odd(int n, int scale)
{
    uint32_t m = below(1u << (n - 1)) | 1u << (n - 1) | 1;
    return (uint32_t)(n - 1 + scale + 127) << 23 | ((m << (24 - n)) & 0x7FFFFF);
}

int main(void)
{
    static const char arithmetic[] = "+-*/", comparison[] = "<l=";
    mpfr_set_emin(-148);
    mpfr_set_emax(128);
    mpfr_inits2(24, left, right, result, (mpfr_ptr)0);

    /* Every pair of special values up to sign, and the signs of zero. */
    for (const char *op = arithmetic; *op; op++)
        for (int i = 0; i < SPECIALS; i++)
            for (int j = 0; j < SPECIALS; j++) {
                uint32_t a = signed_bits(special[i]);
                uint32_t b = signed_bits(special[j]);
                line(*op, a, b);
            }
    for (const char *op = arithmetic; *op; op++)
        for (uint32_t i = 0; i < 4; i++) {
            line(*op, i << 31, i >> 1 << 31);
            line(*op, 0x3F800000 | i << 31, 0x3F800000 | i >> 1 << 31);
            line(*op, 0x7F800000 | i << 31, 0x7F800000 | i >> 1 << 31);
            line(*op, i << 31, 0x3F800000 | i >> 1 << 31);
            line(*op, 0x3F800000 | i << 31, i >> 1 << 31);
        }

    /* Sums whose exact value lies halfway between two floats, and just beside the half. */
    for (int i = 0; i < 300; i++) {
        int field = 30 + (int)below(220);
        uint32_t a = (uint32_t)field << 23 | below(0x800000);
        uint32_t half = (uint32_t)(field - 24) << 23;
        uint32_t b = half + (i % 3 == 0 ? 0 : i % 3 == 1 ? 1 : 0xFFFFFFFFu);
        a = signed_bits(a);
        b = signed_bits(b);
        line(i & 1 ? '+' : '-', a, b);
    }
    /* Sums that cancel, exactly or but for a few bits, down into the subnormal range. */
    for (int i = 0; i < 300; i++) {
        uint32_t a = i % 3 ? normal(1, 254) : normal(1, 3);
        uint32_t b = close_to(a);
        line(i & 1 ? '+' : '-', a, b);
    }
    /* Products of 24 and 25 bits: exact, or halfway between two floats. */
    for (int i = 0; i < 200; i++) {
        int scale = (int)below(60) - 30;
        uint32_t a = odd(13, scale);
        uint32_t b = odd(12, scale);
        a = signed_bits(a);
        line('*', a, signed_bits(b));
    }
    /* Products and quotients by powers of two that end among the subnormal numbers, where a half
       of the smallest one is met. */
    for (int i = 0; i < 200; i++) {
        int field = 1 + (int)below(40);
        int down = field + (int)below(26) - 1;
        uint32_t a = normal(field, field);
        if (i & 1)
            line('*', a, signed_bits((uint32_t)(127 - down) << 23));
        else
            line('/', a, signed_bits((uint32_t)(127 + down) << 23));
    }
    /* Products and quotients about the smallest and the largest number. */
    for (int i = 0; i < 400; i++) {
        int edge = i & 2 ? 254 : 1;
        int field = 1 + (int)below(254), other;
        other = i & 1 ? edge + 127 - field : field + 127 - edge;
        other += (int)below(5) - 2;
        if (other < 1 || other > 254)
            other = 127;
        uint32_t a = normal(field, field);
        uint32_t b = normal(other, other);
        line(i & 1 ? '*' : '/', a, b);
    }
    /* Sums about the largest number. */
    for (int i = 0; i < 100; i++) {
        uint32_t a = normal(253, 254);
        uint32_t b = normal(226, 254);
        line(i & 1 ? '+' : '-', a, b);
    }
    for (int i = 0; i < 1600; i++) {
        uint32_t a = any();
        uint32_t b = any();
        line(arithmetic[i % 4], a, b);
    }
    for (int i = 0; i < 400; i++) {
        uint32_t a = normal(115, 139);
        uint32_t b = normal(115, 139);
        line(arithmetic[i % 4], a, b);
    }

    /* Comparisons. */
    for (const char *op = comparison; *op; op++) {
        for (uint32_t i = 0; i < 4; i++) {
            line(*op, i << 31, i >> 1 << 31);
            line(*op, 0x7F800000 | i << 31, 0x7F800000 | i >> 1 << 31);
            line(*op, 0x7FC00000 | i << 31, 0x7FC00000 | i >> 1 << 31);
            line(*op, 1 | i << 31, i >> 1 << 31);
        }
        for (int i = 0; i < 90; i++) {
            uint32_t a = any();
            line(*op, a, i % 3 == 0 ? a : i % 3 == 1 ? close_to(a) : any());
        }
        for (int i = 0; i < 30; i++) {
            uint32_t a = any();
            line(*op, a, 0x7F800001u + below(0x7FFFFF));
        }
    }

    /* Roots: special values, exact squares and their neighbours, both parities of the exponent,
       subnormal numbers, and negative ones. */
    for (int i = 0; i < SPECIALS; i++) {
        line('s', special[i], 0);
        line('s', special[i] | 0x80000000u, 0);
    }
    for (int i = 0; i < 200; i++) {
        uint32_t m = 0x800 | below(0x800);
        int scale = 2 * ((int)below(60) - 30);
        uint32_t bits;
        mpfr_set_ui_2exp(left, (unsigned long)m * m, scale, MPFR_RNDN);
        bits = get_bits(left);
        line('s', bits + (uint32_t)(i % 3) - 1, 0);
    }
    for (int i = 0; i < 150; i++)
        line('s', 1 + below(0x7FFFFF), 0);
    for (int i = 0; i < 150; i++)
        line('s', 1u << below(23), 0);
    for (int i = 0; i < 254; i++)
        line('s', (uint32_t)(i + 1) << 23 | mantissa(), 0);
    for (int i = 0; i < 50; i++)
        line('s', any() | 0x80000000u, 0);
    return ferror(stdout) != 0;
}
