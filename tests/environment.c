/* What include/tray.h says of the floating-point environment, on x86-64: under each setting of MXCSR that is not the default Plus gives other bits, a job
 * that is taken up under one is a mixture, the header's checks see it, and fesetenv(FE_DFL_ENV) undoes it. Exit 3: this program was started under another. */
#include "../include/tray.h"

#include <fenv.h>
#include <pmmintrin.h>
#include <stdio.h>
#include <stdlib.h>
#include <string.h>

enum { PIXELS = 2, WORDS = 4 * PIXELS };

#define ONE 0x3f800000u
#define HALF 0x3f000000u

/* Subnormal numbers, and ties around a half. */
static const uint32_t dst[WORDS] = {1, HALF, HALF + 1, ONE, 0x00400000, HALF, HALF + 1, ONE};
static const uint32_t src[WORDS] = {2, 0x33000000, 0x33000000, ONE, 3, 0x33000000, 0x33000000, ONE};
static const uint32_t right[WORDS] = {3, HALF, HALF + 2, ONE, 0x00400003, HALF, HALF + 2, ONE};
static const int64_t table[TRAY_COLUMNS] = {5, TRAY_NO_GRAVITY, 0, 0, TRAY_RED + TRAY_GREEN + TRAY_BLUE + TRAY_ALPHA, 0, PIXELS, 1, 4, 0,
                                            0, 0, TRAY_MAX_SIDE, TRAY_MAX_SIDE};
static const uint32_t args[4];

static void fail(const char *what, unsigned setting) {
    printf("MXCSR %04x: %s\n", setting, what);
    exit(1);
}

/* The header's two forms of the check must agree. */
static int default_environment(void) {
    int word = (_mm_getcsr() & 0xffc0) == 0x1f80;
    int parts = _MM_GET_ROUNDING_MODE() == _MM_ROUND_NEAREST && _MM_GET_FLUSH_ZERO_MODE() == _MM_FLUSH_ZERO_OFF &&
                _MM_GET_DENORMALS_ZERO_MODE() == _MM_DENORMALS_ZERO_OFF && _MM_GET_EXCEPTION_MASK() == _MM_MASK_MASK;
    if (word != parts) fail("the two checks differ", _mm_getcsr());
    return word;
}

static void compose(uint32_t *out) {
    if (tray_compose(PIXELS, 1, 4, dst, WORDS, table, TRAY_COLUMNS, args, 4, src, WORDS, out, WORDS) != TRAY_DONE) fail("refused", _mm_getcsr());
}

/* Goes on with a job of this one layer, whose number is 1. */
static void call(uint64_t allowance, uint32_t work[2][WORDS], uint64_t mark[2]) {
    uint64_t layer, stores, finished;
    if (tray_job(PIXELS, 1, 4, dst, WORDS, 1, table, TRAY_COLUMNS, args, 4, src, WORDS, 1, allowance, work[0], WORDS, work[1], WORDS, mark, 2, &layer,
                 &stores, &finished) != TRAY_DONE)
        fail("refused", _mm_getcsr());
}

static void look(unsigned setting) {
    uint32_t other[WORDS], again[WORDS], work[2][WORDS];
    uint64_t mark[2] = {0, 1};
    call(5 * 3, work, mark);
    _mm_setcsr(0x1f80 | setting);
    int seen = !default_environment();
    compose(other);
    call(UINT64_MAX, work, mark);
    fesetenv(FE_DFL_ENV);
    if (!seen) fail("the checks do not see it", setting);
    if (!default_environment()) fail("fesetenv leaves it", setting);
    compose(again);
    if (memcmp(again, right, sizeof right) != 0) fail("other bits afterwards", setting);
    if (memcmp(other, right, 16) == 0 || memcmp(other + 4, right + 4, 16) == 0) fail("the same bits", setting);
    if (mark[0] != 2 * PIXELS || memcmp(work[1], right, 16) != 0 || memcmp(work[1] + 4, other + 4, 16) != 0) fail("no mixture", setting);
}

int main(void) {
    static const unsigned settings[] = {_MM_FLUSH_ZERO_ON, _MM_DENORMALS_ZERO_ON, _MM_ROUND_DOWN, _MM_ROUND_UP, _MM_ROUND_TOWARD_ZERO};
    if (!default_environment()) return 3;
    for (size_t i = 0; i < sizeof settings / sizeof *settings; i++) look(settings[i]);
    puts("five other floating-point environments: other bits, and a mixture where a job is taken up");
    return 0;
}
