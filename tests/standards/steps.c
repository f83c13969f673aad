/* The library against the two public documents' formulas with exactly the listed steps exchanged (crates/standards/specs, FractionSteps.antt and
 * BlendSteps.antt). The formulas stand here once more, as C floats, under the specs' names; which steps an operator has is read from the specs
 * (tests/standards/lists).
 *
 *    steps COUNT SEED          COUNT pixels for each operator, and what each listed step changes in them; 1 at a mismatch, or at a step that changes nothing
 *    steps shares COUNT SEED   how many pixels of samples i/255 are the documents' own, for each operator and three kinds of pixels */
#include "../../include/tray.h"
#include "../../target/tests/standards-steps.h"

#include <float.h>
#include <math.h>
#include <stdio.h>
#include <stdlib.h>
#include <string.h>

_Static_assert(FLT_EVAL_METHOD == 0, "each operation is rounded once to binary32");

enum { OPERATORS = sizeof fractionSteps / sizeof *fractionSteps, MODES = sizeof blendSteps / sizeof *blendSteps };

/* ---- Order.antt: a NaN yields the other operand, equal values the first; the clamp keeps NaN */
static float smaller_of(float a, float b) { return isnan(a) ? b : b < a ? b : a; }
static float larger_of(float a, float b) { return isnan(a) ? b : a < b ? b : a; }
static float unit_of(float v) { return v < 0 ? 0 : 1 < v ? 1 : v; }

/* A list of steps is a set of bits. */
static int among(int k, unsigned l) { return l >> k & 1; }

/* ---- PorterDuff.antt */
enum Fraction { none, whole, inside, outside };

static float fraction(enum Fraction f, float alpha) { return f == none ? 0 : f == whole ? 1 : f == inside ? alpha : 1 - alpha; }

static const enum Fraction FA[OPERATORS] = {
    [clear] = none,    [A] = whole,    [B] = none,       [AoverB] = whole,   [BoverA] = outside, [AinB] = inside,  [BinA] = none,
    [AoutB] = outside, [BoutA] = none, [AatopB] = inside, [BatopA] = outside, [AxorB] = outside, [AplusB] = whole,
};
static const enum Fraction FB[OPERATORS] = {
    [clear] = none, [A] = none,        [B] = whole,        [AoverB] = outside, [BoverA] = whole,  [AinB] = none, [BinA] = inside,
    [AoutB] = none, [BoutA] = outside, [AatopB] = outside, [BatopA] = inside,  [AxorB] = outside, [AplusB] = whole,
};

/* ---- FractionSteps.antt */
static float share(unsigned l, enum Fraction f, float C, float alpha, float beta) {
    return among(straight, l) && f != none ? C : among(coverage_first, l) ? C * (alpha * fraction(f, beta)) : C * alpha * fraction(f, beta);
}

static float sum_by(unsigned l, enum Operator o, float x, float y) {
    return among(left_out, l) ? FA[o] == none ? FB[o] == none ? 0 : y : FB[o] == none ? x : x + y : x + y;
}

static float covered(unsigned l, enum Operator o, float alphaA, float alphaB) {
    return among(kept_alpha, l) ? FA[o] == inside ? alphaB : alphaA : sum_by(l, o, alphaA * fraction(FA[o], alphaB), alphaB * fraction(FB[o], alphaA));
}

static float cut_by(unsigned l, float x) { return among(cut, l) ? smaller_of(x, 1) : x; }
static float where_covered(float a, float x, float y) { return a <= 0 ? y : x; }

static float fraction_alpha_by(unsigned l, enum Operator o, float alphaA, float alphaB) {
    float a = cut_by(l, covered(l, o, alphaA, alphaB));
    return among(kept_colour, l) || among(cleared, l) ? where_covered(a, a, 0) : a;
}

static float fraction_colour_by(unsigned l, enum Operator o, float CA, float alphaA, float CB, float alphaB) {
    float a = covered(l, o, alphaA, alphaB);
    float c = cut_by(l, sum_by(l, o, share(l, FA[o], CA, alphaA, alphaB), share(l, FB[o], CB, alphaB, alphaA)));
    float x = among(over_coverage, l) ? c / a : c;
    return among(kept_colour, l) ? where_covered(a, x, CB) : among(cleared, l) ? where_covered(a, x, 0) : x;
}

/* ---- Compositing.antt: the blend functions that have no steps */
static float multiply_b(float Cb, float Cs) { return Cb * Cs; }
static float screen_b(float Cb, float Cs) { return Cb + Cs - Cb * Cs; }
static float D(float Cb) { return Cb <= 0.25f ? ((16 * Cb - 12) * Cb + 4) * Cb : sqrtf(Cb); }
static float soft_light_b(float Cb, float Cs) { return Cs <= 0.5f ? Cb - (1 - 2 * Cs) * Cb * (1 - Cb) : Cb + (2 * Cs - 1) * (D(Cb) - Cb); }

/* ---- BlendSteps.antt */
static float hard_light_by(unsigned l, float Cb, float Cs) {
    return (among(second_at_half, l) ? Cs < 0.5f : Cs <= 0.5f) ? multiply_b(Cb, 2 * Cs) : screen_b(Cb, 2 * Cs - 1);
}

static int is_zero(unsigned l, float C) { return among(below_zero, l) ? C <= 0 : C == 0; }
static int is_one(unsigned l, float C) { return among(above_one, l) ? 1 <= C : C == 1; }

static float color_dodge_by(unsigned l, float Cb, float Cs) { return is_zero(l, Cb) ? 0 : is_one(l, Cs) ? 1 : smaller_of(1, Cb / (1 - Cs)); }

static float color_burn_by(unsigned l, float Cb, float Cs) {
    float burnt = 1 - smaller_of(1, (1 - Cb) / Cs);
    return among(black_first, l) ? is_zero(l, Cs) ? 0 : is_one(l, Cb) ? 1 : burnt : is_one(l, Cb) ? 1 : is_zero(l, Cs) ? 0 : burnt;
}

static float exclusion_by(unsigned l, float Cb, float Cs) { return Cb + Cs - (among(source_doubled, l) ? 2 * Cs * Cb : 2 * Cb * Cs); }

static float blend_by(unsigned l, enum Mode m, float Cb, float Cs) {
    switch (m) {
    case multiply: return multiply_b(Cb, Cs);
    case screen: return screen_b(Cb, Cs);
    case overlay: return hard_light_by(l, Cs, Cb);
    case darken: return smaller_of(Cb, Cs);
    case lighten: return larger_of(Cb, Cs);
    case color_dodge: return color_dodge_by(l, Cb, Cs);
    case color_burn: return color_burn_by(l, Cb, Cs);
    case hard_light: return hard_light_by(l, Cb, Cs);
    case soft_light: return soft_light_b(Cb, Cs);
    case difference: return fabsf(Cb - Cs);
    case exclusion: return exclusion_by(l, Cb, Cs);
    }
    abort();
}

static float source_term(unsigned l, float Cs, float as, float ab) { return among(source_grouped, l) ? as * (1 - ab) * Cs : as * ((1 - ab) * Cs); }
static float blend_term(unsigned l, float v, float as, float ab) {
    return among(premultiplied, l) ? v : among(blend_grouped, l) ? as * ab * v : as * (ab * v);
}
static float backdrop_term(float as, float Cb, float ab) { return (1 - as) * ab * Cb; }

static float mixed_by(unsigned l, float v, float Cs, float as, float Cb, float ab) {
    float x = source_term(l, Cs, as, ab), y = blend_term(l, v, as, ab), z = backdrop_term(as, Cb, ab);
    if (!among(distributed, l)) return as * unit_of((1 - ab) * Cs + ab * v) + z;
    return among(dropped, l) ? y : among(uncovered_first, l) ? y + (x + z) : x + y + z;
}

static float blend_alpha_by(unsigned l, float as, float ab) { return among(union_alpha, l) ? as + ab - as * ab : as + ab * (1 - as); }
static float stored_by(unsigned l, float x, float a) { return among(divided, l) ? among(zero_uncovered, l) ? 0 < a ? x / a : 0 : x / a : x; }
static float clamp_by(int k, unsigned l, float x) { return among(k, l) ? unit_of(x) : x; }
static float argument(unsigned l, float C, float alpha) { return among(premultiplied, l) ? C * alpha : C; }

static float blend_colour_by(unsigned l, enum Mode m, float Cs, float as, float Cb, float ab) {
    float v = clamp_by(clamped_blend, l, blend_by(l, m, argument(l, Cb, ab), argument(l, Cs, as)));
    return clamp_by(clamped_result, l, stored_by(l, mixed_by(l, v, Cs, as, Cb, ab), blend_alpha_by(l, as, ab)));
}

/* ---- the 24 operators of the two documents, Porter and Duff's first */
struct defined {
    int porterDuff;
    int which; /* enum Operator or enum Mode */
    unsigned steps;
    int64_t number; /* the compositor's */
    const char *name;
    const char *const *stepNames;
};

static struct defined definedAt(int i) {
    int porterDuff = i < OPERATORS, which = porterDuff ? i : i - OPERATORS;
    struct listed listed = porterDuff ? fractionSteps[which] : blendSteps[which];
    uint64_t found;
    if (tray_from_name((const uint8_t *)listed.name, strlen(listed.name), &found) != TRAY_DONE) {
        printf("the library knows no operator %s\n", listed.name);
        exit(1);
    }
    return (struct defined){porterDuff, which, listed.steps, (int64_t)found, listed.name, porterDuff ? fractionStepNames : blendStepNames};
}

static float colour_by(const struct defined *o, unsigned l, float s, float sa, float d, float da) {
    return o->porterDuff ? fraction_colour_by(l, o->which, s, sa, d, da) : blend_colour_by(l, o->which, s, sa, d, da);
}

static float alpha_by(const struct defined *o, unsigned l, float sa, float da) {
    return o->porterDuff ? fraction_alpha_by(l, o->which, sa, da) : blend_alpha_by(l, sa, da);
}

/* ---- words and random numbers */
static float number(uint32_t word) {
    float x;
    memcpy(&x, &word, sizeof x);
    return x;
}

static uint32_t word(float x) {
    uint32_t w;
    memcpy(&w, &x, sizeof w);
    return w;
}

/* Any two NaNs are the same, and the two zeros are. */
static int same(float x, float y) { return x == y || (isnan(x) && isnan(y)); }

static uint64_t state;

/* splitmix64 */
static uint32_t below(uint32_t bound) {
    uint64_t z = state += 0x9e3779b97f4a7c15;
    z = (z ^ z >> 30) * 0xbf58476d1ce4e5b9;
    z = (z ^ z >> 27) * 0x94d049bb133111eb;
    return (uint32_t)(((z ^ z >> 31) >> 32) * bound >> 32);
}

/* ---- samples, as words */
static uint32_t byteSample(void) { return word((float)below(256) / 255.0f); }

/* 0 to 1: a number spread evenly, or one whose bits are */
static uint32_t inRange(void) { return below(2) ? word((float)below((1u << 24) + 1) * 0x1p-24f) : below(0x3f800001); }

/* Mostly from -4 to 4; the others have any exponent but the infinities'. */
static uint32_t outOfRange(void) { return below(8) ? word(((float)below(1u << 24) * 0x1p-23f - 1) * 4) : below(2) << 31 | below(0x7f800000); }

static uint32_t special(void) {
    static const uint32_t specials[] = {
        0x00000000, 0x80000000, 0x00000001, 0x80000001, 0x00400000, 0x007fffff, 0x807fffff, 0x00800000, /* zeros, subnormals, FLT_MIN */
        0x3e800000, 0x3effffff, 0x3f000000, 0x3f000001, 0x3f7fffff, 0x3f800000, 0x3f800001, 0xbf800000, /* 0.25, 0.5, 1, their neighbours, -1 */
        0x40000000, 0xc0000000, 0x7f000000, 0xff000000, 0x7f7fffff, 0x7f800000, 0xff800000,             /* 2, -2, 2^127, -2^127, FLT_MAX, infinities */
        0x7fc00000, 0xffc00001, 0x7f800001,                                                             /* NaNs, the last one signalling */
    };
    return below(3) ? specials[below(sizeof specials / sizeof *specials)] : below(2) ? byteSample() : inRange();
}

/* ---- pixels: red, green, blue, alpha of the source and of the destination */
enum { ROW = 2048, FAMILIES = 5 };

static uint32_t source[4 * ROW], destination[4 * ROW], stored[4 * ROW];

static void fill(size_t pixel, uint32_t (*sample)(void)) {
    for (size_t i = 4 * pixel; i < 4 * pixel + 4; i++) source[i] = sample(), destination[i] = sample();
}

/* One alpha is 0 or 1, or both are. */
static void fillEdge(size_t pixel) {
    uint32_t which = below(3);
    fill(pixel, below(2) ? byteSample : inRange);
    if (which != 0) source[4 * pixel + 3] = below(2) ? word(1) : 0;
    if (which != 1) destination[4 * pixel + 3] = below(2) ? word(1) : 0;
}

static void fillFamilies(size_t pixels) {
    for (size_t i = 0; i < pixels; i++) {
        switch (i % FAMILIES) {
        case 0: fill(i, inRange); break;
        case 1: fill(i, byteSample); break;
        case 2: fillEdge(i); break;
        case 3: fill(i, outOfRange); break;
        case 4: fill(i, special); break;
        }
    }
}

static void compose(const struct defined *o, size_t pixels) {
    int64_t width = (int64_t)pixels;
    int64_t table[TRAY_COLUMNS] = {o->number, TRAY_NO_GRAVITY, 0, 0, TRAY_RED + TRAY_GREEN + TRAY_BLUE + TRAY_ALPHA, 0, width, 1, 4, 0,
                                   0, 0, TRAY_MAX_SIDE, TRAY_MAX_SIDE};
    static const uint32_t args[4];
    if (tray_compose(width, 1, 4, destination, 4 * pixels, table, TRAY_COLUMNS, args, 4, source, 4 * pixels, stored, 4 * pixels) != TRAY_DONE) {
        printf("%s: refused\n", o->name);
        exit(1);
    }
}

/* A channel of a pixel (3 is alpha) by the formula with the steps l. */
static float valueBy(const struct defined *o, unsigned l, size_t pixel, int channel) {
    const uint32_t *s = source + 4 * pixel, *d = destination + 4 * pixel;
    if (channel == 3) return alpha_by(o, l, number(s[3]), number(d[3]));
    return colour_by(o, l, number(s[channel]), number(s[3]), number(d[channel]), number(d[3]));
}

/* The first channel in which the pixel is not the formula's, or 4. */
static int differs(const struct defined *o, unsigned l, size_t pixel) {
    int channel = 0;
    while (channel < 4 && same(number(stored[4 * pixel + channel]), valueBy(o, l, pixel, channel))) channel++;
    return channel;
}

/* ---- steps COUNT SEED */
static void mismatch(const struct defined *o, size_t pixel, int channel) {
    const uint32_t *s = source + 4 * pixel, *d = destination + 4 * pixel;
    printf("%s: source %08x %08x %08x %08x, destination %08x %08x %08x %08x: the library's %s is %08x, the formula's %08x\n", o->name, s[0], s[1], s[2], s[3],
           d[0], d[1], d[2], d[3], (const char *[]){"red", "green", "blue", "alpha"}[channel], stored[4 * pixel + channel],
           word(valueBy(o, o->steps, pixel, channel)));
    exit(1);
}

/* Compares a row, and counts for each listed step the pixels that would be wrong without it. */
static void compareRow(const struct defined *o, size_t pixels, uint64_t changed[32]) {
    for (size_t i = 0; i < pixels; i++) {
        int channel = differs(o, o->steps, i);
        if (channel < 4) mismatch(o, i, channel);
        for (int k = 0; k < 32; k++)
            if (among(k, o->steps)) changed[k] += differs(o, o->steps & ~(1u << k), i) < 4;
    }
}

/* How many of the listed steps change nothing: in these the run could not fail. */
static int report(const struct defined *o, uint64_t count, const uint64_t changed[32]) {
    int idle = 0;
    printf("%s: %llu pixels; wrong without", o->name, (unsigned long long)count);
    if (o->steps == 0) printf(" a step: it has none");
    for (int k = 0; k < 32; k++) {
        if (!among(k, o->steps)) continue;
        printf(" %s %llu", o->stepNames[k], (unsigned long long)changed[k]);
        idle += changed[k] == 0;
    }
    puts(idle ? ": A STEP CHANGES NOTHING" : "");
    return idle;
}

static int compareAll(uint64_t count, uint64_t seed) {
    int idle = 0;
    state = seed;
    for (int i = 0; i < OPERATORS + MODES; i++) {
        struct defined o = definedAt(i);
        uint64_t changed[32] = {0};
        for (uint64_t done = 0; done < count; done += ROW) {
            size_t pixels = count - done < ROW ? count - done : ROW;
            fillFamilies(pixels);
            compose(&o, pixels);
            compareRow(&o, pixels, changed);
        }
        idle += report(&o, count, changed);
    }
    printf("%d operators, %llu pixels, 0 mismatches\n", OPERATORS + MODES, (unsigned long long)(count * (OPERATORS + MODES)));
    return idle != 0;
}

/* ---- steps shares COUNT SEED */
enum { BOTH_OPAQUE, OPAQUE_DESTINATION, NEITHER, KINDS };
static const char *const kindNames[KINDS] = {"both opaque", "opaque destination", "any alphas"};

static void fillKind(int kind, size_t pixels) {
    for (size_t i = 0; i < pixels; i++) {
        fill(i, byteSample);
        if (kind == BOTH_OPAQUE) source[4 * i + 3] = word(1);
        if (kind != NEITHER) destination[4 * i + 3] = word(1);
    }
}

/* The step that says in which form a colour is stored: multiplied by alpha, or over it. Without steps the formulas are the documents'. */
static float documentRed(const struct defined *o, size_t pixel) {
    unsigned form = o->steps & (o->porterDuff ? 1u << over_coverage : 1u << divided);
    return valueBy(o, form, pixel, 0);
}

/* The stored red, in the document's form: a straight colour is multiplied by the stored alpha. */
static float ourRed(const struct defined *o, size_t pixel) {
    float red = number(stored[4 * pixel]);
    return o->porterDuff && among(straight, o->steps) ? red * number(stored[4 * pixel + 3]) : red;
}

static void shareOf(const char *what, uint64_t equal, uint64_t count) {
    printf(" %s %.1f%% (%llu of %llu)", what, 100.0 * (double)equal / (double)count, (unsigned long long)equal, (unsigned long long)count);
}

static void shares(const struct defined *o, int kind, uint64_t count) {
    uint64_t colours = 0, alphas = 0;
    double largest = 0;
    for (uint64_t done = 0; done < count; done += ROW) {
        size_t pixels = count - done < ROW ? count - done : ROW;
        fillKind(kind, pixels);
        compose(o, pixels);
        for (size_t i = 0; i < pixels; i++) {
            float ours = ourRed(o, i), document = documentRed(o, i);
            double apart = fabs((double)ours - (double)document);
            colours += same(ours, document);
            alphas += same(number(stored[4 * i + 3]), valueBy(o, 0, i, 3));
            if (apart > largest) largest = apart;
        }
    }
    printf("%s, %s:", o->name, kindNames[kind]);
    shareOf("colour", colours, count);
    shareOf("alpha", alphas, count);
    printf(" largest difference of colour %.9g\n", largest);
}

/* The alphas i/255 of a source over an opaque destination that make the stored alpha another than 1. */
static int alphasOffOne(const struct defined *o) {
    int off = 0;
    for (int i = 0; i < 256; i++) {
        for (int k = 0; k < 3; k++) source[4 * i + k] = destination[4 * i + k] = 0;
        source[4 * i + 3] = word((float)i / 255.0f);
        destination[4 * i + 3] = word(1);
    }
    compose(o, 256);
    for (int i = 0; i < 256; i++) off += stored[4 * i + 3] != word(1);
    return off;
}

static void sharesOfAll(uint64_t count, uint64_t seed) {
    for (int i = 0; i < OPERATORS + MODES; i++) {
        struct defined o = definedAt(i);
        for (int kind = 0; kind < KINDS; kind++) {
            state = seed;
            shares(&o, kind, count);
        }
        if (!o.porterDuff) printf("%s: over an opaque destination %d of the 256 alphas i/255 store another alpha than 1\n", o.name, alphasOffOne(&o));
    }
}

static uint64_t given(const char *text) {
    char *end;
    uint64_t value = strtoull(text, &end, 10);
    if (end != text && *end == 0 && value > 0) return value;
    printf("not a number above 0: %s\n", text);
    exit(2);
}

int main(int count, char **words) {
    if (count == 3) return compareAll(given(words[1]), given(words[2]));
    if (count == 4 && strcmp(words[1], "shares") == 0) {
        sharesOfAll(given(words[2]), given(words[3]));
        return 0;
    }
    puts("usage: steps [shares] COUNT SEED");
    return 2;
}
