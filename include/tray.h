/* tray.h: the C interface of libtray.a, the proved tray compositor.
 *
 * Build the library with tools/library; link target/staticlib/libtray.a and -lm. Or install both with tools/install, and
 * take `pkg-config --cflags --libs libtray`. examples/job.c is a whole host.
 *
 * Words. A picture, the source samples and the arguments are lists of words: the bits of binary32 floats. A host passes
 * its float buffer's pointer as it is (as uint32_t *). Pixels go row by row, samples of a pixel side by side: 1 channel
 * is gray, 3 are red, green and blue, 4 have alpha too. Colours are read as straight, not multiplied by alpha; some
 * operators store theirs multiplied (docs/DIFFERENCES.md, "What a user sees"). A sample that a call computes and that is
 * NaN is stored as 7FC00000; one that it keeps or copies keeps all its bits.
 *
 * What is lent. A list is lent as a pointer and its count of elements, for the time of the call; no pointer is kept.
 * Pointers to const are only read. The others are written only as each function says, and not at all by a call that is
 * refused (its answer is not 0), but for the answers of tray_job (layer, stores, finished) and of tray_read_card (line,
 * width, height, channels, layers), which every call writes. The pointer of an empty list is not read, but must not be
 * null and must be aligned for its type, as all pointers must. Whatever a call writes, a list or a single answer, must
 * overlap neither anything else that it writes nor any list that it reads.
 *
 * Calls have no state of their own and take no lock, allocate nothing and always return. Calls on different lists may
 * run at the same time.
 *
 * The floating-point environment. A call computes in the environment of the thread that makes it, and what is promised of
 * samples holds in the one in which a C program starts: every operation rounded to nearest, ties to even; subnormal
 * numbers neither taken nor stored as zero; no floating-point exception trapped. No call checks it. In another one samples
 * may come out with other bits and no fault is answered, and a job that such a worker takes up is a mixture. It is left by
 * fesetround, feenableexcept and MXCSR, and by linking with gcc -ffast-math or -Ofast, whose start file (crtfastmath.o)
 * sets flush-to-zero and denormals-are-zero, with gcc 12 in a shared library too, for whoever loads it. A host checks it in each thread that
 * makes calls (a new thread has its maker's):
 *
 *    fegetround() == FE_TONEAREST                               <fenv.h>; on x86-64 this does not see the bits of MXCSR
 *    _MM_GET_ROUNDING_MODE() == _MM_ROUND_NEAREST               <xmmintrin.h>
 *    _MM_GET_FLUSH_ZERO_MODE() == _MM_FLUSH_ZERO_OFF            <xmmintrin.h>, MXCSR's bit 15
 *    _MM_GET_DENORMALS_ZERO_MODE() == _MM_DENORMALS_ZERO_OFF    <pmmintrin.h>, MXCSR's bit 6
 *    (_mm_getcsr() & 0xFFC0) == 0x1F80                          the last three and that nothing is trapped, at once
 *
 * and sets it by fesetenv(FE_DFL_ENV), or by _mm_setcsr(0x1F80) on x86-64. The Rust crate host/tray
 * looks at the rounding and the subnormal numbers before each call that computes.
 *
 * Answers. 0: done. Otherwise the number of the first fault, in the order 1, 2, then layer by layer 3 to 8 and 13, then 9, 10, 14:
 *
 *    1  STACK      layers not 1 to 16; table not 14 or arguments not 4 a layer
 *    2  TRAY       a side of the destination not 0 to 2048; channels not 1, 3, 4; samples not width x height x channels
 *    3  OPERATOR   number not 0 to 69, or a name not known
 *    4  CURVE      operator 43 (Interpolate) or 67 (Blur), which are not carried
 *    5  PLACING    gravity not 0 to 9; an offset outside -1000000 to 1000000
 *    6  FLAGS      not 0 to 63
 *    7  SOURCE     start negative; side or channels as in 2; start + width x height x channels over the samples' count
 *    8  ARGUMENTS  count not 0 to 4
 *    9  WORK       a work buffer, or a single composition's output, is not 4 x width x height words
 *   10  MARK       the mark is not two numbers, or its first, the position, is more than (layers + 1) x width x height
 *   11  NARROW     wanted channels not 1, 3, 4; input no multiple of 4 words; output not input / 4 x wanted
 *   12  CARD       a line of a card out of form or a layer too many; table or arguments not those of 16 layers
 *   13  WINDOW     left, top, width or height of a window not 0 to 2048, each by itself
 *   14  JOB NUMBER the mark's second number is not the call's job_number
 */
#ifndef TRAY_H
#define TRAY_H

#include <stddef.h>
#include <stdint.h>

#ifdef __cplusplus
extern "C" {
#endif

/* The version of this interface, which is the Rust crate's too. */
#define TRAY_VERSION_MAJOR 0
#define TRAY_VERSION_MINOR 1
#define TRAY_VERSION_PATCH 0
#define TRAY_VERSION "0.1.0"

/* Limits. What lies beyond is refused under the number beside it. */
enum tray_limit {
    TRAY_OPERATORS = 70,        /* 3: operators are 0 to 69 */
    TRAY_MAX_LAYERS = 16,       /* 1, of a card 12 */
    TRAY_MAX_SIDE = 2048,       /* 2 for a destination, 7 for a source, 13 for each number of a window */
    TRAY_MAX_OFFSET = 1000000,  /* 5: right or down, and as far to the left or up */
    TRAY_MAX_ARGUMENTS = 4      /* 8, of a card 12: words of `args` a layer, of which TRAY_COLUMN_COUNT are read */
};

enum tray_fault {
    TRAY_DONE = 0,
    TRAY_STACK = 1,
    TRAY_TRAY = 2,
    TRAY_OPERATOR = 3,
    TRAY_CURVE = 4,
    TRAY_PLACING = 5,
    TRAY_FLAGS = 6,
    TRAY_SOURCE = 7,
    TRAY_ARGUMENTS = 8,
    TRAY_WORK = 9,
    TRAY_MARK = 10,
    TRAY_NARROW = 11,
    TRAY_CARD = 12,
    TRAY_WINDOW = 13,
    TRAY_JOB_NUMBER = 14
};

/* The layer table: fourteen numbers a layer, the lowest layer first.
 *
 * The last four are the layer's window, in pixels of the destination: pixel (x, y), counted from 0, lies in it where
 * left <= x < left + width and top <= y < top + height. A pixel off it keeps the bits of the picture beneath, a NaN's too,
 * whatever tiling, overlay and the operator say; in a job it is five stores as any other. A window cuts nothing else: the
 * source is placed and repeated, and displace and distort read the destination, as if there were none. It may reach past
 * the destination. 0, 0, TRAY_MAX_SIDE, TRAY_MAX_SIDE holds all pixels of any, for a layer that may write everywhere. One
 * whose width or height is 0 holds none, and its layer changes nothing; a row whose last four numbers are left 0 has such
 * a window. */
enum tray_column {
    TRAY_COLUMN_OPERATOR = 0,   /* enum tray_operator, or from tray_from_name */
    TRAY_COLUMN_GRAVITY = 1,    /* enum tray_gravity */
    TRAY_COLUMN_RIGHT = 2,      /* the offset from there, in pixels */
    TRAY_COLUMN_DOWN = 3,
    TRAY_COLUMN_FLAGS = 4,      /* a sum of enum tray_flag */
    TRAY_COLUMN_FIRST = 5,      /* the source's first sample in `samples` */
    TRAY_COLUMN_WIDTH = 6,      /* the source's sides and channels (1, 3 or 4) */
    TRAY_COLUMN_HEIGHT = 7,
    TRAY_COLUMN_CHANNELS = 8,
    TRAY_COLUMN_COUNT = 9,      /* how many of the layer's four arguments are given; the others are not read */
    TRAY_COLUMN_WINDOW_LEFT = 10,
    TRAY_COLUMN_WINDOW_TOP = 11,
    TRAY_COLUMN_WINDOW_WIDTH = 12,
    TRAY_COLUMN_WINDOW_HEIGHT = 13,
    TRAY_COLUMNS = 14
};

/* The operators; the command `tray operators` says what each one does. Those with arguments, and the defaults in brackets,
 * S and D being a colour of the source and of the destination:
 *
 *   mathematics  factor of S x D (0); factor of S (0); factor of D (0); what is added (0)
 *   blend        percent of the source (50); percent of the destination (100 less the first argument)
 *   dissolve     percent of the source's alpha (50); percent of the destination's alpha (100)
 *   changemask   how far apart two samples may lie and count as equal (0)
 *   threshold    least difference that moves a colour (0.05); part of the difference by which it moves (1)
 *   displace     the place read lies (red - 1/2) x X to the right (20); and (green - 1/2) x Y down (the first argument)
 *   distort      the column read is red x X (20); the row read is green x Y (the first argument)
 *   modulate     percent of the effect on lightness (100); percent of the effect on saturation (100)
 *
 * An argument that is missing or not finite counts as its default; mathematics takes one that is not finite as it is. */
enum tray_operator {
    TRAY_OP_OVER = 0,
    TRAY_OP_IN = 1,
    TRAY_OP_OUT = 2,
    TRAY_OP_ATOP = 3,
    TRAY_OP_XOR = 4,
    TRAY_OP_PLUS = 5,
    TRAY_OP_MULTIPLY = 6,
    TRAY_OP_SCREEN = 7,
    TRAY_OP_OVERLAY = 8,
    TRAY_OP_DARKEN = 9,
    TRAY_OP_LIGHTEN = 10,
    TRAY_OP_DIFFERENCE = 11,
    TRAY_OP_HARD_LIGHT = 12,
    TRAY_OP_SOFT_LIGHT = 13,
    TRAY_OP_COLOR_DODGE = 14,
    TRAY_OP_COLOR_BURN = 15,
    TRAY_OP_CLEAR = 16,
    TRAY_OP_SRC = 17,
    TRAY_OP_DST = 18,
    TRAY_OP_DST_OVER = 19,
    TRAY_OP_DST_IN = 20,
    TRAY_OP_DST_OUT = 21,
    TRAY_OP_DST_ATOP = 22,
    TRAY_OP_MINUS_DST = 23,
    TRAY_OP_MINUS_SRC = 24,
    TRAY_OP_DIVIDE_DST = 25,
    TRAY_OP_DIVIDE_SRC = 26,
    TRAY_OP_MODULUS_ADD = 27,
    TRAY_OP_MODULUS_SUBTRACT = 28,
    TRAY_OP_EXCLUSION = 29,
    TRAY_OP_LINEAR_BURN = 30,
    TRAY_OP_LINEAR_DODGE = 31,
    TRAY_OP_LINEAR_LIGHT = 32,
    TRAY_OP_VIVID_LIGHT = 33,
    TRAY_OP_PIN_LIGHT = 34,
    TRAY_OP_HARD_MIX = 35,
    TRAY_OP_PEGTOP_LIGHT = 36,
    TRAY_OP_SOFT_BURN = 37,
    TRAY_OP_SOFT_DODGE = 38,
    TRAY_OP_STAMP = 39,
    TRAY_OP_FREEZE = 40,
    TRAY_OP_REFLECT = 41,
    TRAY_OP_NEGATE = 42,
    TRAY_OP_INTERPOLATE = 43,   /* refused: 4 CURVE */
    TRAY_OP_MATHEMATICS = 44,
    TRAY_OP_BLEND = 45,
    TRAY_OP_DISSOLVE = 46,
    TRAY_OP_RMSE = 47,
    TRAY_OP_DARKEN_INTENSITY = 48,
    TRAY_OP_LIGHTEN_INTENSITY = 49,
    TRAY_OP_HUE = 50,
    TRAY_OP_SATURATE = 51,
    TRAY_OP_LUMINIZE = 52,
    TRAY_OP_COLORIZE = 53,
    TRAY_OP_COPY_RED = 54,
    TRAY_OP_COPY_GREEN = 55,
    TRAY_OP_COPY_BLUE = 56,
    TRAY_OP_COPY_ALPHA = 57,
    TRAY_OP_COPY_CYAN = 58,
    TRAY_OP_COPY_MAGENTA = 59,
    TRAY_OP_COPY_YELLOW = 60,
    TRAY_OP_COPY_BLACK = 61,
    TRAY_OP_CHANGE_MASK = 62,
    TRAY_OP_BUMPMAP = 63,
    TRAY_OP_THRESHOLD = 64,
    TRAY_OP_DISPLACE = 65,
    TRAY_OP_DISTORT = 66,
    TRAY_OP_BLUR = 67,          /* refused: 4 CURVE */
    TRAY_OP_INTENSITY = 68,
    TRAY_OP_MODULATE = 69
};

/* Where the source lies before the offset: its own corner, side or middle on the destination's. A middle that falls
 * between two pixels is taken towards zero: (destination - source) / 2 as C divides. 0 is the upper left corner too. */
enum tray_gravity {
    TRAY_NO_GRAVITY = 0,
    TRAY_NORTH_WEST = 1,
    TRAY_NORTH = 2,
    TRAY_NORTH_EAST = 3,
    TRAY_WEST = 4,
    TRAY_CENTRE = 5,
    TRAY_EAST = 6,
    TRAY_SOUTH_WEST = 7,
    TRAY_SOUTH = 8,
    TRAY_SOUTH_EAST = 9
};

enum tray_flag {
    TRAY_TILE = 1,              /* the source repeats in all directions; one without pixels does not */
    TRAY_OVERLAY = 2,           /* off the source the operator runs on (0, 0, 0, 0); without it the pixel is kept */
    TRAY_RED = 4,               /* a channel whose flag is off keeps the destination's bits */
    TRAY_GREEN = 8,
    TRAY_BLUE = 16,
    TRAY_ALPHA = 32
};

/* The operator that a name spells: 0 and its number, 0 to 69, in *operator_number; or 3, and *operator_number as it was.
 * '-', '_' and space are dropped, A to Z lowered; the rest must be one of the 70 names or 13 aliases. `name` has no ending 0.
 * Interpolate (43) and Blur (67) are known names, of operators that a composition refuses as 4. */
uint64_t tray_from_name(const uint8_t *name, size_t name_length, uint64_t *operator_number);

/* One layer on one destination: 0 and the whole picture, four channels, in `out`; or a number, 1 to 9 or 13, and `out` as
 * it was. The table has 14 numbers, args 4 words, out 4 x width x height. A destination or source of one channel counts
 * as that gray thrice, of one or three channels as opaque. Every sample in the layer's window is that of the Rust's
 * compose_float, and every other is the destination's. */
uint64_t tray_compose(
    int64_t width, int64_t height, int64_t channels, const uint32_t *dst, size_t dst_length,
    const int64_t *table, size_t table_length, const uint32_t *args, size_t args_length,
    const uint32_t *samples, size_t samples_length,
    uint32_t *out, size_t out_length);

/* A picture of four channels narrowed to `wanted` of them, as words or as bytes 0 to 255: 0 and the whole output; or 11,
 * and the output as it was. One channel is the pixel's gray, (0.212656 red + 0.715158 green) + 0.072186 blue, each
 * operation rounded once to a float: the intensity that the operators use, bit for bit. Alpha does not count in it, and a NaN
 * is stored as 7FC00000. Three leave out alpha; 3 and 4 channels are copied with all their bits. A byte is the sample, clamped
 * to 0 to 1, times 255, rounded, halves up; of a NaN it is 0. */
uint64_t tray_narrow(int64_t wanted, const uint32_t *input, size_t input_length, uint32_t *out, size_t out_length);
uint64_t tray_narrow_bytes(int64_t wanted, const uint32_t *input, size_t input_length, uint8_t *out, size_t out_length);

/* A call of a job: goes on from the mark with up to `allowance` stores (UINT64_MAX: to the end).
 *
 * The mark is two numbers: mark[0] is the position, which counts the pixels written over all phases, and mark[1] the number
 * of the job that the mark belongs to. A call stores mark[0] and never mark[1], which is the host's to write. Where mark[1]
 * is not the call's job_number, the call is refused as 14 and writes nothing, at a fresh position and at a finished one, on
 * a destination without pixels, with an allowance of 0. 0 is a job number like any other.
 *
 * With N = width x height, phase 0 stores the destination, widened to four channels, in work0; phase k, 1 to layers,
 * composites layer k - 1 on work (k - 1) mod 2 into work k mod 2. A pixel is five stores: red, green, blue, alpha, then
 * the position, raised by one. So a call gains floor(allowance / 5) pixels, or all left if fewer.
 *
 * Answers: a number, 0 to 10, 13 or 14; *layer, the layer at fault counted from 0, and 0 where none is concerned; *stores,
 * the stores made; *finished, 1 when the position is (layers + 1) x N and the picture stands in work (layers mod 2), else 0.
 * A refused call answers 0 stores, not finished, and leaves work0, work1 and mark as they were.
 *
 * Beginning a job. Each job has a number of its own: 64 random bits, or a number that was never used before. Before the
 * job's first call the host writes position 0, and then the number, in this order. Since a compiler may exchange plain
 * stores, it writes through a volatile pointer, or the number by a release store:
 *
 *    volatile uint64_t *begin = mark;
 *    begin[0] = 0;
 *    begin[1] = job_number;
 *
 * A host that is killed between the two leaves position 0 under the number that stood there before: this job's calls refuse
 * it as 14, and the job of that number would start anew. In the other order an earlier job's position could stand under this
 * job's number, and the picture would be a mixture. work0 and work1 begin with any content.
 *
 * Taking a job up. A worker may be stopped anywhere in a call, SIGKILL included: what it leaves is what a call allowed fewer
 * stores leaves, and the next call with the same inputs and the same job number goes on from there. The finished picture has
 * the same bits however often this happens. For this
 *  - the host sees that a stopped worker is gone (waited for, not only signalled) before the next call starts: a job's
 *    calls never overlap;
 *  - all of a job's calls get the same inputs and the same job number. The number tells one job's mark from another's, and
 *    nothing else: a call does not see whether the inputs and the work buffers are those that the job began with;
 *  - work0, work1 and mark are lent to no other job, and written by nothing else, from the first call to the last;
 *  - where the three live in shared memory or a mapped file, a killed process loses nothing. A machine that loses its
 *    power may have stored the position and not its pixels: a host that must outlive this stores the picture at the end of
 *    each phase, then the position, apart, and only then begins the next, and takes the job up there: it writes that
 *    position into mark[0], and leaves mark[1] as it is (host/README.md). */
uint64_t tray_job(
    int64_t width, int64_t height, int64_t channels, const uint32_t *dst, size_t dst_length,
    int64_t layers, const int64_t *table, size_t table_length, const uint32_t *args, size_t args_length,
    const uint32_t *samples, size_t samples_length,
    uint64_t job_number, uint64_t allowance,
    uint32_t *work0, size_t work0_length, uint32_t *work1, size_t work1_length, uint64_t *mark, size_t mark_length,
    uint64_t *layer, uint64_t *stores, uint64_t *finished);

/* Reads a card: a job as text, which people keep and edit. It has neither samples nor a job number: those of the
 * destination and of the sources, and a number for each job, a host has besides. One form a line, single spaces, each line
 * ended by byte 10, the last one too, and nothing else; first the destination, then the layers, the lowest first, at most
 * TRAY_MAX_LAYERS:
 *
 *    (tray EDITION WIDTH HEIGHT CHANNELS)
 *    (layer NAME (place GRAVITY RIGHT DOWN) (flags FLAGS) (source FIRST WIDTH HEIGHT CHANNELS) (args WORD ..))
 *
 *    (tray 1 2 1 3)
 *    (layer over (place 0 3 -2) (flags 62) (source 0 2 1 3) (args 3f000000))
 *
 *  - The EDITION is 1.
 *  - A NAME is what follows TRAY_OP_ in enum tray_operator, in small letters without '_' (over, softlight, ..), or an alias:
 *    srcover srcin srcout srcatop copy replace none minus divide add subtract average copyopacity
 *    letter for letter: what tray_from_name drops or lowers is out of form here.
 *  - A WORD is an argument's bits in eight digits 0 to 9 and a to f, a NaN's too. There are 0 to TRAY_MAX_ARGUMENTS of
 *    them, a space before each; (args) has none.
 *  - Any other number is decimal, of one to ten digits, the first not 0 unless it is the only one; if it is below 0, and only
 *    then, '-' stands before it.
 *
 * Lent are the text, without an ending 0, and, however many layers the card has, table and args for the most that a job may
 * have: TRAY_COLUMNS x TRAY_MAX_LAYERS numbers (224), TRAY_MAX_ARGUMENTS x TRAY_MAX_LAYERS words (64). Every call writes
 * the five answers.
 *
 *  - 0: *line is 0, *width, *height, *channels and *layers are the card's. Row k of the table and its arguments are as line
 *    k + 2 says, with the count of arguments in TRAY_COLUMN_COUNT, and with the window 0, 0, 2048, 2048, since a card has
 *    none; arguments that are not given are 0, and so is all past the last layer. A card of its first
 *    line alone has 0 layers, which tray_job refuses as 1.
 *  - 12: table and args are as they were, the answers 0 but for *line. That is 0 too if table_length or args_length is
 *    another, whatever the text; otherwise the first line, counted from 1, that is out of form or a layer too many, and 1
 *    if the text is empty.
 *
 * Whether a job takes the numbers, and the operators (interpolate and blur are in form), is not asked: tray_job does, and refuses them
 * as 1 to 8. It is lent the rows of the layers alone, TRAY_COLUMNS x *layers numbers and TRAY_MAX_ARGUMENTS x *layers words
 * (examples/card.c). */
uint64_t tray_read_card(
    const uint8_t *text, size_t text_length,
    int64_t *table, size_t table_length, uint32_t *args, size_t args_length,
    uint64_t *line, int64_t *width, int64_t *height, int64_t *channels, int64_t *layers);

#ifdef __cplusplus
}
#endif

#endif
