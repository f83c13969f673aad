/* What include/tray.h says in numbers is true of the library: each operator's number by its name, and each limit, at which
 * a call is accepted and beyond which it is refused under the number that stands beside it; what a window cuts; what a call
 * asks of the mark, and what it writes of it; and the card that it shows is read as it says, and one that is refused writes
 * nothing. */
#include "../include/tray.h"
#include <stdio.h>
#include <string.h>

/* {"OVER", TRAY_OP_OVER}, ..: made by tests/header from the header's own lines. The library drops '_' and lowers capitals. */
static const struct {
    const char *name;
    int64_t number;
} operators[] = {
#include OPERATORS
};

static int wrong;

static void expect(const char *what, uint64_t answer, uint64_t wanted) {
    if (answer != wanted) {
        printf("%s: the library answers %llu and not %llu\n", what, (unsigned long long)answer, (unsigned long long)wanted);
        wrong = 1;
    }
}

static int64_t table[TRAY_COLUMNS * (TRAY_MAX_LAYERS + 1)];
static uint32_t args[TRAY_MAX_ARGUMENTS * (TRAY_MAX_LAYERS + 1)];
static uint32_t picture[4 * (TRAY_MAX_SIDE + 1)], work[2][4 * (TRAY_MAX_SIDE + 1)];

/* A layer whose source has one row, and which may write everywhere. */
static void fill(int64_t *row, int64_t source) {
    memset(row, 0, TRAY_COLUMNS * sizeof *row);
    row[TRAY_COLUMN_WIDTH] = source;
    row[TRAY_COLUMN_HEIGHT] = 1;
    row[TRAY_COLUMN_CHANNELS] = 4;
    row[TRAY_COLUMN_WINDOW_WIDTH] = TRAY_MAX_SIDE;
    row[TRAY_COLUMN_WINDOW_HEIGHT] = TRAY_MAX_SIDE;
}

/* The first call of a job with one row of pixels and sources of one row. */
static uint64_t job(int64_t side, int64_t source, int64_t layers, int64_t column, int64_t number) {
    uint64_t mark[2] = {0, 5}, layer, stores, finished;
    for (int64_t k = 0; k < layers; k++) {
        fill(table + k * TRAY_COLUMNS, source);
        table[k * TRAY_COLUMNS + column] = number;
    }
    size_t words = 4 * (size_t)side;
    return tray_job(side, 1, 4, picture, words, layers, table, (size_t)layers * TRAY_COLUMNS, args,
        (size_t)layers * TRAY_MAX_ARGUMENTS, picture, 4 * (size_t)source, 5, 0, work[0], words, work[1], words, mark, 2, &layer,
        &stores, &finished);
}

static uint64_t one(int64_t column, int64_t number) { return job(1, 1, 1, column, number); }

/* One layer on four pixels, with a table of this length. The source is written everywhere, repeated, and is another word than
 * the destination in each channel. */
static uint32_t composed[16];

static uint64_t compose(const int64_t window[4], size_t numbers) {
    static const uint32_t source[4] = {1, 2, 3, 0x3f800000};
    uint32_t destination[16];
    for (uint32_t i = 0; i < 16; i++) destination[i] = 0x7fc00100 + i;
    fill(table, 1);
    table[TRAY_COLUMN_OPERATOR] = TRAY_OP_SRC;
    table[TRAY_COLUMN_FLAGS] = TRAY_TILE + TRAY_RED + TRAY_GREEN + TRAY_BLUE + TRAY_ALPHA;
    memcpy(table + TRAY_COLUMN_WINDOW_LEFT, window, 4 * sizeof *window);
    memset(composed, 0x55, sizeof composed);
    return tray_compose(2, 2, 4, destination, 16, table, numbers, args, TRAY_MAX_ARGUMENTS, source, 4, composed, 16);
}

/* Which of the four pixels are written, as a sum of 1, 2, 4 and 8. The others have the destination's bits, which are NaNs'. */
static uint64_t cut(int64_t left, int64_t top, int64_t width, int64_t height) {
    const int64_t window[4] = {left, top, width, height};
    uint64_t written = 0;
    expect("a window", compose(window, TRAY_COLUMNS), TRAY_DONE);
    for (uint32_t i = 0; i < 16; i++) {
        if (composed[i - i % 4] == 1) {
            written |= 1u << i / 4;
        } else {
            expect("a pixel off the window", composed[i], 0x7fc00100 + i);
        }
    }
    return written;
}

static void windows(void) {
    static const int64_t full[4] = {0, 0, TRAY_MAX_SIDE, TRAY_MAX_SIDE};
    static const int64_t columns[4] = {TRAY_COLUMN_WINDOW_LEFT, TRAY_COLUMN_WINDOW_TOP, TRAY_COLUMN_WINDOW_WIDTH, TRAY_COLUMN_WINDOW_HEIGHT};
    for (int k = 0; k < 4; k++) {
        expect("a window's largest number", one(columns[k], TRAY_MAX_SIDE), TRAY_DONE);
        expect("a window's least number", one(columns[k], 0), TRAY_DONE);
        expect("a window's number beyond", one(columns[k], TRAY_MAX_SIDE + 1), TRAY_WINDOW);
        expect("a window's number below", one(columns[k], -1), TRAY_WINDOW);
    }
    expect("the full window", cut(0, 0, TRAY_MAX_SIDE, TRAY_MAX_SIDE), 15);
    expect("the first column", cut(0, 0, 1, 2), 5);
    expect("the second row", cut(0, 1, 2, 1), 12);
    expect("the last pixel", cut(1, 1, 1, 1), 8);
    expect("a window past the destination", cut(1, 0, TRAY_MAX_SIDE, TRAY_MAX_SIDE), 10);
    expect("a window beside the destination", cut(2, 0, TRAY_MAX_SIDE, TRAY_MAX_SIDE), 0);
    expect("a window without width", cut(0, 0, 0, 2), 0);
    expect("a window without height", cut(0, 0, 2, 0), 0);
    expect("a number less in a row", compose(full, TRAY_COLUMNS - 1), TRAY_STACK);
    expect("a row without a window", compose(full, TRAY_COLUMN_WINDOW_LEFT), TRAY_STACK);
    for (int i = 0; i < 16; i++) expect("what a refused call leaves", composed[i], 0x55555555);
}

/* A call of a job of one layer on three pixels, with a mark of which `length` numbers are lent; the number behind it is not. */
static uint64_t mark[3], layer, stores, finished;

static uint64_t go_on(uint64_t position, uint64_t number, size_t length, uint64_t job_number, uint64_t allowance) {
    fill(table, 1);
    memset(work, 0x55, sizeof work);
    mark[0] = position;
    mark[1] = number;
    mark[2] = 99;
    layer = stores = finished = 99;
    return tray_job(3, 1, 4, picture, 12, 1, table, TRAY_COLUMNS, args, TRAY_MAX_ARGUMENTS, picture, 4, job_number, allowance, work[0],
        12, work[1], 12, mark, length, &layer, &stores, &finished);
}

/* Such a call, which is refused and writes nothing but its answers. */
static void refuses_mark(const char *what, uint64_t position, uint64_t number, size_t length, uint64_t job_number, uint64_t wanted) {
    for (uint64_t allowance = 0; allowance <= 10; allowance += 5) {
        expect(what, go_on(position, number, length, job_number, allowance), wanted);
        expect(what, layer, 0);
        expect(what, stores, 0);
        expect(what, finished, 0);
        expect(what, mark[0], position);
        expect(what, mark[1], number);
        expect(what, mark[2], 99);
        for (int i = 0; i < 12; i++) {
            expect(what, work[0][i], 0x55555555);
            expect(what, work[1][i], 0x55555555);
        }
    }
}

static void marks(void) {
    static const uint64_t numbers[] = {0, 1, 7, UINT64_C(1) << 32, UINT64_MAX};
    for (int k = 0; k < 5; k++) {
        uint64_t number = numbers[k];
        expect("the mark's own number", go_on(2, number, 2, number, 10), TRAY_DONE);
        expect("its stores", stores, 10);
        expect("its position", mark[0], 4);
        expect("its number afterwards", mark[1], number);
        expect("the number behind it", mark[2], 99);
        expect("a finished mark", go_on(6, number, 2, number, 0), TRAY_DONE);
        expect("its answer", finished, 1);
        for (uint64_t position = 0; position <= 6; position++) {
            refuses_mark("the number after the mark's", position, number, 2, number + 1, TRAY_JOB_NUMBER);
            refuses_mark("a number with another high half", position, number, 2, number ^ UINT64_C(1) << 63, TRAY_JOB_NUMBER);
        }
        refuses_mark("a mark of one number", 0, number, 1, number, TRAY_MARK);
        refuses_mark("a mark of three numbers", 0, number, 3, number, TRAY_MARK);
        refuses_mark("a mark of no numbers", 0, number, 0, number, TRAY_MARK);
        refuses_mark("a position beyond the end", 7, number, 2, number, TRAY_MARK);
        refuses_mark("a position beyond the end and another number", 7, number, 2, number + 1, TRAY_MARK);
    }
}

#define NUMBERS (TRAY_COLUMNS * TRAY_MAX_LAYERS)
#define WORDS (TRAY_MAX_ARGUMENTS * TRAY_MAX_LAYERS)
#define TRAY_LINE "(tray 1 2 1 3)\n"
#define LAYER_LINE(flags, words) "(layer over (place 0 3 -2) (flags " flags ") (source 0 2 1 3) (args" words "))\n"

/* The header's own card, made by tests/header from its lines. */
static const char shown[] =
#include CARD
    ;

/* What a card is read into, with an element behind each list that is not lent. */
static int64_t filled[NUMBERS + 1];
static uint32_t given[WORDS + 1];
static uint64_t line;
static int64_t numbers[4];

/* What the call leaves as it was is all bytes 0x55. */
static uint64_t read_card(const char *text, size_t table_length, size_t args_length) {
    memset(filled, 0x55, sizeof filled);
    memset(given, 0x55, sizeof given);
    memset(numbers, 0x55, sizeof numbers);
    line = 99;
    return tray_read_card((const uint8_t *)text, strlen(text), filled, table_length, given, args_length, &line, &numbers[0],
        &numbers[1], &numbers[2], &numbers[3]);
}

static void refuses(const char *what, const char *text, size_t table_length, size_t args_length, uint64_t at) {
    expect(what, read_card(text, table_length, args_length), TRAY_CARD);
    expect(what, line, at);
    for (size_t i = 0; i < 4; i++) expect(what, (uint64_t)numbers[i], 0);
    for (size_t i = 0; i < NUMBERS + 1; i++) expect(what, (uint64_t)filled[i], 0x5555555555555555);
    for (size_t i = 0; i < WORDS + 1; i++) expect(what, given[i], 0x55555555);
}

static void reads(const char *what, const char *text, uint64_t layers) {
    expect(what, read_card(text, NUMBERS, WORDS), TRAY_DONE);
    expect(what, line, 0);
    expect(what, (uint64_t)numbers[3], layers);
    for (size_t i = TRAY_COLUMNS * layers; i < NUMBERS; i++) expect(what, (uint64_t)filled[i], 0);
    for (size_t i = TRAY_MAX_ARGUMENTS * layers; i < WORDS; i++) expect(what, given[i], 0);
    expect(what, (uint64_t)filled[NUMBERS], 0x5555555555555555);
    expect(what, given[WORDS], 0x55555555);
}

/* An operator's name as a card spells it, and as the enum does, which is out of form. */
static void names(const char *shouted, int64_t number) {
    static const char after[] = " (place 0 3 -2) (flags 62) (source 0 2 1 3) (args 3f000000))\n";
    char name[32], text[256];
    size_t length = 0;
    for (const char *c = shouted; *c; c++) {
        if (*c != '_') name[length++] = (char)(*c - 'A' + 'a');
    }
    name[length] = 0;
    snprintf(text, sizeof text, TRAY_LINE "(layer %s%s", name, after);
    reads(name, text, 1);
    expect(name, (uint64_t)filled[TRAY_COLUMN_OPERATOR], (uint64_t)number);
    snprintf(text, sizeof text, TRAY_LINE "(layer %s%s", shouted, after);
    refuses(shouted, text, NUMBERS, WORDS, 2);
}

static void cards(void) {
    static const int64_t row[TRAY_COLUMNS] = {TRAY_OP_OVER, TRAY_NO_GRAVITY, 3, -2, 62, 0, 2, 1, 3, 1, 0, 0, TRAY_MAX_SIDE, TRAY_MAX_SIDE};
    static const uint32_t half[TRAY_MAX_ARGUMENTS] = {0x3f000000};
    static char text[4096] = TRAY_LINE;
    reads("the card that is shown", shown, 1);
    expect("its width", (uint64_t)numbers[0], 2);
    expect("its height", (uint64_t)numbers[1], 1);
    expect("its channels", (uint64_t)numbers[2], 3);
    expect("its row", (uint64_t)memcmp(filled, row, sizeof row), 0);
    expect("its arguments", (uint64_t)memcmp(given, half, sizeof half), 0);
    reads("a card without layers", TRAY_LINE, 0);
    reads("ten digits", TRAY_LINE LAYER_LINE("-9999999999", ""), 1);
    refuses("eleven digits", TRAY_LINE LAYER_LINE("10000000000", ""), NUMBERS, WORDS, 2);
    refuses("a leading 0", TRAY_LINE LAYER_LINE("062", ""), NUMBERS, WORDS, 2);
    refuses("'-' before 0", TRAY_LINE LAYER_LINE("-0", ""), NUMBERS, WORDS, 2);
    refuses("a capital digit", TRAY_LINE LAYER_LINE("62", " 3F000000"), NUMBERS, WORDS, 2);
    refuses("seven digits", TRAY_LINE LAYER_LINE("62", " 3f00000"), NUMBERS, WORDS, 2);
    reads("all arguments in a card", TRAY_LINE LAYER_LINE("0", " 00000000 00000000 00000000 ffffffff"), 1);
    refuses("an argument more in a card", TRAY_LINE LAYER_LINE("0", " 00000000 00000000 00000000 00000000 00000000"), NUMBERS,
        WORDS, 2);
    refuses("'-' in a name", TRAY_LINE "(layer soft-light (place 0 0 0) (flags 0) (source 0 0 0 1) (args))\n", NUMBERS, WORDS, 2);
    refuses("an empty text", "", NUMBERS, WORDS, 1);
    refuses("another edition", "(tray 2 2 1 3)\n", NUMBERS, WORDS, 1);
    refuses("no end of the first line", "(tray 1 2 1 3)", NUMBERS, WORDS, 1);
    refuses("no end of the last line", TRAY_LINE "(layer over (place 0 0 0) (flags 0) (source 0 0 0 1) (args))", NUMBERS, WORDS, 2);
    refuses("a number less in the table", shown, NUMBERS - 1, WORDS, 0);
    refuses("a number more in the table", shown, NUMBERS + 1, WORDS, 0);
    refuses("an argument's word less", shown, NUMBERS, WORDS - 1, 0);
    refuses("an argument's word more, and an empty text", "", NUMBERS, WORDS + 1, 0);
    for (int k = 0; k < TRAY_MAX_LAYERS; k++) strcat(text, LAYER_LINE("62", " 3f000000"));
    reads("the most layers in a card", text, TRAY_MAX_LAYERS);
    strcat(text, LAYER_LINE("62", " 3f000000"));
    refuses("a layer more in a card", text, NUMBERS, WORDS, TRAY_MAX_LAYERS + 2);
}

int main(void) {
    const int count = sizeof operators / sizeof *operators;
    expect("the count of operators", (uint64_t)count, TRAY_OPERATORS);
    for (int k = 0; k < count; k++) {
        const char *name = operators[k].name;
        uint64_t number = 99;
        expect(name, tray_from_name((const uint8_t *)name, strlen(name), &number), TRAY_DONE);
        expect(name, number, (uint64_t)operators[k].number);
        int refused = operators[k].number == TRAY_OP_INTERPOLATE || operators[k].number == TRAY_OP_BLUR;
        expect(name, one(TRAY_COLUMN_OPERATOR, operators[k].number), refused ? TRAY_CURVE : TRAY_DONE);
        names(name, operators[k].number);
    }
    expect("an operator beyond", one(TRAY_COLUMN_OPERATOR, TRAY_OPERATORS), TRAY_OPERATOR);
    for (int sign = -1; sign <= 1; sign += 2) {
        expect("the largest offset", one(TRAY_COLUMN_RIGHT, sign * TRAY_MAX_OFFSET), TRAY_DONE);
        expect("an offset beyond", one(TRAY_COLUMN_DOWN, sign * (TRAY_MAX_OFFSET + 1)), TRAY_PLACING);
    }
    expect("all arguments", one(TRAY_COLUMN_COUNT, TRAY_MAX_ARGUMENTS), TRAY_DONE);
    expect("an argument more", one(TRAY_COLUMN_COUNT, TRAY_MAX_ARGUMENTS + 1), TRAY_ARGUMENTS);
    expect("the last gravity", one(TRAY_COLUMN_GRAVITY, TRAY_SOUTH_EAST), TRAY_DONE);
    expect("a gravity beyond", one(TRAY_COLUMN_GRAVITY, TRAY_SOUTH_EAST + 1), TRAY_PLACING);
    const int flags = TRAY_TILE + TRAY_OVERLAY + TRAY_RED + TRAY_GREEN + TRAY_BLUE + TRAY_ALPHA;
    expect("all flags", one(TRAY_COLUMN_FLAGS, flags), TRAY_DONE);
    expect("a flag more", one(TRAY_COLUMN_FLAGS, flags + 1), TRAY_FLAGS);
    expect("the longest sides", job(TRAY_MAX_SIDE, TRAY_MAX_SIDE, 1, 0, 0), TRAY_DONE);
    expect("a longer destination", job(TRAY_MAX_SIDE + 1, 1, 1, 0, 0), TRAY_TRAY);
    expect("a longer source", job(1, TRAY_MAX_SIDE + 1, 1, 0, 0), TRAY_SOURCE);
    expect("the most layers", job(1, 1, TRAY_MAX_LAYERS, 0, 0), TRAY_DONE);
    expect("a layer more", job(1, 1, TRAY_MAX_LAYERS + 1, 0, 0), TRAY_STACK);
    windows();
    marks();
    cards();
    return wrong;
}
