#include "job.h"

#include <stdio.h>
#include <stdlib.h>
#include <string.h>
#include <sys/mman.h>
#include <unistd.h>

// The call that is tested: the library's own, or a wrong one that must be found out.
#ifdef WRONG
uint64_t wrong_job(
    int64_t, int64_t, int64_t, const uint32_t *, size_t, int64_t, const int64_t *, size_t, const uint32_t *, size_t,
    const uint32_t *, size_t, uint64_t, uint64_t, uint32_t *, size_t, uint32_t *, size_t, uint64_t *, size_t, uint64_t *,
    uint64_t *, uint64_t *);
#define TESTED wrong_job
#else
#define TESTED tray_job
#endif

enum { ONE = 0x3f800000, INTERPOLATE = 43, BLUR = 67, OPERATORS = 70 };

uint64_t random_next(uint64_t *seed) {
    *seed = *seed * 6364136223846793005u + 1442695040888963407u;
    return *seed >> 33;
}

static void *room(size_t bytes) {
    void *start = calloc(bytes + 1, 1);
    if (!start) abort();
    return start;
}

static void fill(uint32_t *words, size_t length, uint64_t *seed) {
    for (size_t i = 0; i < length; i++) {
        float value = (float)(random_next(seed) % 1021) / 1009.0f;
        memcpy(words + i, &value, 4);
    }
}

// Some of a destination's words are NaNs with bits of their own, which a pixel that is kept must keep.
static void nans(uint32_t *words, size_t length, uint64_t *seed) {
    for (size_t i = random_next(seed) % 32; i < length; i += 1 + random_next(seed) % 64) {
        uint32_t sign = random_next(seed) % 2;
        words[i] = sign << 31 | (0x7f800001 + random_next(seed) % 0x7fffff);
    }
}

int operator_next(int operator) {
    operator = (operator + 1) % OPERATORS;
    return operator == INTERPOLATE || operator == BLUR ? operator_next(operator) : operator;
}

static void widen(const Job *job, uint32_t *out) {
    for (uint64_t j = 0; j < job->pixels; j++)
        for (int c = 0; c < 4; c++) {
            const uint32_t *pixel = job->dst + j * job->channels;
            out[4 * j + c] = c == 3 && job->channels < 4 ? ONE : pixel[job->channels == 1 ? 0 : c];
        }
}

int in_window(const int64_t *row, int64_t x, int64_t y) {
    int64_t left = row[TRAY_COLUMN_WINDOW_LEFT], top = row[TRAY_COLUMN_WINDOW_TOP];
    return left <= x && x < left + row[TRAY_COLUMN_WINDOW_WIDTH] && top <= y && y < top + row[TRAY_COLUMN_WINDOW_HEIGHT];
}

int off_window(const Job *job, uint64_t mark) {
    uint64_t k = mark / job->pixels, j = mark % job->pixels;
    return 0 < k && k <= (uint64_t)job->layers && !in_window(job->table + TRAY_COLUMNS * (k - 1), j % job->width, j / job->width);
}

typedef struct {
    int64_t left, top, width, height;
} Window;

// The window of a letter.
static Window window_of(const Job *job, char letter, uint64_t *seed) {
    static const char letters[] = "ftrp1swhbu";
    const int64_t w = job->width, h = job->height, most = TRAY_MAX_SIDE;
    const int64_t x = random_next(seed) % w, y = random_next(seed) % h;
    switch (letter) {
    case 'f': return (Window){0, 0, most, most};
    case 't': return (Window){0, 0, w, h};
    case 'r': return (Window){1, 1, w - 2, h - 2};
    case 'p': return (Window){1 + x % (w - 1), y, most, most};
    case '1': return (Window){x, y, 1, 1};
    case 's': return (Window){x / 2, y / 2, w / 2 + random_next(seed) % w, h / 2 + random_next(seed) % h};
    case 'w': return (Window){x, y, 0, most};
    case 'h': return (Window){x, y, most, 0};
    case 'b': return (Window){w, 0, most, most};
    case 'u': return (Window){0, h, most, most};
    case 'a': return window_of(job, letters[random_next(seed) % (sizeof letters - 1)], seed);
    }
    abort();
}

// The row of layer k: every third layer is smaller than the destination, every fourth tiled, every fifth runs off its
// source too.
static void fill_row(Job *job, int k, int operator, char letter, uint64_t *seed) {
    int64_t small = k % 3 == 2, flags = 60 | (k % 4 == 3) | (k % 5 == 4) << 1;
    if (k % 7 == 6) flags &= ~(int64_t)TRAY_GREEN;
    int64_t width = small ? job->width / 2 : job->width, height = small ? job->height / 2 : job->height;
    Window window = window_of(job, letter, seed);
    int64_t row[TRAY_COLUMNS] = {
        operator, random_next(seed) % 10, (int64_t)(random_next(seed) % 5) - 2, (int64_t)(random_next(seed) % 5) - 2,
        flags, 0, width, height, (int64_t[]){4, 3, 1}[k % 3], k % 5,
        window.left, window.top, window.width, window.height};
    memcpy(job->table + TRAY_COLUMNS * k, row, sizeof row);
}

// What work buffer k mod 2 holds before phase k.
static const uint32_t *older(const Job *job, uint64_t k) {
    return k < 2 ? job->before + 4 * job->pixels * k : job->picture[k - 2];
}

static void single(const Job *job, int k, const int64_t *row, uint32_t *out) {
    uint64_t fault = tray_compose(
        job->width, job->height, 4, job->picture[k], 4 * job->pixels, row, TRAY_COLUMNS, job->args + 4 * k, 4, job->samples,
        job->samples_length, out, 4 * job->pixels);
    if (fault) {
        printf("layer %d is refused as %llu\n", k, (unsigned long long)fault);
        exit(2);
    }
}

// The pixels off the window of layer k become those of the picture beneath.
static void put_back(Job *job, int k) {
    const int64_t *row = job->table + TRAY_COLUMNS * k, flags = row[TRAY_COLUMN_FLAGS], operator = row[TRAY_COLUMN_OPERATOR];
    const uint32_t *beneath = job->picture[k], *held = older(job, k + 1);
    uint32_t *picture = job->picture[k + 1];
    for (uint64_t j = 0; j < job->pixels; j++) {
        if (!off_window(job, job->pixels * (k + 1) + j)) continue;
        int cut = memcmp(picture + 4 * j, beneath + 4 * j, 16) != 0;
        job->off[CUT] += cut;
        job->off[CUT_TILED] += cut && flags & TRAY_TILE;
        job->off[CUT_OVERLAID] += cut && flags & TRAY_OVERLAY;
        job->off[CUT_MAPPED] += cut && (operator == TRAY_OP_DISPLACE || operator == TRAY_OP_DISTORT);
        job->off[SHOWN] += memcmp(held + 4 * j, beneath + 4 * j, 16) != 0;
        memcpy(picture + 4 * j, beneath + 4 * j, 16);
    }
}

// The picture of layer k. The library's single composition must have the same of the layer's own window.
static void compose(Job *job, int k) {
    const int64_t *row = job->table + TRAY_COLUMNS * k;
    int64_t full[TRAY_COLUMNS];
    memcpy(full, row, sizeof full);
    memcpy(full + TRAY_COLUMN_WINDOW_LEFT, (int64_t[]){0, 0, TRAY_MAX_SIDE, TRAY_MAX_SIDE}, 4 * sizeof *full);
    single(job, k, full, job->picture[k + 1]);
    put_back(job, k);
    uint32_t *own = room(16 * job->pixels);
    single(job, k, row, own);
    if (memcmp(own, job->picture[k + 1], 16 * job->pixels)) {
        printf("layer %d: the single composition has another picture of its window\n", k);
        exit(2);
    }
    free(own);
}

Job job_new(int64_t width, int64_t height, int64_t channels, int64_t layers, int first, const char *windows, uint64_t seed) {
    Job job = {.width = width, .height = height, .channels = channels, .layers = layers};
    job.pixels = width * height;
    job.dst_length = job.pixels * channels;
    job.samples_length = job.pixels * 4;
    job.work_length[0] = job.work_length[1] = 4 * job.pixels;
    job.mark_length = 2;
    job.dst = room(4 * job.dst_length);
    job.samples = room(4 * job.samples_length);
    job.before = room(32 * job.pixels);
    fill(job.dst, job.dst_length, &seed);
    nans(job.dst, job.dst_length, &seed);
    fill(job.samples, job.samples_length, &seed);
    fill(job.args, 4 * layers, &seed);
    memset(job.before, 0xee, 32 * job.pixels);
    int operator = first;
    for (int k = 0; k < layers; k++) {
        fill_row(&job, k, operator, windows[k % strlen(windows)], &seed);
        operator = operator_next(operator);
    }
    for (int i = 0; i < 3; i++) job.number = job.number << 31 ^ random_next(&seed);
    for (int k = 0; k <= layers; k++) job.picture[k] = room(16 * job.pixels);
    widen(&job, job.picture[0]);
    for (int k = 0; k < layers; k++) compose(&job, k);
    return job;
}

void job_free(Job *job) {
    for (int k = 0; k <= job->layers; k++) free(job->picture[k]);
    free(job->dst), free(job->samples), free(job->before);
}

static size_t page(void) { return sysconf(_SC_PAGESIZE); }

// The border of pages between the mark's numbers. The page behind it is the job number's, the work buffers follow.
static char *border(Memory memory) { return (char *)(memory.mark + 1); }

size_t memory_bytes(const Job *job) { return 2 * page() + 32 * job->pixels; }

Memory memory_at(const Job *job, void *start) {
    uint32_t *words = (uint32_t *)((char *)start + 2 * page());
    uint64_t *number = (uint64_t *)((char *)start + page());
    return (Memory){.mark = number - 1, .work = {words, words + 4 * job->pixels}};
}

void memory_protect(const Job *job, Memory memory, int refused) {
    const int written = refused ? PROT_READ : PROT_READ | PROT_WRITE;
    int failed = mprotect(border(memory) - page(), page(), job->mark_length > 0 ? written : PROT_NONE);
    failed |= mprotect(border(memory), page(), job->mark_length > 1 ? PROT_READ : PROT_NONE);
    failed |= mprotect(border(memory) + page(), 32 * job->pixels, written);
    if (failed) abort();
}

const char *memory_forbidden(const Job *job, Memory memory, const void *address) {
    const char *at = address, *start = border(memory) - page();
    if (at < start || at >= start + memory_bytes(job)) return 0;
    const size_t place = (at - start) / page();
    if (place < 2 && place >= job->mark_length) return "the worker goes past the mark's length";
    return place == 1 ? "the worker stores the job number" : "the worker stores in a call that is to be refused";
}

// As a host begins a job: the position first, then the number. A compiler may exchange other stores than volatile ones.
void memory_begin(const Job *job, Memory memory) {
    volatile uint64_t *mark = memory.mark;
    memcpy(memory.work[0], job->before, 32 * job->pixels);
    mark[0] = 0;
    mark[1] = job->number;
}

Answer job_call(const Job *job, Memory memory, uint64_t allowance) {
    Answer answer;
    memset(&answer, 0xee, sizeof answer);  // an answer that is not written shows
    answer.fault = TESTED(
        job->width, job->height, job->channels, job->dst, job->dst_length, job->layers, job->table,
        TRAY_COLUMNS * job->layers, job->args, 4 * job->layers, job->samples, job->samples_length, job->number, allowance,
        memory.work[0], job->work_length[0], memory.work[1], job->work_length[1], memory.mark, job->mark_length,
        &answer.layer, &answer.stores, &answer.finished);
    return answer;
}

uint64_t job_end(const Job *job) { return (job->layers + 1) * job->pixels; }

void memory_store(const Job *job, Memory memory, uint64_t entry) {
    uint64_t mark = entry / 5, channel = entry % 5, k = mark / job->pixels, j = mark % job->pixels;
    if (channel == 4) memory.mark[0] = mark + 1;
    else memory.work[k % 2][4 * j + channel] = job->picture[k][4 * j + channel];
}

void memory_after(const Job *job, Memory memory, uint64_t made) {
    memory_begin(job, memory);
    for (uint64_t entry = 0; entry < made; entry++) memory_store(job, memory, entry);
}

int memory_same(const Job *job, Memory a, Memory b) {
    return a.mark[0] == b.mark[0] && a.mark[1] == b.mark[1] && !memcmp(a.work[0], b.work[0], 32 * job->pixels);
}

// The position says how many pixels are whole. Of the next one some first channels may be stored; all else must be as the
// phases before left it, and the job number the job's.
State memory_state(const Job *job, Memory memory) {
    uint64_t mark = memory.mark[0], n = job->pixels, end = job_end(job);
    if (mark > end || memory.mark[1] != job->number) return (State){0, 0};
    if (mark == end) return (State){finished_right(job, memory), 5 * end};
    uint64_t k = mark / n, j = mark % n, size = 16 * n, part = 0;
    const uint32_t *writing = memory.work[k % 2], *other = memory.work[(k + 1) % 2];
    int prefix = !memcmp(writing, job->picture[k], 16 * j) && !memcmp(other, k ? job->picture[k - 1] : older(job, 1), size);
    for (part = 4; part > 0 && memcmp(writing + 4 * j, job->picture[k] + 4 * j, 4 * part); part--) {}
    prefix = prefix && !memcmp(writing + 4 * j + part, older(job, k) + 4 * j + part, size - 16 * j - 4 * part);
    return (State){prefix, 5 * mark + part};
}

int finished_right(const Job *job, Memory memory) {
    uint64_t last = job->layers;
    return memory.mark[0] == job_end(job) && memory.mark[1] == job->number
        && !memcmp(memory.work[last % 2], job->picture[last], 16 * job->pixels)
        && !memcmp(memory.work[(last + 1) % 2], job->picture[last - 1], 16 * job->pixels);
}
