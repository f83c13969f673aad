// Workers that break the order of stores or the rules of the job number, each found out by the tests of the cut. WRONG in the
// environment says which worker it is. 0 breaks neither, in a call that makes a whole job, and passes: what is said of the
// others is not said of how they are made.
//
// The order of stores: all but the fourth are found out by nothing that only looks at a call's end. 1 raises the mark before
// alpha, 2 stores two pixels before their marks, 3 writes a word and puts it right afterwards. Two are wrong off a layer's
// window alone: 4 raises the mark there and stores nothing, as if the work buffer held the picture beneath, and 5 stores the
// next pixel before it raises the mark, as a copied run would.
//
// The job number: 6 stores it as it is with each position, both in one store of 16 bytes, and 7 in a store of its own; no
// comparison of memory shows these. 8 clears it and puts it back; it makes the number's page writable first, so that it is
// left to the comparison at each instruction. 9 stores the call's at a fresh mark of another job instead of refusing. 10 does
// not ask for it, 11 asks only where it has a store to make, and 12 before it has seen that the mark has two numbers.
#include "job.h"

#include <stdlib.h>
#include <string.h>
#include <sys/mman.h>
#include <unistd.h>

static int wrong;

__attribute__((constructor)) static void choose(void) {
    const char *number = getenv("WRONG");
    wrong = number ? atoi(number) : 0;
}

static void raise_mark(volatile uint64_t *mark, uint64_t position) {
    typedef uint64_t Both __attribute__((vector_size(16), aligned(8), may_alias));
    const uint64_t number = mark[1];
    if (wrong == 6) *(volatile Both *)mark = (Both){position, number};
    else mark[0] = position;
    if (wrong == 7) mark[1] = number;
    if (wrong != 8 || mprotect((void *)(mark + 1), 8, PROT_READ | PROT_WRITE)) return;
    mark[1] = 0;
    mark[1] = number;
}

// Whether a worker goes on where it had to refuse the job number.
static int goes_on(volatile uint64_t *mark, uint64_t job_number, uint64_t allowance, uint64_t end) {
    if (wrong == 9 && *mark == 0) mark[1] = job_number;
    return (wrong == 9 && *mark == 0) || wrong == 10 || (wrong == 11 && (*mark == end || allowance == 0));
}

uint64_t wrong_job(
    int64_t width, int64_t height, int64_t channels, const uint32_t *dst, size_t dst_length, int64_t layers,
    const int64_t *table, size_t table_length, const uint32_t *args, size_t args_length, const uint32_t *samples,
    size_t samples_length, uint64_t job_number, uint64_t allowance, uint32_t *work0, size_t work0_length, uint32_t *work1,
    size_t work1_length, uint64_t *mark, size_t mark_length, uint64_t *layer, uint64_t *stores, uint64_t *finished) {
#define CALL(allowance, work0, work1, mark) \
    tray_job( \
        width, height, channels, dst, dst_length, layers, table, table_length, args, args_length, samples, samples_length, \
        job_number, allowance, work0, work0_length, work1, work1_length, mark, mark_length, layer, stores, finished)
    if (wrong == 12 && *(volatile uint64_t *)(mark + 1) != job_number) {
        *layer = *stores = *finished = 0;
        return TRAY_JOB_NUMBER;
    }
    // The right result, in memory of its own.
    static uint32_t copy[2][1 << 20];
    volatile uint32_t *work[2] = {work0, work1};
    uint64_t n = (uint64_t)(width * height), end = (layers + 1) * n, made = 0, fault = CALL(0, work0, work1, mark);
    if (fault && !(fault == TRAY_JOB_NUMBER && goes_on(mark, job_number, allowance, end))) return fault;
    const uint64_t start = *mark;
    memcpy(copy[0], work0, 4 * work0_length);
    memcpy(copy[1], work1, 4 * work1_length);
    while (*mark < end && allowance - made >= 10) {
        uint64_t own[2] = {*mark, job_number}, two = *mark + 2 > end ? 1 : 2;
        CALL(5 * two, copy[0], copy[1], own);
        for (uint64_t i = *mark; i < own[0]; i++) {
            uint64_t phase = i / n, k = phase % 2, j = i % n, place = 4 * j;
            int off = phase > 0 && !in_window(table + TRAY_COLUMNS * (phase - 1), j % width, j / width);
            for (int c = 0; c < 3 && !(wrong == 4 && off); c++) work[k][place + c] = copy[k][place + c];
            if (wrong == 1) *(volatile uint64_t *)mark = i + 1;
            if (wrong == 3) work[k][place + 3] = 0x12345678;
            if (!(wrong == 4 && off)) work[k][place + 3] = copy[k][place + 3];
            if (wrong != 1 && wrong != 2 && !(wrong == 5 && off)) raise_mark(mark, i + 1);
        }
        *(volatile uint64_t *)mark = own[0];
        made += 5 * two;
    }
    *stores = 5 * (*mark - start);
    *finished = *mark == end;
    return 0;
}
