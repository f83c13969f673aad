/* A host in C: it lends its buffers to a job, stops after each 15 stores and goes on.
 * cc examples/job.c $(pkg-config --cflags --libs libtray) -o job        # after tools/install PREFIX */
#include <inttypes.h>
#include <stdio.h>
#include <tray.h>

int main(void) {
    /* A blue destination of 4 x 1 pixels, and a red source of 3 x 1, half transparent, laid one pixel to the right. The layer's
     * window has the first three columns of the destination: the last pixel stays blue. */
    static const float blue[4 * 3] = {0, 0, 1, 0, 0, 1, 0, 0, 1, 0, 0, 1};
    static const float red[3 * 4] = {1, 0, 0, 0.5f, 1, 0, 0, 0.5f, 1, 0, 0, 0.5f};
    static const float args[TRAY_MAX_ARGUMENTS];
    const int64_t table[TRAY_COLUMNS] = {
        [TRAY_COLUMN_OPERATOR] = TRAY_OP_OVER,
        [TRAY_COLUMN_RIGHT] = 1,
        [TRAY_COLUMN_FLAGS] = TRAY_RED | TRAY_GREEN | TRAY_BLUE | TRAY_ALPHA,
        [TRAY_COLUMN_WIDTH] = 3,
        [TRAY_COLUMN_HEIGHT] = 1,
        [TRAY_COLUMN_CHANNELS] = 4,
        [TRAY_COLUMN_WINDOW_WIDTH] = 3,
        [TRAY_COLUMN_WINDOW_HEIGHT] = TRAY_MAX_SIDE,
    };

    /* What a job writes: two work buffers of four samples a pixel, and the mark. Where these lie in shared memory or in a
     * mapped file, another process may go on, after this one was stopped between two calls or killed in one. */
    static float work[2][4 * 4];
    static uint64_t mark[2];
    uint64_t layer, stores, finished;

    /* The job's number, which no other job has had: 64 random bits, or as here the next one of a host that counts its jobs. The
     * mark is given it once, before the first call: position 0 first, then the number, which volatile keeps in this order. */
    const uint64_t job_number = 1;
    volatile uint64_t *begin = mark;
    begin[0] = 0;
    begin[1] = job_number;
    do {
        uint64_t fault = tray_job(
            4, 1, 3, (const uint32_t *)blue, 4 * 3,
            1, table, TRAY_COLUMNS, (const uint32_t *)args, TRAY_MAX_ARGUMENTS, (const uint32_t *)red, 3 * 4,
            job_number, 15, (uint32_t *)work[0], 4 * 4, (uint32_t *)work[1], 4 * 4, mark, 2,
            &layer, &stores, &finished);
        if (fault != TRAY_DONE) {
            fprintf(stderr, "refused: %" PRIu64 " in layer %" PRIu64 "\n", fault, layer);
            return 1;
        }
        printf("%" PRIu64 " stores, mark %" PRIu64 "\n", stores, mark[0]);
    } while (!finished);

    /* A job of one layer ends in work buffer 1. */
    for (int i = 0; i < 4; i++) {
        const float *pixel = work[1] + 4 * i;
        printf("%g %g %g %g\n", pixel[0], pixel[1], pixel[2], pixel[3]);
    }
    return 0;
}
