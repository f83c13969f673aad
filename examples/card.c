/* A host in C that is given a job as text: it reads the card, has the samples and a window itself, and runs the job to its end.
 * cc examples/card.c $(pkg-config --cflags --libs libtray) -o card      # after tools/install PREFIX */
#include <inttypes.h>
#include <stdio.h>
#include <string.h>
#include <tray.h>

int main(void) {
    /* The job of examples/job.c. */
    static const char text[] =
        "(tray 1 4 1 3)\n"
        "(layer over (place 0 1 0) (flags 60) (source 0 3 1 4) (args))\n";
    static const float blue[4 * 3] = {0, 0, 1, 0, 0, 1, 0, 0, 1, 0, 0, 1};
    static const float red[3 * 4] = {1, 0, 0, 0.5f, 1, 0, 0, 0.5f, 1, 0, 0, 0.5f};

    /* The lists are lent for the most layers, whatever the card has. */
    int64_t table[TRAY_COLUMNS * TRAY_MAX_LAYERS], width, height, channels, layers;
    uint32_t args[TRAY_MAX_ARGUMENTS * TRAY_MAX_LAYERS];
    uint64_t line;
    uint64_t fault = tray_read_card(
        (const uint8_t *)text, strlen(text), table, TRAY_COLUMNS * TRAY_MAX_LAYERS, args,
        TRAY_MAX_ARGUMENTS * TRAY_MAX_LAYERS, &line, &width, &height, &channels, &layers);
    if (fault != TRAY_DONE) {
        fprintf(stderr, "refused: %" PRIu64 " at line %" PRIu64 "\n", fault, line);
        return 1;
    }

    /* A card has no windows: its layers may write everywhere. This one is kept off the last pixel. */
    table[TRAY_COLUMN_WINDOW_WIDTH] = 3;

    /* A host that makes its buffers as large as the card says asks first whether the sides are 0 to TRAY_MAX_SIDE. These are
     * for 4 x 1 pixels, and the job refuses a card that has others. The job takes the rows of the layers alone. */
    static float work[2][4 * 4];
    static uint64_t mark[2];
    uint64_t layer, stores, finished;
    /* A card has no job number. The mark begins with position 0, then the number, as in examples/job.c. */
    const uint64_t job_number = 2;
    volatile uint64_t *begin = mark;
    begin[0] = 0;
    begin[1] = job_number;
    fault = tray_job(
        width, height, channels, (const uint32_t *)blue, 4 * 3,
        layers, table, TRAY_COLUMNS * (size_t)layers, args, TRAY_MAX_ARGUMENTS * (size_t)layers, (const uint32_t *)red, 3 * 4,
        job_number, UINT64_MAX, (uint32_t *)work[0], 4 * 4, (uint32_t *)work[1], 4 * 4, mark, 2,
        &layer, &stores, &finished);
    if (fault != TRAY_DONE) {
        fprintf(stderr, "refused: %" PRIu64 " in layer %" PRIu64 "\n", fault, layer);
        return 1;
    }
    for (int i = 0; i < 4; i++) {
        const float *pixel = work[layers % 2] + 4 * i;
        printf("%g %g %g %g\n", pixel[0], pixel[1], pixel[2], pixel[3]);
    }
    return 0;
}
