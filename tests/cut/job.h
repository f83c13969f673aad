// Jobs for the tests of the cut, and what their memory must look like. The pictures come from the single composition,
// layer by layer, and not from the job call that is tested; of a layer with a window they come from the same layer under
// a full one, with the pixels off the window put back, so that they rest on no window of the library.
#ifndef JOB_H
#define JOB_H

#include "../../include/tray.h"

enum { LAYERS = 16 };

// Pixels off a layer's window: those that the layer would have changed, and of them those of layers with tile, with
// overlay, and of maps; and those that their work buffer does not hold from before, so that their stores show.
enum { CUT, CUT_TILED, CUT_OVERLAID, CUT_MAPPED, SHOWN, COUNTS };

typedef struct {
    int64_t width, height, channels, layers;
    uint64_t pixels, number;             // 64 random bits as the job's number
    uint32_t *dst, *samples, args[4 * LAYERS];
    size_t dst_length, samples_length;
    int64_t table[TRAY_COLUMNS * LAYERS];
    size_t work_length[2], mark_length;  // what a call is told of the lists that it writes
    uint32_t *before;                    // what the two work buffers hold at first, one after the other
    uint32_t *picture[LAYERS + 1];       // the widened destination, then the result of each layer
    uint64_t off[COUNTS];
} Job;

// The memory of a job. The two work buffers stand one after the other. The mark's numbers, the position and the job number,
// lie on both sides of a border of pages, so that one can be written and the other not (memory_protect), and so that the
// mark is aligned to 8 bytes and not to 16.
typedef struct {
    uint64_t *mark;
    uint32_t *work[2];
} Memory;

typedef struct {
    uint64_t fault, layer, stores, finished;
} Answer;

// How a memory stands to the store list.
typedef struct {
    int prefix;                          // whether it is a prefix of the list
    uint64_t stores;                     // its length, up to a word that was rewritten with the same bits
} State;

// A job of random samples with `layers` operators from number `first` on, those that are refused left out; sides of the
// sources, places, flags and arguments vary. Its sides are 2 at least. `windows` has a letter for each layer, and begins
// again after the last:
//
//    f  full, as large as can be      r  all but the rims               w  of no width
//    t  the tray and no more          p  from a pixel to past the tray  h  of no height
//    1  one pixel                     s  some pixels, past it or not    b  beside the tray
//    a  any of the others                                               u  below the tray
Job job_new(int64_t width, int64_t height, int64_t channels, int64_t layers, int first, const char *windows, uint64_t seed);
void job_free(Job *job);

// Whether the pixel (x, y) lies in the window of a layer's row.
int in_window(const int64_t *row, int64_t x, int64_t y);
// Whether the pixel that is next at a mark lies off its layer's window. Phase 0 has none.
int off_window(const Job *job, uint64_t mark);

// The operators carried, and the one after `operator` among them.
int operator_next(int operator);

// Memory from the start of a page on.
size_t memory_bytes(const Job *job);
Memory memory_at(const Job *job, void *start);
void memory_begin(const Job *job, Memory memory);
// Before a worker's call: what the call may not write becomes read-only in this process, so that a store of what is there
// already shows too. That is the job number, and all memory if the call is to be refused. What a mark's length leaves out
// cannot be read either.
void memory_protect(const Job *job, Memory memory, int refused);
// What a worker does that is stopped at an address for it; none if the address is not of this memory.
const char *memory_forbidden(const Job *job, Memory memory, const void *address);

Answer job_call(const Job *job, Memory memory, uint64_t allowance);
uint64_t job_end(const Job *job);

// The memory after `made` stores of the list from memory_begin on, written into `memory`.
void memory_after(const Job *job, Memory memory, uint64_t made);
// One more store.
void memory_store(const Job *job, Memory memory, uint64_t entry);

// Whether two memories hold the same, with both numbers of the mark.
int memory_same(const Job *job, Memory a, Memory b);
State memory_state(const Job *job, Memory memory);
int finished_right(const Job *job, Memory memory);

uint64_t random_next(uint64_t *seed);

#endif
