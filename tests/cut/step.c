// step [refusals | jobs | whole]: single-steps (ptrace) job calls, of one part or of the first two, and looks at their memory
// after every instruction, which is every place where a worker can be stopped. Memory must be what some number of stores leaves, never
// fewer than before, and the mark's second number the job's. No call may store that number, not even as it is: its page is
// read-only in the worker.
//
// Refused calls for each fault from 1 to 10, for 13 and for 14, which must not write at all: all their memory is read-only.
// All 68 operators in jobs of 16 layers, on destinations of one, three and four channels, each job in one call; a larger
// picture; a job in many short calls, which end inside pixels. Of the jobs one has full windows alone, the others windows
// of every kind: a pixel off its window is five stores as any other, and its words are those beneath.
// Ends with status 1 when a memory is no prefix of the store list or a worker does what it may not, 77 where the system
// does not let a process be traced.
#define _GNU_SOURCE
#include "job.h"

#include <sched.h>
#include <signal.h>
#include <stdio.h>
#include <stdlib.h>
#include <string.h>
#include <sys/mman.h>
#include <sys/ptrace.h>
#include <sys/wait.h>
#include <unistd.h>

enum { CANNOT = 77 };

static uint64_t steps, seen, listed, calls_refused, off[COUNTS];

static void *shared(size_t bytes) {
    void *start = mmap(0, bytes, PROT_READ | PROT_WRITE, MAP_SHARED | MAP_ANONYMOUS, -1, 0);
    if (start == MAP_FAILED) abort();
    return start;
}

static void check(int right, const char *what) {
    if (right) return;
    printf("%s\n", what);
    exit(1);
}

// A process that stops before its call and is traced from there.
static pid_t start(const Job *job, Memory memory, uint64_t allowance, int refused, Answer *answer) {
    pid_t worker = fork();
    if (worker == 0) {
        if (ptrace(PTRACE_TRACEME, 0, 0, 0)) _exit(CANNOT);
        memory_protect(job, memory, refused);
        raise(SIGSTOP);
        *answer = job_call(job, memory, allowance);
        _exit(0);
    }
    int status;
    check(worker > 0 && waitpid(worker, &status, 0) == worker, "no process can be started");
    if (WIFEXITED(status) && WEXITSTATUS(status) == CANNOT) exit(CANNOT);
    check(WIFSTOPPED(status) && WSTOPSIG(status) == SIGSTOP, "a worker does not stop before its call");
    return worker;
}

static void found_out(pid_t worker, Memory memory, const char *what) {
    printf("after instruction %llu %s (mark %llu, %016llx)\n", (unsigned long long)steps, what,
        (unsigned long long)memory.mark[0], (unsigned long long)memory.mark[1]);
    kill(worker, SIGKILL);
    waitpid(worker, 0, 0);
    exit(1);
}

// One instruction more. Answers whether the worker goes on; it may end only by itself, and well.
static int step(const Job *job, Memory memory, pid_t worker) {
    int status;
    siginfo_t signal;
    check(!ptrace(PTRACE_SINGLESTEP, worker, 0, 0) && waitpid(worker, &status, 0) == worker, "a worker cannot be stepped");
    if (WIFEXITED(status) && WEXITSTATUS(status) == 0) return 0;
    if (WIFSTOPPED(status) && WSTOPSIG(status) == SIGSEGV && !ptrace(PTRACE_GETSIGINFO, worker, 0, &signal)) {
        const char *what = memory_forbidden(job, memory, signal.si_addr);
        found_out(worker, memory, what ? what : "the worker died");
    }
    check(WIFSTOPPED(status) && WSTOPSIG(status) == SIGTRAP, "the worker died");
    steps++;
    return 1;
}

// Steps one call; `expected` begins as a copy of `memory` after `made` stores and follows it to its end. Answers the
// stores that stand at the end, and stops the test where memory is no prefix.
static uint64_t step_call(const Job *job, Memory memory, Memory expected, uint64_t made, uint64_t allowance, Answer *answer) {
    pid_t worker = start(job, memory, allowance, 0, answer);
    uint64_t most = allowance < 5 * job_end(job) - made ? made + allowance : 5 * job_end(job);
    while (step(job, memory, worker)) {
        if (memory_same(job, memory, expected)) continue;
        while (made < most && !memory_same(job, memory, expected)) memory_store(job, expected, made++);
        if (!memory_same(job, memory, expected)) found_out(worker, memory, "memory is no prefix of the store list");
        seen++;
    }
    return made;
}

// A whole job, in calls of `allowance` stores each.
static void step_job(const Job *job, uint64_t allowance) {
    Memory memory = memory_at(job, shared(memory_bytes(job))), expected = memory_at(job, shared(memory_bytes(job)));
    Answer *answer = shared(sizeof *answer);
    memory_begin(job, memory);
    memory_begin(job, expected);
    uint64_t end = job_end(job);
    while (*memory.mark < end) {
        uint64_t first = 5 * *memory.mark, left = 5 * end - first, wanted = allowance < left ? allowance : left;
        memory_after(job, expected, first);
        // Stores that the last call made of a pixel that it did not end.
        memcpy(expected.work[0], memory.work[0], 32 * job->pixels);
        step_call(job, memory, expected, first, allowance, answer);
        check(answer->fault == 0 && answer->layer == 0, "an accepted call answers a fault");
        check(answer->stores == wanted, "a call answers another count of stores");
        check(answer->finished == (*memory.mark == end), "a call answers finished where it is not, or not where it is");
        check(*memory.mark == (first + wanted) / 5, "a call ends at another mark");
    }
    check(finished_right(job, memory), "the finished picture is another one");
    listed += 5 * end;
    for (int i = 0; i < COUNTS; i++) off[i] += job->off[i];
}

// A call that finds this position and job number, must be refused under `fault` and may write nothing, whatever instruction
// it is stopped at.
static void step_refused(Job job, uint64_t position, uint64_t number, uint64_t allowance, uint64_t fault, uint64_t layer) {
    Memory memory = memory_at(&job, shared(memory_bytes(&job))), expected = memory_at(&job, shared(memory_bytes(&job)));
    Answer *answer = shared(sizeof *answer);
    memory_begin(&job, memory);
    memory_begin(&job, expected);
    memory.mark[0] = expected.mark[0] = position;
    memory.mark[1] = expected.mark[1] = number;
    pid_t worker = start(&job, memory, allowance, 1, answer);
    while (step(&job, memory, worker)) check(memory_same(&job, memory, expected), "a refused call wrote");
    check(answer->fault == fault && answer->layer == layer, "a refused call answers another fault");
    check(answer->stores == 0 && answer->finished == 0, "a refused call answers stores, or finished");
    calls_refused++;
}

// Numbers of a row that are refused, in layers 0, 1, 2 in turn, on the way through a job; every other one at a mark of another
// job, which is asked for later.
static void refused_rows(Job job) {
    const struct { int column; int64_t value; uint64_t fault; } rows[] = {
        {TRAY_COLUMN_OPERATOR, TRAY_OPERATORS, TRAY_OPERATOR}, {TRAY_COLUMN_OPERATOR, TRAY_OP_INTERPOLATE, TRAY_CURVE},
        {TRAY_COLUMN_GRAVITY, 10, TRAY_PLACING}, {TRAY_COLUMN_FLAGS, 64, TRAY_FLAGS},
        {TRAY_COLUMN_FIRST, INT64_MAX, TRAY_SOURCE}, {TRAY_COLUMN_COUNT, 5, TRAY_ARGUMENTS},
        {TRAY_COLUMN_WINDOW_LEFT, -1, TRAY_WINDOW}, {TRAY_COLUMN_WINDOW_TOP, TRAY_MAX_SIDE + 1, TRAY_WINDOW},
        {TRAY_COLUMN_WINDOW_WIDTH, INT64_MIN, TRAY_WINDOW}, {TRAY_COLUMN_WINDOW_HEIGHT, INT64_MAX, TRAY_WINDOW}};
    for (uint64_t i = 0; i < sizeof rows / sizeof *rows; i++) {
        Job wrong = job;
        wrong.table[TRAY_COLUMNS * (i % 3) + rows[i].column] = rows[i].value;
        step_refused(wrong, 3 * i, job.number ^ i % 2, 100, rows[i].fault, i % 3);
    }
}

// Lists of no, one and three numbers, and a position beyond the end.
static void refused_marks(Job job, uint64_t number) {
    for (job.mark_length = 0; job.mark_length < 4; job.mark_length++)
        step_refused(job, job.mark_length == 2 ? job_end(&job) + 1 : 0, number, 100, TRAY_MARK, 0);
}

// Job numbers of a mark and of a call that differ in one bit of the low or of the high half, or of which one is 0: at a fresh
// mark, midway and at the end, with and without an allowance; and on a destination without pixels.
static void refused_numbers(Job job) {
    const uint64_t n = job.number, marks[] = {n ^ 1, n ^ 1u << 31, n ^ 1ull << 32, n ^ 1ull << 63, 0, n};
    const uint64_t end = job_end(&job), positions[] = {0, end / 2, end}, allowances[] = {100, 0, UINT64_MAX};
    for (int i = 0; i < 18; i++) {
        job.number = i / 3 == 5 ? 0 : n;
        step_refused(job, positions[i % 3], marks[i / 3], allowances[(i + i / 3) % 3], TRAY_JOB_NUMBER, 0);
    }
    job.width = job.dst_length = job.work_length[0] = job.work_length[1] = 0;
    step_refused(job, 0, n, 100, TRAY_JOB_NUMBER, 0);
}

static void refusals(Job job) {
    Job wrong[] = {job, job, job, job}, low = job;
    const uint64_t faults[] = {TRAY_STACK, TRAY_TRAY, TRAY_WORK, TRAY_WORK}, other = ~job.number;
    low.layers = 1;
    refused_numbers(low);
    refused_marks(low, job.number);
    refused_marks(low, other);
    wrong[0].layers = 0;
    wrong[1].dst_length--;
    // Each work buffer a word short.
    wrong[2].work_length[0]--;
    wrong[3].work_length[1]--;
    for (int i = 0; i < 8; i++) step_refused(wrong[i / 2], 0, i % 2 ? other : job.number, 100, faults[i / 2], 0);
    refused_rows(job);
}

// Tracer and traced take turns: on one processor they do so faster.
static void one_processor(void) {
    cpu_set_t set;
    CPU_ZERO(&set);
    CPU_SET(sched_getcpu(), &set);
    sched_setaffinity(0, sizeof set, &set);
}

// The letters of the jobs' windows, one for each layer (job.h). Each operator has one that holds pixels; those that hold none
// follow in the last job, after the last operator, and take turns with full ones: two in a row would store what is there
// already. Layers 3, 7, 11 and 15 are tiled, 4, 9 and 14 have overlay; the maps are layers 0 and 1 of the last job.
static const char *const windows[] = {"rfpsrtpsfrfptspr", "f", "spfrsftprsfrfprs", "ptspfrfspfrtsfsp", "rpstfwtbfhtuf1rs"};

// All operators, once at least; answers how many layers changed a pixel.
static int operators(int jobs) {
    int operator = 0, changing = 0;
    for (int i = 0; i < jobs; i++) {
        Job job = job_new(5, 3, (int64_t[]){4, 3, 1}[i % 3], LAYERS, operator, windows[i], 3374 + i);
        step_job(&job, UINT64_MAX);
        for (int k = 0; k < LAYERS; k++, operator = operator_next(operator))
            changing += memcmp(job.picture[k], job.picture[k + 1], 16 * job.pixels) != 0;
    }
    return changing;
}

// Jobs, and what is said of them.
static void jobs(Job small) {
    const int count = sizeof windows / sizeof *windows, changing = operators(count);
    Job large = job_new(23, 9, 4, 2, 0, "rf", 98);
    // The least and the largest job number are numbers as any other.
    large.number = UINT64_MAX;
    small.number = 0;
    step_job(&large, UINT64_MAX);
    step_job(&small, 7);
    check(changing > 60, "too few layers change a pixel");
    for (int i = 0; i < COUNTS; i++) check(off[i] > 0, "windows cut nothing of some kind of layer, or no store off them shows");
    printf("%llu instructions stepped, %llu refusals, 68 operators in %d jobs, a larger picture, short calls: memory is a prefix of the store "
           "list after each, and no job number is stored; it moved %llu times over %llu stores; windows kept %llu pixels that a layer would "
           "have changed, and the stores of %llu pixels off them show\n",
        (unsigned long long)steps, (unsigned long long)calls_refused, count, (unsigned long long)seen, (unsigned long long)listed,
        (unsigned long long)off[CUT], (unsigned long long)off[SHOWN]);
}

int main(int argc, char **argv) {
    one_processor();
    Job small = job_new(5, 2, 3, 4, 13, "spf1", 99);
    if (argc < 2 || !strcmp(argv[1], "refusals")) refusals(small);
    if (argc < 2 || !strcmp(argv[1], "jobs")) jobs(small);
    if (argc > 1 && !strcmp(argv[1], "whole")) step_job(&small, UINT64_MAX);
    return 0;
}
