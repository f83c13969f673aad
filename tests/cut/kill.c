// kill COUNT [SEED]: processes that run a job on a mapped file, its layers with windows of any kind, are killed (SIGKILL) at
// random moments, COUNT of them while their call is under way. After each, memory must be a prefix of the store list; the
// next process takes the job up; the picture at the end must be that of an uninterrupted run. Calls of another job, of
// the same dimensions and with a number of its own, come before them, now and then between them and after the last: they
// must be refused and leave memory as it is. Ends with status 1 where something of this does not hold.
#define _GNU_SOURCE
#include "job.h"

#include <fcntl.h>
#include <sched.h>
#include <signal.h>
#include <stdio.h>
#include <stdlib.h>
#include <string.h>
#include <sys/mman.h>
#include <sys/wait.h>
#include <time.h>
#include <unistd.h>

static double now(void) {
    struct timespec time;
    clock_gettime(CLOCK_MONOTONIC, &time);
    return time.tv_sec * 1e9 + time.tv_nsec;
}

// A worker's life: whether it has begun its call, and whether it has ended it.
typedef struct {
    volatile int begun, ended;
} Life;

// Workers killed in their calls; of these inside a pixel, before they gained one, at a pixel off a window. Calls of other jobs;
// of these at a fresh mark, at a finished one.
static struct {
    uint64_t kills, inside, without, off, others, fresh, finished;
} counts;

static void check(int right, const char *what) {
    if (right) return;
    printf("after %llu kills %s\n", (unsigned long long)counts.kills, what);
    exit(1);
}

// Runs a worker that is killed after `delay` nanoseconds of its call. Answers whether the kill fell into the call.
static int run_and_kill(const Job *job, Memory memory, Life *life, double delay) {
    life->begun = life->ended = 0;
    pid_t worker = fork();
    if (worker == 0) {
        memory_protect(job, memory, 0);
        life->begun = 1;
        job_call(job, memory, UINT64_MAX);
        life->ended = 1;
        _exit(0);
    }
    if (worker < 0) {
        printf("no process can be started\n");
        exit(2);
    }
    while (!life->begun) sched_yield();
    nanosleep(&(struct timespec){.tv_sec = delay / 1e9, .tv_nsec = (long)delay % 1000000000}, 0);
    int status = 0;
    kill(worker, SIGKILL);
    waitpid(worker, &status, 0);
    // A worker that stores the job number dies of it.
    check(WIFSIGNALED(status) ? WTERMSIG(status) == SIGKILL : status == 0, "a worker died of itself");
    return !life->ended;
}

// A call of another job on the memory.
static void other_call(const Job *other, Memory memory, Memory copy, uint64_t *seed) {
    const uint64_t allowances[] = {0, 7, UINT64_MAX};
    memcpy(copy.mark, memory.mark, 16);
    memcpy(copy.work[0], memory.work[0], 32 * other->pixels);
    Answer answer = job_call(other, memory, allowances[random_next(seed) % 3]);
    check(answer.fault == TRAY_JOB_NUMBER && answer.layer == 0, "a call of another job is not refused as 14");
    check(answer.stores == 0 && answer.finished == 0, "a refused call answers stores, or finished");
    check(memory_same(other, memory, copy), "a call of another job writes");
    counts.others++;
    counts.fresh += *memory.mark == 0;
    counts.finished += *memory.mark == job_end(other);
}

// A job from its begin to its end. Uninterrupted it takes `whole` nanoseconds.
static void run_job(const Job *job, const Job *other, Memory memory, Memory copy, Life *life, double whole, uint64_t *seed) {
    memory_begin(job, memory);
    other_call(other, memory, copy, seed);
    uint64_t last = 0;
    while (*memory.mark < job_end(job)) {
        int hit = run_and_kill(job, memory, life, whole * 0.7 * (random_next(seed) % 1000) / 1000);
        State state = memory_state(job, memory);
        check(state.prefix && state.stores >= last / 5 * 5, "memory is no prefix of the store list");
        counts.kills += hit;
        counts.inside += hit && state.stores % 5 != 0;
        counts.without += hit && state.stores / 5 == last / 5;
        counts.off += hit && off_window(job, state.stores / 5);
        last = state.stores;
        if (hit && random_next(seed) % 2) other_call(other, memory, copy, seed);
    }
    other_call(other, memory, copy, seed);
    check(finished_right(job, memory), "the finished picture is another one");
}

// Jobs under the same count have the same dimensions; the seed makes their inputs and their number.
static Job job_of(uint64_t jobs, uint64_t seed) {
    return job_new(200, 160, (int64_t[]){4, 3, 1}[jobs % 3], 8, operator_next(jobs * 8 % 70), "a", seed);
}

static void say(uint64_t jobs) {
    printf("%llu workers killed in their calls (%llu inside a pixel, %llu before they gained one, %llu at a pixel off a window) over "
           "%llu jobs: memory a prefix of the store list after each, every job taken up and finished with the right picture; %llu calls "
           "of other jobs between (%llu at a fresh mark, %llu at a finished one) refused as 14, memory as it was\n",
        (unsigned long long)counts.kills, (unsigned long long)counts.inside, (unsigned long long)counts.without,
        (unsigned long long)counts.off, (unsigned long long)jobs, (unsigned long long)counts.others,
        (unsigned long long)counts.fresh, (unsigned long long)counts.finished);
}

int main(int argc, char **argv) {
    uint64_t wanted = argc > 1 ? strtoull(argv[1], 0, 10) : 60, seed = argc > 2 ? strtoull(argv[2], 0, 10) : 1;
    char path[] = "kill.XXXXXX";
    int file = mkstemp(path);
    if (file < 0) return 2;
    unlink(path);
    Life *life = mmap(0, sizeof *life, PROT_READ | PROT_WRITE, MAP_SHARED | MAP_ANONYMOUS, -1, 0);
    uint64_t jobs = 0, cut = 0;
    while (counts.kills < wanted) {
        Job job = job_of(jobs, seed + jobs), other = job_of(jobs, ~seed - jobs);
        size_t bytes = memory_bytes(&job);
        if (ftruncate(file, bytes)) return 2;
        void *start = mmap(0, bytes, PROT_READ | PROT_WRITE, MAP_SHARED, file, 0), *room = malloc(bytes);
        if (start == MAP_FAILED || !room) return 2;
        Memory memory = memory_at(&job, start), copy = memory_at(&job, room);
        memory_begin(&job, memory);
        double begin = now();
        job_call(&job, memory, UINT64_MAX);
        double whole = now() - begin;
        for (int again = 0; again < 25 && counts.kills < wanted; again++, jobs++)
            run_job(&job, &other, memory, copy, life, whole, &seed);
        munmap(start, bytes);
        free(room);
        cut += job.off[CUT];
        job_free(&job), job_free(&other);
    }
    check(cut > 0, "no window has kept a pixel that its layer would have changed");
    say(jobs);
    return 0;
}
