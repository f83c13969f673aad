/* A worker in little, with the words that tests/power-loss/trial.py uses: it keeps a job folder as host/folder does, and lays made-up pictures. By WRONG=NAME
 * it has one fault, which the trials must find; `model wrong` lists the names. So the trials themselves are tested, without the library. */
#include <errno.h>
#include <fcntl.h>
#include <stdint.h>
#include <stdio.h>
#include <stdlib.h>
#include <string.h>
#include <sys/mman.h>
#include <sys/stat.h>
#include <time.h>
#include <unistd.h>

typedef unsigned long long number;

/* Without a fault: before a phase writes, the picture beneath it is synced, and then the checkpoint is written beside the older one, synced and renamed, and
 * the folder synced. The mapped mark is the position and the job number, which `make` alone writes, and without which the job is not run. Its position is believed
 * where `held` names this boot and these files, which is written after the position is set. Elsewhere the checkpoint is believed if the pictures have its digest. */
static const char *const faults[] = {
    "make-in-place", /* under its own name at once */
    "make-not-synced", /* the files */
    "number-not-synced", /* the mark alone, which has the job number */
    "make-name-not-synced",
    "picture-not-synced", /* before a checkpoint */
    "picture-synced-late", /* after the checkpoint */
    "other-picture-synced",
    "checkpoint-in-place", /* and not renamed */
    "checkpoint-not-synced",
    "folder-not-synced",
    "checkpoint-late", /* when the next phase has written */
    "checkpoint-left-out", /* where a run begins between phases */
    "checkpoint-believed", /* to be stored, where a killed run may have renamed it alone */
    "end-not-synced", /* at a run's end */
    "digest-not-compared",
    "digest-of-phase", /* without the pixels of a phase that has begun */
    "boot-not-compared",
    "files-not-compared",
    "held-before-mark",
    "number-written", /* by a run, which writes the whole mark and does not ask whose it was */
    "kill-loses", /* the checkpoint alone is ever believed */
    "mark-alone", /* no checkpoint is ever believed, so that nothing is kept */
};

static number width, height, layers, seed, pixels, job_number;
static uint32_t *work[2];
static volatile uint64_t *mark;
static const char *fault = "";

static int wrong(const char *name) {
    return strcmp(fault, name) == 0;
}

static void fail(const char *what) {
    fprintf(stderr, "model: %s: %s\n", what, strerror(errno));
    exit(1);
}

static uint32_t mixed(uint64_t a, uint64_t b) {
    a = (a ^ (b + 0x9e3779b97f4a7c15)) * 0xbf58476d1ce4e5b9;
    return (a ^ (a >> 29)) * 0x94d049bb133111eb >> 32;
}

static void write_file(const char *name, const char *text, int sync) {
    int file = open(name, O_WRONLY | O_CREAT | O_TRUNC, 0666);
    if (file < 0 || write(file, text, strlen(text)) != (ssize_t)strlen(text) || (sync && fsync(file) != 0)) fail(name);
    close(file);
}

static char *read_file(const char *name) {
    static char text[1000];
    int file = open(name, O_RDONLY);
    ssize_t size = file < 0 ? 0 : read(file, text, sizeof text - 1);
    text[size < 0 ? 0 : size] = 0;
    if (file >= 0) close(file);
    return text;
}

static void sync_folder(void) {
    int file = open(".", O_RDONLY);
    if (file < 0 || fsync(file) != 0) fail("folder");
    close(file);
}

static void *map(const char *name, size_t size) {
    int file = open(name, O_RDWR);
    void *at = file < 0 ? MAP_FAILED : mmap(NULL, size, PROT_READ | PROT_WRITE, MAP_SHARED, file, 0);
    if (at == MAP_FAILED) fail(name);
    close(file);
    return at;
}

static void sync_picture(number phase) {
    if (msync(work[phase % 2], 16 * pixels, MS_SYNC) != 0) fail("work");
}

/* Of the pictures that a position rests on: the one beneath its phase, and the phase's own pixels. */
static number digest(number position) {
    number phase = position / pixels, written = position % pixels, sum = position;
    if (phase > 0)
        for (number i = 0; i < 4 * pixels; i++) sum = (sum << 32 | sum >> 32) + mixed(sum, work[(phase - 1) % 2][i]);
    if (!wrong("digest-of-phase"))
        for (number i = 0; i < 4 * written; i++) sum = (sum << 32 | sum >> 32) + mixed(sum, work[phase % 2][i]);
    return sum;
}

static void write_checkpoint(number position) {
    char text[100];
    snprintf(text, sizeof text, "%llu %llu\n", position, digest(position));
    if (wrong("checkpoint-in-place")) return write_file("checkpoint", text, 1);
    write_file("checkpoint.new", text, !wrong("checkpoint-not-synced"));
    if (rename("checkpoint.new", "checkpoint") != 0) fail("checkpoint");
    if (!wrong("folder-not-synced")) sync_folder();
}

/* The boot, and which files they are. */
static const char *here(void) {
    static char text[1000];
    size_t at = snprintf(text, sizeof text, "%s", wrong("boot-not-compared") ? "" : read_file("/proc/sys/kernel/random/boot_id"));
    for (int k = 0; k < 3 && !wrong("files-not-compared"); k++) {
        struct stat s;
        if (stat(k == 2 ? "mark" : k == 1 ? "work1" : "work0", &s) != 0) fail("work");
        at += snprintf(text + at, sizeof text - at, "%llu\n", (number)s.st_ino);
    }
    return text;
}

static int has_checkpoint(number at) {
    number kept;
    return sscanf(read_file("checkpoint"), "%llu", &kept) == 1 && kept == at;
}

/* Where the job stands, if what is left of it can be believed. */
static number position(void) {
    number at, sum;
    if (strcmp(read_file("held"), here()) == 0 && !wrong("kill-loses")) return mark[0];
    if (sscanf(read_file("checkpoint"), "%llu %llu", &at, &sum) != 2 || wrong("mark-alone")) return 0;
    return at <= pixels * (layers + 1) && (wrong("digest-not-compared") || digest(at) == sum) ? at : 0;
}

static void hold(void) {
    write_file("held.new", here(), 1);
    if (rename("held.new", "held") != 0) fail("held");
}

static void boundary(number at) {
    if (wrong("checkpoint-believed") && has_checkpoint(at)) return;
    number phase = at / pixels - 1;
    if (!wrong("picture-not-synced") && !wrong("picture-synced-late")) sync_picture(wrong("other-picture-synced") ? phase + 1 : phase);
    write_checkpoint(at);
    if (wrong("picture-synced-late")) sync_picture(phase);
}

static void lay(number at) {
    number phase = at / pixels, pixel = at % pixels;
    for (number i = 4 * pixel; i < 4 * pixel + 4; i++) work[phase % 2][i] = mixed(phase ? work[(phase - 1) % 2][i] : seed, i + phase);
    mark[0] = at + 1;
}

static int run(number allowance, int by_phase) {
    number start = position(), total = pixels * (layers + 1), at = start;
    if (wrong("held-before-mark")) hold();
    mark[0] = start;
    if (wrong("number-written")) mark[1] = 0;
    if (!wrong("held-before-mark")) hold();
    int late = wrong("checkpoint-late");
    for (; at < total && at - start < allowance / 5; at++) {
        if (by_phase && !late && at % pixels == 0 && at > (wrong("checkpoint-left-out") ? start : 0)) boundary(at);
        lay(at);
        if (by_phase && late && at % pixels == 0 && at > 0) boundary(at);
    }
    if (!wrong("end-not-synced") && !(wrong("checkpoint-believed") && has_checkpoint(at))) {
        sync_picture(0);
        sync_picture(1);
        write_checkpoint(at);
    }
    printf("%llu stores, %s at %llu of %llu\n", 5 * (at - start), at == total ? "finished" : "stopped", at, total);
    return at == total ? 0 : 3;
}

static void write_list(const char *name, off_t size) {
    int file = open(name, O_WRONLY | O_CREAT, 0666);
    if (file < 0 || ftruncate(file, size) != 0 || (!wrong("make-not-synced") && fsync(file) != 0)) fail(name);
    close(file);
}

/* Position 0 and the job's number. */
static void write_mark(void) {
    uint64_t begun[2] = {0, job_number};
    int file = open("mark", O_WRONLY | O_CREAT, 0666), sync = !wrong("make-not-synced") && !wrong("number-not-synced");
    if (file < 0 || write(file, begun, sizeof begun) != sizeof begun || (sync && fsync(file) != 0)) fail("mark");
    close(file);
}

/* Under another name first. */
static int make(char **words) {
    char text[200], part[1000];
    off_t size = 16 * atoll(words[1]) * atoll(words[2]);
    job_number = (number)time(NULL) << 32 | (number)getpid();
    snprintf(text, sizeof text, "%s %s %s %s %llu\n", words[1], words[2], words[3], words[4], job_number);
    snprintf(part, sizeof part, "%s%s", words[0], wrong("make-in-place") ? "" : ".new");
    if ((mkdir(part, 0777) != 0 && errno != EEXIST) || chdir(part) != 0) fail(part);
    static const char *const others[] = {"dst", "table", "args", "samples", "names", "lock"};
    for (size_t i = 0; i < sizeof others / sizeof *others; i++) write_list(others[i], 0);
    write_list("work0", size);
    write_list("work1", size);
    write_mark();
    write_file("job", text, 1);
    sync_folder();
    if (strcmp(part, words[0]) != 0 && rename(part, words[0]) != 0) fail(words[0]);
    if (chdir("..") != 0) fail(words[0]);
    if (!wrong("make-name-not-synced")) sync_folder();
    return 0;
}

static void open_job(const char *job) {
    if (chdir(job) != 0 || sscanf(read_file("job"), "%llu %llu %llu %llu %llu", &width, &height, &layers, &seed, &job_number) != 5) fail(job);
    pixels = width * height;
    work[0] = map("work0", 16 * pixels);
    work[1] = map("work1", 16 * pixels);
    mark = map("mark", 16);
    if (mark[1] != job_number && !wrong("number-written")) {
        fprintf(stderr, "model: the mark is another job's\n");
        exit(4);
    }
}

int main(int count, char **words) {
    number allowance = -1;
    int by_phase = 1;
    if (getenv("WRONG")) fault = getenv("WRONG");
    if (count == 2 && strcmp(words[1], "wrong") == 0) {
        for (size_t i = 0; i < sizeof faults / sizeof *faults; i++) puts(faults[i]);
        return 0;
    }
    if (count == 7 && strcmp(words[1], "make") == 0) return make(words + 2);
    if (count < 3) return 2;
    open_job(words[2]);
    for (int i = 3; i + 1 < count; i++) {
        if (strcmp(words[i], "--allowance") == 0) allowance = strtoull(words[i + 1], NULL, 10);
        if (strcmp(words[i], "--durable") == 0) by_phase = strcmp(words[i + 1], "phase") == 0;
    }
    if (strcmp(words[1], "run") == 0) return run(allowance, by_phase);
    number at = position(), total = pixels * (layers + 1);
    printf("%llu of %llu%s\n", at, total, at == total ? ", finished" : "");
    return 0;
}
