/* Preloaded into a worker (LD_PRELOAD): writes down what a loss of power could leave of its job folder, for tests/power-loss/disk.py. Each call that waits for
 * the storage or changes names or lengths is an event: the folder's files are copied into the trace before it is carried out, and one line follows when it has
 * returned. The worker has one thread, so that a file's content cannot change between the copy and the call. By environment variables:
 *
 *     POWER_FOLDER  the job's folder, an absolute path    POWER_INPUTS  names of files that are left out, with spaces around each
 *     POWER_TRACE   the file that the trace is added to   POWER_BOOT    a file to be read instead of the system's boot_id
 *     POWER_KILL    `before N` or `after N`: the worker kills itself at event N, counted from 0
 */
#define _GNU_SOURCE
#include <dirent.h>
#include <errno.h>
#include <fcntl.h>
#include <limits.h>
#include <signal.h>
#include <stdarg.h>
#include <stdint.h>
#include <stdio.h>
#include <stdlib.h>
#include <string.h>
#include <sys/mman.h>
#include <sys/stat.h>
#include <sys/syscall.h>
#include <unistd.h>

typedef unsigned long long number;

/* A file's name outlives it and its inode number is given again, but not with the same time of birth. */
struct key {
    number inode, birth;
    int directory;
};

static const char *folder, *inputs, *boot;
static int trace = -1;
static long event, kill_at = -1;
static int kill_after;

static void fail(const char *what) {
    dprintf(2, "recorder: %s: %s\n", what, strerror(errno));
    _exit(99);
}

static struct key key_of(int at, const char *name) {
    struct statx s;
    if (statx(at, name, *name ? 0 : AT_EMPTY_PATH, STATX_BASIC_STATS | STATX_BTIME, &s) != 0) return (struct key){0, 0, 0};
    return (struct key){s.stx_ino, s.stx_btime.tv_sec * 1000000000ull + s.stx_btime.tv_nsec, S_ISDIR(s.stx_mode)};
}

static void copy_file(int at, const char *beneath, const char *name) {
    static char buffer[1 << 20];
    int file = syscall(SYS_openat, at, name, O_RDONLY | O_CLOEXEC);
    if (file < 0) fail(name);
    ssize_t size = 0, part;
    while ((part = read(file, buffer + size, sizeof buffer - size)) > 0) size += part;
    if (part < 0 || size == sizeof buffer) fail(name);
    struct key key = key_of(file, "");
    close(file);
    dprintf(trace, "file %llu:%llu %zd %s%s\n", key.inode, key.birth, size, beneath, name);
    if (write(trace, buffer, size) != size) fail("trace");
}

/* The files of a folder and, for one that jobs are made in, of the folders in it. */
static void copy_files(int at, const char *name, const char *beneath) {
    DIR *list = fdopendir(syscall(SYS_openat, at, name, O_RDONLY | O_DIRECTORY | O_CLOEXEC));
    if (!list) fail(name);
    for (struct dirent *entry; (entry = readdir(list));) {
        char word[NAME_MAX + 3];
        snprintf(word, sizeof word, " %s ", entry->d_name);
        if (entry->d_type == DT_REG && !strstr(inputs, word)) copy_file(dirfd(list), beneath, entry->d_name);
        if (entry->d_type != DT_DIR || *beneath || strcmp(word, " . ") == 0 || strcmp(word, " .. ") == 0) continue;
        snprintf(word, sizeof word, "%s/", entry->d_name);
        copy_files(dirfd(list), entry->d_name, word);
    }
    closedir(list);
}

static void copy_folder(void) {
    copy_files(AT_FDCWD, folder, "");
}

/* Begins an event; the words say what it is once it has returned. */
__attribute__((format(printf, 1, 2))) static void begins(const char *words, ...) {
    if (trace < 0) return;
    va_list list;
    va_start(list, words);
    dprintf(trace, "event ");
    vdprintf(trace, words, list);
    va_end(list);
    dprintf(trace, "\n");
    copy_folder();
    if (event == kill_at && !kill_after) kill(getpid(), SIGKILL);
}

static long ended(long result) {
    if (trace < 0) return result;
    int error = errno;
    dprintf(trace, result < 0 ? "failed\n" : "done\n");
    if (event == kill_at && kill_after) {
        dprintf(trace, "event nothing\n");
        copy_folder();
        kill(getpid(), SIGKILL);
    }
    event++;
    errno = error;
    return result;
}

__attribute__((constructor)) static void start(void) {
    const char *path = getenv("POWER_TRACE"), *dies = getenv("POWER_KILL");
    folder = getenv("POWER_FOLDER");
    inputs = getenv("POWER_INPUTS");
    boot = getenv("POWER_BOOT");
    if (!path || !folder || !inputs) return;
    trace = syscall(SYS_openat, AT_FDCWD, path, O_WRONLY | O_CREAT | O_APPEND | O_CLOEXEC, 0666);
    if (trace < 0) fail(path);
    begins("nothing");
    if (dies) {
        kill_after = strncmp(dies, "after ", 6) == 0;
        kill_at = atol(strchr(dies, ' ') + 1);
    }
}

__attribute__((destructor)) static void end(void) {
    if (trace < 0) return;
    kill_at = -1;
    begins("nothing");
}

/* The file mapped at an address, and the place in it; 0 where it is none of the folder. */
static int mapped_at(const void *address, struct key *key, number *place) {
    char line[PATH_MAX + 200], path[PATH_MAX + 1];
    FILE *maps = fopen("/proc/self/maps", "re");
    int found = 0;
    while (!found && maps && fgets(line, sizeof line, maps)) {
        number from, to, offset;
        if (sscanf(line, "%llx-%llx %*s %llx %*s %*u %[^\n]", &from, &to, &offset, path) != 4) continue;
        if ((uintptr_t)address < from || (uintptr_t)address >= to || strncmp(path, folder, strlen(folder)) != 0) continue;
        *key = key_of(AT_FDCWD, path);
        *place = offset + ((uintptr_t)address - from);
        found = 1;
    }
    if (maps) fclose(maps);
    return found;
}

int msync(void *address, size_t length, int flags) {
    struct key key;
    number place;
    if (trace >= 0 && (flags & MS_SYNC) && mapped_at(address, &key, &place))
        begins("sync %llu:%llu %llu %llu", key.inode, key.birth, place, place + length);
    else
        begins("nothing");
    return ended(syscall(SYS_msync, address, length, flags));
}

static void begins_sync(int file) {
    if (trace < 0) return;
    struct key key = key_of(file, ""), own = key_of(AT_FDCWD, folder);
    if (!key.directory)
        begins("sync %llu:%llu 0 %lld", key.inode, key.birth, LLONG_MAX);
    else
        begins(key.inode == own.inode || key_of(file, "..").inode == own.inode ? "sync-names" : "nothing");
}

int fsync(int file) {
    begins_sync(file);
    return ended(syscall(SYS_fsync, file));
}

int fdatasync(int file) {
    begins_sync(file);
    return ended(syscall(SYS_fdatasync, file));
}

int syncfs(int file) {
    begins("sync-all");
    return ended(syscall(SYS_syncfs, file));
}

void sync(void) {
    begins("sync-all");
    ended(syscall(SYS_sync));
}

/* It does not wait for the device's own memory, so that nothing is durable by it. */
int sync_file_range(int file, off64_t offset, off64_t bytes, unsigned flags) {
    begins("nothing");
    return ended(syscall(SYS_sync_file_range, file, offset, bytes, flags));
}

int renameat2(int old_at, const char *old, int new_at, const char *new, unsigned flags) {
    begins("nothing");
    return ended(syscall(SYS_renameat2, old_at, old, new_at, new, flags));
}

int renameat(int old_at, const char *old, int new_at, const char *new) {
    return renameat2(old_at, old, new_at, new, 0);
}

int rename(const char *old, const char *new) {
    return renameat2(AT_FDCWD, old, AT_FDCWD, new, 0);
}

int unlinkat(int at, const char *name, int flags) {
    begins("nothing");
    return ended(syscall(SYS_unlinkat, at, name, flags));
}

int unlink(const char *name) {
    return unlinkat(AT_FDCWD, name, 0);
}

int ftruncate(int file, off_t length) {
    struct key key = key_of(file, "");
    begins("length %llu:%llu %lld", key.inode, key.birth, (long long)length);
    return ended(syscall(SYS_ftruncate, file, length));
}

int ftruncate64(int file, off64_t length) {
    return ftruncate(file, length);
}

/* An opening that empties a file that has something is an event too. */
static int open_at(int at, const char *name, int flags, mode_t mode) {
    if (boot && strcmp(name, "/proc/sys/kernel/random/boot_id") == 0) name = boot;
    struct stat s;
    if (trace < 0 || !(flags & O_TRUNC) || fstatat(at, name, &s, 0) != 0 || !S_ISREG(s.st_mode) || s.st_size == 0)
        return syscall(SYS_openat, at, name, flags, mode);
    struct key key = key_of(at, name);
    begins("length %llu:%llu 0", key.inode, key.birth);
    return ended(syscall(SYS_openat, at, name, flags, mode));
}

#define MODE(flags) \
    va_list list; \
    va_start(list, flags); \
    mode_t mode = (flags) & (O_CREAT | __O_TMPFILE) ? va_arg(list, mode_t) : 0; \
    va_end(list)

int open(const char *name, int flags, ...) {
    MODE(flags);
    return open_at(AT_FDCWD, name, flags, mode);
}

int open64(const char *name, int flags, ...) {
    MODE(flags);
    return open_at(AT_FDCWD, name, flags, mode);
}

int openat(int at, const char *name, int flags, ...) {
    MODE(flags);
    return open_at(at, name, flags, mode);
}

int openat64(int at, const char *name, int flags, ...) {
    MODE(flags);
    return open_at(at, name, flags, mode);
}
