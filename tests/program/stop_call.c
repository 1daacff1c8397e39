/* Loaded before the C library, this counts the calls of a program on the two files of a desk: reads and writes at an
 * offset, changes of a length, and syncs. STOP_DESK is the path of the desk, beside which its log is. At the call whose
 * number is in STOP_AT it does what STOP_WAY says:
 *
 *   kill     ends the process by signal 9 before the call
 *   half     has half of a write done, and ends the process after it
 *   once     has the call fail, by the error whose number is in STOP_ERROR
 *   forever  has it fail so, and each later one; but a read needs no room on the disk
 *
 * STOP_RECORD is a file to which each of these calls is added once it was done, with the bytes of a write; and a sync
 * that failed; and the bytes that go to standard output or to a peer; and that a stop was reached. */
#define _GNU_SOURCE
#include <errno.h>
#include <fcntl.h>
#include <signal.h>
#include <stdint.h>
#include <stdio.h>
#include <stdlib.h>
#include <string.h>
#include <sys/stat.h>
#include <sys/syscall.h>
#include <unistd.h>

/* What becomes of a call. */
enum fate { DONE, FAILED, HALVED };

static int has_begun;
static long stop_at, count;
static int error, record;
static const char *way, *desk;

static const char *value_of(const char *name, const char *otherwise)
{
    const char *value = getenv(name);
    return value ? value : otherwise;
}

static void begin(void)
{
    if (has_begun)
        return;
    has_begun = 1;
    stop_at = atol(value_of("STOP_AT", "0"));
    way = value_of("STOP_WAY", "");
    error = atoi(value_of("STOP_ERROR", "0"));
    desk = value_of("STOP_DESK", "");
    record = open(value_of("STOP_RECORD", "/dev/null"), O_WRONLY | O_CREAT | O_APPEND | O_CLOEXEC, 0600);
}

/* D for the desk, L for its log, or 0. */
static char file_of(int descriptor)
{
    char link[64], path[4096];
    begin();
    snprintf(link, sizeof link, "/proc/self/fd/%d", descriptor);
    ssize_t length = readlink(link, path, sizeof path - 1);
    size_t end = strlen(desk);
    if (length < 0 || (size_t)length < end || strncmp(path, desk, end) != 0)
        return 0;
    path[length] = 0;
    if (path[end] == 0)
        return 'D';
    return strcmp(path + end, "-wal") == 0 ? 'L' : 0;
}

/* Adds an entry to the record. Where there are bytes, they follow it. */
static void add(char kind, char file, uint64_t offset, uint64_t length, const void *bytes)
{
    char entry[18] = {kind, file};
    memcpy(entry + 2, &offset, 8);
    memcpy(entry + 10, &length, 8);
    if (syscall(SYS_write, record, entry, sizeof entry) != (long)sizeof entry)
        _exit(99);
    if (bytes && syscall(SYS_write, record, bytes, length) != (long)length)
        _exit(99);
}

static void end(void)
{
    kill(getpid(), SIGKILL);
    for (;;)
        pause();
}

/* Counts a call, and decides on it. */
static enum fate count_call(char kind, char file)
{
    ++count;
    int is_here = count == stop_at;
    int is_later = stop_at > 0 && count > stop_at && strcmp(way, "forever") == 0;
    if (!is_here && !is_later)
        return DONE;
    if (is_here)
        add('x', file, count, 0, NULL);
    if (strcmp(way, "half") == 0 && kind == 'w')
        return HALVED;
    if (strcmp(way, "kill") == 0 || strcmp(way, "half") == 0)
        end();
    if (kind == 'r' && error == ENOSPC)
        return DONE;
    errno = error;
    return FAILED;
}

static ssize_t put(int descriptor, const void *bytes, size_t length, off_t offset)
{
    char file = file_of(descriptor);
    enum fate fate = file ? count_call('w', file) : DONE;
    if (fate == FAILED)
        return -1;
    ssize_t taken = syscall(SYS_pwrite64, descriptor, bytes, fate == HALVED ? length / 2 : length, offset);
    if (fate == HALVED)
        end();
    if (file && taken > 0)
        add('w', file, offset, taken, bytes);
    return taken;
}

static ssize_t take(int descriptor, void *bytes, size_t length, off_t offset)
{
    char file = file_of(descriptor);
    if (file && count_call('r', file) == FAILED)
        return -1;
    ssize_t taken = syscall(SYS_pread64, descriptor, bytes, length, offset);
    if (file && taken >= 0)
        add('r', file, offset, taken, NULL);
    return taken;
}

static int cut(int descriptor, off_t length)
{
    char file = file_of(descriptor);
    if (file && count_call('l', file) == FAILED)
        return -1;
    int status = syscall(SYS_ftruncate, descriptor, length);
    if (file && status == 0)
        add('l', file, 0, length, NULL);
    return status;
}

static int flush(long number, int descriptor)
{
    char file = file_of(descriptor);
    if (file && count_call('s', file) == FAILED) {
        add('f', file, 0, 0, NULL);
        return -1;
    }
    int status = syscall(number, descriptor);
    if (file && status == 0)
        add('s', file, 0, 0, NULL);
    return status;
}

/* Adds what was said on standard output or to a peer. */
static ssize_t said(int descriptor, const void *bytes, ssize_t taken)
{
    struct stat about;
    if (taken > 0 && (descriptor == 1 || (fstat(descriptor, &about) == 0 && S_ISSOCK(about.st_mode)))) {
        begin();
        add('a', '-', 0, taken, bytes);
    }
    return taken;
}

ssize_t write(int descriptor, const void *bytes, size_t length)
{
    return said(descriptor, bytes, syscall(SYS_write, descriptor, bytes, length));
}

ssize_t send(int descriptor, const void *bytes, size_t length, int flags)
{
    return said(descriptor, bytes, syscall(SYS_sendto, descriptor, bytes, length, flags, NULL, 0));
}

ssize_t pwrite(int descriptor, const void *bytes, size_t length, off_t offset)
{
    return put(descriptor, bytes, length, offset);
}

ssize_t pwrite64(int descriptor, const void *bytes, size_t length, off_t offset)
{
    return put(descriptor, bytes, length, offset);
}

ssize_t pread(int descriptor, void *bytes, size_t length, off_t offset)
{
    return take(descriptor, bytes, length, offset);
}

ssize_t pread64(int descriptor, void *bytes, size_t length, off_t offset)
{
    return take(descriptor, bytes, length, offset);
}

int ftruncate(int descriptor, off_t length)
{
    return cut(descriptor, length);
}

int ftruncate64(int descriptor, off_t length)
{
    return cut(descriptor, length);
}

int fsync(int descriptor)
{
    return flush(SYS_fsync, descriptor);
}

int fdatasync(int descriptor)
{
    return flush(SYS_fdatasync, descriptor);
}
