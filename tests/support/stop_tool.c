/* Loaded before the C library, this counts what a tool in Python does to files and to other processes: writes, syncs,
 * changes of a length, renames, links, and starts of a program. At the one whose number is in STOP_AT the tool is ended
 * by signal 9, as STOP_WAY says:
 *
 *   before   before it is done
 *   half     behind half of a write
 *   behind   once it was done; a program that was started goes on alone
 *
 * STOP_RECORD is a file that gets a letter for each of them: w for a write to a file, p for one to a pipe or the like, s
 * for a sync, t for a change of a length, n and l for a rename and a link, x for a start. The letter is a capital where
 * it all happens in a private folder, .desk-*, that nobody else looks at. The programs that the tool starts are let be.
 * If STOP_REMOVALS is set, the removal of a file is a step too, u.
 */
#define _GNU_SOURCE
#include <dlfcn.h>
#include <fcntl.h>
#include <signal.h>
#include <stdio.h>
#include <stdlib.h>
#include <string.h>
#include <sys/mman.h>
#include <sys/stat.h>
#include <sys/syscall.h>
#include <unistd.h>

#define MOST_STEPS 4096

static int has_begun, is_tool, counts_removals;
static pid_t tool;
static long wanted, count;
/* The letters, which a child can write when its descriptors are closed. */
static char *record;
static const char *way;

static const char *value_of(const char *name)
{
    const char *value = getenv(name);
    return value ? value : "";
}

static void begin(void)
{
    char path[4096];
    if (has_begun)
        return;
    has_begun = 1;
    ssize_t length = readlink("/proc/self/exe", path, sizeof path - 1);
    path[length < 0 ? 0 : length] = 0;
    is_tool = strstr(path, "python") != NULL;
    wanted = atol(value_of("STOP_AT"));
    way = value_of("STOP_WAY");
    counts_removals = getenv("STOP_REMOVALS") != NULL;
    tool = getpid();
    if (!is_tool)
        return;
    int file = open(value_of("STOP_RECORD"), O_RDWR | O_CREAT | O_CLOEXEC, 0600);
    record = mmap(NULL, MOST_STEPS, PROT_READ | PROT_WRITE, MAP_SHARED, file, 0);
    if (ftruncate(file, MOST_STEPS) != 0 || record == MAP_FAILED)
        _exit(99);
    close(file);
}

static void end(void)
{
    kill(tool, SIGKILL);
    /* A child has yet to start its program, and does not. */
    if (getpid() != tool)
        _exit(0);
    for (;;)
        pause();
}

static int is_private(const char *path)
{
    return path && strstr(path, "/.desk-") != NULL;
}

static int is_private_file(int descriptor)
{
    char link[64], path[4096];
    snprintf(link, sizeof link, "/proc/self/fd/%d", descriptor);
    ssize_t length = readlink(link, path, sizeof path - 1);
    path[length < 0 ? 0 : length] = 0;
    return is_private(path);
}

/* Counts a step of this kind, and says whether the tool is to end at it, and how. */
static char reached(char kind, int is_alone)
{
    begin();
    if (!is_tool || (kind == 'u' && !counts_removals))
        return 0;
    if (count >= MOST_STEPS)
        _exit(99);
    record[count++] = is_alone ? kind - 'a' + 'A' : kind;
    if (count != wanted)
        return 0;
    if (strcmp(way, "before") == 0)
        end();
    return way[0];
}

ssize_t write(int descriptor, const void *bytes, size_t length)
{
    struct stat about;
    int is_file = fstat(descriptor, &about) == 0 && S_ISREG(about.st_mode);
    char how = reached(is_file ? 'w' : 'p', is_private_file(descriptor));
    ssize_t taken = syscall(SYS_write, descriptor, bytes, how == 'h' ? length / 2 : length);
    if (how)
        end();
    return taken;
}

/* Does a call of the C library that gives a status. */
#define STEP(kind, name, words, given, is_alone)            \
    int name words                                          \
    {                                                       \
        static int(*next) words;                            \
        if (!next)                                          \
            next = (int(*) words)dlsym(RTLD_NEXT, #name);   \
        char how = reached(kind, is_alone);                 \
        int status = next given;                            \
        if (how)                                            \
            end();                                          \
        return status;                                      \
    }

STEP('s', fsync, (int file), (file), is_private_file(file))
STEP('s', fdatasync, (int file), (file), is_private_file(file))
STEP('t', ftruncate64, (int file, off64_t length), (file, length), is_private_file(file))
STEP('n', rename, (const char *from, const char *to), (from, to), is_private(to))
STEP('n', renameat, (int in, const char *from, int to_in, const char *to), (in, from, to_in, to),
     is_private(to) || is_private_file(to_in))
STEP('l', link, (const char *from, const char *to), (from, to), is_private(to))
STEP('l', linkat, (int in, const char *from, int to_in, const char *to, int flags), (in, from, to_in, to, flags),
     is_private(to) || is_private_file(to_in))
STEP('u', unlink, (const char *path), (path), is_private(path))
STEP('u', unlinkat, (int in, const char *path, int flags), (in, path, flags), is_private(path) || is_private_file(in))

/* In the child of a fork or vfork, which has the memory of the tool or a copy of it. Without an environment of its own
 * a program is started by this call. */
int execv(const char *path, char *const words[])
{
    int is_alone = 0;
    for (int word = 0; words[word]; ++word)
        is_alone |= is_private(words[word]);
    if (reached('x', is_alone))
        kill(tool, SIGKILL);
    return execve(path, words, environ);
}
