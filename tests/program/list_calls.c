/* Loaded before the C library, this lists what a program opens, makes, takes away and listens on. LIST_RECORD is a file to
 * which a line is added for each such call, before it is made:
 *
 *   open PATH      a file that is there is opened
 *   make MODE PATH a file is opened that is made where there is none, and there is none, with this mode, in octal
 *   bind ADDRESS   a socket gets this address
 *   call NAME PATH one of the other calls that change what is under a name, or its mode
 */
#define _GNU_SOURCE
#include <arpa/inet.h>
#include <errno.h>
#include <fcntl.h>
#include <netinet/in.h>
#include <stdarg.h>
#include <stdio.h>
#include <stdlib.h>
#include <string.h>
#include <sys/socket.h>
#include <sys/stat.h>
#include <sys/syscall.h>
#include <unistd.h>

/* Adds a line to the record, whole. */
static void add(const char *form, ...)
{
    char line[8192];
    va_list values;
    va_start(values, form);
    int length = vsnprintf(line, sizeof line, form, values);
    va_end(values);
    const char *name = getenv("LIST_RECORD");
    int record = syscall(SYS_openat, AT_FDCWD, name ? name : "/dev/null", O_WRONLY | O_CREAT | O_APPEND | O_CLOEXEC, 0600);
    if (length < 0 || length >= (int)sizeof line || record < 0 || syscall(SYS_write, record, line, length) != length)
        _exit(99);
    syscall(SYS_close, record);
}

static int open_at(int folder, const char *path, int flags, mode_t mode)
{
    struct stat about;
    int error = errno;
    if ((flags & O_CREAT) && fstatat(folder, path, &about, 0) != 0)
        add("make %04o %s\n", (unsigned)mode, path);
    else
        add("open %s\n", path);
    errno = error;
    return syscall(SYS_openat, folder, path, flags, mode);
}

#define MODE_OF(flags)                                                                                                 \
    mode_t mode = 0;                                                                                                   \
    if ((flags) & (O_CREAT | __O_TMPFILE)) {                                                                           \
        va_list values;                                                                                                \
        va_start(values, flags);                                                                                       \
        mode = va_arg(values, mode_t);                                                                                 \
        va_end(values);                                                                                                \
    }

int open(const char *path, int flags, ...)
{
    MODE_OF(flags)
    return open_at(AT_FDCWD, path, flags, mode);
}

int open64(const char *path, int flags, ...)
{
    MODE_OF(flags)
    return open_at(AT_FDCWD, path, flags | O_LARGEFILE, mode);
}

int openat(int folder, const char *path, int flags, ...)
{
    MODE_OF(flags)
    return open_at(folder, path, flags, mode);
}

int openat64(int folder, const char *path, int flags, ...)
{
    MODE_OF(flags)
    return open_at(folder, path, flags | O_LARGEFILE, mode);
}

int creat(const char *path, mode_t mode)
{
    return open_at(AT_FDCWD, path, O_CREAT | O_WRONLY | O_TRUNC, mode);
}

int creat64(const char *path, mode_t mode)
{
    return creat(path, mode);
}

int bind(int descriptor, const struct sockaddr *address, socklen_t length)
{
    char text[INET6_ADDRSTRLEN] = "another family";
    if (address->sa_family == AF_INET)
        inet_ntop(AF_INET, &((const struct sockaddr_in *)address)->sin_addr, text, sizeof text);
    if (address->sa_family == AF_INET6)
        inet_ntop(AF_INET6, &((const struct sockaddr_in6 *)address)->sin6_addr, text, sizeof text);
    add("bind %s\n", text);
    return syscall(SYS_bind, descriptor, address, length);
}

int connect(int descriptor, const struct sockaddr *address, socklen_t length)
{
    add("call connect -\n");
    return syscall(SYS_connect, descriptor, address, length);
}

int chmod(const char *path, mode_t mode)
{
    add("call chmod %s\n", path);
    return syscall(SYS_fchmodat, AT_FDCWD, path, mode);
}

int fchmod(int descriptor, mode_t mode)
{
    add("call fchmod -\n");
    return syscall(SYS_fchmod, descriptor, mode);
}

int unlink(const char *path)
{
    add("call unlink %s\n", path);
    return syscall(SYS_unlinkat, AT_FDCWD, path, 0);
}

int rename(const char *from, const char *to)
{
    add("call rename %s\n", from);
    return syscall(SYS_renameat2, AT_FDCWD, from, AT_FDCWD, to, 0);
}

int link(const char *from, const char *to)
{
    add("call link %s\n", from);
    return syscall(SYS_linkat, AT_FDCWD, from, AT_FDCWD, to, 0);
}

int symlink(const char *from, const char *to)
{
    add("call symlink %s\n", to);
    return syscall(SYS_symlinkat, from, AT_FDCWD, to);
}

int truncate(const char *path, off_t length)
{
    add("call truncate %s\n", path);
    return syscall(SYS_truncate, path, length);
}
