/* Notes the calls by which the program that it is loaded into (LD_PRELOAD) keeps one file and the one beside it, F.site, and
 * what it writes to its standard output; and has one of them fail, or ends the program before one.
 *
 *   ORDER_FILE=F    the file, by the very path by which the program is told of it
 *   ORDER_TRACE=T   each call is a line of the file T, below
 *   ORDER_FAIL=K    the Kth call that is counted fails
 *   ORDER_ERROR=E   by this errno (EIO); ENOSPC and EFBIG let a write put half of its bytes there before
 *   ORDER_ON=1      and each later one
 *   ORDER_SHORT=K   the Kth call, a write, puts half of its bytes there, and says so
 *   ORDER_STOP=K    right before the Kth call signal 9 ends the program
 *
 * Counted, and numbered in their lines, are `open FLAGS`, `lock`, `get`, `put BYTES`, `cut LENGTH` and `sync` of the file,
 * the same behind `site` of the one beside it, and `folder` (their folder opened) and `folder sync`. Not counted: `tell BYTES`
 * (standard output) and `ask` (a read of the standard input). Behind each stands `= RESULT LENGTH`: what the call gave, and how
 * long the file then is, or behind `site` the one beside it (-1: there is none).
 *
 * tests/order.py builds and uses it. */
#define _GNU_SOURCE
#include <dlfcn.h>
#include <errno.h>
#include <fcntl.h>
#include <signal.h>
#include <stdarg.h>
#include <stdio.h>
#include <stdlib.h>
#include <string.h>
#include <sys/stat.h>
#include <sys/syscall.h>
#include <sys/uio.h>
#include <unistd.h>

enum { MOST_FILES = 1024 };
enum kind { OTHER, KEPT, BESIDE, FOLDER };

static enum kind kinds[MOST_FILES];
static const char *kept;
static char folder[4096], beside[4096];
static int trace = -1, error = EIO, on;
static long calls, failing, shortened, stopping;

static long number_of(const char *name)
{
    const char *text = getenv(name);
    return text ? atol(text) : 0;
}

__attribute__((constructor)) static void begin(void)
{
    const char *path = getenv("ORDER_TRACE"), *slash;
    kept = getenv("ORDER_FILE");
    if (!kept || !path)
        return;
    slash = strrchr(kept, '/');
    snprintf(beside, sizeof beside, "%s.site", kept);
    snprintf(folder, sizeof folder, "%.*s", slash ? (int)(slash - kept) : 1, slash ? kept : ".");
    failing = number_of("ORDER_FAIL");
    shortened = number_of("ORDER_SHORT");
    stopping = number_of("ORDER_STOP");
    if (number_of("ORDER_ERROR"))
        error = (int)number_of("ORDER_ERROR");
    on = number_of("ORDER_ON") != 0;
    trace = (int)syscall(SYS_openat, AT_FDCWD, path, O_WRONLY | O_APPEND | O_CREAT, 0666);
}

static enum kind kind_of(int file)
{
    return trace >= 0 && file >= 0 && file < MOST_FILES ? kinds[file] : OTHER;
}

/* Whether the file is one of the two that are kept. */
static int is_kept(int file)
{
    return kind_of(file) == KEPT || kind_of(file) == BESIDE;
}

/* Notes a call with what it gave. */
static void note(enum kind kind, const char *call, long result)
{
    char line[200];
    struct stat found;
    int kept_errno = errno;
    long length = stat(kind == BESIDE ? beside : kept, &found) == 0 ? (long)found.st_size : -1;
    int size = snprintf(line, sizeof line, "%s = %ld %ld\n", call, result, length);
    syscall(SYS_write, trace, line, (size_t)size);
    errno = kept_errno;
}

/* Counts a call; answers whether it is to fail. */
static int is_refused(void)
{
    long call = ++calls;
    if (call == stopping)
        syscall(SYS_kill, getpid(), SIGKILL);
    if (failing && (call == failing || (on && call > failing))) {
        errno = error;
        return 1;
    }
    return 0;
}

static long noted(enum kind kind, long result, const char *form, ...)
{
    char call[100], whole[120];
    int kept_errno = errno;
    va_list rest;
    va_start(rest, form);
    vsnprintf(call, sizeof call, form, rest);
    va_end(rest);
    snprintf(whole, sizeof whole, "%ld %s%s", calls, kind == BESIDE ? "site " : "", call);
    errno = kept_errno;
    note(kind, whole, result);
    return result;
}

/* ---- files that are opened and closed */

static int open_any(int at, const char *path, int flags, unsigned mode)
{
    enum kind kind = trace < 0 || !path ? OTHER : !strcmp(path, kept) ? KEPT : !strcmp(path, beside) ? BESIDE
        : !strcmp(path, folder) ? FOLDER : OTHER;
    int refused = kind != OTHER && is_refused();
    int file = refused ? -1 : (int)syscall(SYS_openat, at, path, flags, mode);
    if (file >= 0 && file < MOST_FILES)
        kinds[file] = kind;
    if (kind == KEPT || kind == BESIDE)
        noted(kind, file, "open %s%s%s", flags & O_CREAT ? "create" : "there", flags & O_EXCL ? "-new" : "", flags & O_TRUNC ? "-empty" : "");
    if (kind == FOLDER)
        noted(kind, file, "folder");
    return file;
}

#define MODE(flags, mode)                                    \
    unsigned mode = 0;                                       \
    if ((flags) & (O_CREAT | (O_TMPFILE & ~O_DIRECTORY))) {  \
        va_list rest;                                        \
        va_start(rest, flags);                               \
        mode = va_arg(rest, unsigned);                       \
        va_end(rest);                                        \
    }

int open(const char *path, int flags, ...) { MODE(flags, mode) return open_any(AT_FDCWD, path, flags, mode); }
int open64(const char *path, int flags, ...) { MODE(flags, mode) return open_any(AT_FDCWD, path, flags, mode); }
int openat(int at, const char *path, int flags, ...) { MODE(flags, mode) return open_any(at, path, flags, mode); }
int openat64(int at, const char *path, int flags, ...) { MODE(flags, mode) return open_any(at, path, flags, mode); }

int close(int file)
{
    if (kind_of(file) != OTHER)
        kinds[file] = OTHER;
    return (int)syscall(SYS_close, file);
}

int flock(int file, int operation)
{
    if (!is_kept(file))
        return (int)syscall(SYS_flock, file, operation);
    return (int)noted(kind_of(file), is_refused() ? -1 : syscall(SYS_flock, file, operation), "lock");
}

/* ---- what is read and written */

ssize_t read(int file, void *bytes, size_t size)
{
    if (is_kept(file))
        return noted(kind_of(file), is_refused() ? -1 : syscall(SYS_read, file, bytes, size), "get");
    ssize_t result = syscall(SYS_read, file, bytes, size);
    if (file == 0 && trace >= 0)
        note(OTHER, "- ask", result);
    return result;
}

static ssize_t put(int file, const void *bytes, size_t size)
{
    size_t half = size / 2;
    if (is_refused()) {
        if (half && (error == ENOSPC || error == EFBIG))
            syscall(SYS_write, file, bytes, half);
        errno = error;
        return noted(kind_of(file), -1, "put %zu", size);
    }
    return noted(kind_of(file), syscall(SYS_write, file, bytes, calls == shortened && half ? half : size), "put %zu", size);
}

ssize_t write(int file, const void *bytes, size_t size)
{
    if (is_kept(file))
        return put(file, bytes, size);
    ssize_t result = syscall(SYS_write, file, bytes, size);
    if (file == 1 && trace >= 0) {
        char call[60];
        snprintf(call, sizeof call, "- tell %zu", size);
        note(OTHER, call, result);
    }
    return result;
}

ssize_t writev(int file, const struct iovec *parts, int count)
{
    if (trace < 0 || (!is_kept(file) && file != 1))
        return syscall(SYS_writev, file, parts, count);
    ssize_t whole = 0;
    for (int k = 0; k < count; k++) {
        ssize_t done = write(file, parts[k].iov_base, parts[k].iov_len);
        if (done < 0)
            return whole ? whole : done;
        whole += done;
        if ((size_t)done < parts[k].iov_len)
            break;
    }
    return whole;
}

/* The file is written where it stands: at its end, or at the digit of its version. A call that names a place is told, and the
 * test refuses it. */
ssize_t pwrite(int file, const void *bytes, size_t size, off_t place)
{
    if (is_kept(file))
        noted(kind_of(file), -1, "put elsewhere");
    return syscall(SYS_pwrite64, file, bytes, size, place);
}

ssize_t pwrite64(int file, const void *bytes, size_t size, off_t place) { return pwrite(file, bytes, size, place); }

static int cut(int file, off_t length)
{
    if (!is_kept(file))
        return (int)syscall(SYS_ftruncate, file, length);
    return (int)noted(kind_of(file), is_refused() ? -1 : syscall(SYS_ftruncate, file, length), "cut %ld", (long)length);
}

int ftruncate(int file, off_t length) { return cut(file, length); }
int ftruncate64(int file, off_t length) { return cut(file, length); }

static int sync_any(long call, int file)
{
    enum kind kind = kind_of(file);
    if (kind == OTHER)
        return (int)syscall(call, file);
    return (int)noted(kind, is_refused() ? -1 : syscall(call, file), kind == FOLDER ? "folder sync" : "sync");
}

int fsync(int file) { return sync_any(SYS_fsync, file); }
int fdatasync(int file) { return sync_any(SYS_fdatasync, file); }
