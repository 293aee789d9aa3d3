/* A preloaded library that interrupts a program at one of its calls on files of a folder.
 *
 *   INTERRUPT_FOLDER=DIR      calls on files of this folder, and below it, count; others are left alone
 *   INTERRUPT_AT=K            the Kth such call is interrupted, counted from 1; 0: none is
 *   INTERRUPT_HOW=before      the process is killed, and the call is not made
 *                 middle      half of what is to be written is, and the process is killed; else as behind
 *                 behind      the call is made, and the process is killed
 *                 ENOSPC|EIO  the call is not made and fails so, after a while; the process goes on
 *                 held        a sync is not made and does not return; others go on, and the process is killed behind
 *                             the next sync that is made, or after five seconds
 *   INTERRUPT_SHADOW=DIR      for a loss of power, what a sync made durable is kept here:
 *                               file-INODE      the bytes of a file as they were when it was synced
 *                               folder-INODE    a line `INODE NAME` for each entry of a folder when that was synced
 *   INTERRUPT_FORGETS=1       of files nothing is kept there, as if they had never been synced
 *   INTERRUPT_LOG=FILE        a line `K CALL PATH` for the call that was interrupted; with INTERRUPT_AT=0 for each
 *
 * Calls that count: write, pwrite, writev, pwritev, fsync, fdatasync, ftruncate, fallocate, posix_fallocate, rename,
 * unlink, link, and open with O_CREAT. Any number of threads may call: one call is made at a time.
 * Build: cc -shared -fPIC -o interrupt_files.so interrupt_files.c
 */
#define _GNU_SOURCE
#include <dirent.h>
#include <errno.h>
#include <fcntl.h>
#include <limits.h>
#include <pthread.h>
#include <signal.h>
#include <stdarg.h>
#include <stdio.h>
#include <stdlib.h>
#include <string.h>
#include <sys/stat.h>
#include <sys/syscall.h>
#include <sys/types.h>
#include <sys/uio.h>
#include <unistd.h>

/* In microseconds: what does not wait for a call that fails goes on meanwhile. */
#define FAULT_AFTER 100000

enum how { BEFORE, MIDDLE, BEHIND, FAIL, HELD };

static char folder[PATH_MAX], shadow[PATH_MAX];
static size_t folder_length;
static const char *log_path;
static long at, calls;
static enum how how;
static int fault, forgets, is_held;
static pthread_mutex_t one_at_a_time = PTHREAD_MUTEX_INITIALIZER;

__attribute__((constructor)) static void read_orders(void)
{
    const char *name = getenv("INTERRUPT_FOLDER"), *text = getenv("INTERRUPT_HOW"), *kept = getenv("INTERRUPT_SHADOW");
    if (!name || !realpath(name, folder))
        return;
    folder_length = strlen(folder);
    at = atol(getenv("INTERRUPT_AT") ? getenv("INTERRUPT_AT") : "0");
    log_path = getenv("INTERRUPT_LOG");
    forgets = getenv("INTERRUPT_FORGETS") != NULL;
    if (kept)
        snprintf(shadow, sizeof shadow, "%s", kept);
    how = !text || !strcmp(text, "before") ? BEFORE : !strcmp(text, "middle") ? MIDDLE : !strcmp(text, "behind") ? BEHIND
        : !strcmp(text, "held") ? HELD : FAIL;
    fault = text && !strcmp(text, "EIO") ? EIO : ENOSPC;
}

/* Whether the path is of the folder. */
static int is_inside(const char *path)
{
    return folder_length && !strncmp(path, folder, folder_length) && (path[folder_length] == '/' || !path[folder_length]);
}

/* The path of an open file, or an empty one. */
static char *path_of(int file, char *path)
{
    char link[64];
    snprintf(link, sizeof link, "/proc/self/fd/%d", file);
    ssize_t length = folder_length ? readlink(link, path, PATH_MAX - 1) : -1;
    path[length < 0 ? 0 : length] = 0;
    return path;
}

static void note(const char *name, const char *path)
{
    char line[PATH_MAX + 64];
    int length = snprintf(line, sizeof line, "%ld %s %s\n", calls, name, path + folder_length);
    int file = log_path ? (int)syscall(SYS_openat, AT_FDCWD, log_path, O_WRONLY | O_CREAT | O_APPEND, 0644) : -1;
    if (file >= 0) {
        syscall(SYS_write, file, line, length);
        syscall(SYS_close, file);
    }
}

static void end(void)
{
    for (;;)
        syscall(SYS_kill, getpid(), SIGKILL);
}

/* Counts a call, under the lock. Whether it is the one that is interrupted. */
static int begins(const char *name, const char *path)
{
    calls++;
    if (calls == at || !at)
        note(name, path);
    if (calls != at)
        return 0;
    if (how == BEFORE)
        end();
    return 1;
}

/* Behind a call, or in its place where it fails; the caller unlocks. */
static long ends(int is_interrupted, long result)
{
    if (is_interrupted && how != FAIL)
        end();
    return result;
}

static int fails(int is_interrupted)
{
    if (!is_interrupted || how != FAIL)
        return 0;
    usleep(FAULT_AFTER);
    errno = fault;
    return 1;
}

/* Copies a file as it is now, under a name that the shadow gives it once it is whole. */
static void keep_file(int file, ino_t inode)
{
    char path[64], draft[PATH_MAX + 64], name[PATH_MAX + 64], bytes[65536];
    snprintf(path, sizeof path, "/proc/self/fd/%d", file);
    snprintf(draft, sizeof draft, "%s/draft", shadow);
    snprintf(name, sizeof name, "%s/file-%lu", shadow, (unsigned long)inode);
    int from = (int)syscall(SYS_openat, AT_FDCWD, path, O_RDONLY, 0);
    int to = (int)syscall(SYS_openat, AT_FDCWD, draft, O_WRONLY | O_CREAT | O_TRUNC, 0644);
    long length;
    while ((length = syscall(SYS_read, from, bytes, sizeof bytes)) > 0)
        syscall(SYS_write, to, bytes, length);
    syscall(SYS_close, from);
    syscall(SYS_close, to);
    syscall(SYS_renameat2, AT_FDCWD, draft, AT_FDCWD, name, 0);
}

/* Lists a folder as it is now. */
static void keep_folder(const char *path, ino_t inode)
{
    char draft[PATH_MAX + 64], name[PATH_MAX + 64], line[NAME_MAX + 64];
    snprintf(draft, sizeof draft, "%s/draft", shadow);
    snprintf(name, sizeof name, "%s/folder-%lu", shadow, (unsigned long)inode);
    int to = (int)syscall(SYS_openat, AT_FDCWD, draft, O_WRONLY | O_CREAT | O_TRUNC, 0644);
    DIR *entries = opendir(path);
    struct dirent *entry;
    while (entries && (entry = readdir(entries)))
        if (strcmp(entry->d_name, ".") && strcmp(entry->d_name, ".."))
            syscall(SYS_write, to, line, snprintf(line, sizeof line, "%lu %s\n", (unsigned long)entry->d_ino, entry->d_name));
    if (entries)
        closedir(entries);
    syscall(SYS_close, to);
    syscall(SYS_renameat2, AT_FDCWD, draft, AT_FDCWD, name, 0);
}

/* What a sync made durable. */
static void keep(int file, const char *path)
{
    struct stat about;
    if (!*shadow || fstat(file, &about))
        return;
    if (S_ISDIR(about.st_mode))
        keep_folder(path, about.st_ino);
    else if (!forgets)
        keep_file(file, about.st_ino);
}

/* A new file has no durable bytes, also where it has the number of one that was deleted. */
static void forget(int file)
{
    char name[PATH_MAX + 64];
    struct stat about;
    if (!*shadow || fstat(file, &about))
        return;
    snprintf(name, sizeof name, "%s/file-%lu", shadow, (unsigned long)about.st_ino);
    syscall(SYS_unlinkat, AT_FDCWD, name, 0);
}

ssize_t pwrite(int file, const void *bytes, size_t count, off_t from)
{
    char path[PATH_MAX];
    if (!is_inside(path_of(file, path)))
        return syscall(SYS_pwrite64, file, bytes, count, from);
    pthread_mutex_lock(&one_at_a_time);
    int interrupted = begins("pwrite", path);
    long done = -1;
    if (!fails(interrupted))
        done = ends(interrupted, syscall(SYS_pwrite64, file, bytes, interrupted && how == MIDDLE ? count / 2 : count, from));
    pthread_mutex_unlock(&one_at_a_time);
    return done;
}

ssize_t pwrite64(int file, const void *bytes, size_t count, off64_t from)
{
    return pwrite(file, bytes, count, from);
}

ssize_t write(int file, const void *bytes, size_t count)
{
    char path[PATH_MAX];
    if (!is_inside(path_of(file, path)))
        return syscall(SYS_write, file, bytes, count);
    pthread_mutex_lock(&one_at_a_time);
    int interrupted = begins("write", path);
    long done = -1;
    if (!fails(interrupted))
        done = ends(interrupted, syscall(SYS_write, file, bytes, interrupted && how == MIDDLE ? count / 2 : count));
    pthread_mutex_unlock(&one_at_a_time);
    return done;
}

/* Half of several pieces is the first half of the pieces. */
ssize_t writev(int file, const struct iovec *pieces, int count)
{
    char path[PATH_MAX];
    if (!is_inside(path_of(file, path)))
        return syscall(SYS_writev, file, pieces, count);
    pthread_mutex_lock(&one_at_a_time);
    int interrupted = begins("writev", path);
    long done = -1;
    if (!fails(interrupted))
        done = ends(interrupted, syscall(SYS_writev, file, pieces, interrupted && how == MIDDLE ? count / 2 : count));
    pthread_mutex_unlock(&one_at_a_time);
    return done;
}

/* Leaves the lock to others, which end the process behind the next sync. */
static void hold_back(void)
{
    is_held = 1;
    pthread_mutex_unlock(&one_at_a_time);
    sleep(5);
    end();
}

static int synced(const char *name, long number, int file)
{
    char path[PATH_MAX];
    if (!is_inside(path_of(file, path)))
        return (int)syscall(number, file);
    pthread_mutex_lock(&one_at_a_time);
    int interrupted = begins(name, path);
    long done = -1;
    if (interrupted && how == HELD)
        hold_back();
    if (!fails(interrupted)) {
        done = syscall(number, file);
        keep(file, path);
        ends(interrupted || is_held, done);
    }
    pthread_mutex_unlock(&one_at_a_time);
    return (int)done;
}

int fsync(int file)
{
    return synced("fsync", SYS_fsync, file);
}

int fdatasync(int file)
{
    return synced("fdatasync", SYS_fdatasync, file);
}

int ftruncate(int file, off_t length)
{
    char path[PATH_MAX];
    if (!is_inside(path_of(file, path)))
        return (int)syscall(SYS_ftruncate, file, length);
    pthread_mutex_lock(&one_at_a_time);
    int interrupted = begins("ftruncate", path);
    long done = fails(interrupted) ? -1 : ends(interrupted, syscall(SYS_ftruncate, file, length));
    pthread_mutex_unlock(&one_at_a_time);
    return (int)done;
}

int ftruncate64(int file, off64_t length)
{
    return ftruncate(file, length);
}

int fallocate(int file, int mode, off_t from, off_t length)
{
    char path[PATH_MAX];
    if (!is_inside(path_of(file, path)))
        return (int)syscall(SYS_fallocate, file, mode, from, length);
    pthread_mutex_lock(&one_at_a_time);
    int interrupted = begins("fallocate", path);
    long done = fails(interrupted) ? -1 : ends(interrupted, syscall(SYS_fallocate, file, mode, from, length));
    pthread_mutex_unlock(&one_at_a_time);
    return (int)done;
}

int fallocate64(int file, int mode, off64_t from, off64_t length)
{
    return fallocate(file, mode, from, length);
}

/* Its faults are returned. */
int posix_fallocate(int file, off_t from, off_t length)
{
    return fallocate(file, 0, from, length) ? errno : 0;
}

int posix_fallocate64(int file, off64_t from, off64_t length)
{
    return posix_fallocate(file, from, length);
}

/* A call on names: the path as it is in the folder, or as it was given. */
static const char *whole(const char *path, char *real)
{
    char *last = strrchr(path, '/');
    if (!folder_length || !last)
        return path;
    char parent[PATH_MAX], resolved[PATH_MAX];
    snprintf(parent, sizeof parent, "%.*s", (int)(last - path), path);
    if (!realpath(*parent ? parent : "/", resolved) || snprintf(real, PATH_MAX, "%s%s", resolved, last) >= PATH_MAX)
        return path;
    return real;
}

/* Keeps what goes from a folder open, so that no new file gets its number while the folder's sync may name it. */
static void hold(const char *path)
{
    if (*shadow)
        syscall(SYS_openat, AT_FDCWD, path, O_RDONLY | O_CLOEXEC, 0);
}

static int named(const char *name, const char *path, long number, const char *to, int flags)
{
    char real[PATH_MAX];
    const char *known = whole(to ? to : path, real);
    int is_ours = is_inside(known), interrupted = 0;
    if (is_ours) {
        pthread_mutex_lock(&one_at_a_time);
        interrupted = begins(name, known);
        hold(known);
    }
    long done = -1;
    if (!fails(interrupted)) {
        if (to)
            done = syscall(number, AT_FDCWD, path, AT_FDCWD, to, flags);
        else
            done = syscall(number, AT_FDCWD, path, flags);
        ends(interrupted, done);
    }
    if (is_ours)
        pthread_mutex_unlock(&one_at_a_time);
    return (int)done;
}

int rename(const char *from, const char *to)
{
    return named("rename", from, SYS_renameat2, to, 0);
}

int link(const char *from, const char *to)
{
    return named("link", from, SYS_linkat, to, 0);
}

int unlink(const char *path)
{
    return named("unlink", path, SYS_unlinkat, NULL, 0);
}

static int opened(const char *path, int flags, mode_t mode)
{
    char real[PATH_MAX];
    const char *known = flags & O_CREAT ? whole(path, real) : path;
    if (!(flags & O_CREAT) || !is_inside(known))
        return (int)syscall(SYS_openat, AT_FDCWD, path, flags, mode);
    pthread_mutex_lock(&one_at_a_time);
    int is_new = access(path, F_OK) != 0;
    int interrupted = begins("open", known);
    long file = -1;
    if (!fails(interrupted)) {
        file = syscall(SYS_openat, AT_FDCWD, path, flags, mode);
        if (is_new && file >= 0)
            forget((int)file);
        ends(interrupted, file);
    }
    pthread_mutex_unlock(&one_at_a_time);
    return (int)file;
}

static mode_t mode_of(int flags, va_list more)
{
    return flags & (O_CREAT | O_TMPFILE) ? va_arg(more, mode_t) : 0;
}

int open(const char *path, int flags, ...)
{
    va_list more;
    va_start(more, flags);
    mode_t mode = mode_of(flags, more);
    va_end(more);
    return opened(path, flags, mode);
}

int open64(const char *path, int flags, ...)
{
    va_list more;
    va_start(more, flags);
    mode_t mode = mode_of(flags, more);
    va_end(more);
    return opened(path, flags, mode);
}
