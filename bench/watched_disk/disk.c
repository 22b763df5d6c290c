// Stands between a program and its disk, preloaded (LD_PRELOAD): it slows syncs, lets one fail, and records what reaches the files and what leaves the program.
//
//     DISK_FILES=season.db   the files are those whose names begin with this, and the folders that they are in
//     DISK_SLOW_US=5000      each sync takes so many microseconds longer
//     DISK_FAILS=N           the N-th sync does nothing and fails with EIO; the count begins with 1
//     DISK_RECORD=FILE       each operation is appended to this file, in the order in which the operations ended
//
// A record has a kind, a file, an offset, a count and a result, and then the bytes:
//
//     O open or made (flags in offset, the name in the bytes)     W write     T length set     U name removed     M name moved (both names, with a zero between)
//     B sync begun     E sync ended                               S bytes that leave the program, recorded before they do (the file is the descriptor)
//
// A file is a number that stays the same until its name is removed: that of its inode. A folder is O with a name that ends with a slash.
#define _GNU_SOURCE
#include <dlfcn.h>
#include <errno.h>
#include <fcntl.h>
#include <pthread.h>
#include <stdarg.h>
#include <stdint.h>
#include <stdio.h>
#include <stdlib.h>
#include <string.h>
#include <sys/socket.h>
#include <sys/stat.h>
#include <sys/syscall.h>
#include <sys/uio.h>
#include <time.h>
#include <unistd.h>

#define MOST 4096
#define REAL(name) ((__typeof__(&name))real_of(#name))

static pthread_mutex_t turn = PTHREAD_MUTEX_INITIALIZER;
static uint64_t file_of[MOST];
static int record = -1, is_ready;
static long slow_us, fails_at, syncs;
static const char *wanted;

static void *real_of(const char *name) { return dlsym(RTLD_NEXT, name); }

static long number(const char *name) {
    const char *text = getenv(name);
    return text ? atol(text) : 0;
}

static void prepare(void) {
    if (is_ready) return;
    is_ready = 1;
    wanted = getenv("DISK_FILES");
    slow_us = number("DISK_SLOW_US");
    fails_at = number("DISK_FAILS");
    const char *to = getenv("DISK_RECORD");
    if (to) record = syscall(SYS_openat, AT_FDCWD, to, O_WRONLY | O_CREAT | O_APPEND | O_CLOEXEC, 0644);
}

static void put(char kind, uint64_t file, uint64_t offset, uint64_t count, int64_t result, const void *bytes, uint64_t length) {
    if (record < 0) return;
    uint64_t head[6] = {kind, file, offset, count, result, length};
    struct iovec parts[2] = {{head, sizeof head}, {(void *)bytes, length}};
    if (syscall(SYS_writev, record, parts, 2) != (long)(sizeof head + length)) abort();
}

static uint64_t known(int fd) { return fd >= 0 && fd < MOST ? file_of[fd] : 0; }

// Returns whether a name is that of a file to watch, or of the folder of one.
static int is_wanted(const char *path, int is_folder) {
    if (!wanted) return 0;
    if (is_folder) return 1;
    const char *last = strrchr(path, '/');
    return strncmp(last ? last + 1 : path, wanted, strlen(wanted)) == 0;
}

static int opened(int fd, const char *path, int flags, int was_there) {
    struct stat it;
    if (fd < 0 || fd >= MOST) return fd;
    file_of[fd] = 0;
    if (fstat(fd, &it) || !(S_ISREG(it.st_mode) || S_ISDIR(it.st_mode)) || !is_wanted(path, S_ISDIR(it.st_mode))) return fd;
    file_of[fd] = it.st_ino;
    char name[8192];
    int length = snprintf(name, sizeof name, "%s%s", path, S_ISDIR(it.st_mode) ? "/" : "");
    put('O', it.st_ino, flags, !was_there, fd, name, length);
    return fd;
}

static int open_any(int folder, const char *path, int flags, int mode) {
    pthread_mutex_lock(&turn);
    prepare();
    int was_there = faccessat(folder, path, F_OK, 0) == 0;
    int fd = syscall(SYS_openat, folder, path, flags, mode);
    int error = errno;
    opened(fd, path, flags, was_there);
    pthread_mutex_unlock(&turn);
    errno = error;
    return fd;
}

#define MODE(flags, mode) \
    int mode = 0; \
    if ((flags) & (O_CREAT | O_TMPFILE)) { va_list rest; va_start(rest, flags); mode = va_arg(rest, int); va_end(rest); }

int open(const char *path, int flags, ...) { MODE(flags, mode) return open_any(AT_FDCWD, path, flags, mode); }
int open64(const char *path, int flags, ...) { MODE(flags, mode) return open_any(AT_FDCWD, path, flags | O_LARGEFILE, mode); }
int openat(int folder, const char *path, int flags, ...) { MODE(flags, mode) return open_any(folder, path, flags, mode); }
int openat64(int folder, const char *path, int flags, ...) { MODE(flags, mode) return open_any(folder, path, flags | O_LARGEFILE, mode); }

int close(int fd) {
    if (fd >= 0 && fd < MOST) file_of[fd] = 0;
    return REAL(close)(fd);
}

// ---- what reaches the files

static ssize_t written_at(int fd, const void *bytes, size_t count, off_t offset) {
    pthread_mutex_lock(&turn);
    ssize_t done = syscall(SYS_pwrite64, fd, bytes, count, offset);
    int error = errno;
    if (done > 0) put('W', known(fd), offset, count, done, bytes, done);
    pthread_mutex_unlock(&turn);
    errno = error;
    return done;
}

ssize_t pwrite(int fd, const void *bytes, size_t count, off_t offset) {
    return known(fd) ? written_at(fd, bytes, count, offset) : syscall(SYS_pwrite64, fd, bytes, count, offset);
}
ssize_t pwrite64(int fd, const void *bytes, size_t count, off_t offset) { return pwrite(fd, bytes, count, offset); }

int ftruncate(int fd, off_t length) {
    pthread_mutex_lock(&turn);
    int done = syscall(SYS_ftruncate, fd, length), error = errno;
    if (!done && known(fd)) put('T', known(fd), length, 0, 0, "", 0);
    pthread_mutex_unlock(&turn);
    errno = error;
    return done;
}
int ftruncate64(int fd, off_t length) { return ftruncate(fd, length); }

static int synced(int fd, long call) {
    if (!known(fd)) return syscall(call, fd);
    pthread_mutex_lock(&turn);
    long at = ++syncs;
    put('B', known(fd), at, 0, 0, "", 0);
    pthread_mutex_unlock(&turn);
    if (slow_us) {
        struct timespec more = {slow_us / 1000000, slow_us % 1000000 * 1000};
        nanosleep(&more, 0);
    }
    int done = at == fails_at ? -1 : syscall(call, fd), error = at == fails_at ? EIO : errno;
    pthread_mutex_lock(&turn);
    put('E', known(fd), at, 0, done, "", 0);
    pthread_mutex_unlock(&turn);
    errno = error;
    return done;
}

int fsync(int fd) { return synced(fd, SYS_fsync); }
int fdatasync(int fd) { return synced(fd, SYS_fdatasync); }

int unlink(const char *path) {
    pthread_mutex_lock(&turn);
    prepare();
    struct stat it;
    int is_there = is_wanted(path, 0) && stat(path, &it) == 0;
    int done = syscall(SYS_unlink, path), error = errno;
    if (!done && is_there) put('U', it.st_ino, 0, 0, 0, path, strlen(path));
    pthread_mutex_unlock(&turn);
    errno = error;
    return done;
}

int rename(const char *from, const char *to) {
    pthread_mutex_lock(&turn);
    prepare();
    int done = syscall(SYS_rename, from, to), error = errno;
    if (!done && (is_wanted(from, 0) || is_wanted(to, 0))) {
        char both[8192];
        int length = snprintf(both, sizeof both, "%s%c%s", from, 0, to);
        put('M', 0, 0, 0, 0, both, length);
    }
    pthread_mutex_unlock(&turn);
    errno = error;
    return done;
}

// ---- what leaves the program

static void said(int fd, const void *bytes, size_t count) {
    if (record < 0) return;
    pthread_mutex_lock(&turn);
    put('S', fd, 0, count, 0, bytes, count);
    pthread_mutex_unlock(&turn);
}

ssize_t write(int fd, const void *bytes, size_t count) {
    if (!known(fd)) {
        said(fd, bytes, count);
        return syscall(SYS_write, fd, bytes, count);
    }
    pthread_mutex_lock(&turn);
    ssize_t done = syscall(SYS_write, fd, bytes, count);
    int error = errno;
    if (done > 0) put('W', known(fd), lseek(fd, 0, SEEK_CUR) - done, count, done, bytes, done);
    pthread_mutex_unlock(&turn);
    errno = error;
    return done;
}

ssize_t writev(int fd, const struct iovec *parts, int count) {
    for (int at = 0; at < count; at++) said(fd, parts[at].iov_base, parts[at].iov_len);
    return syscall(SYS_writev, fd, parts, count);
}

ssize_t send(int fd, const void *bytes, size_t count, int flags) {
    said(fd, bytes, count);
    return syscall(SYS_sendto, fd, bytes, count, flags, 0, 0);
}

ssize_t sendmsg(int fd, const struct msghdr *message, int flags) {
    for (size_t at = 0; at < message->msg_iovlen; at++) said(fd, message->msg_iov[at].iov_base, message->msg_iov[at].iov_len);
    return syscall(SYS_sendmsg, fd, message, flags);
}
