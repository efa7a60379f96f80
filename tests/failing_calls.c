/* Stands between the program and the system (LD_PRELOAD). It numbers the calls on files, standard input and standard output, from 1, and
 * notes each in the file CALLS_NOTED: its number, its name, the bytes that it writes, and its path; `absent` is the removal of a file that does
 * not stand. Behind a read stands one line more, `given`, with the bytes that it gave. Each call that CALLS_FAILING names, as `NUMBER ERROR BYTES`
 * with commas between, fails with that error, a write after so many of its bytes are done; where the error is 0, the program is killed there,
 * and where it is -1, it is stopped until it is told to go on, and the call is done. */
#define _GNU_SOURCE
#include <dlfcn.h>
#include <errno.h>
#include <fcntl.h>
#include <signal.h>
#include <stdarg.h>
#include <stdio.h>
#include <stdlib.h>
#include <string.h>
#include <sys/stat.h>
#include <sys/syscall.h>
#include <unistd.h>

#define REAL(name) ((__typeof__(&name))dlsym(RTLD_NEXT, #name))
#define MOST_OPEN 64

static char paths[MOST_OPEN][4096] = {"input", "output"};
static int calls, noting = -1;

static const char *path_of(int fd) { return fd >= 0 && fd < MOST_OPEN ? paths[fd] : ""; }

static void note(const char *name, long bytes, const char *path) {
    const char *noted = getenv("CALLS_NOTED");
    char line[4200];
    if (!noted) return;
    if (noting < 0) noting = syscall(SYS_openat, AT_FDCWD, noted, O_WRONLY | O_CREAT | O_APPEND | O_CLOEXEC, 0666);
    int length = snprintf(line, sizeof line, "%d %s %ld %s\n", calls, name, bytes, path);
    syscall(SYS_write, noting, line, length);
}

/* Whether this call, the next one, fails; a write has its first bytes done before. */
static int fails(const char *name, int fd, const void *data, long length, const char *path) {
    const char *rest = getenv("CALLS_FAILING");
    int number, error;
    long bytes;
    calls++;
    note(name, length, path);
    for (; rest && sscanf(rest, "%d %d %ld", &number, &error, &bytes) == 3; rest = strchr(rest, ',') ? strchr(rest, ',') + 1 : 0) {
        if (number != calls) continue;
        if (error < 0) {
            kill(getpid(), SIGSTOP);
            continue;
        }
        if (data && bytes > 0) syscall(SYS_write, fd, data, bytes < length ? bytes : length);
        if (!error) kill(getpid(), SIGKILL);
        errno = error;
        return 1;
    }
    return 0;
}

static int opened(int fd, const char *path) {
    if (fd >= 0 && fd < MOST_OPEN) snprintf(paths[fd], sizeof paths[fd], "%s", path);
    return fd;
}

#define OPENS(path, flags) (fails((flags) & (O_WRONLY | O_RDWR) ? "make" : "open", -1, 0, 0, path))

int open(const char *path, int flags, ...) {
    va_list more;
    va_start(more, flags);
    mode_t mode = va_arg(more, mode_t);
    va_end(more);
    return OPENS(path, flags) ? -1 : opened(REAL(open)(path, flags, mode), path);
}

int openat(int folder, const char *path, int flags, ...) {
    va_list more;
    va_start(more, flags);
    mode_t mode = va_arg(more, mode_t);
    va_end(more);
    return OPENS(path, flags) ? -1 : opened(REAL(openat)(folder, path, flags, mode), path);
}

/* a read of a file, at a place or on, and of the input; behind it is noted how many bytes it gave */
static ssize_t given(ssize_t count, int fd) {
    if (count >= 0) note("given", count, path_of(fd));
    return count;
}

ssize_t read(int fd, void *into, size_t most) { return fails("read", -1, 0, 0, path_of(fd)) ? -1 : given(REAL(read)(fd, into, most), fd); }

ssize_t pread(int fd, void *into, size_t most, off_t from) {
    return fails("read", -1, 0, 0, path_of(fd)) ? -1 : given(REAL(pread)(fd, into, most, from), fd);
}

ssize_t write(int fd, const void *data, size_t length) {
    if (fd == 2) return REAL(write)(fd, data, length);
    return fails("write", fd, data, length, path_of(fd)) ? -1 : REAL(write)(fd, data, length);
}

off_t lseek(int fd, off_t place, int from) { return fails("seek", -1, 0, 0, path_of(fd)) ? -1 : REAL(lseek)(fd, place, from); }

int statx(int folder, const char *path, int flags, unsigned mask, struct statx *into) {
    return fails("look", -1, 0, 0, *path ? path : path_of(folder)) ? -1 : REAL(statx)(folder, path, flags, mask, into);
}

ssize_t readlink(const char *path, char *into, size_t most) { return fails("readlink", -1, 0, 0, path) ? -1 : REAL(readlink)(path, into, most); }
int rename(const char *from, const char *to) { return fails("rename", -1, 0, 0, to) ? -1 : REAL(rename)(from, to); }
int unlink(const char *path) {
    struct stat found;
    return fails(lstat(path, &found) ? "absent" : "remove", -1, 0, 0, path) ? -1 : REAL(unlink)(path);
}

int mkdir(const char *path, mode_t mode) { return fails("mkdir", -1, 0, 0, path) ? -1 : REAL(mkdir)(path, mode); }
int ftruncate(int fd, off_t length) { return fails("cut", -1, 0, 0, path_of(fd)) ? -1 : REAL(ftruncate)(fd, length); }
int chmod(const char *path, mode_t mode) { return fails("chmod", -1, 0, 0, path) ? -1 : REAL(chmod)(path, mode); }
int fchmod(int fd, mode_t mode) { return fails("chmod", -1, 0, 0, path_of(fd)) ? -1 : REAL(fchmod)(fd, mode); }
int fsync(int fd) { return fails("sync", -1, 0, 0, path_of(fd)) ? -1 : REAL(fsync)(fd); }
int fdatasync(int fd) { return fails("sync", -1, 0, 0, path_of(fd)) ? -1 : REAL(fdatasync)(fd); }
ssize_t getdents64(int fd, void *into, size_t most) { return fails("list", -1, 0, 0, path_of(fd)) ? -1 : REAL(getdents64)(fd, into, most); }
