/* files.h for POSIX. No file of the core's has the number of a standard stream. */
#ifndef _WIN32
#define _GNU_SOURCE
#include "files.h"
#include <errno.h>
#include <fcntl.h>
#include <limits.h>
#include <poll.h>
#include <pthread.h>
#include <signal.h>
#include <stdio.h>
#include <stdlib.h>
#include <string.h>
#include <sys/file.h>
#include <sys/random.h>
#include <sys/stat.h>
#include <time.h>
#include <unistd.h>

/* the names that every C library from 2018 on has, where the newest ones have others, too */
#if defined __GLIBC__ && defined __x86_64__
__asm__(".symver pthread_create, pthread_create@GLIBC_2.2.5\n.symver pthread_join, pthread_join@GLIBC_2.2.5\n.symver pthread_detach, pthread_detach@GLIBC_2.2.5");
#elif defined __GLIBC__ && defined __aarch64__
__asm__(".symver pthread_create, pthread_create@GLIBC_2.17\n.symver pthread_join, pthread_join@GLIBC_2.17\n.symver pthread_detach, pthread_detach@GLIBC_2.17");
#endif

/* the first number behind those of the standard streams, and how many files of a process are looked at */
enum { FIRST_FILE = 3, MOST_FILES = 4096 };
_Static_assert((int)MOST_PATH >= PATH_MAX, "a path that the system takes has room");
static const long long LAST_SECOND = 99999999999;

/* ---- times */

static long long milliseconds_of(clockid_t clock) {
    struct timespec now;
    if (clock_gettime(clock, &now) || now.tv_sec < 0 || now.tv_sec > LAST_SECOND)
        return 0;
    return now.tv_sec * 1000LL + now.tv_nsec / 1000000;
}

long long milliseconds(void) {
    return milliseconds_of(CLOCK_MONOTONIC);
}

uint64_t moment(void) {
#ifdef CLOCK_BOOTTIME
    return (uint64_t)milliseconds_of(CLOCK_BOOTTIME);
#else
    return (uint64_t)milliseconds();
#endif
}

uint64_t date(void) {
    return (uint64_t)milliseconds_of(CLOCK_REALTIME);
}

void rest(void) {
    poll(NULL, 0, 1);
}

/* ---- threads */

bool begin_thread(thread_name *thread, void *(*work)(void *), void *given) {
    sigset_t all, before;
    pthread_t begun = 0;
    /* signals are for the front end's threads */
    sigfillset(&all);
    sigprocmask(SIG_SETMASK, &all, &before);
    bool is_begun = pthread_create(&begun, NULL, work, given) == 0;
    sigprocmask(SIG_SETMASK, &before, NULL);
    *thread = begun;
    return is_begun;
}

void wait_for_thread(thread_name thread) {
    pthread_join(thread, NULL);
}

void leave_thread(thread_name thread) {
    pthread_detach(thread);
}

/* ---- files */

/* Holds the numbers of standard streams that the front end was started without, and writes its log to all the same: for good, by what can't be written. */
static void hold_streams(void) {
    int fd;
    while ((fd = open("/", O_PATH | O_CLOEXEC)) >= 0 && fd < FIRST_FILE)
        ;
    if (fd >= 0)
        close(fd);
}

/* Opens a file as openat does, but never with such a number, also where the front end closes one meanwhile. */
static int open_above(int folder, const char *name, int flags, mode_t mode) {
    hold_streams();
    int fd = openat(folder, name, flags | O_CLOEXEC, mode);
    if (fd < 0 || fd >= FIRST_FILE)
        return fd;
    int above = fcntl(fd, F_DUPFD_CLOEXEC, FIRST_FILE), why = errno;
    close(fd);
    errno = why;
    return above;
}

void close_one(int *fd) {
    if (*fd >= 0)
        close(*fd);
    *fd = -1;
}

/* What is known of a file, by a call that every C library from 2018 on has; a mode of 0 where there is none. */
static struct statx about(int folder, const char *name, int flags) {
    struct statx there;
    if (statx(folder, name, flags, STATX_BASIC_STATS, &there) != 0)
        memset(&there, 0, sizeof there);
    return there;
}

static struct statx about_open(int fd) {
    return about(fd, "", AT_EMPTY_PATH);
}

static bool is_same_file(const struct statx *one, const struct statx *other) {
    return one->stx_mode != 0 && one->stx_ino == other->stx_ino && one->stx_dev_major == other->stx_dev_major && one->stx_dev_minor == other->stx_dev_minor;
}

static struct found found_of(struct statx there) {
    return (struct found){there.stx_mode != 0, S_ISREG(there.stx_mode), there.stx_size};
}

const char *name_of(const char *path) {
    const char *slash = strrchr(path, '/');
    return slash ? slash + 1 : path;
}

struct found look_at(const char *path) {
    return found_of(about(AT_FDCWD, path, 0));
}

struct found look_at_name(const char *path) {
    return found_of(about(AT_FDCWD, path, AT_SYMLINK_NOFOLLOW));
}

bool write_at(int fd, const uint8_t *bytes, size_t size, uint64_t at) {
    for (size_t done = 0; done < size;) {
        ssize_t more = pwrite(fd, bytes + done, size - done, (off_t)(at + done));
        if (more < 0 && errno == EINTR)
            continue;
        if (more <= 0)
            return false;
        done += (size_t)more;
    }
    return true;
}

bool read_at(int fd, uint8_t *bytes, size_t size) {
    for (size_t done = 0; done < size;) {
        ssize_t more = pread(fd, bytes + done, size - done, (off_t)done);
        if (more < 0 && errno == EINTR)
            continue;
        if (more <= 0)
            return false;
        done += (size_t)more;
    }
    return true;
}

/* Locks an open file, so that no other open file of it is locked; on a file system without locks there is nothing to hold. */
static bool lock(int fd) {
    return flock(fd, LOCK_EX | LOCK_NB) == 0 || errno == EOPNOTSUPP || errno == ENOSYS;
}

/* Opens the folder of a path, and leaves the name of the file. */
static int open_folder(const char *path, const char **name) {
    char folder[PATH_MAX];
    *name = name_of(path);
    int length = snprintf(folder, sizeof folder, "%.*s", (int)(*name - path), path);
    return length < (int)sizeof folder ? open_above(AT_FDCWD, length > 0 ? folder : ".", O_RDONLY | O_DIRECTORY, 0) : -1;
}

/* Whether the name is still that of the empty file that keeps it, and that of somebody who makes files here. */
static bool is_kept(int folder, const char *name, int keeper, int made) {
    struct statx held = about_open(keeper), named = about(folder, name, AT_SYMLINK_NOFOLLOW), own = about_open(made);
    return is_same_file(&held, &named) && held.stx_size == 0 && held.stx_uid == own.stx_uid;
}

/* Gives a new file the owner of SAVE where root plays the game of a user, who is to go on with it. A file system without owners changes nothing. */
static void give_to_owner(int fd, int save) {
    struct statx owned = about_open(save);
    if (geteuid() == 0 && owned.stx_mode != 0 && fchown(fd, owned.stx_uid, owned.stx_gid) != 0)
        return;
}

/* As put_file; where there is a keeper, only that one is replaced. */
static bool put(int folder, const char *name, const void *bytes, size_t size, int keeper, int save) {
    char made[48];
    unsigned long long number;
    if (getrandom(&number, sizeof number, 0) != sizeof number)
        return false;
    snprintf(made, sizeof made, ".gbkeep-%016llx.new", number);
    int fd = open_above(folder, made, O_WRONLY | O_CREAT | O_EXCL | O_NOFOLLOW, 0666);
    if (fd < 0)
        return false;
    unsigned mode = keeper < 0 ? about(folder, name, AT_SYMLINK_NOFOLLOW).stx_mode : 0;
    give_to_owner(fd, save);
    bool good = (!S_ISREG(mode) || fchmod(fd, mode & 0777) == 0) && write_at(fd, bytes, size, 0) && fsync(fd) == 0;
    good = good && (keeper < 0 || is_kept(folder, name, keeper, fd));
    good = close(fd) == 0 && good && renameat(folder, made, folder, name) == 0;
    if (!good)
        unlinkat(folder, made, 0);
    return good && fsync(folder) == 0;
}

bool put_file(const char *path, const void *bytes, size_t size, int save) {
    const char *name;
    int folder = open_folder(path, &name);
    bool good = folder >= 0 && put(folder, name, bytes, size, -1, save);
    close_one(&folder);
    return good;
}

uint8_t *read_file(const char *path, bool follows, size_t most, size_t *length) {
    int fd = open_above(AT_FDCWD, path, O_RDONLY | O_NONBLOCK | O_NOCTTY | (follows ? 0 : O_NOFOLLOW), 0);
    struct statx found = about_open(fd);
    *length = found.stx_size > most ? most + 1 : (size_t)found.stx_size;
    uint8_t *bytes = fd >= 0 && S_ISREG(found.stx_mode) ? malloc(*length + 1) : NULL;
    if (bytes && !read_at(fd, bytes, *length)) {
        free(bytes);
        bytes = NULL;
    }
    close_one(&fd);
    return bytes;
}

/* Whether a file beside SAVE is one's own: of who plays, of SAVE's owner or of root. Others may have put any other there, where the folder is shared. A second name
 * is no reason: backups are made so. */
static bool is_own(int fd, int save) {
    struct statx found = about_open(fd), owned = about_open(save);
    return S_ISREG(found.stx_mode)
        && (found.stx_uid == geteuid() || found.stx_uid == 0 || (owned.stx_mode != 0 && found.stx_uid == owned.stx_uid));
}

ssize_t read_own_file(const char *path, int save, uint8_t *bytes, size_t most) {
    int fd = open_above(AT_FDCWD, path, O_RDONLY | O_NONBLOCK | O_NOCTTY | O_NOFOLLOW, 0);
    if (fd < 0)
        return errno == ENOENT && !look_at_name(path).is_there ? 0 : -1;
    ssize_t size = is_own(fd, save) ? read(fd, bytes, most) : -1;
    close(fd);
    return size;
}

/* An empty file, locked, keeps the name meanwhile. */
bool make_file(const char *path, const uint8_t *bytes, size_t size) {
    const char *name;
    int folder = open_folder(path, &name), keeper = open_above(folder, name, O_WRONLY | O_CREAT | O_EXCL | O_NOFOLLOW, 0600);
    bool is_made = keeper >= 0, good;
    if (!is_made)
        keeper = open_above(folder, name, O_WRONLY | O_NOFOLLOW | O_NONBLOCK | O_NOCTTY, 0);
    struct statx found = about_open(keeper);
    good = keeper >= 0 && S_ISREG(found.stx_mode) && found.stx_size == 0 && found.stx_nlink <= 1 && (is_made || (found.stx_mode & 022) == 0) && lock(keeper);
    good = good && put(folder, name, bytes, size, keeper, -1);
    if (!good && is_made && is_kept(folder, name, keeper, keeper))
        unlinkat(folder, name, 0);
    close_one(&keeper), close_one(&folder);
    return good;
}

int open_save_file(const char *path, unsigned long long *size) {
    int fd = open_above(AT_FDCWD, path, O_RDWR | O_NONBLOCK | O_NOCTTY, 0);
    if (fd < 0 || !S_ISREG(about_open(fd).stx_mode) || !lock(fd) || fsync(fd) != 0) {
        close_one(&fd);
        return -1;
    }
    struct statx found = about_open(fd);
    if (found.stx_mode == 0 || found.stx_nlink == 0)
        close_one(&fd);
    *size = found.stx_size;
    return fd;
}

/* It has no name where another file was put in its place, or it was removed. */
bool sync_save_file(int fd, unsigned long long size) {
    if (fdatasync(fd) != 0)
        return false;
    struct statx found = about_open(fd);
    return found.stx_mode != 0 && found.stx_nlink > 0 && found.stx_size == size;
}

bool is_open_here(const char *path) {
    int fd = open_above(AT_FDCWD, path, O_RDONLY | O_NONBLOCK | O_NOCTTY, 0);
    struct statx wanted = about_open(fd);
    bool is_found = false;
    if (fd >= 0 && !lock(fd))
        for (int other = 0; !is_found && other < MOST_FILES; other++) {
            struct statx found = about_open(other);
            is_found = other != fd && is_same_file(&found, &wanted);
        }
    close_one(&fd);
    return is_found;
}

bool real_path(const char *path, char real[MOST_PATH]) {
    return realpath(path, real) != NULL;
}

void take_away(const char *path) {
    unlink(path);
}
#endif
