/* What the core asks of the host's system: times, threads and files. files_posix.c has it, or files_windows.c; no other file of the core's calls a system. */
#include <stdbool.h>
#include <stddef.h>
#include <stdint.h>
#include <sys/types.h>

/* the most bytes of a path, its end among them */
enum { MOST_PATH = 4096 };

/* ---- times */
long long milliseconds(void);
/* a moment of a session: it goes on while the computer sleeps, where the system knows that */
uint64_t moment(void);
uint64_t date(void);
/* waits a millisecond */
void rest(void);

/* ---- threads */
typedef uintptr_t thread_name;
bool begin_thread(thread_name *thread, void *(*work)(void *), void *given);
void wait_for_thread(thread_name thread);
/* Lets it go on; the core stays in memory for it. */
void leave_thread(thread_name thread);

/* ---- files: an open one has a number, and -1 is none */
struct found {
    bool is_there, is_plain;
    unsigned long long size;
};
/* the name of a file, behind its folder */
const char *name_of(const char *path);
/* what a path names, behind its links */
struct found look_at(const char *path);
/* what a path names, itself */
struct found look_at_name(const char *path);
void close_one(int *fd);
bool write_at(int fd, const uint8_t *bytes, size_t size, uint64_t at);
bool read_at(int fd, uint8_t *bytes, size_t size);
/* Makes a file of these bytes durable under a name that nobody has, and then gives it its own. What has that name is replaced, and its permissions stay. A file
 * beside SAVE gets the owner of SAVE, which is open. */
bool put_file(const char *path, const void *bytes, size_t size, int save);
/* The first bytes of a plain file, `most` and one more; NULL where it can't be read. */
uint8_t *read_file(const char *path, bool follows, size_t most, size_t *length);
/* How many of the first bytes of a file beside SAVE there are, `most` at most: none where there is no such file, and -1 where it is nobody's own. */
ssize_t read_own_file(const char *path, int save, uint8_t *bytes, size_t most);
/* Gives a new file its name once it is whole, as `gbkeep new` does. Nothing but the empty file of such a call that was cut off is replaced. */
bool make_file(const char *path, const uint8_t *bytes, size_t size);
/* Opens SAVE as the program does: locks it, and syncs it, since what was written and not synced, by whomever, has to stand before it is read; -1 where it can't. */
int open_save_file(const char *path, unsigned long long *size);
/* Syncs SAVE, which then has to have a name still, and this size. */
bool sync_save_file(int fd, unsigned long long size);
/* Whether this very process has the file open, and locked. */
bool is_open_here(const char *path);
/* The path behind all links; false where there is none. */
bool real_path(const char *path, char real[MOST_PATH]);
void take_away(const char *path);
