/* Plays a script on a save file by libgbkeep: the file is one of the program `gbkeep`, which goes on with it, and the other way round.
 *
 * usage: play ROM SAVE SCRIPT [CALLS]
 *
 * SAVE is begun if it is not there: in a file SAVE.new-N, which gets the name of SAVE once it has a game. SCRIPT has the lines of `gbkeep play`: "frame BB",
 * "frames BB TIMES", "seconds N", "power", "save". It may be "-", for standard input. With CALLS the process ends, as by a power cut, right before it makes
 * call CALLS + 1 of its file. It prints the lines of `gbkeep play`: "resumed N" and "saved N". */
#define _GNU_SOURCE
#include <gbkeep.h>

#include <errno.h>
#include <fcntl.h>
#include <inttypes.h>
#include <limits.h>
#include <stdbool.h>
#include <stdio.h>
#include <stdlib.h>
#include <string.h>
#include <sys/file.h>
#include <sys/stat.h>
#include <unistd.h>

static int save_file = -1;
static uint64_t calls_left = UINT64_MAX;
static uint64_t saved;
/* the file of a new game, until it has the name of SAVE */
static char part[PATH_MAX];

static void stop(const char *what) {
    if (part[0] != 0) {
        unlink(part);
    }
    fprintf(stderr, "play: %s\n", what);
    exit(1);
}

static void wanted(uint32_t code) {
    if (code == GBKEEP_NO_SESSION) {
        stop("no session: there is no game in SAVE, and it stays as it is: name another file, and a game is begun there");
    }
    if (code != GBKEEP_DONE) {
        stop(gbkeep_fault_text(code));
    }
}

/* Opens a file as `open` does, but with no number below 3: where the process was started without a standard stream, what is printed there would go into the
 * file. */
static int open_above(const char *name, int flags, mode_t mode) {
    int file = open(name, flags | O_CLOEXEC, mode);
    if (file < 0 || file > 2) {
        return file;
    }
    int above = fcntl(file, F_DUPFD_CLOEXEC, 3), why = errno;
    close(file);
    errno = why;
    return above;
}

/* the whole of a file, and its length */
static uint8_t *read_whole(int file, size_t *length) {
    struct stat about;
    if (file < 0 || fstat(file, &about) != 0 || !S_ISREG(about.st_mode)) {
        stop("a file can't be read");
    }
    *length = (size_t)about.st_size;
    uint8_t *bytes = malloc(*length + 1);
    if (bytes == NULL) {
        stop("no memory");
    }
    for (size_t at = 0; at < *length;) {
        ssize_t got = pread(file, bytes + at, *length - at, (off_t)at);
        if (got <= 0) {
            stop("a file can't be read");
        }
        at += (size_t)got;
    }
    return bytes;
}

/* Makes all calls that the session hands out, in order. */
static void make_calls(gbkeep_session *session) {
    gbkeep_call call;
    for (;;) {
        gbkeep_session_next_call(session, &call);
        if (call.kind == GBKEEP_NO_CALL) {
            return;
        }
        if (calls_left == 0) {
            _exit(137);
        }
        calls_left -= 1;
        if (call.kind == GBKEEP_WRITE) {
            off_t at = (off_t)call.sector * 512;
            for (size_t done = 0; done < sizeof call.bytes;) {
                ssize_t put = pwrite(save_file, call.bytes + done, sizeof call.bytes - done, at + (off_t)done);
                if (put <= 0) {
                    stop("device failed");
                }
                done += (size_t)put;
            }
        } else if (fdatasync(save_file) != 0) {
            stop("device failed");
        }
    }
}

/* Saves, and tells it once its calls were made. */
static void save(gbkeep_session *session) {
    wanted(gbkeep_session_save(session, &saved));
    make_calls(session);
    printf("saved %" PRIu64 "\n", saved);
    fflush(stdout);
}

/* After an input: the program saves right after the one that makes 3,200 unsaved. */
static void given(gbkeep_session *session, uint32_t code) {
    wanted(code);
    if (gbkeep_session_count(session) - saved == 3200) {
        save(session);
    }
}

/* A game that `gbkeep record` plays has a file SAVE.recorded, beside the file itself where SAVE is a link: inputs that its recording does not have would part
 * the two. */
static void check_mark(const char *name) {
    char path[PATH_MAX + sizeof ".recorded"], *real = realpath(name, NULL);
    struct stat about;
    int length = snprintf(path, sizeof path, "%s.recorded", real != NULL ? real : name);
    free(real);
    if (length < 0 || (size_t)length >= sizeof path) {
        stop("the name of SAVE is too long");
    }
    if (lstat(path, &about) == 0) {
        stop("recorded game: play it by `gbkeep record`; to end the recording, remove SAVE.recorded");
    }
}

/* Makes the file of a new game, under a name that nobody has. */
static void make_part(const char *name, uint32_t sectors) {
    for (unsigned number = 1; save_file < 0; number++) {
        char free_name[PATH_MAX];
        int length = snprintf(free_name, sizeof free_name, "%s.new-%u", name, number);
        if (length < 0 || (size_t)length >= sizeof free_name) {
            stop("the name of SAVE is too long");
        }
        save_file = open_above(free_name, O_RDWR | O_CREAT | O_EXCL | O_NOFOLLOW, 0666);
        if (save_file >= 0) {
            memcpy(part, free_name, sizeof part);
        } else if (errno != EEXIST) {
            stop("device failed: no file can be made beside SAVE: take a folder that can be written");
        }
    }
    if (flock(save_file, LOCK_EX | LOCK_NB) != 0 || ftruncate(save_file, (off_t)sectors * 512) != 0 || fsync(save_file) != 0) {
        stop("device failed");
    }
}

/* Gives the new file the name of SAVE, which nothing has, and makes that durable. */
static void name_part(const char *name) {
    bool is_named = renameat2(AT_FDCWD, part, AT_FDCWD, name, RENAME_NOREPLACE) == 0;
    /* a file system without such a call */
    if (!is_named && (errno == EINVAL || errno == ENOSYS) && link(part, name) == 0) {
        is_named = true;
        unlink(part);
    }
    if (!is_named) {
        stop("device failed: SAVE was made by something else meanwhile, or can't be made: it stays as it is");
    }
    part[0] = 0;
    char *folder = strdup(name);
    char *slash = folder != NULL ? strrchr(folder, '/') : NULL;
    if (slash != NULL) {
        slash[slash == folder] = 0;
    }
    int opened = folder == NULL ? -1 : open_above(slash != NULL ? folder : ".", O_RDONLY | O_DIRECTORY, 0);
    if (opened < 0 || fsync(opened) != 0) {
        stop("device failed");
    }
    close(opened);
    free(folder);
}

/* Opens SAVE, or makes it, and begins or takes up its game. */
static gbkeep_session *opened(const char *name, const uint8_t *rom, size_t rom_length) {
    gbkeep_session *session;
    save_file = open_above(name, O_RDWR | O_NONBLOCK | O_NOCTTY, 0);
    bool is_new = save_file < 0 && errno == ENOENT;
    check_mark(name);
    if (is_new) {
        uint32_t sectors;
        wanted(gbkeep_session_sectors(rom, rom_length, &sectors));
        make_part(name, sectors);
        wanted(gbkeep_session_begin(rom, rom_length, sectors, &session));
    } else {
        size_t image_length;
        /* what was written and not synced, by whom ever, has to stand before it is read */
        if (save_file < 0 || flock(save_file, LOCK_EX | LOCK_NB) != 0 || fsync(save_file) != 0) {
            stop("device failed: SAVE can't be opened, or is open elsewhere");
        }
        uint8_t *image = read_whole(save_file, &image_length);
        wanted(gbkeep_session_resume(rom, rom_length, image, image_length, &session));
        free(image);
    }
    make_calls(session);
    if (is_new) {
        name_part(name);
    }
    saved = gbkeep_session_count(session);
    printf("%s %" PRIu64 "\n", is_new ? "begun" : "resumed", saved);
    fflush(stdout);
    return session;
}

int main(int words, char **word) {
    if (words < 4 || words > 5) {
        stop("usage: play ROM SAVE SCRIPT [CALLS]");
    }
    if (words == 5) {
        calls_left = strtoull(word[4], NULL, 10);
    }
    size_t rom_length;
    int rom_file = open_above(word[1], O_RDONLY | O_NONBLOCK | O_NOCTTY, 0);
    uint8_t *rom = read_whole(rom_file, &rom_length);
    close(rom_file);
    int script_file = strcmp(word[3], "-") == 0 ? -1 : open_above(word[3], O_RDONLY, 0);
    FILE *script = strcmp(word[3], "-") == 0 ? stdin : script_file >= 0 ? fdopen(script_file, "r") : NULL;
    if (script == NULL) {
        stop("SCRIPT can't be read");
    }
    gbkeep_session *session = opened(word[2], rom, rom_length);
    free(rom);
    char line[100];
    unsigned buttons;
    uint32_t number;
    while (fgets(line, sizeof line, script) != NULL) {
        if (sscanf(line, "frames %2x %" SCNu32, &buttons, &number) == 2) {
            for (; number > 0; number--) {
                given(session, gbkeep_session_frames(session, (uint8_t)buttons, 1));
            }
        } else if (sscanf(line, "frame %2x", &buttons) == 1) {
            given(session, gbkeep_session_frames(session, (uint8_t)buttons, 1));
        } else if (sscanf(line, "seconds %" SCNu32, &number) == 1) {
            given(session, gbkeep_session_seconds(session, number));
        } else if (strcmp(line, "power\n") == 0) {
            given(session, gbkeep_session_power(session));
        } else if (strcmp(line, "save\n") == 0) {
            save(session);
        } else if (line[0] != '\n') {
            stop("a line of SCRIPT is wrong");
        }
    }
    if (ferror(script)) {
        stop("SCRIPT can't be read");
    }
    if (gbkeep_session_count(session) != saved) {
        save(session);
    }
    gbkeep_session_free(session);
    if (script != stdin) {
        fclose(script);
    }
    return close(save_file) == 0 ? 0 : 1;
}
