/* files.h for Windows, by kernel32 and the C library alone: paths are UTF-8. What the core has open to write, nobody else writes, renames or removes; a link is
 * followed to what is only read, a cartridge or a battery file, and to nothing else. */
#ifdef _WIN32
#define _WIN32_WINNT 0x0601
#define WIN32_LEAN_AND_MEAN
#define _CRT_RAND_S
#include "files.h"
#include <stdio.h>
#include <stdlib.h>
#include <string.h>
#include <windows.h>

/* 100 ns from 1601, where the system's dates begin, to 1970; a millisecond; the last date that is taken */
static const uint64_t FROM_1601 = 116444736000000000, MILLISECOND = 10000, LAST_DATE = 99999999999000;
/* a path with what stands in front of one of any length */
enum { MOST_WIDE = MOST_PATH + 8 };
/* how often, a hundredth of a second apart, a rename is tried that another program holds up, as one that looks at each new file does */
enum { TRIES = 50, BETWEEN_TRIES = 10 };
/* Where locks stand: behind all that a file may have, so that nobody is kept from reading. The first is that of the file; one of those behind it says which
 * process has the file. */
static const uint64_t LOCKS = 1ULL << 62;

/* ---- times */

long long milliseconds(void) {
    ULONGLONG since = 0;
    QueryUnbiasedInterruptTime(&since);
    return (long long)(since / MILLISECOND);
}

uint64_t moment(void) {
    return GetTickCount64();
}

uint64_t date(void) {
    FILETIME now;
    GetSystemTimeAsFileTime(&now);
    uint64_t since = (uint64_t)now.dwHighDateTime << 32 | now.dwLowDateTime;
    uint64_t found = since < FROM_1601 ? 0 : (since - FROM_1601) / MILLISECOND;
    return found > LAST_DATE ? 0 : found;
}

void rest(void) {
    Sleep(1);
}

/* ---- threads */

struct begun {
    void *(*work)(void *);
    void *given;
};

static DWORD WINAPI run(void *given) {
    struct begun begun = *(struct begun *)given;
    free(given);
    begun.work(begun.given);
    return 0;
}

bool begin_thread(thread_name *thread, void *(*work)(void *), void *given) {
    struct begun *begun = malloc(sizeof *begun);
    if (!begun)
        return false;
    *begun = (struct begun){work, given};
    HANDLE made = CreateThread(NULL, 0, run, begun, 0, NULL);
    if (!made)
        free(begun);
    *thread = (thread_name)made;
    return made != NULL;
}

void wait_for_thread(thread_name thread) {
    WaitForSingleObject((HANDLE)thread, INFINITE);
    CloseHandle((HANDLE)thread);
}

void leave_thread(thread_name thread) {
    HMODULE core;
    GetModuleHandleExW(GET_MODULE_HANDLE_EX_FLAG_PIN | GET_MODULE_HANDLE_EX_FLAG_FROM_ADDRESS, (const wchar_t *)run, &core);
    CloseHandle((HANDLE)thread);
}

/* ---- names */

const char *name_of(const char *path) {
    const char *name = path;
    for (; *path; path++)
        if (strchr("/\\:", *path))
            name = path + 1;
    return name;
}

/* Whether these letters begin as the name of a device does: the system takes it for one in each folder, and with each suffix. */
static bool is_device(const wchar_t *name, size_t length) {
    static const wchar_t *const DEVICES[] = {L"con", L"prn", L"aux", L"nul", L"conin$", L"conout$", L"com?", L"lpt?"};
    while (length > 0 && name[length - 1] == ' ')
        length--;
    for (size_t one = 0; one < sizeof DEVICES / sizeof *DEVICES; one++) {
        size_t at = 0;
        while (at < length && DEVICES[one][at] && (DEVICES[one][at] == '?' ? wcschr(L"0123456789\xb9\xb2\xb3", name[at]) != NULL
                                                                            : DEVICES[one][at] == (name[at] >= 'A' && name[at] <= 'Z' ? name[at] + 32 : name[at])))
            at++;
        if (at == length && !DEVICES[one][at])
            return true;
    }
    return false;
}

/* Whether each name behind a root may be that of a file or folder. */
static bool are_names(const wchar_t *at) {
    for (;;) {
        size_t length = wcscspn(at, L"\\"), stem = wcscspn(at, L".\\");
        for (size_t one = 0; one < length; one++)
            if (at[one] < ' ' || wcschr(L"<>:\"|?*/", at[one]))
                return false;
        if (is_device(at, stem))
            return false;
        if (!at[length])
            return true;
        at += length + 1;
    }
}

/* A path as the system takes it whatever its length; false for one that is no file's: of a device, a stream, or with what no name has. */
static bool widen(const char *path, wchar_t wide[MOST_WIDE]) {
    wchar_t given[MOST_PATH], whole[MOST_PATH];
    if (MultiByteToWideChar(CP_UTF8, MB_ERR_INVALID_CHARS, path, -1, given, MOST_PATH) == 0)
        return false;
    DWORD length = GetFullPathNameW(given, MOST_PATH, whole, NULL);
    if (length < 3 || length >= MOST_PATH)
        return false;
    bool is_shared = whole[0] == '\\' && whole[1] == '\\' && whole[2] != '.' && whole[2] != '?';
    if (!is_shared && !(whole[1] == ':' && whole[2] == '\\'))
        return false;
    wcscpy(wide, is_shared ? L"\\\\?\\UNC\\" : L"\\\\?\\");
    wcscat(wide, is_shared ? whole + 2 : whole);
    return are_names(is_shared ? whole + 2 : whole + 3);
}

/* ---- files */

/* A handle has 32 bits that count. */
static HANDLE handle_of(int fd) {
    return (HANDLE)(intptr_t)fd;
}

void close_one(int *fd) {
    if (*fd != -1)
        CloseHandle(handle_of(*fd));
    *fd = -1;
}

/* What is known of an open file; of one that is none it is not there. */
static struct found about(int fd, bool follows) {
    BY_HANDLE_FILE_INFORMATION there;
    DWORD others = FILE_ATTRIBUTE_DIRECTORY | FILE_ATTRIBUTE_DEVICE | (follows ? 0 : FILE_ATTRIBUTE_REPARSE_POINT);
    if (fd == -1 || GetFileType(handle_of(fd)) != FILE_TYPE_DISK || !GetFileInformationByHandle(handle_of(fd), &there))
        return (struct found){false, false, 0};
    return (struct found){there.nNumberOfLinks > 0, !(there.dwFileAttributes & others), (uint64_t)there.nFileSizeHigh << 32 | there.nFileSizeLow};
}

static int open_one(const char *path, DWORD access, DWORD shared, DWORD flags) {
    wchar_t wide[MOST_WIDE];
    if (!widen(path, wide)) {
        SetLastError(ERROR_INVALID_NAME);
        return -1;
    }
    return (int)(intptr_t)CreateFileW(wide, access, shared, NULL, OPEN_EXISTING, flags, NULL);
}

/* Opens a plain file to be read, whoever writes it. */
static int open_to_read(const char *path, bool follows, struct found *there) {
    int fd = open_one(path, GENERIC_READ, FILE_SHARE_READ | FILE_SHARE_WRITE | FILE_SHARE_DELETE, follows ? 0 : FILE_FLAG_OPEN_REPARSE_POINT);
    *there = about(fd, follows);
    if (fd != -1 && !there->is_plain) {
        close_one(&fd);
        SetLastError(ERROR_ACCESS_DENIED);
    }
    return fd;
}

static struct found look(const char *path, bool follows) {
    int fd = open_one(path, FILE_READ_ATTRIBUTES, FILE_SHARE_READ | FILE_SHARE_WRITE | FILE_SHARE_DELETE,
                      FILE_FLAG_BACKUP_SEMANTICS | (follows ? 0 : FILE_FLAG_OPEN_REPARSE_POINT));
    DWORD why = GetLastError();
    struct found found = about(fd, follows);
    if (fd == -1)
        found.is_there = why != ERROR_FILE_NOT_FOUND && why != ERROR_PATH_NOT_FOUND && why != ERROR_INVALID_NAME && why != ERROR_FILENAME_EXCED_RANGE;
    close_one(&fd);
    return found;
}

struct found look_at(const char *path) {
    return look(path, true);
}

struct found look_at_name(const char *path) {
    return look(path, false);
}

static OVERLAPPED place(uint64_t at) {
    OVERLAPPED found = {.Offset = (DWORD)at, .OffsetHigh = (DWORD)(at >> 32)};
    return found;
}

bool write_at(int fd, const uint8_t *bytes, size_t size, uint64_t at) {
    for (size_t done = 0; done < size;) {
        OVERLAPPED here = place(at + done);
        DWORD more = 0;
        if (!WriteFile(handle_of(fd), bytes + done, (DWORD)(size - done), &more, &here) || more == 0)
            return false;
        done += more;
    }
    return true;
}

bool read_at(int fd, uint8_t *bytes, size_t size) {
    for (size_t done = 0; done < size;) {
        OVERLAPPED here = place(done);
        DWORD more = 0;
        if (!ReadFile(handle_of(fd), bytes + done, (DWORD)(size - done), &more, &here) || more == 0)
            return false;
        done += more;
    }
    return true;
}

/* Locks a place of an open file; on a file system without locks there is nothing to hold. */
static bool lock(int fd, uint64_t at) {
    OVERLAPPED here = place(LOCKS + at);
    return LockFileEx(handle_of(fd), LOCKFILE_EXCLUSIVE_LOCK | LOCKFILE_FAIL_IMMEDIATELY, 0, 1, 0, &here)
        || GetLastError() == ERROR_INVALID_FUNCTION || GetLastError() == ERROR_NOT_SUPPORTED;
}

static bool lock_for_this_process(int fd) {
    return lock(fd, 1 + (uint64_t)GetCurrentProcessId());
}

static bool rename_to(const wchar_t *from, const wchar_t *to, DWORD how) {
    for (unsigned left = TRIES; !MoveFileExW(from, to, MOVEFILE_WRITE_THROUGH | how); left--) {
        if (left == 0 || (GetLastError() != ERROR_SHARING_VIOLATION && GetLastError() != ERROR_ACCESS_DENIED))
            return false;
        Sleep(BETWEEN_TRIES);
    }
    return true;
}

/* As put_file, where `how` lets it replace what has the name. */
static bool put(const char *path, const void *bytes, size_t size, DWORD how) {
    char made[MOST_PATH];
    wchar_t from[MOST_WIDE], to[MOST_WIDE];
    unsigned one, other;
    if (rand_s(&one) != 0 || rand_s(&other) != 0)
        return false;
    int length = snprintf(made, sizeof made, "%.*s.gbkeep-%08x%08x.new", (int)(name_of(path) - path), path, one, other);
    if (length < 0 || length >= MOST_PATH || !widen(made, from) || !widen(path, to))
        return false;
    int fd = (int)(intptr_t)CreateFileW(from, GENERIC_WRITE, 0, NULL, CREATE_NEW, FILE_ATTRIBUTE_NORMAL, NULL);
    if (fd == -1)
        return false;
    bool good = write_at(fd, bytes, size, 0) && FlushFileBuffers(handle_of(fd));
    close_one(&fd);
    good = good && rename_to(from, to, how);
    if (!good)
        DeleteFileW(from);
    return good;
}

/* Whose a file is, the folder says here. */
bool put_file(const char *path, const void *bytes, size_t size, int save) {
    (void)save;
    return put(path, bytes, size, MOVEFILE_REPLACE_EXISTING);
}

uint8_t *read_file(const char *path, bool follows, size_t most, size_t *length) {
    struct found there;
    int fd = open_to_read(path, follows, &there);
    *length = there.size > most ? most + 1 : (size_t)there.size;
    uint8_t *bytes = fd != -1 ? malloc(*length + 1) : NULL;
    if (bytes && !read_at(fd, bytes, *length)) {
        free(bytes);
        bytes = NULL;
    }
    close_one(&fd);
    return bytes;
}

ssize_t read_own_file(const char *path, int save, uint8_t *bytes, size_t most) {
    struct found there;
    int fd = open_to_read(path, false, &there);
    (void)save;
    if (fd == -1)
        return GetLastError() == ERROR_FILE_NOT_FOUND ? 0 : -1;
    size_t size = there.size < most ? (size_t)there.size : most;
    bool good = read_at(fd, bytes, size);
    close_one(&fd);
    return good ? (ssize_t)size : -1;
}

/* An empty file is taken away first, while nobody else has it open; from then on nothing that has the name is replaced. */
bool make_file(const char *path, const uint8_t *bytes, size_t size) {
    int fd = open_one(path, DELETE | FILE_READ_ATTRIBUTES, 0, FILE_FLAG_OPEN_REPARSE_POINT);
    struct found there = about(fd, false);
    FILE_DISPOSITION_INFO gone = {TRUE};
    bool is_free = fd == -1 || (there.is_plain && there.size == 0 && SetFileInformationByHandle(handle_of(fd), FileDispositionInfo, &gone, sizeof gone));
    close_one(&fd);
    return is_free && put(path, bytes, size, 0);
}

int open_save_file(const char *path, unsigned long long *size) {
    int fd = open_one(path, GENERIC_READ | GENERIC_WRITE, FILE_SHARE_READ, FILE_FLAG_OPEN_REPARSE_POINT);
    if (fd == -1)
        return -1;
    bool good = about(fd, false).is_plain && lock(fd, 0) && lock_for_this_process(fd) && FlushFileBuffers(handle_of(fd));
    struct found there = about(fd, false);
    if (!good || !there.is_there)
        close_one(&fd);
    *size = there.size;
    return fd;
}

bool sync_save_file(int fd, unsigned long long size) {
    if (!FlushFileBuffers(handle_of(fd)))
        return false;
    struct found there = about(fd, false);
    return there.is_there && there.size == size;
}

bool is_open_here(const char *path) {
    struct found there;
    int fd = open_to_read(path, false, &there);
    bool is_found = fd != -1 && !lock_for_this_process(fd);
    close_one(&fd);
    return is_found;
}

/* SAVE is no link. */
bool real_path(const char *path, char real[MOST_PATH]) {
    (void)path, (void)real;
    return false;
}

void take_away(const char *path) {
    wchar_t wide[MOST_WIDE];
    if (widen(path, wide))
        DeleteFileW(wide);
}
#endif
