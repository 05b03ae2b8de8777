/* Tries what the core asks of Windows (files.h), in a folder that is empty: a line of each that is otherwise, and how many they were. */
#include <stdio.h>
#include <stdlib.h>
#include <string.h>
#include <windows.h>
#include "files.h"

enum { LENGTH = 1024, MOST_TOLD = 200 };
static unsigned tried, wrong;
static uint8_t bytes[LENGTH];
static unsigned long long size;

static void expect(const char *what, bool is_so) {
    tried++;
    if (!is_so) {
        wrong++;
        printf("not so: %s\n", what);
    }
}

static void try_times(void) {
    long long first = milliseconds();
    uint64_t since = moment(), today = date();
    for (int times = 0; times < 40; times++)
        rest();
    expect("time goes on", milliseconds() > first && moment() > since && date() >= today);
    expect("the date", today / 1000 > 1700000000 && today / 1000 < 99999999999);
}

static void *add_one(void *given) {
    ++*(volatile int *)given;
    return NULL;
}

static void try_threads(void) {
    static int count;
    thread_name thread;
    for (int times = 1; times <= 20; times++) {
        expect("a thread begins", begin_thread(&thread, add_one, &count));
        wait_for_thread(thread);
        expect("a thread ends", count == times);
    }
    expect("a thread that is left", begin_thread(&thread, add_one, &count));
    leave_thread(thread);
}

static void try_save(void) {
    expect("a new file", make_file("t.gbkeep", bytes, LENGTH));
    expect("a name that is taken", !make_file("t.gbkeep", bytes, LENGTH / 2) && look_at("t.gbkeep").size == LENGTH);
    int fd = open_save_file("t.gbkeep", &size);
    expect("it is opened", fd != -1 && size == LENGTH && is_open_here("t.gbkeep"));
    expect("once", open_save_file("t.gbkeep", &size) == -1);
    expect("a write", write_at(fd, bytes, LENGTH / 2, LENGTH / 2) && sync_save_file(fd, LENGTH) && read_at(fd, bytes, LENGTH));
    expect("another size", !sync_save_file(fd, LENGTH / 2) && !read_at(fd, bytes, LENGTH + 1));
    expect("who reads it", read_own_file("t.gbkeep", fd, bytes, LENGTH) == LENGTH);
    expect("who removes it", !DeleteFileW(L"t.gbkeep") && !MoveFileExW(L"t.gbkeep", L"u.gbkeep", 0) && !put_file("t.gbkeep", bytes, 3, -1));
    expect("who writes it", CreateFileW(L"t.gbkeep", GENERIC_WRITE, FILE_SHARE_READ | FILE_SHARE_WRITE, NULL, OPEN_EXISTING, 0, NULL) == INVALID_HANDLE_VALUE);
    close_one(&fd);
    expect("it is closed", fd == -1 && !is_open_here("t.gbkeep"));
    fd = open_save_file("t.gbkeep", &size);
    expect("it is opened again", fd != -1);
    close_one(&fd);
}

static void try_others(void) {
    size_t length;
    expect("what is not there", !look_at("none").is_there && !look_at_name("no/ne").is_there && read_own_file("none", -1, bytes, 3) == 0);
    expect("a folder", look_at(".").is_there && !look_at(".").is_plain && !read_file(".", true, 3, &length) && read_own_file(".", -1, bytes, 3) == -1);
    expect("a file beside it", put_file("t.time", "5 6\n", 4, -1) && put_file("./t.time", "7 66\n", 5, -1));
    expect("is read", read_own_file("t.time", -1, bytes, 3) == 3 && memcmp(bytes, "7 6", 3) == 0);
    uint8_t *read = read_file("t.gbkeep", true, 100, &length);
    expect("a file, as far as it is wanted", read && length == 101);
    free(read);
    HANDLE held = CreateFileW(L"empty", GENERIC_WRITE, 0, NULL, CREATE_NEW, 0, NULL);
    expect("an empty file that somebody has", !make_file("empty", bytes, LENGTH));
    CloseHandle(held);
    expect("an empty file", make_file("empty", bytes, LENGTH) && look_at("empty").size == LENGTH);
}

static void try_names(void) {
    static const char *const BAD[] = {
        "NUL", "nul.gbkeep", "CON", "con.x", "CONIN$", "COM1.gb", "lpt9", "com\xc2\xb9.gb", "AUX .gb", "x/NUL/y", "\\\\.\\NUL", "\\\\.\\PhysicalDrive0",
        "//./COM1", "\\\\?\\C:\\x", "\\\\.\\pipe\\x", "\\\\.\\C:\\x", "a:b", "t.gbkeep:b", "t.gbkeep::$DATA", "a?b", "a*b", "a|b", "a\"b", "a<b", "a\x01" "b", "\xff\xfe", "\xed\xa0\x80", "",
        "folder", "folder/", "folder/none/x", "/", "C:", "..",
    };
    static const char *const FINE[] = {"com.gbkeep", "con1.gbkeep", "console", "Z\xce\xa9\xe6\x97\xa5\xf0\x9f\x8e\xae.gbkeep", "folder/../x", "folder\\x", "a b.c", "%s%n", "'$(x)`"};
    char told[MOST_TOLD], path[MOST_PATH] = "folder";
    wchar_t wide[MOST_PATH + 4] = L"\\\\?\\";
    size_t length;
    CreateDirectoryW(L"folder", NULL);
    for (size_t one = 0; one < sizeof BAD / sizeof *BAD; one++) {
        snprintf(told, sizeof told, "a name that is refused: %s", BAD[one]);
        expect(told, !make_file(BAD[one], bytes, LENGTH) && open_save_file(BAD[one], &size) == -1 && !read_file(BAD[one], true, 9, &length)
               && !put_file(BAD[one], bytes, 3, -1) && !look_at(BAD[one]).is_plain && !is_open_here(BAD[one]));
        take_away(BAD[one]);
    }
    expect("what is there stays", look_at("t.gbkeep").size == LENGTH && look_at("folder").is_there);
    for (size_t one = 0; one < sizeof FINE / sizeof *FINE; one++) {
        snprintf(told, sizeof told, "a name that is taken: %s", FINE[one]);
        expect(told, make_file(FINE[one], bytes, LENGTH) && look_at_name(FINE[one]).size == LENGTH);
        take_away(FINE[one]);
        expect(told, !look_at_name(FINE[one]).is_there);
    }
    for (int deep = 0; deep < 30; deep++) {
        strcat(path, "/dddddddddddddddddddddddddddddddddddddddddddddddddd");
        MultiByteToWideChar(CP_UTF8, 0, path, -1, wide + 4, MOST_PATH);
        wchar_t whole[MOST_PATH];
        GetFullPathNameW(wide + 4, MOST_PATH, whole, NULL);
        wcscpy(wide + 4, whole);
        CreateDirectoryW(wide, NULL);
    }
    strcat(path, "/x.gbkeep");
    int fd = make_file(path, bytes, LENGTH) ? open_save_file(path, &size) : -1;
    expect("a path of 1,500 letters", fd != -1);
    close_one(&fd);
    memset(path, 'd', sizeof path - 1);
    expect("a path of 4,095", !make_file(path, bytes, LENGTH) && !look_at(path).is_there);
    expect("names behind their folders", strcmp(name_of("a/b\\c"), "c") == 0 && strcmp(name_of("c:d"), "d") == 0 && strcmp(name_of("d"), "d") == 0);
}

int main(void) {
    memset(bytes, 7, sizeof bytes);
    try_times();
    try_threads();
    try_save();
    try_others();
    try_names();
    printf("tried %u, %u of them otherwise\n", tried, wrong);
    return wrong != 0;
}
