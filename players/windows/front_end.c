/* A front end of few lines, to try the core for Windows: front_end CORE obeys the lines of its standard input, and prints what the core tells.
 *
 * save FOLDER      the folder of saves
 * load CART        loads a game
 * frames BB COUNT  plays frames with these buttons, as gbkeep.h has them
 * reset            the power switch
 * keep, back       takes a state; goes on with it
 * state FILE       writes a state
 * picture          prints a sum of the pixels
 * wait COUNT       plays no frame for so many milliseconds
 * settle           plays none until a sync was made since the last time, and no call for a file is made for a while
 * unload           ends the game
 * second CORE      from now on another core, a copy, in this process
 * kill COUNT       ends the process by TerminateProcess right before this call for a file from now on
 * fail COUNT       that call fails
 * link             from now on each file that is opened is said to be a link
 * calls            prints how many calls for files there were */
#include <stdint.h>
#include <stdio.h>
#include <stdlib.h>
#include <string.h>
#include <fcntl.h>
#include <io.h>
#include <windows.h>
#include "libretro.h"

enum { MOST_LINE = 8192, MOST_STATE = 1 << 20, KILLED = 137 };
/* milliseconds: without a call, and without any */
enum { STILL = 30, MOST_WAIT = 3000 };
static const unsigned BUTTONS[8] = {
    RETRO_DEVICE_ID_JOYPAD_RIGHT, RETRO_DEVICE_ID_JOYPAD_LEFT, RETRO_DEVICE_ID_JOYPAD_UP, RETRO_DEVICE_ID_JOYPAD_DOWN,
    RETRO_DEVICE_ID_JOYPAD_A, RETRO_DEVICE_ID_JOYPAD_B, RETRO_DEVICE_ID_JOYPAD_SELECT, RETRO_DEVICE_ID_JOYPAD_START,
};

static char saves[MOST_LINE], cart[MOST_LINE];
static uint8_t kept[MOST_STATE];
static size_t kept_size;
static uint64_t sum;
static unsigned buttons;
static volatile LONG calls, syncs, seen, killed_at = -1, failing_at = -1, is_link;
static HMODULE core;

static void *call(const char *name) {
    char whole[64];
    snprintf(whole, sizeof whole, "retro_%s", name);
    void *found = (void *)(intptr_t)GetProcAddress(core, whole);
    if (!found) {
        fprintf(stderr, "front_end: the core has no %s\n", whole);
        exit(2);
    }
    return found;
}
#define CALL(name) ((__typeof__(&retro_##name))call(#name))

/* ---- between the core and the system: each function that makes, writes, locks, renames or removes a file, in the table of what the core takes */

static BOOL fails(void) {
    LONG number = InterlockedIncrement(&calls);
    if (number == killed_at)
        TerminateProcess(GetCurrentProcess(), KILLED);
    if (number == failing_at)
        SetLastError(ERROR_GEN_FAILURE);
    return number == failing_at;
}

static HANDLE WINAPI create(const wchar_t *name, DWORD access, DWORD shared, SECURITY_ATTRIBUTES *security, DWORD how, DWORD flags, HANDLE like) {
    return fails() ? INVALID_HANDLE_VALUE : CreateFileW(name, access, shared, security, how, flags, like);
}
static BOOL WINAPI write_file(HANDLE file, const void *bytes, DWORD size, DWORD *done, OVERLAPPED *at) {
    return !fails() && WriteFile(file, bytes, size, done, at);
}
static BOOL WINAPI flush(HANDLE file) {
    BOOL good = !fails() && FlushFileBuffers(file);
    InterlockedIncrement(&syncs);
    return good;
}
static BOOL WINAPI lock(HANDLE file, DWORD flags, DWORD none, DWORD low, DWORD high, OVERLAPPED *at) {
    return !fails() && LockFileEx(file, flags, none, low, high, at);
}
static BOOL WINAPI move(const wchar_t *from, const wchar_t *to, DWORD flags) { return !fails() && MoveFileExW(from, to, flags); }
static BOOL WINAPI delete(const wchar_t *name) { return !fails() && DeleteFileW(name); }
static BOOL WINAPI set(HANDLE file, FILE_INFO_BY_HANDLE_CLASS what, void *bytes, DWORD size) {
    return !fails() && SetFileInformationByHandle(file, what, bytes, size);
}
static BOOL WINAPI about(HANDLE file, BY_HANDLE_FILE_INFORMATION *found) {
    BOOL good = GetFileInformationByHandle(file, found);
    if (good && is_link)
        found->dwFileAttributes |= FILE_ATTRIBUTE_REPARSE_POINT;
    return good;
}

static const struct between {
    const char *name;
    void *by;
} BETWEEN[] = {
    {"CreateFileW", create}, {"WriteFile", write_file}, {"FlushFileBuffers", flush}, {"LockFileEx", lock}, {"MoveFileExW", move}, {"DeleteFileW", delete},
    {"SetFileInformationByHandle", set}, {"GetFileInformationByHandle", about},
};

static void *at(DWORD place) {
    return (BYTE *)core + place;
}

/* How many of them the core takes. */
static size_t stand_between(void) {
    IMAGE_NT_HEADERS *head = at((DWORD)((IMAGE_DOS_HEADER *)core)->e_lfanew);
    IMAGE_IMPORT_DESCRIPTOR *library = at(head->OptionalHeader.DataDirectory[IMAGE_DIRECTORY_ENTRY_IMPORT].VirtualAddress);
    size_t found = 0;
    for (; library->Name; library++) {
        IMAGE_THUNK_DATA *names = at(library->OriginalFirstThunk), *places = at(library->FirstThunk);
        for (; names->u1.AddressOfData; names++, places++)
            for (size_t one = 0; !IMAGE_SNAP_BY_ORDINAL(names->u1.Ordinal) && one < sizeof BETWEEN / sizeof *BETWEEN; one++) {
                IMAGE_IMPORT_BY_NAME *name = at((DWORD)names->u1.AddressOfData);
                DWORD before;
                if (strcmp((char *)name->Name, BETWEEN[one].name) != 0)
                    continue;
                VirtualProtect(places, sizeof *places, PAGE_READWRITE, &before);
                places->u1.Function = (uintptr_t)BETWEEN[one].by;
                found++;
            }
    }
    return found;
}

/* ---- what the core calls */

static bool environment(unsigned what, void *data) {
    switch (what) {
    case RETRO_ENVIRONMENT_SET_MESSAGE:
        printf("told %s\n", ((struct retro_message *)data)->msg);
        return true;
    case RETRO_ENVIRONMENT_GET_SAVE_DIRECTORY:
        *(const char **)data = saves;
        return true;
    case RETRO_ENVIRONMENT_GET_VARIABLE:
        if (strcmp(((struct retro_variable *)data)->key, "gbkeep_messages") != 0)
            return false;
        ((struct retro_variable *)data)->value = "all";
        return true;
    case RETRO_ENVIRONMENT_SET_PIXEL_FORMAT:
    case RETRO_ENVIRONMENT_SET_VARIABLES:
        return true;
    default:
        return false;
    }
}

static void show(const void *pixels, unsigned width, unsigned height, size_t pitch) {
    sum = 0;
    for (unsigned y = 0; y < height; y++)
        for (unsigned x = 0; x < width; x++)
            sum = sum * 31 + ((const uint32_t *)((const char *)pixels + y * pitch))[x];
}

static size_t sound(const int16_t *data, size_t frames) {
    (void)data;
    return frames;
}

static void poll_input(void) {}

static int16_t pressed(unsigned port, unsigned device, unsigned index, unsigned id) {
    (void)device, (void)index;
    for (unsigned bit = 0; port == 0 && bit < 8; bit++)
        if (BUTTONS[bit] == id)
            return buttons >> bit & 1;
    return 0;
}

/* ---- what it obeys */

static void load_core(const char *name) {
    core = LoadLibraryA(name);
    if (!core || stand_between() != sizeof BETWEEN / sizeof *BETWEEN) {
        fprintf(stderr, "front_end: %s is no core, or takes another function for its files\n", name);
        exit(2);
    }
    CALL(set_environment)(environment);
    CALL(set_video_refresh)(show);
    CALL(set_audio_sample_batch)(sound);
    CALL(set_input_poll)(poll_input);
    CALL(set_input_state)(pressed);
    CALL(init)();
}

static void write_state(const char *name) {
    size_t size = CALL(serialize_size)();
    FILE *file = fopen(name, "wb");
    bool good = file && size > 0 && size <= MOST_STATE && CALL(serialize)(kept, size) && fwrite(kept, 1, size, file) == size;
    printf("state %d\n", good && fclose(file) == 0);
}

static void settle(void) {
    for (int waited = 0; syncs == seen && waited < MOST_WAIT; waited++)
        Sleep(1);
    for (LONG last = -1; calls != last; Sleep(STILL))
        last = calls;
    seen = syncs;
}

static void obey(const char *word, const char *rest) {
    unsigned count = 0;
    if (strcmp(word, "save") == 0) {
        snprintf(saves, sizeof saves, "%s", rest);
    } else if (strcmp(word, "load") == 0) {
        struct retro_game_info info = {cart, NULL, 0, NULL};
        snprintf(cart, sizeof cart, "%s", rest);
        printf("loaded %d\n", CALL(load_game)(&info));
        seen = syncs;
    } else if (strcmp(word, "frames") == 0 && sscanf(rest, "%x %u", &buttons, &count) == 2) {
        for (; count > 0; count--)
            CALL(run)();
    } else if (strcmp(word, "reset") == 0) {
        CALL(reset)();
    } else if (strcmp(word, "keep") == 0) {
        kept_size = CALL(serialize_size)();
        printf("keep %d\n", kept_size <= MOST_STATE && CALL(serialize)(kept, kept_size));
    } else if (strcmp(word, "back") == 0) {
        printf("back %d\n", CALL(unserialize)(kept, kept_size));
    } else if (strcmp(word, "state") == 0) {
        write_state(rest);
    } else if (strcmp(word, "picture") == 0) {
        printf("picture %016llx\n", (unsigned long long)sum);
    } else if (strcmp(word, "wait") == 0) {
        Sleep((DWORD)atoi(rest));
        printf("waited\n");
    } else if (strcmp(word, "settle") == 0) {
        settle();
    } else if (strcmp(word, "unload") == 0) {
        CALL(unload_game)();
        printf("unloaded\n");
    } else if (strcmp(word, "second") == 0) {
        load_core(rest);
    } else if (strcmp(word, "kill") == 0) {
        killed_at = calls + atoi(rest);
    } else if (strcmp(word, "fail") == 0) {
        failing_at = calls + atoi(rest);
    } else if (strcmp(word, "link") == 0) {
        is_link = 1;
    } else if (strcmp(word, "calls") == 0) {
        printf("calls %ld\n", (long)calls);
    } else {
        fprintf(stderr, "front_end: %s\n", word);
        exit(2);
    }
}

int main(int count, char **words) {
    static char line[MOST_LINE];
    _setmode(_fileno(stdin), _O_BINARY), _setmode(_fileno(stdout), _O_BINARY);
    setvbuf(stdout, NULL, _IONBF, 0);
    if (count != 2)
        return 2;
    load_core(words[1]);
    while (fgets(line, sizeof line, stdin)) {
        line[strcspn(line, "\n")] = 0;
        char *blank = strchr(line, ' ');
        if (blank)
            *blank = 0;
        obey(line, blank ? blank + 1 : "");
    }
    CALL(deinit)();
    return 0;
}
