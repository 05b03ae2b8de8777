/* Battery files of other cores: one begins a game, and one is left at its end. */
#include "core.h"
#include <stdio.h>
#include <stdlib.h>
#include <string.h>

/* how many are kept aside */
enum { MOST_KEPT = 99 };

bool find_battery(char path[MOST_PATH]) {
    static const char *const SUFFIXES[] = {".srm", ".sav"};
    for (unsigned one = 0; one < 4; one++)
        if (name_file(path, game.cart, SUFFIXES[one / 2], one % 2) && look_at(path).is_plain)
            return true;
    return false;
}

bool refuse_battery(const char *path, const char *why) {
    char name[MOST_NAME + 1], more[MOST_PATH + 300];
    name_shortly(name, path);
    snprintf(more, sizeof more, "%s: %s. What to do: put the right file there or take it away, or say no to the core's option '" IMPORT_OPTION "'.", path, why);
    snprintf(game.fault, sizeof game.fault, "%s", why);
    snprintf(game.shown, sizeof game.shown, "%s is no save of this game: move it away", name);
    tell(REFUSAL, 600, more, "%s", game.shown);
    return false;
}

void tell_battery(const char *path, bool is_taken) {
    char name[MOST_NAME + 1], more[MOST_PATH + 200];
    name_shortly(name, path);
    snprintf(more, sizeof more, "%s: %s. That file is only read.", path, is_taken ? "what it keeps of the cartridge is in the new game" : "the cartridge has no battery, so the file is none of it");
    tell(REFUSAL, 600, more, is_taken ? "A new game with the save in %s" : "A new game without %s: there is no battery", name);
}

/* Whether a plain file has these bytes. */
static bool has_bytes(const char *path, const uint8_t *bytes, size_t length) {
    size_t found;
    uint8_t *there = read_file(path, false, MOST_BATTERY, &found);
    bool is_same = there && found == length && memcmp(there, bytes, length) == 0;
    free(there);
    return is_same;
}

/* Keeps a copy of these bytes beside a file, under its name with the first number that is free: answers that, or 0. */
static int keep_aside(const char *path, const uint8_t *bytes, size_t length) {
    char kept[MOST_PATH];
    int number = 0, size;
    do {
        size = snprintf(kept, sizeof kept, "%s.%d", path, ++number);
    } while (number < MOST_KEPT && look_at_name(kept).is_there);
    return size < MOST_PATH && !look_at_name(kept).is_there && put_file(kept, bytes, length, game.file) ? number : 0;
}

/* Puts these bytes in the place of NAME.srm, durably. What is there stays, under another name, but for what the core has put there itself, of which
 * NAME.gbkeep.battery is a copy. */
static bool put_battery(const char *path, const char *mark, const uint8_t *bytes, size_t length, int *kept) {
    size_t old_length = 0;
    bool is_there = look_at_name(path).is_there;
    struct found copy = look_at_name(mark);
    uint8_t *old = is_there ? read_file(path, false, MOST_BATTERY, &old_length) : NULL;
    bool good = (!is_there || (old && old_length <= MOST_BATTERY)) && (!copy.is_there || copy.is_plain);
    if (good && is_there && !has_bytes(mark, old, old_length))
        good = (*kept = keep_aside(path, old, old_length)) != 0;
    good = good && put_file(path, bytes, length, game.file) && put_file(mark, bytes, length, game.file);
    free(old);
    return good;
}

void leave_battery(void) {
    char path[MOST_PATH], mark[MOST_PATH + 8], name[MOST_NAME + 1];
    size_t length = gbkeep_session_battery_length(game.session);
    int kept = 0;
    uint8_t *bytes = malloc(length + 1);
    uint32_t code = bytes ? gbkeep_session_battery(game.session, bytes, length) : GBKEEP_NO_MEMORY;
    snprintf(path, sizeof path, "%.*s.srm", (int)(strlen(game.save) - strlen(".gbkeep")), game.save);
    snprintf(mark, sizeof mark, "%s.battery", game.save);
    bool good = code == GBKEEP_DONE;
    if (code != GBKEEP_NO_BATTERY && !(good && has_bytes(path, bytes, length))) {
        name_shortly(name, path);
        if (!good || !put_battery(path, mark, bytes, length, &kept))
            tell(REFUSAL, 600, path, "%s can't be written for other cores", name);
        else if (kept)
            tell(REFUSAL, 600, path, "%s is written; the one before ends in .%d", name, kept);
        else
            tell(NEWS, 120, path, "%s is written", name);
    }
    free(bytes);
}
