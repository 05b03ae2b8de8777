/* A game: begun, taken up and ended. */
#include "core.h"
#include <stdio.h>
#include <stdlib.h>
#include <string.h>
#include "tables.h"

struct game game = {.file = -1};

bool name_file(char path[MOST_PATH], const char *cart, const char *suffix, bool is_beside) {
    const char *folder = NULL, *name = name_of(cart), *dot = strrchr(cart, '.');
    int length = dot && dot > name ? (int)(dot - name) : (int)strlen(name);
    int size;
    if (!is_beside && environment(RETRO_ENVIRONMENT_GET_SAVE_DIRECTORY, &folder) && folder && *folder)
        size = snprintf(path, MOST_PATH, "%s/%.*s%s", folder, length, name, suffix);
    else
        size = snprintf(path, MOST_PATH, "%.*s%.*s%s", name == cart ? 2 : (int)(name - cart), name == cart ? "./" : cart, length, name, suffix);
    return size > 0 && size < MOST_PATH;
}

/* The mark of a game that is played by `record`, beside the file itself where SAVE is a link; false where there is none. */
static bool find_mark(char path[MOST_PATH]) {
    char real[MOST_PATH];
    const char *save = real_path(game.save, real) ? real : game.save;
    int size = snprintf(path, MOST_PATH, "%s.recorded", save);
    return size > 0 && size < MOST_PATH && look_at_name(path).is_there;
}

/* Takes away the mark that a recorded game of this name left, and no other file: the recording's name, `gbkeep record`, and perhaps a number and a digest. */
static void unmark(void) {
    static const char line[] = "\ngbkeep record\n";
    char path[MOST_PATH];
    size_t length, size = sizeof line - 1, end;
    uint8_t *mark = find_mark(path) ? read_file(path, false, 8192, &length) : NULL;
    if (mark && length >= size && length <= 8192) {
        mark[length] = 0;
        for (end = length - 1; end > 0 && mark[end - 1] != '\n';)
            end--;
        if (end == 0 || end + strspn((char *)mark + end, "0123456789abcdef \n") != length)
            end = length;
        if (end >= size && memcmp(mark + end - size, line, size) == 0)
            take_away(path);
    }
    free(mark);
}

/* Begins a game in a new file, with what another core's battery file keeps where there is one and the option says so. */
static bool begin_game(void) {
    gbkeep_session *session = NULL;
    char path[MOST_PATH], why[100];
    size_t length = 0;
    bool has_battery = game.imports && find_battery(path);
    uint8_t *battery = has_battery ? read_file(path, true, MOST_BATTERY, &length) : NULL;
    if (has_battery && !battery)
        return refuse_battery(path, "it can't be read");
    uint32_t code = gbkeep_session_sectors(game.rom, game.rom_length, &game.sectors), imported = GBKEEP_NO_BATTERY;
    if (code == GBKEEP_DONE && has_battery)
        imported = code = gbkeep_session_import(game.rom, game.rom_length, battery, length, game.sectors, &session);
    free(battery);
    if (code == GBKEEP_NO_BATTERY || (code == GBKEEP_DONE && !has_battery))
        code = gbkeep_session_begin(game.rom, game.rom_length, game.sectors, &session);
    if (code == GBKEEP_BATTERY_LENGTH && gbkeep_session_begin(game.rom, game.rom_length, game.sectors, &session) == GBKEEP_DONE) {
        snprintf(why, sizeof why, "it has %llu bytes, and a save of this game has %zu", look_at(path).size,
                 gbkeep_session_battery_length(session));
        gbkeep_session_free(session);
        return refuse_battery(path, why);
    }
    if (code != GBKEEP_DONE)
        return fail_by(code, "new");
    game.image = calloc(game.sectors, SECTOR);
    bool good = game.image && take_calls(session);
    gbkeep_session_free(session);
    game.job->count = 0;
    if (!good)
        return fail_by(GBKEEP_NO_MEMORY, "new");
    good = make_file(game.save, game.image, (size_t)game.sectors * SECTOR);
    free(game.image);
    game.image = NULL;
    if (!good)
        return fail_by(GBKEEP_DEVICE_FAILED, "new");
    unmark();
    if (has_battery)
        tell_battery(path, imported == GBKEEP_DONE);
    return true;
}

/* Opens SAVE, and reads it. */
static bool open_save(void) {
    char line[MOST_LINE], mark[MOST_PATH];
    unsigned long long size;
    game.file = open_save_file(game.save, &size);
    if (game.file < 0)
        return fail_by(GBKEEP_DEVICE_FAILED, "stream");
    if (size % SECTOR != 0 || size > (unsigned long long)MOST_SECTORS * SECTOR) {
        snprintf(line, sizeof line, "device size %llu", size);
        return fail_with(GBKEEP_DEVICE_SIZE, line, "stream");
    }
    game.sectors = (uint32_t)(size / SECTOR);
    game.image = malloc((size_t)size + 1);
    if (!game.image)
        return fail_by(GBKEEP_NO_MEMORY, "stream");
    if (!read_at(game.file, game.image, (size_t)size))
        return fail_by(GBKEEP_DEVICE_FAILED, "stream");
    return !find_mark(mark) || fail_with(FAULT_RECORDED_GAME, "recorded game: play it by record", "stream");
}

/* Whether this is a second load of the game: this very process has SAVE open, and by no thread that was left. */
static bool is_second(void) {
    return atomic_load(&left_behind) == 0 && is_open_here(game.save);
}

bool take_up(void) {
    uint32_t code, needed;
    game.rom = read_file(game.cart, true, MOST_ROM, &game.rom_length);
    game.job = calloc(1, sizeof *game.job);
    if (!game.rom)
        return fail_with(FAULT_FILE_FAILED, "file failed", "stream");
    if (!game.job)
        return fail_by(GBKEEP_NO_MEMORY, "stream");
    game.job->file = -1;
    code = gbkeep_session_sectors(game.rom, game.rom_length, &needed);
    if (code != GBKEEP_DONE)
        return fail_by(code, "stream");
    if (is_second()) {
        code = gbkeep_machine_new(game.rom, game.rom_length, &game.machine);
        game.state_length = code == GBKEEP_DONE ? gbkeep_machine_state_length(game.machine) : 0;
        game.state = malloc(game.state_length + 1);
        return (code == GBKEEP_DONE && game.state) || fail_by(GBKEEP_NO_MEMORY, "stream");
    }
    game.has_clock = game.rom[0x147] == 0x0f || game.rom[0x147] == 0x10;
    struct found there = look_at_name(game.save);
    /* an empty file is what a cut within the making of a game leaves */
    game.is_new = !there.is_there || (there.is_plain && there.size == 0);
    if ((game.is_new && !begin_game()) || !open_save())
        return false;
    code = gbkeep_session_resume(game.rom, game.rom_length, game.image, (size_t)game.sectors * SECTOR, &game.session);
    free(game.image);
    game.image = NULL;
    if (code != GBKEEP_DONE)
        return fail_by(code, "stream");
    game.state_length = gbkeep_session_state_length(game.session);
    game.state = malloc(game.state_length + 1);
    if (!game.state || !take_calls(game.session))
        return fail_by(GBKEEP_NO_MEMORY, "stream");
    game.count = game.asked = game.saved = gbkeep_session_count(game.session);
    begin_work(SAVE);
    if (!wait_for_work())
        return false;
    begin_clock();
    show_memory();
    tell(NEWS, 120, NULL, "resumed %llu", game.count);
    return true;
}

void end_game(void) {
    struct job *job = game.job;
    if (job && job->work != NO_WORK)
        leave_work();
    job = game.job;
    if (job) {
        if (job->work != NO_WORK && job->has_thread)
            wait_for_thread(job->thread);
        /* the file is the game's */
        job->file = -1;
        free_job(job);
        game.job = NULL;
    }
    gbkeep_session_free(game.session);
    gbkeep_machine_free(game.machine);
    close_one(&game.file);
    free(game.rom), free(game.image), free(game.state);
    game.session = NULL, game.machine = NULL, game.rom = game.image = game.state = NULL;
}

bool give_up(const char *line) {
    end_game();
    return fail_with(0, line, "stream");
}

bool give_up_by(uint32_t code) {
    fail_by(code, "stream");
    end_game();
    return false;
}
