/* Makes each call of gbkeep.h, and prints a line of each: the same on each system. usage: calls ROM */
#include <stdbool.h>
#include <stdio.h>
#include <stdlib.h>
#include <string.h>
#include "gbkeep.h"

enum { MOST_ROM = 1 << 20, MOST_BYTES = 1 << 20, SECTOR = 512 };
static uint8_t rom[MOST_ROM], bytes[MOST_BYTES], other[MOST_BYTES], image[MOST_BYTES];
static size_t rom_length, image_length;

/* a sum of bytes that tells most of them apart */
static uint64_t sum_of(const void *from, size_t length) {
    uint64_t sum = 0xcbf29ce484222325;
    for (size_t at = 0; at < length; at++)
        sum = (sum ^ ((const uint8_t *)from)[at]) * 0x100000001b3;
    return sum;
}

static void number(const char *what, uint64_t value) {
    printf("%s %08x%08x\n", what, (unsigned)(value >> 32), (unsigned)value);
}

static void content(const char *what, const void *from, size_t length) {
    number(what, length);
    number(what, sum_of(from, length));
}

/* a structure of C's by its fields, since what lies between them is nobody's */
static void line_content(const char *what, const gbkeep_clock_line *line) {
    number(what, line->count), number(what, line->until);
}

static void clock_content(const char *what, const gbkeep_clock *clock) {
    number(what, clock->until), number(what, clock->opened), number(what, clock->began), number(what, clock->is_claimed);
    line_content(what, &clock->written), line_content(what, &clock->claimed);
}

static void machine_content(gbkeep_machine *machine) {
    size_t length = gbkeep_machine_state_length(machine);
    number("machine_picture", gbkeep_machine_picture(machine, bytes, GBKEEP_PICTURE_LENGTH));
    content("machine_picture", bytes, GBKEEP_PICTURE_LENGTH);
    number("machine_state", gbkeep_machine_state(machine, bytes, length));
    content("machine_state", bytes, length);
    gbkeep_machine_memory(machine, 0x0000, other, 0x10000);
    content("machine_memory", other, 0x10000);
}

static void try_machine(void) {
    gbkeep_machine *machine = NULL;
    static const size_t WRONG[] = {0, 1, 0x4000, 0x8001};
    for (size_t one = 0; one < sizeof WRONG / sizeof *WRONG; one++) {
        number("machine_new", gbkeep_machine_new(rom, WRONG[one], &machine));
        number("machine_new", machine != NULL);
    }
    gbkeep_machine_free(NULL);
    number("machine_new", gbkeep_machine_new(rom, rom_length, &machine));
    machine_content(machine);
    gbkeep_machine_frames(machine, 0, 60);
    gbkeep_machine_frames(machine, GBKEEP_START, 4);
    gbkeep_machine_frames(machine, GBKEEP_RIGHT | GBKEEP_A, 70);
    gbkeep_machine_seconds(machine, 100000);
    machine_content(machine);
    size_t length = gbkeep_machine_state_length(machine);
    gbkeep_machine_state(machine, image, length);
    number("machine_power", gbkeep_machine_power(machine));
    machine_content(machine);
    number("machine_restore", gbkeep_machine_restore(machine, image, length - 1));
    number("machine_restore", gbkeep_machine_restore(machine, NULL, 0));
    image[8] ^= 1;
    number("machine_restore", gbkeep_machine_restore(machine, image, length));
    image[8] ^= 1;
    number("machine_restore", gbkeep_machine_restore(machine, image, length));
    machine_content(machine);
    number("machine_picture", gbkeep_machine_picture(machine, bytes, 1));
    number("machine_state", gbkeep_machine_state(machine, bytes, 1));
    gbkeep_machine_free(machine);
}

/* Makes the calls that are handed out on the image. */
static void make_calls(gbkeep_session *session) {
    gbkeep_call call;
    for (;;) {
        gbkeep_session_next_call(session, &call);
        number("session_next_call", call.kind);
        if (call.kind == GBKEEP_NO_CALL)
            return;
        if (call.kind == GBKEEP_WRITE) {
            number("session_next_call", call.sector);
            number("session_next_call", sum_of(call.bytes, SECTOR));
            memcpy(image + (size_t)call.sector * SECTOR, call.bytes, SECTOR);
        }
    }
}

static void session_content(gbkeep_session *session) {
    static const size_t LENGTHS[] = {8192, 8192, 160, 127, 8192};
    size_t length = gbkeep_session_state_length(session), battery = gbkeep_session_battery_length(session);
    number("session_count", gbkeep_session_count(session));
    number("session_picture", gbkeep_session_picture(session, bytes, GBKEEP_PICTURE_LENGTH));
    content("session_picture", bytes, GBKEEP_PICTURE_LENGTH);
    number("session_state", gbkeep_session_state(session, bytes, length));
    content("session_state", bytes, length);
    number("session_battery", gbkeep_session_battery(session, bytes, battery));
    content("session_battery", bytes, battery);
    gbkeep_session_memory(session, 0xc000, bytes, 0x4000);
    content("session_memory", bytes, 0x4000);
    memset(bytes, 0, sizeof bytes);
    for (uint32_t which = GBKEEP_VRAM; which <= GBKEEP_CARTRIDGE_RAM + 1; which++) {
        size_t size = which <= GBKEEP_CARTRIDGE_RAM ? LENGTHS[which] : 1;
        number("session_region", gbkeep_session_region(session, which, bytes, size));
        content("session_region", bytes, size);
    }
}

static void save(gbkeep_session *session) {
    uint64_t saved = 0;
    number("session_save", gbkeep_session_save(session, &saved));
    number("session_save", saved);
    make_calls(session);
}

static void try_session(void) {
    gbkeep_session *session = NULL;
    uint32_t sectors = 0;
    number("session_sectors", gbkeep_session_sectors(rom, 1, &sectors));
    number("session_sectors", gbkeep_session_sectors(rom, rom_length, &sectors));
    number("session_sectors", sectors);
    image_length = (size_t)sectors * SECTOR;
    memset(image, 0, sizeof image);
    gbkeep_session_free(NULL);
    number("session_begin", gbkeep_session_begin(rom, rom_length, sectors - 1, &session));
    number("session_resume", gbkeep_session_resume(rom, rom_length, image, image_length, &session));
    number("session_resume", gbkeep_session_resume(rom, rom_length, image, image_length - 1, &session));
    number("session_begin", gbkeep_session_begin(rom, rom_length, sectors, &session));
    make_calls(session);
    session_content(session);
    number("session_frames", gbkeep_session_frames(session, 0, 40));
    number("session_frames", gbkeep_session_frames(session, GBKEEP_START, 4));
    save(session);
    number("session_frames", gbkeep_session_frames(session, GBKEEP_RIGHT, 3201));
    number("session_seconds", gbkeep_session_seconds(session, 7));
    session_content(session);
    save(session);
    number("session_seconds", gbkeep_session_seconds(session, 4000000000u));
    number("session_power", gbkeep_session_power(session));
    save(session);
    size_t length = gbkeep_session_state_length(session);
    gbkeep_session_state(session, other, length);
    number("session_frames", gbkeep_session_frames(session, GBKEEP_A, 30));
    number("session_restore", gbkeep_session_restore(session, other, length - 1));
    number("session_restore", gbkeep_session_restore(session, other, length));
    save(session);
    session_content(session);
    size_t battery = gbkeep_session_battery_length(session);
    gbkeep_session_battery(session, other, battery);
    gbkeep_session_free(session);
    content("the image", image, image_length);
    number("session_resume", gbkeep_session_resume(rom, rom_length, image, image_length, &session));
    make_calls(session);
    session_content(session);
    gbkeep_session_free(session);
    content("the image", image, image_length);
    number("session_import", gbkeep_session_import(rom, rom_length, other, battery + 1, sectors, &session));
    uint32_t code = gbkeep_session_import(rom, rom_length, other, battery, sectors, &session);
    number("session_import", code);
    if (code == GBKEEP_DONE) {
        memset(image, 0, sizeof image);
        make_calls(session);
        session_content(session);
        gbkeep_session_free(session);
    }
}

static void try_clock(void) {
    static const char *const TEXTS[] = {"", "5 1000\n", "5 1000\n7 1010\n", "x", "5 99999999999\n"};
    gbkeep_clock clock;
    gbkeep_clock_line line;
    gbkeep_clock_found found;
    for (size_t one = 0; one < sizeof TEXTS / sizeof *TEXTS; one++) {
        const uint8_t *text = (const uint8_t *)TEXTS[one];
        size_t length = strlen(TEXTS[one]);
        memset(&found, 0, sizeof found), memset(&line, 0, sizeof line), memset(&clock, 0, sizeof clock);
        number("clock_look", gbkeep_clock_look(text, length, 6, 2000, 1500000, &found));
        number("clock_look", found.lines), number("clock_look", found.away), number("clock_look", found.seconds), number("clock_look", found.played);
        number("clock_line_of", gbkeep_clock_line_of(text, length, 1, &line));
        line_content("clock_line_of", &line);
        if (gbkeep_clock_open(text, length, 6, 1500000, 20000, GBKEEP_CLOCK_GIVE, &clock) != GBKEEP_DONE)
            continue;
        clock_content("clock_open", &clock);
        size_t size = gbkeep_clock_text(&clock.written, bytes);
        content("clock_text", bytes, size);
        number("clock_due", gbkeep_clock_due(&clock, 90000));
        size = gbkeep_clock_claim(&clock, 7, 90000, &line, bytes);
        content("clock_claim", bytes, size);
        gbkeep_clock_claimed(&clock, &line);
        number("clock_give", gbkeep_clock_give(&clock));
        clock_content("clock_give", &clock);
        size = gbkeep_clock_note(&clock, 100, &line, bytes);
        content("clock_note", bytes, size);
        gbkeep_clock_noted(&clock, &line);
        gbkeep_clock_go_back(&clock, 1200);
        clock_content("clock_go_back", &clock);
        number("clock_due", gbkeep_clock_due(&clock, 90000));
    }
}

int main(int count, char **words) {
    FILE *file = count == 2 ? fopen(words[1], "rb") : NULL;
    if (!file)
        return 2;
    rom_length = fread(rom, 1, sizeof rom, file);
    fclose(file);
    for (uint32_t code = 0; code < 30; code++)
        printf("fault_text %s\n", gbkeep_fault_text(code));
    try_machine();
    try_session();
    try_clock();
    return 0;
}
