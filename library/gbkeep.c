/* The calls of gbkeep.h over the exports of crates/c_interface, which are proved. */
#include "gbkeep.h"

#include <stdlib.h>

#include "gbkeep_faults.h"

#ifdef GBKEEP_DEBUG
#include <assert.h>
#define NEEDS(condition) assert(condition)
#else
#define NEEDS(condition) ((void)0)
#endif

/* The address of a box. An export takes it and leaves it again in its last argument. */
struct handle {
    void *at;
};

uint32_t gbkeep_raw_machine_new(const uint8_t *rom, size_t rom_length, struct handle *out);
void gbkeep_raw_machine_free(struct handle machine);
void gbkeep_raw_machine_frames(struct handle machine, uint8_t buttons, uint32_t count, struct handle *out);
void gbkeep_raw_machine_seconds(struct handle machine, uint32_t seconds, struct handle *out);
uint32_t gbkeep_raw_machine_power(struct handle machine, struct handle *out);
void gbkeep_raw_machine_picture(struct handle machine, uint8_t *shades, size_t length, struct handle *out);
size_t gbkeep_raw_machine_state_length(struct handle machine, struct handle *out);
void gbkeep_raw_machine_state(struct handle machine, uint8_t *bytes, size_t length, struct handle *out);
uint32_t gbkeep_raw_machine_restore(struct handle machine, const uint8_t *bytes, size_t length, struct handle *out);
void gbkeep_raw_machine_memory(struct handle machine, uint16_t address, uint8_t *bytes, size_t length, struct handle *out);

uint32_t gbkeep_raw_session_sectors(const uint8_t *rom, size_t rom_length, uint64_t *sectors);
uint32_t gbkeep_raw_session_begin(const uint8_t *rom, size_t rom_length, size_t sectors, struct handle *out);
uint32_t gbkeep_raw_session_import(const uint8_t *rom, size_t rom_length, const uint8_t *battery, size_t battery_length, size_t sectors, struct handle *out);
uint32_t gbkeep_raw_session_resume(const uint8_t *rom, size_t rom_length, const uint8_t *image, size_t image_length, struct handle *out);
void gbkeep_raw_session_free(struct handle session);
uint32_t gbkeep_raw_session_frame(struct handle session, uint8_t buttons, struct handle *out);
uint32_t gbkeep_raw_session_seconds(struct handle session, uint32_t seconds, struct handle *out);
uint32_t gbkeep_raw_session_power(struct handle session, struct handle *out);
uint32_t gbkeep_raw_session_restore(struct handle session, const uint8_t *bytes, size_t length, struct handle *out);
uint32_t gbkeep_raw_session_save(struct handle session, uint64_t *saved, struct handle *out);
uint32_t gbkeep_raw_session_next_call(struct handle session, uint64_t *sector, uint8_t *bytes, size_t length, struct handle *out);
void gbkeep_raw_session_picture(struct handle session, uint8_t *shades, size_t length, struct handle *out);
size_t gbkeep_raw_session_state_length(struct handle session, struct handle *out);
void gbkeep_raw_session_state(struct handle session, uint8_t *bytes, size_t length, struct handle *out);
void gbkeep_raw_session_memory(struct handle session, uint16_t address, uint8_t *bytes, size_t length, struct handle *out);
uint32_t gbkeep_raw_session_region(struct handle session, uint32_t which, uint8_t *bytes, size_t length, struct handle *out);
uint64_t gbkeep_raw_session_count(struct handle session, struct handle *out);
size_t gbkeep_raw_session_battery_length(struct handle session, struct handle *out);
uint32_t gbkeep_raw_session_battery(struct handle session, uint8_t *bytes, size_t length, struct handle *out);

uint32_t gbkeep_raw_clock_look(const uint8_t *text, size_t length, uint64_t count, uint64_t between, uint64_t date, gbkeep_clock_found *out);
uint32_t gbkeep_raw_clock_line_of(const uint8_t *text, size_t length, size_t before, gbkeep_clock_line *line);
uint32_t gbkeep_raw_clock_open(const uint8_t *text, size_t length, uint64_t count, uint64_t date, uint64_t moment, uint32_t answer, gbkeep_clock *clock);
uint64_t gbkeep_raw_clock_text(const gbkeep_clock_line *line, uint8_t *text, size_t length);
uint32_t gbkeep_raw_clock_due(const gbkeep_clock *clock, uint64_t moment);
uint64_t gbkeep_raw_clock_claim(gbkeep_clock *clock, uint64_t count, uint64_t moment, gbkeep_clock_line *line, uint8_t *text, size_t length);
void gbkeep_raw_clock_claimed(gbkeep_clock *clock, const gbkeep_clock_line *line);
uint32_t gbkeep_raw_clock_give(gbkeep_clock *clock);
uint64_t gbkeep_raw_clock_note(gbkeep_clock *clock, uint64_t saved, gbkeep_clock_line *line, uint8_t *text, size_t length);
void gbkeep_raw_clock_noted(gbkeep_clock *clock, const gbkeep_clock_line *line);
void gbkeep_raw_clock_go_back(gbkeep_clock *clock, uint64_t until);

struct gbkeep_machine {
    struct handle handle;
    size_t state_length;
};

/* an address of no bytes */
static uint8_t nothing[1];

static const uint8_t *read_from(const uint8_t *bytes, size_t length) {
    NEEDS(bytes != NULL || length == 0);
    return length != 0 ? bytes : nothing;
}

static uint8_t *write_to(uint8_t *bytes, size_t length) {
    NEEDS(bytes != NULL || length == 0);
    return length != 0 ? bytes : nothing;
}

const char *gbkeep_fault_text(uint32_t code) {
    return code < sizeof TEXTS / sizeof *TEXTS ? TEXTS[code] : "unknown";
}

uint32_t gbkeep_machine_new(const uint8_t *rom, size_t rom_length, gbkeep_machine **out) {
    NEEDS(out != NULL);
    *out = NULL;
    gbkeep_machine *machine = malloc(sizeof *machine);
    if (machine == NULL) {
        return GBKEEP_NO_MEMORY;
    }
    machine->handle.at = NULL;
    uint32_t code = gbkeep_raw_machine_new(read_from(rom, rom_length), rom_length, &machine->handle);
    if (code != GBKEEP_DONE) {
        free(machine);
        return code;
    }
    machine->state_length = gbkeep_raw_machine_state_length(machine->handle, &machine->handle);
    *out = machine;
    return GBKEEP_DONE;
}

void gbkeep_machine_free(gbkeep_machine *machine) {
    if (machine != NULL) {
        gbkeep_raw_machine_free(machine->handle);
        free(machine);
    }
}

void gbkeep_machine_frames(gbkeep_machine *machine, uint8_t buttons, uint32_t count) {
    NEEDS(machine != NULL);
    gbkeep_raw_machine_frames(machine->handle, buttons, count, &machine->handle);
}

void gbkeep_machine_seconds(gbkeep_machine *machine, uint32_t seconds) {
    NEEDS(machine != NULL);
    gbkeep_raw_machine_seconds(machine->handle, seconds, &machine->handle);
}

uint32_t gbkeep_machine_power(gbkeep_machine *machine) {
    NEEDS(machine != NULL);
    return gbkeep_raw_machine_power(machine->handle, &machine->handle);
}

uint32_t gbkeep_machine_picture(gbkeep_machine *machine, uint8_t *shades, size_t length) {
    NEEDS(machine != NULL);
    if (length != GBKEEP_PICTURE_LENGTH) {
        return GBKEEP_WRONG_LENGTH;
    }
    gbkeep_raw_machine_picture(machine->handle, write_to(shades, length), length, &machine->handle);
    return GBKEEP_DONE;
}

size_t gbkeep_machine_state_length(const gbkeep_machine *machine) {
    NEEDS(machine != NULL);
    return machine->state_length;
}

uint32_t gbkeep_machine_state(gbkeep_machine *machine, uint8_t *bytes, size_t length) {
    NEEDS(machine != NULL);
    if (length != machine->state_length) {
        return GBKEEP_WRONG_LENGTH;
    }
    gbkeep_raw_machine_state(machine->handle, write_to(bytes, length), length, &machine->handle);
    return GBKEEP_DONE;
}

uint32_t gbkeep_machine_restore(gbkeep_machine *machine, const uint8_t *bytes, size_t length) {
    NEEDS(machine != NULL);
    return gbkeep_raw_machine_restore(machine->handle, read_from(bytes, length), length, &machine->handle);
}

void gbkeep_machine_memory(const gbkeep_machine *machine, uint16_t address, uint8_t *bytes, size_t length) {
    NEEDS(machine != NULL);
    struct handle same;
    gbkeep_raw_machine_memory(machine->handle, address, write_to(bytes, length), length, &same);
    NEEDS(same.at == machine->handle.at);
}

struct gbkeep_session {
    struct handle handle;
    size_t state_length;
    size_t battery_length;
};

uint32_t gbkeep_session_sectors(const uint8_t *rom, size_t rom_length, uint32_t *out) {
    NEEDS(out != NULL);
    uint64_t sectors = 0;
    uint32_t code = gbkeep_raw_session_sectors(read_from(rom, rom_length), rom_length, &sectors);
    if (code == GBKEEP_DONE) {
        /* below 1,000: a state has less than 200,000 bytes */
        *out = (uint32_t)sectors;
    }
    return code;
}

/* the session that begin, import or resume left in `handle`, or why there is none */
static uint32_t made(uint32_t code, struct handle handle, gbkeep_session *session, gbkeep_session **out) {
    if (code != GBKEEP_DONE) {
        free(session);
        return code;
    }
    session->handle = handle;
    session->state_length = gbkeep_raw_session_state_length(session->handle, &session->handle);
    session->battery_length = gbkeep_raw_session_battery_length(session->handle, &session->handle);
    *out = session;
    return GBKEEP_DONE;
}

uint32_t gbkeep_session_begin(const uint8_t *rom, size_t rom_length, uint32_t sectors, gbkeep_session **out) {
    NEEDS(out != NULL);
    *out = NULL;
    gbkeep_session *session = malloc(sizeof *session);
    if (session == NULL) {
        return GBKEEP_NO_MEMORY;
    }
    struct handle handle = {NULL};
    uint32_t code = gbkeep_raw_session_begin(read_from(rom, rom_length), rom_length, sectors, &handle);
    return made(code, handle, session, out);
}

uint32_t gbkeep_session_import(const uint8_t *rom, size_t rom_length, const uint8_t *battery, size_t battery_length, uint32_t sectors,
                               gbkeep_session **out) {
    NEEDS(out != NULL);
    *out = NULL;
    gbkeep_session *session = malloc(sizeof *session);
    if (session == NULL) {
        return GBKEEP_NO_MEMORY;
    }
    struct handle handle = {NULL};
    uint32_t code = gbkeep_raw_session_import(read_from(rom, rom_length), rom_length, read_from(battery, battery_length), battery_length, sectors, &handle);
    return made(code, handle, session, out);
}

uint32_t gbkeep_session_resume(const uint8_t *rom, size_t rom_length, const uint8_t *image, size_t image_length, gbkeep_session **out) {
    NEEDS(out != NULL);
    *out = NULL;
    if (image_length / 512 > UINT32_MAX) {
        return GBKEEP_DEVICE_SIZE;
    }
    gbkeep_session *session = malloc(sizeof *session);
    if (session == NULL) {
        return GBKEEP_NO_MEMORY;
    }
    struct handle handle = {NULL};
    uint32_t code = gbkeep_raw_session_resume(read_from(rom, rom_length), rom_length, read_from(image, image_length), image_length, &handle);
    return made(code, handle, session, out);
}

void gbkeep_session_free(gbkeep_session *session) {
    if (session != NULL) {
        gbkeep_raw_session_free(session->handle);
        free(session);
    }
}

uint32_t gbkeep_session_frames(gbkeep_session *session, uint8_t buttons, uint32_t count) {
    NEEDS(session != NULL);
    for (uint32_t frame = 0; frame < count; frame++) {
        uint32_t code = gbkeep_raw_session_frame(session->handle, buttons, &session->handle);
        if (code != GBKEEP_DONE) {
            return code;
        }
    }
    return GBKEEP_DONE;
}

uint32_t gbkeep_session_seconds(gbkeep_session *session, uint32_t seconds) {
    NEEDS(session != NULL);
    return gbkeep_raw_session_seconds(session->handle, seconds, &session->handle);
}

uint32_t gbkeep_session_power(gbkeep_session *session) {
    NEEDS(session != NULL);
    return gbkeep_raw_session_power(session->handle, &session->handle);
}

uint32_t gbkeep_session_restore(gbkeep_session *session, const uint8_t *bytes, size_t length) {
    NEEDS(session != NULL);
    return gbkeep_raw_session_restore(session->handle, read_from(bytes, length), length, &session->handle);
}

uint32_t gbkeep_session_save(gbkeep_session *session, uint64_t *saved) {
    NEEDS(session != NULL && saved != NULL);
    return gbkeep_raw_session_save(session->handle, saved, &session->handle);
}

void gbkeep_session_next_call(gbkeep_session *session, gbkeep_call *out) {
    NEEDS(session != NULL && out != NULL);
    uint64_t sector = 0;
    out->kind = gbkeep_raw_session_next_call(session->handle, &sector, out->bytes, sizeof out->bytes, &session->handle);
    /* below the number of sectors, which is a uint32_t */
    out->sector = (uint32_t)sector;
}

uint32_t gbkeep_session_picture(gbkeep_session *session, uint8_t *shades, size_t length) {
    NEEDS(session != NULL);
    if (length != GBKEEP_PICTURE_LENGTH) {
        return GBKEEP_WRONG_LENGTH;
    }
    gbkeep_raw_session_picture(session->handle, write_to(shades, length), length, &session->handle);
    return GBKEEP_DONE;
}

size_t gbkeep_session_state_length(const gbkeep_session *session) {
    NEEDS(session != NULL);
    return session->state_length;
}

uint32_t gbkeep_session_state(gbkeep_session *session, uint8_t *bytes, size_t length) {
    NEEDS(session != NULL);
    if (length != session->state_length) {
        return GBKEEP_WRONG_LENGTH;
    }
    gbkeep_raw_session_state(session->handle, write_to(bytes, length), length, &session->handle);
    return GBKEEP_DONE;
}

uint64_t gbkeep_session_count(const gbkeep_session *session) {
    NEEDS(session != NULL);
    struct handle same;
    uint64_t count = gbkeep_raw_session_count(session->handle, &same);
    NEEDS(same.at == session->handle.at);
    return count;
}

void gbkeep_session_memory(const gbkeep_session *session, uint16_t address, uint8_t *bytes, size_t length) {
    NEEDS(session != NULL);
    struct handle same;
    gbkeep_raw_session_memory(session->handle, address, write_to(bytes, length), length, &same);
    NEEDS(same.at == session->handle.at);
}

uint32_t gbkeep_session_region(const gbkeep_session *session, uint32_t which, uint8_t *bytes, size_t length) {
    NEEDS(session != NULL);
    struct handle same;
    uint32_t code = gbkeep_raw_session_region(session->handle, which, write_to(bytes, length), length, &same);
    NEEDS(same.at == session->handle.at);
    return code;
}

size_t gbkeep_session_battery_length(const gbkeep_session *session) {
    NEEDS(session != NULL);
    return session->battery_length;
}

uint32_t gbkeep_session_battery(gbkeep_session *session, uint8_t *bytes, size_t length) {
    NEEDS(session != NULL);
    if (length != session->battery_length) {
        return GBKEEP_WRONG_LENGTH;
    }
    return gbkeep_raw_session_battery(session->handle, write_to(bytes, length), length, &session->handle);
}

uint32_t gbkeep_clock_look(const uint8_t *text, size_t length, uint64_t count, uint64_t between, uint64_t date, gbkeep_clock_found *out) {
    NEEDS(out != NULL);
    return gbkeep_raw_clock_look(read_from(text, length), length, count, between, date, out);
}

uint32_t gbkeep_clock_line_of(const uint8_t *text, size_t length, size_t before, gbkeep_clock_line *out) {
    NEEDS(out != NULL);
    return gbkeep_raw_clock_line_of(read_from(text, length), length, before, out);
}

uint32_t gbkeep_clock_open(const uint8_t *text, size_t length, uint64_t count, uint64_t date, uint64_t moment, uint32_t answer, gbkeep_clock *out) {
    NEEDS(out != NULL);
    return gbkeep_raw_clock_open(read_from(text, length), length, count, date, moment, answer, out);
}

size_t gbkeep_clock_text(const gbkeep_clock_line *line, uint8_t *text) {
    NEEDS(line != NULL && text != NULL);
    return (size_t)gbkeep_raw_clock_text(line, text, GBKEEP_CLOCK_TEXT);
}

uint32_t gbkeep_clock_due(const gbkeep_clock *clock, uint64_t moment) {
    NEEDS(clock != NULL);
    return gbkeep_raw_clock_due(clock, moment);
}

size_t gbkeep_clock_claim(gbkeep_clock *clock, uint64_t count, uint64_t moment, gbkeep_clock_line *line, uint8_t *text) {
    NEEDS(clock != NULL && line != NULL && text != NULL);
    return (size_t)gbkeep_raw_clock_claim(clock, count, moment, line, text, GBKEEP_CLOCK_TEXT);
}

void gbkeep_clock_claimed(gbkeep_clock *clock, const gbkeep_clock_line *line) {
    NEEDS(clock != NULL && line != NULL);
    gbkeep_raw_clock_claimed(clock, line);
}

uint32_t gbkeep_clock_give(gbkeep_clock *clock) {
    NEEDS(clock != NULL);
    return gbkeep_raw_clock_give(clock);
}

size_t gbkeep_clock_note(gbkeep_clock *clock, uint64_t saved, gbkeep_clock_line *line, uint8_t *text) {
    NEEDS(clock != NULL && line != NULL && text != NULL);
    return (size_t)gbkeep_raw_clock_note(clock, saved, line, text, GBKEEP_CLOCK_TEXT);
}

void gbkeep_clock_noted(gbkeep_clock *clock, const gbkeep_clock_line *line) {
    NEEDS(clock != NULL && line != NULL);
    gbkeep_raw_clock_noted(clock, line);
}

void gbkeep_clock_go_back(gbkeep_clock *clock, uint64_t until) {
    NEEDS(clock != NULL);
    gbkeep_raw_clock_go_back(clock, until);
}
