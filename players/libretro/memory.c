/* What the front end may look at. */
#include "core.h"
#include <string.h>

/* what a state has beside the cartridge's RAM */
enum { STATE_WITHOUT_RAM = 22647 };

/* the address space, as far as the front end sees it, and whether that has its address; it outlives a game */
static uint8_t view[0x10000];
static bool is_looked_at;

const uint8_t *state_now(void) {
    if (!game.has_state && game.session)
        gbkeep_session_state(game.session, game.state, game.state_length);
    else if (!game.has_state)
        gbkeep_machine_state(game.machine, game.state, game.state_length);
    game.has_state = true;
    return game.state;
}

void look_into(void) {
    size_t ram = game.state_length - STATE_WITHOUT_RAM;
    if (!is_looked_at || !game.session)
        return;
    gbkeep_session_region(game.session, GBKEEP_VRAM, view + 0x8000, 0x2000);
    gbkeep_session_region(game.session, GBKEEP_CARTRIDGE_RAM, view + 0xa000, ram < 0x2000 ? ram : 0x2000);
    gbkeep_session_region(game.session, GBKEEP_WRAM, view + 0xc000, 0x2000);
    gbkeep_session_region(game.session, GBKEEP_OAM, view + 0xfe00, 0xa0);
    gbkeep_session_region(game.session, GBKEEP_HRAM, view + 0xff80, 0x7f);
    gbkeep_session_memory(game.session, 0xffff, view + 0xffff, 1);
}

/* A map of the address space, which may be read alone: of switched memory its first bank. */
void show_memory(void) {
    static const struct retro_memory_descriptor PARTS[] = {
        {RETRO_MEMDESC_CONST, view, 0, 0, 0, 0, 0x4000, NULL},
        {RETRO_MEMDESC_CONST | RETRO_MEMDESC_VIDEO_RAM, view, 0x8000, 0x8000, 0, 0, 0x2000, NULL},
        {RETRO_MEMDESC_CONST, view, 0xa000, 0xa000, 0, 0, 0x2000, NULL},
        {RETRO_MEMDESC_CONST | RETRO_MEMDESC_SYSTEM_RAM, view, 0xc000, 0xc000, 0, 0, 0x2000, NULL},
        {RETRO_MEMDESC_CONST, view, 0xfe00, 0xfe00, 0, 0, 0x100, NULL},
        {RETRO_MEMDESC_CONST, view, 0xff80, 0xff80, 0, 0, 0x80, NULL},
    };
    struct retro_memory_map map = {PARTS, sizeof PARTS / sizeof *PARTS};
    memset(view, 0, sizeof view);
    memcpy(view, game.rom, 0x4000);
    if (environment(RETRO_ENVIRONMENT_SET_MEMORY_MAPS, &map))
        is_looked_at = true;
    look_into();
}

/* The front end sees the system's memory. It gets no save memory, and its cheats change nothing. */
RETRO_API void *retro_get_memory_data(unsigned id) {
    if (id != RETRO_MEMORY_SYSTEM_RAM)
        return NULL;
    is_looked_at = true;
    look_into();
    return view + 0xc000;
}
RETRO_API size_t retro_get_memory_size(unsigned id) { return id == RETRO_MEMORY_SYSTEM_RAM ? 0x2000 : 0; }
