/* States of the front end: it keeps them, rewinds and runs ahead by them. */
#include "core.h"
#include <string.h>

/* what the front end's has behind the library's: two numbers */
enum { NUMBER = 8, STATE_MORE = 2 * NUMBER };

static void put_number(uint8_t *bytes, unsigned long long number) {
    for (int at = 0; at < NUMBER; at++)
        bytes[at] = (uint8_t)(number >> (8 * at));
}

static unsigned long long number_at(const uint8_t *bytes) {
    unsigned long long number = 0;
    for (int at = 0; at < NUMBER; at++)
        number |= (unsigned long long)bytes[at] << (8 * at);
    return number;
}

/* A state of the front end's: one of the library's, until when the clock had been given, and the number of its frame. */
RETRO_API size_t retro_serialize_size(void) {
    return game.session || game.machine ? game.state_length + STATE_MORE : 0;
}

RETRO_API bool retro_serialize(void *data, size_t size) {
    uint8_t *bytes = data;
    size_t length = game.state_length;
    if (!(game.session || game.machine) || size < length + STATE_MORE)
        return false;
    put_number(bytes + length, game.clock.until);
    put_number(bytes + length + NUMBER, game.frame);
    memcpy(bytes, state_now(), length);
    return true;
}

/* The clock of a state is behind: it is given the seconds since, in front of the next save, as far as they would be given to a game that was away. */
static void go_back(unsigned long long until) {
    uint64_t now = game.clock.until + gbkeep_clock_due(&game.clock, moment());
    bool is_given = until <= now && now - until <= YEAR && (game.gives_time_away || until >= game.clock.opened / 1000);
    gbkeep_clock_go_back(&game.clock, is_given ? until : now);
}

/* A state that is taken is an input; so it is saved with the next save, and not at once. */
RETRO_API bool retro_unserialize(const void *data, size_t size) {
    const uint8_t *bytes = data;
    size_t length = game.state_length;
    if (!(game.session || game.machine))
        return false;
    if (game.session && !(look_around() && has_room()))
        return false;
    /* one that is cut short is refused by the library, which is given less than it takes */
    size_t given = size >= length + STATE_MORE ? length : size < length ? size : length - 1;
    game.has_state = false;
    uint32_t code = game.session ? gbkeep_session_restore(game.session, bytes, given) : gbkeep_machine_restore(game.machine, bytes, given);
    if (code == GBKEEP_OTHER_CARTRIDGE)
        tell(REFUSAL, 300, "The state names another ROM. A ROM of another version, or one that was patched, is another game. What to do: load the game that it is of.",
             "This is a state of another game");
    else if (code == GBKEEP_DAMAGED_SNAPSHOT)
        tell(REFUSAL, 300, NULL, "This is no state of this game");
    if (code == GBKEEP_OTHER_CARTRIDGE || code == GBKEEP_DAMAGED_SNAPSHOT || (game.session && !was_given(code)))
        return false;
    game.is_whole = true;
    game.frame = number_at(bytes + length + NUMBER);
    if (game.has_clock)
        go_back(number_at(bytes + length));
    look_into();
    return true;
}
