/* The core's options. */
#include "core.h"
#include <stdio.h>
#include <string.h>
#include "tables.h"

/* the seconds between two saves are an option: half a minute is the longest that is offered, an hour the longest that is taken */
enum { FRAMES_A_SAVE_SECOND = 60, MOST_SAVE_SECONDS = 3600 };

/* The first value of each is the one that it has where nobody chooses. */
static struct retro_core_option_v2_definition OPTIONS[] = {
    {.key = "gbkeep_palette", .desc = "Palette", .info = "The colours of the four shades.", .values = {PALETTE_VALUES}},
    {.key = "gbkeep_import", .desc = IMPORT_OPTION,
     .info = "A game that has no NAME.gbkeep yet begins with what NAME.srm or NAME.sav keeps of the cartridge, if one lies in the save folder or beside the game. "
             "That file is only read. Counts when the game is loaded.",
     .values = {{"yes", "Yes"}, {"no", "No"}}},
    {.key = "gbkeep_export", .desc = "Leave a save for other cores",
     .info = "At the end of the game NAME.srm is written in the save folder, with what the cartridge keeps, to go on in another core. A file of another core's that is "
             "there is kept as NAME.srm.1, NAME.srm.2 and so on.",
     .values = {{"no", "No"}, {"yes", "Yes"}}},
    {.key = "gbkeep_save_seconds", .desc = "Seconds between saves",
     .info = "A power cut loses what was played since the last save. More seconds write less to an SD card.",
     .values = {{"1", NULL}, {"2", NULL}, {"5", NULL}, {"10", NULL}, {"30", NULL}}},
    {.key = "gbkeep_time_away", .desc = "Clock runs while you are away",
     .info = "A game with a clock is given the time since it was last played, by the date of this device. Otherwise its clock stands still meanwhile. Counts when "
             "the game is loaded.",
     .values = {{"yes", "Yes"}, {"no", "No"}}},
    {.key = "gbkeep_messages", .desc = "Messages", .info = "What is shown on the screen. The log has every line, and what to do about it.",
     .values = {{"refusals only", "When it matters"}, {"none", "None"}, {"all", "All, saves too"}}},
    {.key = NULL},
};
enum { MOST_OPTION_TEXT = 128 };

uint32_t four_pixels[256][4];

/* A number in decimal digits, `most` at most; false where none is there. What follows it is at `text` then. */
static bool take_number(const char **text, unsigned long long most, unsigned long long *number) {
    unsigned long long found = 0;
    const char *at = *text;
    for (; *at >= '0' && *at <= '9'; at++) {
        unsigned digit = (unsigned)(*at - '0');
        if (found > most / 10 || found * 10 > most - digit)
            return false;
        found = found * 10 + digit;
    }
    if (at == *text)
        return false;
    *text = at, *number = found;
    return true;
}

static const char *option(const char *key) {
    struct retro_variable asked = {key, NULL};
    return environment(RETRO_ENVIRONMENT_GET_VARIABLE, &asked) && asked.value ? asked.value : "";
}

/* Offers the options, with their help where the front end shows it. */
void offer_options(void) {
    static char texts[sizeof OPTIONS / sizeof *OPTIONS][MOST_OPTION_TEXT];
    struct retro_variable variables[sizeof OPTIONS / sizeof *OPTIONS] = {{NULL, NULL}};
    struct retro_core_options_v2 options = {NULL, OPTIONS};
    unsigned version = 0;
    if (environment(RETRO_ENVIRONMENT_GET_CORE_OPTIONS_VERSION, &version) && version >= 2) {
        environment(RETRO_ENVIRONMENT_SET_CORE_OPTIONS_V2, &options);
        return;
    }
    for (unsigned one = 0; OPTIONS[one].key; one++) {
        int size = snprintf(texts[one], MOST_OPTION_TEXT, "%s; ", OPTIONS[one].desc);
        for (const struct retro_core_option_value *value = OPTIONS[one].values; value->value; value++)
            size += snprintf(texts[one] + size, MOST_OPTION_TEXT - (size_t)size, "%s%s", value == OPTIONS[one].values ? "" : "|", value->value);
        variables[one] = (struct retro_variable){OPTIONS[one].key, texts[one]};
    }
    environment(RETRO_ENVIRONMENT_SET_VARIABLES, variables);
}

void read_options(void) {
    const char *palette = option("gbkeep_palette");
    unsigned chosen = 0;
    for (unsigned one = 0; one < sizeof PALETTE_NAMES / sizeof *PALETTE_NAMES; one++)
        if (strcmp(palette, PALETTE_NAMES[one]) == 0)
            chosen = one;
    for (unsigned shades = 0; shades < 256; shades++)
        for (unsigned at = 0; at < 4; at++)
            four_pixels[shades][at] = PALETTES[chosen][shades >> 2 * at & 3];
    const char *word = option("gbkeep_save_seconds");
    unsigned long long seconds = 1;
    if (!take_number(&word, MOST_SAVE_SECONDS, &seconds) || *word || seconds == 0)
        seconds = 1;
    game.save_frames = FRAMES_A_SAVE_SECOND * (unsigned)seconds;
    game.gives_time_away = strcmp(option("gbkeep_time_away"), "no") != 0;
    const char *messages = option("gbkeep_messages");
    game.messages = strcmp(messages, "all") == 0 ? ALL : strcmp(messages, "none") == 0 ? NONE : REFUSALS_ONLY;
    game.imports = strcmp(option("gbkeep_import"), "no") != 0;
    game.exports = strcmp(option("gbkeep_export"), "yes") == 0;
}
