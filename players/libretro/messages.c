/* What the player is told: on the screen, which has room for little, and in the log. */
#include "core.h"
#include <stdarg.h>
#include <stdio.h>
#include <string.h>
#include "tables.h"

void tell(enum news kind, unsigned frames, const char *more, const char *format, ...) {
    char text[600];
    va_list words;
    va_start(words, format);
    vsnprintf(text, sizeof text, format, words);
    va_end(words);
    struct retro_message message = {text, frames};
    if (game.messages == ALL || (game.messages == REFUSALS_ONLY && kind == REFUSAL))
        environment(RETRO_ENVIRONMENT_SET_MESSAGE, &message);
    if (log_line)
        log_line(kind == REFUSAL ? RETRO_LOG_WARN : RETRO_LOG_INFO, "gbkeep: %s\n", text);
    if (log_line && more)
        log_line(RETRO_LOG_INFO, "gbkeep: %s\n", more);
}

/* The front of a text that has room on the screen: up to a mark or a blank. */
static void cut_short(char *text, size_t least) {
    static const char end[] = " (see the log)";
    size_t length = MOST_SHOWN - (sizeof end - 1);
    if (strlen(text) <= MOST_SHOWN)
        return;
    while (length > least && !strchr(",:;", text[length]))
        length--;
    if (length <= least)
        for (length = MOST_SHOWN - (sizeof end - 1); length > 1 && text[length] != ' ';)
            length--;
    memcpy(text + length, end, sizeof end);
}

bool fail_with(uint32_t code, const char *text, const char *command) {
    const struct fault *found = NULL;
    char shown[700];
    for (const struct fault *one = FAULTS; one->code; one++)
        if (one->code == code && (!one->of[0] || strcmp(one->of, command) == 0) && (!found || one->of[0]))
            found = one;
    if (found)
        snprintf(game.fault, sizeof game.fault, "%s: %s. What to do: %s.", text, found->means, found->advice);
    else
        snprintf(game.fault, sizeof game.fault, "%s", text);
    if (found && code == GBKEEP_DEVICE_FAILED && !found->of[0])
        snprintf(shown, sizeof shown, "SAVE is open elsewhere, or can't be read or written");
    else if (found)
        snprintf(shown, sizeof shown, "%s: %s", text, found->means);
    else
        snprintf(shown, sizeof shown, "%s", text);
    cut_short(shown, strlen(text) < MOST_SHOWN / 2 ? strlen(text) + 1 : MOST_SHOWN / 2);
    memcpy(game.shown, shown, MOST_SHOWN);
    tell(REFUSAL, 600, game.fault, "%s", game.shown);
    return false;
}

bool fail_by(uint32_t code, const char *command) {
    char line[MOST_LINE];
    uint32_t sectors = 0;
    switch (code) {
    case GBKEEP_ROM_LENGTH:
        snprintf(line, sizeof line, "rom length %zu", game.rom_length);
        break;
    case GBKEEP_CARTRIDGE_TYPE:
        snprintf(line, sizeof line, "cartridge type %02X", game.rom[0x147]);
        break;
    case GBKEEP_RAM_CODE:
        snprintf(line, sizeof line, "ram code %02X", game.rom[0x149]);
        break;
    case GBKEEP_TOO_MANY_BANKS:
        snprintf(line, sizeof line, "too many banks %zu", game.rom_length / 0x4000);
        break;
    case GBKEEP_TOO_SMALL:
        gbkeep_session_sectors(game.rom, game.rom_length, &sectors);
        snprintf(line, sizeof line, "too small, %lu sectors needed", (unsigned long)sectors);
        break;
    default:
        snprintf(line, sizeof line, "%.*s", (int)strcspn(gbkeep_fault_text(code), ":"), gbkeep_fault_text(code));
    }
    return fail_with(code, line, command);
}

void name_shortly(char name[MOST_NAME + 1], const char *path) {
    const char *whole = name_of(path), *end = whole + strlen(whole);
    int front = MOST_NAME - 2 - 8;
    if (end - whole <= MOST_NAME) {
        memcpy(name, whole, (size_t)(end - whole) + 1);
        return;
    }
    for (end -= 8; (*end & 0xc0) == 0x80; end++)
        ;
    while (front > 0 && (whole[front] & 0xc0) == 0x80)
        front--;
    snprintf(name, MOST_NAME + 1, "%.*s..%s", front, whole, end);
}
