/* SAVE.time, and the seconds that the cartridge's clock is given by it: the library has the rules. */
#include "core.h"
#include <stdio.h>

enum { MOST_TIME_BYTES = 512 };
/* as many inputs as a SAVE may have beyond the last line of SAVE.time where the power was cut: those of half a minute, and some */
enum { INPUTS_BETWEEN = 2000 };

/* The text of SAVE.time: how long it is; 0 where it is not there or empty, and -1 where it is no file of the core's or the window's. */
static ssize_t read_clock_file(const char *path, int save, uint8_t bytes[MOST_TIME_BYTES + 1]) {
    gbkeep_clock_found found;
    ssize_t size = read_own_file(path, save, bytes, MOST_TIME_BYTES + 1);
    return size <= 0 ? size : gbkeep_clock_look(bytes, (size_t)size, 0, 0, 0, &found) == GBKEEP_DONE ? size : -1;
}

/* Puts this text in the place of SAVE.time, durably. What is not taken as one stays. */
bool write_clock_file(const char *file, int save, const struct clock_text *text) {
    uint8_t old[MOST_TIME_BYTES + 1];
    return read_clock_file(file, save, old) >= 0 && put_file(file, text->bytes, text->length, save);
}

bool note_clock(bool good) {
    if (!good && !game.clock_stands)
        tell(REFUSAL, 300, "The cartridge's clock stands still, since SAVE.time can't be written, or is a link, somebody else's or another kind of file. "
             "What to do: take it away, and the clock goes on from where it stands.", "The clock stands still: no SAVE.time can be written");
    game.clock_stands = !good;
    return good;
}

bool write_time(const struct clock_text *text) {
    return note_clock(write_clock_file(game.clock_file, game.file, text));
}

void begin_text(enum work kind, const struct clock_text *text) {
    game.job->text = *text;
    begin_work(kind);
}

bool give_seconds(void) {
    uint32_t passed = gbkeep_clock_give(&game.clock);
    if (passed == 0)
        return true;
    game.has_state = false;
    uint32_t code = gbkeep_session_seconds(game.session, passed);
    if (code != GBKEEP_DONE)
        return give_up_by(code);
    game.count++;
    return true;
}

/* What passed while the game was away is given where the option says so, the file knows, and it is no leap of the date: what is answered for it. */
static uint32_t take_up_time(const gbkeep_clock_found *found) {
    long long away = (long long)found->seconds;
    bool is_behind = found->away == GBKEEP_CLOCK_BEHIND, is_far_before = found->away == GBKEEP_CLOCK_FAR_BEFORE;
    if (found->away == GBKEEP_CLOCK_BEFORE || is_far_before)
        tell(REFUSAL, 300, is_far_before ? "The computer's date is before the time until which the cartridge's clock was given. Take SAVE.time away where the date is right."
             : "The computer's date is before the time until which the cartridge's clock was given.", "The date is before SAVE.time's: the clock goes on as it was");
    if (!game.gives_time_away)
        return GBKEEP_CLOCK_LEAVE;
    if (found->away == GBKEEP_CLOCK_FAR_BEHIND) {
        tell(REFUSAL, 600, NULL, "Away for %lld days, by the date: the clock is not given them", away / 86400);
        return GBKEEP_CLOCK_LEAVE;
    }
    if (is_behind && found->played != GBKEEP_CLOCK_HERE)
        tell(REFUSAL, 300, "SAVE was played elsewhere, or is another copy: its clock is given the seconds since it was last played here.",
             "SAVE was played elsewhere: its clock gets %lld seconds", away);
    return GBKEEP_CLOCK_GIVE;
}

void begin_clock(void) {
    struct clock_text text;
    gbkeep_clock_found found = {0};
    uint8_t bytes[MOST_TIME_BYTES + 1];
    uint32_t answer = GBKEEP_CLOCK_NO_ANSWER;
    if (!game.has_clock)
        return;
    uint64_t today = date(), began = moment();
    ssize_t length = read_clock_file(game.clock_file, game.file, bytes);
    bool is_known = length > 0 && !game.is_new;
    if (is_known && gbkeep_clock_look(bytes, (size_t)length, game.count, INPUTS_BETWEEN, today, &found) == GBKEEP_DONE)
        answer = take_up_time(&found);
    else if (length == 0 && game.count > 0 && game.gives_time_away)
        tell(REFUSAL, 300, NULL, "There is no SAVE.time: the clock goes on from where it stood");
    gbkeep_clock_open(bytes, is_known ? (size_t)length : 0, game.count, today, began, answer, &game.clock);
    text.length = gbkeep_clock_text(&game.clock.written, text.bytes);
    write_time(&text);
}
