/* gbkeep: a Game Boy (DMG) emulator whose machine and saves are proved, as a library.
 *
 * Lengths are in bytes. A call that can be refused answers a code, 0 (GBKEEP_DONE) where it was done; gbkeep_fault_text has the words of each.
 * A refusal leaves what the call was given as it was, unless its comment says otherwise.
 *
 * Threads: a machine, a session or a clock is used by one thread at a time, and any number of them at once by as many threads. What a call has left
 * in memory of yours is yours: a thread may make the calls of a save while another one plays on.
 *
 * Memory: gbkeep_machine_new and gbkeep_machine_power take some, and gbkeep_session_sectors, _begin, _import, _resume, _power, _save and _battery; where
 * there is none they are refused (GBKEEP_NO_MEMORY). No other call takes any.
 *
 * Each pointer that a call takes is not null and points to as many bytes as its length says, unless the length is 0; the caller sees to it. Compiled
 * with GBKEEP_DEBUG, gbkeep.c stops at a null pointer by an assertion. */
#ifndef GBKEEP_H
#define GBKEEP_H

#include <stddef.h>
#include <stdint.h>

#ifdef __cplusplus
extern "C" {
#endif

/* begin made by scripts/refusal_table.py */
/* What a call answers. The lines of `gbkeep`, the program, with the same words have the same meaning. */
enum {
    GBKEEP_DONE = 0,
    GBKEEP_NO_MEMORY = 1,
    GBKEEP_ROM_LENGTH = 2,
    GBKEEP_CARTRIDGE_TYPE = 3,
    GBKEEP_RAM_CODE = 4,
    GBKEEP_TOO_MANY_BANKS = 5,
    GBKEEP_DAMAGED_SNAPSHOT = 6,
    GBKEEP_DEVICE_FAILED = 7,
    GBKEEP_NO_SESSION = 8,
    GBKEEP_TOO_SMALL = 9,
    GBKEEP_OTHER_CARTRIDGE = 10,
    GBKEEP_DAMAGED_COUNT = 11,
    GBKEEP_DAMAGED_ENTRY = 12,
    GBKEEP_GENERATIONS_USED_UP = 13,
    GBKEEP_COUNT_FULL = 14,
    GBKEEP_SAVE_FIRST = 15,
    GBKEEP_BROKEN = 16,
    GBKEEP_DEVICE_SIZE = 17,
    GBKEEP_WRONG_LENGTH = 18,
    GBKEEP_OUTPUT_FAILED = 19,
    GBKEEP_NO_BATTERY = 20,
    GBKEEP_BATTERY_LENGTH = 21,
    GBKEEP_NO_TIME = 22
};
/* end made */

/* The bytes of a picture: 144 rows of 160 pixels. */
#define GBKEEP_PICTURE_LENGTH 23040

/* Buttons, each a bit of a byte. */
enum {
    GBKEEP_RIGHT = 0x01,
    GBKEEP_LEFT = 0x02,
    GBKEEP_UP = 0x04,
    GBKEEP_DOWN = 0x08,
    GBKEEP_A = 0x10,
    GBKEEP_B = 0x20,
    GBKEEP_SELECT = 0x40,
    GBKEEP_START = 0x80
};

/* What a code means, in English; for a number that is no code, "unknown". The text is the library's and stays. */
const char *gbkeep_fault_text(uint32_t code);

/* ---- a machine */

typedef struct gbkeep_machine gbkeep_machine;

/* Makes the machine of a ROM at power-on, and leaves it in `out`. The ROM is copied. A refusal leaves null in `out`. */
uint32_t gbkeep_machine_new(const uint8_t *rom, size_t rom_length, gbkeep_machine **out);

/* Frees a machine. Null is nothing to free. */
void gbkeep_machine_free(gbkeep_machine *machine);

/* Plays `count` frames (each 17,556 M-cycles, a 59.7th of a second) with these buttons held. */
void gbkeep_machine_frames(gbkeep_machine *machine, uint8_t buttons, uint32_t count);

/* Lets so many seconds pass on the clock of an MBC3 cartridge; any other has none, and nothing changes. */
void gbkeep_machine_seconds(gbkeep_machine *machine, uint32_t seconds);

/* Switches the power off and on: what a battery keeps, the cartridge's RAM and clock, stays; all else is as in a new machine. Refused: GBKEEP_NO_MEMORY
 * alone. */
uint32_t gbkeep_machine_power(gbkeep_machine *machine);

/* Writes the picture: a byte a pixel, 0 the darkest shade and 3 the lightest, row by row. `length` has to be GBKEEP_PICTURE_LENGTH, or the call
 * is refused (GBKEEP_WRONG_LENGTH). */
uint32_t gbkeep_machine_picture(gbkeep_machine *machine, uint8_t *shades, size_t length);

/* How many bytes a state of this machine has: 22,647, and those of the cartridge's RAM. */
size_t gbkeep_machine_state_length(const gbkeep_machine *machine);

/* Writes the state: a header of 40 bytes, GBSTATE1 and the SHA-256 of the ROM, and behind it the snapshot of the machine, which is all of it but its
 * ROM. `length` has to be that of its states, or the call is refused (GBKEEP_WRONG_LENGTH). */
uint32_t gbkeep_machine_state(gbkeep_machine *machine, uint8_t *bytes, size_t length);

/* Makes the machine the one whose state this is. Refused, in this order: bytes that do not begin with a header (GBKEEP_DAMAGED_SNAPSHOT); the header
 * of another ROM, whatever stands behind it (GBKEEP_OTHER_CARTRIDGE); another length, or a snapshot that no machine of this ROM has
 * (GBKEEP_DAMAGED_SNAPSHOT). */
uint32_t gbkeep_machine_restore(gbkeep_machine *machine, const uint8_t *bytes, size_t length);

/* Writes what the program would read from `address` on, were no memory closed to it; after FFFF comes 0000. */
void gbkeep_machine_memory(const gbkeep_machine *machine, uint16_t address, uint8_t *bytes, size_t length);

/* ---- a session: a machine, and a disk of yours that keeps its inputs
 *
 * The disk has sectors of 512 bytes: a file of yours, read and written as you like. A session writes nothing itself: gbkeep_session_next_call hands
 * out, one by one, the writes and syncs that you have to make, in this order. Make each before the next: a write may still be lost by a power cut
 * until a sync behind it is made (`fdatasync`), a sync that was made keeps all before it.
 *
 * Whenever the power fails, the sectors then stand for the game after a prefix of its inputs, and that prefix has every input that a save told,
 * once all calls that were handed out since then were made. gbkeep reads the same sectors as a save file (SAVE), and the other way round.
 *
 * An input is a frame, seconds of the clock, the power switch, or a state. Unsaved inputs are lost with the session; 3,200 at most can be unsaved.
 * A save behind a power switch or a state writes a whole state; any other writes what was given. */

typedef struct gbkeep_session gbkeep_session;

enum {
    GBKEEP_NO_CALL = 0,
    GBKEEP_WRITE = 1,
    GBKEEP_SYNC = 2
};

/* A call to be made: `bytes` at sector `sector`, or a sync. Of a sync, and where there is no call, `sector` and `bytes` mean nothing. */
typedef struct {
    uint32_t kind;
    uint32_t sector;
    uint8_t bytes[512];
} gbkeep_call;

/* Leaves in `out` how many sectors a session of this ROM needs at least. */
uint32_t gbkeep_session_sectors(const uint8_t *rom, size_t rom_length, uint32_t *out);

/* Begins a new game on a disk of so many sectors, which hold zeros, and leaves the session in `out`. A refusal leaves null in `out`
 * (GBKEEP_TOO_SMALL: the game needs more). The game is begun once the calls that are then handed out were made. */
uint32_t gbkeep_session_begin(const uint8_t *rom, size_t rom_length, uint32_t sectors, gbkeep_session **out);

/* Begins a new game as gbkeep_session_begin does, at power-on with what the battery file of another emulator (.sav, .srm) keeps: the cartridge's
 * RAM, and behind it, where they are there, the registers of an MBC3 clock, of which the time of writing is not read. Refused, in this order: what is
 * wrong with the ROM, GBKEEP_NO_BATTERY, GBKEEP_BATTERY_LENGTH for a file of another game or emulator, GBKEEP_TOO_SMALL. */
uint32_t gbkeep_session_import(const uint8_t *rom, size_t rom_length, const uint8_t *battery, size_t battery_length, uint32_t sectors,
                               gbkeep_session **out);

/* Takes up the game on a disk that has this image, and leaves the session in `out`. The image is copied. A refusal leaves null in `out`. The calls
 * that are then handed out begin a new checkpoint. */
uint32_t gbkeep_session_resume(const uint8_t *rom, size_t rom_length, const uint8_t *image, size_t image_length, gbkeep_session **out);

/* Frees a session. What is unsaved is lost, and so are calls that were not handed out. Null is nothing to free. */
void gbkeep_session_free(gbkeep_session *session);

/* Gives `count` frames with these buttons, one after another. It stops at the first that is refused, and gbkeep_session_count tells how many were
 * taken: GBKEEP_SAVE_FIRST at 3,200 unsaved inputs, GBKEEP_COUNT_FULL at 2^64 - 1, GBKEEP_BROKEN. */
uint32_t gbkeep_session_frames(gbkeep_session *session, uint8_t buttons, uint32_t count);

/* Lets so many seconds pass on the clock, as one input. Refused as frames are. */
uint32_t gbkeep_session_seconds(gbkeep_session *session, uint32_t seconds);

/* Switches the power off and on, as one input. Refused as frames are, or with GBKEEP_NO_MEMORY; then nothing changes. */
uint32_t gbkeep_session_power(gbkeep_session *session);

/* Goes on with the machine of a state, as one input. Refused as frames are, or else as a machine refuses it; then nothing changes. */
uint32_t gbkeep_session_restore(gbkeep_session *session, const uint8_t *bytes, size_t length);

/* Saves what is unsaved. Where it is done, `saved` has the count of all inputs: tell it to a person once all calls up to the sync that is the last of
 * those to be handed out were made. A refusal leaves `saved`.
 * GBKEEP_DEVICE_FAILED: there was no memory to note a call; free the session, and resume the game from the disk as it is. */
uint32_t gbkeep_session_save(gbkeep_session *session, uint64_t *saved);

/* Hands out the next call to be made. */
void gbkeep_session_next_call(gbkeep_session *session, gbkeep_call *out);

/* As of a machine: the picture, the length of a state, and the state, after all inputs. */
uint32_t gbkeep_session_picture(gbkeep_session *session, uint8_t *shades, size_t length);
size_t gbkeep_session_state_length(const gbkeep_session *session);
uint32_t gbkeep_session_state(gbkeep_session *session, uint8_t *bytes, size_t length);

/* As of a machine: writes what the program would read from `address` on, were no memory closed to it. */
void gbkeep_session_memory(const gbkeep_session *session, uint16_t address, uint8_t *bytes, size_t length);

/* The memories of a machine: 8,192 bytes each; 160; 127; and of the cartridge's RAM as many as it has. */
enum {
    GBKEEP_VRAM = 0,
    GBKEEP_WRAM = 1,
    GBKEEP_OAM = 2,
    GBKEEP_HRAM = 3,
    GBKEEP_CARTRIDGE_RAM = 4
};

/* Copies the first `length` bytes of a memory, whatever is closed or mapped. Refused where it has fewer, or is none of these: GBKEEP_WRONG_LENGTH. */
uint32_t gbkeep_session_region(const gbkeep_session *session, uint32_t which, uint8_t *bytes, size_t length);

/* How many bytes the battery file of the game has: those of the cartridge's RAM, and 48 more for an MBC3 clock. */
size_t gbkeep_session_battery_length(const gbkeep_session *session);

/* Writes the battery file of the game, after all inputs, as other emulators read it. Where everything is saved, it is what `gbkeep export` writes of
 * the disk. `length` has to be that of the file (GBKEEP_WRONG_LENGTH). Refused: GBKEEP_NO_BATTERY, GBKEEP_NO_MEMORY. */
uint32_t gbkeep_session_battery(gbkeep_session *session, uint8_t *bytes, size_t length);

/* How many inputs the game has, saved and unsaved. */
uint64_t gbkeep_session_count(const gbkeep_session *session);

/* ---- the clock of a cartridge, which is given the seconds that pass, also while nobody plays
 *
 * Beside SAVE stands a text, SAVE.time, of lines `COUNT SECONDS`: a SAVE with COUNT inputs or more was given the time until SECONDS, in seconds since
 * 1970. These calls read no clock and write no file: a gbkeep_clock is a value of yours. A date is in milliseconds since 1970; a moment
 * in milliseconds of a clock that nobody sets, and that counts sleep where there is one.
 *
 * - A game is opened: gbkeep_clock_look says what to ask and to tell; gbkeep_clock_open; then SAVE.time gets the text of `written`.
 * - Before a save: gbkeep_clock_claim. Where it has a text, that is written; then gbkeep_clock_claimed, and the seconds of gbkeep_clock_give are the next
 *   input. Where a write fails, the seconds are due again.
 * - Behind a save of a game to which none were due: gbkeep_clock_note. Where it has a text, that is written; then gbkeep_clock_noted.
 *
 * A text is written durably, in the place of the one before: so no second is given twice, wherever the power fails. */

/* The bytes of the longest text that these calls make. */
#define GBKEEP_CLOCK_TEXT 384

typedef struct {
    uint64_t count;
    uint64_t until;
} gbkeep_clock_line;

typedef struct {
    /* until when the clock was given, in seconds since 1970 */
    uint64_t until;
    /* from which date on the session counts, and the moment of that */
    uint64_t opened;
    uint64_t began;
    /* the first line of SAVE.time; that of the seconds that are given next, where there is one */
    gbkeep_clock_line written;
    gbkeep_clock_line claimed;
    uint64_t is_claimed;
} gbkeep_clock;

/* How far the date is from the time until which the clock was given: at it, or a minute before it at most; behind it, up to 366 days, which are
 * given; more, which are given where the player says so; more than a minute before it, where the clock goes on from where it stood; more than 366 days. */
enum {
    GBKEEP_CLOCK_NOTHING = 0,
    GBKEEP_CLOCK_BEHIND = 1,
    GBKEEP_CLOCK_FAR_BEHIND = 2,
    GBKEEP_CLOCK_BEFORE = 3,
    GBKEEP_CLOCK_FAR_BEFORE = 4
};

/* Where SAVE was played: with fewer inputs than each line speaks of, it is an older copy; with far more than any does, it was played elsewhere. */
enum {
    GBKEEP_CLOCK_HERE = 0,
    GBKEEP_CLOCK_OLDER = 1,
    GBKEEP_CLOCK_ELSEWHERE = 2
};

/* What is found in a text: how many lines; how far the date is, and so many seconds; where SAVE was played. */
typedef struct {
    uint64_t lines;
    uint64_t away;
    uint64_t seconds;
    uint64_t played;
} gbkeep_clock_found;

/* What the player says of more than 366 days away: nothing, and they wait for the next time; they are given; they are not, nor is any time away. */
enum {
    GBKEEP_CLOCK_NO_ANSWER = 0,
    GBKEEP_CLOCK_GIVE = 1,
    GBKEEP_CLOCK_LEAVE = 2
};

/* Looks at the text of SAVE.time, up to 512 bytes and eight lines, which may be empty, for a game with so many inputs at this date. `between` of them
 * come between two saves at most. Refused: GBKEEP_NO_TIME. */
uint32_t gbkeep_clock_look(const uint8_t *text, size_t length, uint64_t count, uint64_t between, uint64_t date, gbkeep_clock_found *out);

/* The line of a text that stands behind `before` others. Refused, also where there is none: GBKEEP_NO_TIME. */
uint32_t gbkeep_clock_line_of(const uint8_t *text, size_t length, size_t before, gbkeep_clock_line *out);

/* Opens the clock of a game with so many inputs at this date and this moment. An empty text has it begin at the date: it is given where there is no
 * SAVE.time, where SAVE is new, and where the player has it count anew. Refused: GBKEEP_NO_TIME. */
uint32_t gbkeep_clock_open(const uint8_t *text, size_t length, uint64_t count, uint64_t date, uint64_t moment, uint32_t answer, gbkeep_clock *out);

/* Writes the text of a line into GBKEEP_CLOCK_TEXT bytes, and answers how long it is. */
size_t gbkeep_clock_text(const gbkeep_clock_line *line, uint8_t *text);

/* How many seconds are due, 2^32 - 1 at most. */
uint32_t gbkeep_clock_due(const gbkeep_clock *clock, uint64_t moment);

/* Before a game of so many inputs is given what is due: writes into GBKEEP_CLOCK_TEXT bytes what SAVE.time is to have first, and answers how long it
 * is; 0 where nothing is due. Its first line is left in `line`. */
size_t gbkeep_clock_claim(gbkeep_clock *clock, uint64_t count, uint64_t moment, gbkeep_clock_line *line, uint8_t *text);

/* SAVE.time has that text. */
void gbkeep_clock_claimed(gbkeep_clock *clock, const gbkeep_clock_line *line);

/* How many seconds the next input gives: those of the claim that SAVE.time has. */
uint32_t gbkeep_clock_give(gbkeep_clock *clock);

/* Once so many inputs are saved: as gbkeep_clock_claim, what SAVE.time is to have, so that an older copy of SAVE can be told; 0 where it has that. */
size_t gbkeep_clock_note(gbkeep_clock *clock, uint64_t saved, gbkeep_clock_line *line, uint8_t *text);

/* SAVE.time has that text. */
void gbkeep_clock_noted(gbkeep_clock *clock, const gbkeep_clock_line *line);

/* The game goes on with the machine of a state whose clock had been given until then: the seconds since are due again. */
void gbkeep_clock_go_back(gbkeep_clock *clock, uint64_t until);

#ifdef __cplusplus
}
#endif

#endif
