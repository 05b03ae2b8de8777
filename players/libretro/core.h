/* What the files of the core share. Each is of one topic; what is of the host's system stands behind files.h. */
#include <stdatomic.h>
#include "files.h"
#include "gbkeep.h"
#include "libretro.h"

enum { WIDTH = 160, HEIGHT = 144, SHADES = WIDTH * HEIGHT, SECTOR = 512, MOST_ROM = 0x800000, MOST_SECTORS = 65536 };
/* another core's battery file: the largest RAM, and the registers of a clock */
enum { MOST_BATTERY = 0x20000 + 48 };
/* what is shown at once has room on the smallest screen */
enum { MOST_SHOWN = 64, MOST_LINE = 64, MOST_NAME = 24 };
/* a leap back that is not taken */
enum { YEAR = 366 * 86400 };
#define IMPORT_OPTION "Begin with another core's save"

/* What SAVE.time is to have, and its first line. */
struct clock_text {
    gbkeep_clock_line line;
    uint8_t bytes[GBKEEP_CLOCK_TEXT];
    size_t length;
};

enum work { NO_WORK, SAVE, CLAIM, NOTE };
enum outcome { RUNNING, DONE, FAILED, LEFT };

/* What the thread does. Once it is left, the thread frees it: it has all that it needs. */
struct job {
    enum work work;
    atomic_int outcome;
    thread_name thread;
    bool has_thread, is_told_slow;
    long long since;
    /* the file of SAVE, and of a save its calls */
    int file;
    uint32_t sectors;
    gbkeep_call *calls;
    size_t count, room;
    /* what SAVE.time is to have */
    char clock_file[MOST_PATH];
    struct clock_text text;
};

enum news { NEWS, REFUSAL };
enum messages { REFUSALS_ONLY, NONE, ALL };

struct game {
    /* a session, or of a second instance a machine */
    gbkeep_session *session;
    gbkeep_machine *machine;
    struct job *job;
    int file;
    /* the image, while a game is made or taken up: what the calls that were handed out leave of SAVE */
    uint8_t *rom, *image, *state;
    size_t rom_length, state_length;
    uint32_t sectors;
    char cart[MOST_PATH], save[MOST_PATH], clock_file[MOST_PATH];
    bool has_clock, gives_time_away, is_new, imports, exports;
    enum messages messages;
    unsigned save_frames, shown_frames, unsaved_frames;
    /* The number of the last frame, which a state takes back, and of the one before the last save; and how many were played since that. */
    unsigned long long frame, saved_frame, played;
    /* inputs: all, those that no save was asked for, and those that are saved */
    unsigned long long count, asked, saved;
    /* what SAVE.time is to have once the save that was asked for is done, if anything */
    struct clock_text note;
    /* a state or the power switch is unsaved: the next save writes a whole state */
    bool is_whole;
    /* `state` is that behind the last input */
    bool has_state;
    gbkeep_clock clock;
    bool clock_stands;
    uint8_t shades[SHADES];
    char fault[512], shown[MOST_SHOWN + 1];
};

extern struct game game;
/* threads that were left behind */
extern atomic_int left_behind;
extern retro_environment_t environment;
extern retro_log_printf_t log_line;

/* messages.c */
/* A line on the screen, where the option has it there, and in the log; `more` is for the log alone. */
void tell(enum news kind, unsigned frames, const char *more, const char *format, ...);
/* A refusal with its text, as the program tells it, and what docs/COMMANDS.md says to do about it: shortly on the screen, whole in the log. Code 0 is none of
 * the table's. Answers false. */
bool fail_with(uint32_t code, const char *text, const char *command);
/* The same for a code of the library, in the program's words. */
bool fail_by(uint32_t code, const char *command);
/* The name of a file, without its folder: the front and the end of one that has no room on the screen, of whole characters. */
void name_shortly(char name[MOST_NAME + 1], const char *path);

/* options.c */
void offer_options(void);
void read_options(void);
/* four pixels for each four shades, of which a bit pair each is an index: the first in the lowest */
extern uint32_t four_pixels[256][4];

/* saves.c: what the thread does, and when it saves */
void free_job(struct job *job);
void begin_work(enum work kind);
/* Leaves the thread to itself: it makes no further call, and frees what it has, the file and its lock, whenever the one that it is in ends. */
void leave_work(void);
/* Takes the calls that the session hands out, for the thread. */
bool take_calls(gbkeep_session *session);
/* Takes what the thread has done meanwhile. False where the game has ended. */
bool look_around(void);
/* Whether a save is due: by the frames that were not taken back by a state, or else by very many. */
bool is_due(void);
bool begin_save(void);
bool wait_for_work(void);
/* Saves what is unsaved, and waits for that. */
bool save_game(void);
/* Sees to it that the session can take an input: where many are unsaved, by a save, for which it waits only where the one before is not done. */
bool has_room(void);
/* An input was given, or why not. Where it can't be, what was given before is saved. */
bool was_given(uint32_t code);

/* clock.c: SAVE.time and the cartridge's clock */
bool write_clock_file(const char *file, int save, const struct clock_text *text);
bool note_clock(bool good);
bool write_time(const struct clock_text *text);
/* Has the thread write this text. */
void begin_text(enum work kind, const struct clock_text *text);
/* Gives the clock the seconds that SAVE.time was told of, as an input. */
bool give_seconds(void);
void begin_clock(void);

/* memory.c: what the front end may look at */
/* The state: encoded once behind an input, whoever wants it. */
const uint8_t *state_now(void);
/* Shows the memory to a front end that has asked for it. */
void look_into(void);
void show_memory(void);

/* game.c */
/* NAME and a suffix in the front end's save folder, or beside the cartridge where it has none. */
bool name_file(char path[MOST_PATH], const char *cart, const char *suffix, bool is_beside);
bool take_up(void);
/* Ends the game. What is unsaved is lost. */
void end_game(void);
/* Ends it for this reason. */
bool give_up(const char *line);
bool give_up_by(uint32_t code);

/* battery.c: battery files of other cores */
/* The battery file that another core left for this cartridge; false where there is none. */
bool find_battery(char path[MOST_PATH]);
/* A battery file that is not taken begins no game: a SAVE without it would stand in its way for good. */
bool refuse_battery(const char *path, const char *why);
/* Says what another core's battery file was taken for. */
void tell_battery(const char *path, bool is_taken);
/* Leaves NAME.srm for other cores. */
void leave_battery(void);
