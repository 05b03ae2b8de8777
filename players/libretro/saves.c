/* Saves: when one is due, and the thread that makes its calls.
 *
 * The thread has one job at a time: the calls of a save; SAVE.time, for a cartridge with a clock; or a session that is taken up anew. A disk that takes a minute
 * ends the game, and is left behind with all that it needs, since nobody can end a call of a disk that does not answer. */
#include "core.h"
#include <stdlib.h>
#include <string.h>

/* A save may take long on a worn card: from the first on the player is told, at the second the game ends. */
#ifndef SLOW_MILLISECONDS
#define SLOW_MILLISECONDS 5000
#define SAVE_MILLISECONDS 60000
#endif

/* a front end that runs ahead plays up to six frames, mostly, and goes back, for each one that it shows */
enum { MOST_AHEAD = 8 };
/* A session takes 3,200 unsaved inputs. From the first number on a save is due; at the second one is waited for, and there is room for the clock. */
enum { MANY_UNSAVED = 1600, MOST_UNSAVED = 3000 };
/* so few seconds are given to the clock while the game goes on: of the line that SAVE.time has before, a power cut may leave the count too small */
enum { FEW_SECONDS = 5 };

atomic_int left_behind;

static bool sync_save(const struct job *job) {
    return sync_save_file(job->file, (unsigned long long)job->sectors * SECTOR);
}

/* Makes the calls that the session handed out, each before the next. After one that fails none is made. */
static bool make_calls(struct job *job) {
    for (size_t at = 0; at < job->count; at++) {
        const gbkeep_call *call = &job->calls[at];
        if (atomic_load(&job->outcome) == LEFT)
            return false;
        if (call->kind == GBKEEP_WRITE ? !write_at(job->file, call->bytes, SECTOR, (uint64_t)call->sector * SECTOR) : !sync_save(job))
            return false;
    }
    return true;
}

void free_job(struct job *job) {
    close_one(&job->file);
    free(job->calls);
    free(job);
}

static void *work(void *given) {
    struct job *job = given;
    int running = RUNNING;
    bool good = false;
    if (job->work == SAVE)
        good = make_calls(job);
    else
        good = write_clock_file(job->clock_file, job->file, &job->text);
    if (!atomic_compare_exchange_strong(&job->outcome, &running, good ? DONE : FAILED)) {
        free_job(job);
        atomic_fetch_sub(&left_behind, 1);
    }
    return NULL;
}

/* Has a thread do this; where there can be none, it is done at once. */
void begin_work(enum work kind) {
    struct job *job = game.job;
    job->work = kind, job->file = game.file, job->sectors = game.sectors, job->is_told_slow = false, job->since = milliseconds();
    memcpy(job->clock_file, game.clock_file, sizeof job->clock_file);
    atomic_store(&job->outcome, RUNNING);
    job->has_thread = begin_thread(&job->thread, work, job);
    if (!job->has_thread)
        work(job);
}

void leave_work(void) {
    int running = RUNNING;
    thread_name thread = game.job->thread;
    bool has_thread = game.job->has_thread;
    atomic_fetch_add(&left_behind, 1);
    if (!atomic_compare_exchange_strong(&game.job->outcome, &running, LEFT)) {
        atomic_fetch_sub(&left_behind, 1);
        return;
    }
    if (has_thread)
        leave_thread(thread);
    game.job = NULL;
    game.file = -1;
}

bool take_calls(gbkeep_session *session) {
    struct job *job = game.job;
    for (;; job->count++) {
        if (job->count == job->room) {
            size_t room = 2 * job->room + 256;
            gbkeep_call *calls = realloc(job->calls, room * sizeof *calls);
            if (!calls)
                return false;
            job->calls = calls, job->room = room;
        }
        gbkeep_call *call = &job->calls[job->count];
        gbkeep_session_next_call(session, call);
        if (call->kind == GBKEEP_NO_CALL)
            return true;
        if (call->kind == GBKEEP_WRITE && call->sector >= game.sectors)
            return false;
        if (game.image && call->kind == GBKEEP_WRITE)
            memcpy(game.image + (size_t)call->sector * SECTOR, call->bytes, SECTOR);
    }
}

/* Has the thread save what is unsaved. SAVE.time is to name the save where nothing else is written there for it. */
static bool ask_save(bool is_noted) {
    uint64_t count = 0;
    game.job->count = 0, game.note.length = 0;
    uint32_t code = gbkeep_session_save(game.session, &count);
    if (code != GBKEEP_DONE)
        return give_up_by(code);
    if (!take_calls(game.session))
        return give_up_by(GBKEEP_NO_MEMORY);
    game.asked = count, game.is_whole = false;
    game.played = 0, game.saved_frame = game.frame;
    if (game.has_clock && is_noted)
        game.note.length = gbkeep_clock_note(&game.clock, count, &game.note.line, game.note.bytes);
    begin_work(SAVE);
    return true;
}

bool look_around(void) {
    struct job *job = game.job;
    if (job->work == NO_WORK)
        return true;
    int outcome = atomic_load(&job->outcome);
    if (outcome == RUNNING) {
        long long slow = milliseconds() - job->since;
        if (slow > SAVE_MILLISECONDS)
            return give_up("the disk does not answer; what was saved stays saved");
        if (slow > SLOW_MILLISECONDS && !job->is_told_slow) {
            job->is_told_slow = true;
            tell(REFUSAL, 300, NULL, "The disk is slow: nothing is saved for %lld seconds", slow / 1000);
        }
        return true;
    }
    enum work done = job->work;
    if (job->has_thread)
        wait_for_thread(job->thread);
    job->work = NO_WORK;
    if (done == SAVE) {
        if (outcome != DONE)
            return give_up_by(GBKEEP_DEVICE_FAILED);
        bool is_told = game.saved == game.asked;
        game.saved = game.asked;
        if (!is_told)
            tell(NEWS, 60, NULL, "saved %llu", game.saved);
        if (is_told)
            return true;
        if (game.note.length > 0 && !game.clock_stands)
            begin_text(NOTE, &game.note);
        return true;
    }
    bool is_written = note_clock(outcome == DONE);
    if (done == NOTE) {
        if (is_written)
            gbkeep_clock_noted(&game.clock, &job->text.line);
        return true;
    }
    if (is_written)
        gbkeep_clock_claimed(&game.clock, &job->text.line);
    if (is_written && !give_seconds())
        return false;
    return ask_save(false);
}

/* Begins a save, and gives the clock its seconds before, where the thread is free. SAVE.time first says that an input gives them: so no cut leaves a file by
 * which they are given twice. The thread says it of the next input; where others come before it is done, a cut right then may lose these few seconds, but
 * not where the save is of a whole state, which is on the disk or is not. */
bool begin_save(void) {
    if (game.job->work != NO_WORK)
        return true;
    struct clock_text text;
    uint64_t now = moment();
    text.length = game.has_clock ? gbkeep_clock_claim(&game.clock, game.count, now, &text.line, text.bytes) : 0;
    if (text.length == 0)
        return ask_save(true);
    if (gbkeep_clock_due(&game.clock, now) <= FEW_SECONDS || game.is_whole) {
        begin_text(CLAIM, &text);
        return true;
    }
    if (write_time(&text)) {
        gbkeep_clock_claimed(&game.clock, &text.line);
        if (!give_seconds())
            return false;
    }
    return ask_save(false);
}

bool is_due(void) {
    unsigned long long moved = game.frame > game.saved_frame ? game.frame - game.saved_frame : game.saved_frame - game.frame;
    return game.count - game.asked >= MANY_UNSAVED
        || (game.played >= game.save_frames && (moved >= game.save_frames || game.played / MOST_AHEAD >= game.save_frames));
}

/* Waits until the thread is free. */
bool wait_for_work(void) {
    while (game.job->work != NO_WORK) {
        if (!look_around())
            return false;
        if (game.job->work != NO_WORK)
            rest();
    }
    return true;
}

bool save_game(void) {
    return wait_for_work() && begin_save() && wait_for_work();
}

bool has_room(void) {
    while (game.count - game.asked >= MOST_UNSAVED)
        if (!wait_for_work() || !begin_save())
            return false;
    return true;
}

bool was_given(uint32_t code) {
    if (code == GBKEEP_DONE) {
        game.count++;
        return true;
    }
    if (save_game())
        give_up_by(code);
    return false;
}
