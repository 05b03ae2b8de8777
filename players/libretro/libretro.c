/* A libretro core: front ends such as RetroArch and Kodi play a game of gbkeep's by it.
 *
 * The game is a session of libgbkeep, which is proved: it takes each input, draws, gives and takes states, and hands out the writes and syncs by which a
 * SAVE in the front end's save folder keeps the game. The core makes these, in their order, in a thread: so play goes on while a sync lasts. `saved N` is
 * told once the last of them was made. The front end is handed no save memory, which it would write unsafely; what it sees of the memory is a copy.
 *
 * A front end that runs ahead by a second instance has that one load the same game: it gets a machine without a SAVE. Any other second load gets one, too, and is
 * told that nothing is saved there. */
#include "core.h"
#include <stdio.h>
#include <string.h>

enum { SILENCE = 800 };
/* what a front end wants of a frame, in bits: that it is shown; and that its sound is never needed, as of the second instance by which it runs ahead */
enum { IS_SHOWN = 1, HAS_NO_SOUND = 8 };
/* frames from one telling that nothing is saved to the next: a minute */
enum { FRAMES_UNSAVED = 3600 };
static const double FRAMES_A_SECOND = 4194304.0 / 70224;

/* the buttons of the Game Boy as bits 0 to 7 */
static const unsigned BUTTONS[8] = {
    RETRO_DEVICE_ID_JOYPAD_RIGHT, RETRO_DEVICE_ID_JOYPAD_LEFT, RETRO_DEVICE_ID_JOYPAD_UP, RETRO_DEVICE_ID_JOYPAD_DOWN,
    RETRO_DEVICE_ID_JOYPAD_A, RETRO_DEVICE_ID_JOYPAD_B, RETRO_DEVICE_ID_JOYPAD_SELECT, RETRO_DEVICE_ID_JOYPAD_START,
};

retro_environment_t environment;
retro_log_printf_t log_line;
static retro_video_refresh_t show;
static retro_audio_sample_batch_t sound;
static retro_input_poll_t poll_input;
static retro_input_state_t pressed;

RETRO_API unsigned retro_api_version(void) {
    return RETRO_API_VERSION;
}

RETRO_API void retro_get_system_info(struct retro_system_info *info) {
    memset(info, 0, sizeof *info);
    info->library_name = "gbkeep";
    info->library_version = "0.1.0";
    info->valid_extensions = "gb|gbc";
    info->need_fullpath = true;
}

RETRO_API void retro_get_system_av_info(struct retro_system_av_info *info) {
    memset(info, 0, sizeof *info);
    info->geometry.base_width = info->geometry.max_width = WIDTH;
    info->geometry.base_height = info->geometry.max_height = HEIGHT;
    info->geometry.aspect_ratio = (float)WIDTH / HEIGHT;
    info->timing.fps = FRAMES_A_SECOND;
    info->timing.sample_rate = FRAMES_A_SECOND * SILENCE;
}

RETRO_API void retro_set_environment(retro_environment_t given) {
    struct retro_log_callback logging;
    environment = given;
    offer_options();
    /* RetroArch sets it again before the end, and then hands out no log */
    if (environment(RETRO_ENVIRONMENT_GET_LOG_INTERFACE, &logging))
        log_line = logging.log;
}

RETRO_API void retro_set_video_refresh(retro_video_refresh_t given) { show = given; }
RETRO_API void retro_set_audio_sample(retro_audio_sample_t given) { (void)given; }
RETRO_API void retro_set_audio_sample_batch(retro_audio_sample_batch_t given) { sound = given; }
RETRO_API void retro_set_input_poll(retro_input_poll_t given) { poll_input = given; }
RETRO_API void retro_set_input_state(retro_input_state_t given) { pressed = given; }
RETRO_API void retro_set_controller_port_device(unsigned port, unsigned device) { (void)port, (void)device; }
RETRO_API void retro_init(void) {}
RETRO_API void retro_deinit(void) {}
RETRO_API unsigned retro_get_region(void) { return RETRO_REGION_NTSC; }

RETRO_API void retro_unload_game(void) {
    if (game.session && save_game() && game.exports)
        leave_battery();
    end_game();
}

RETRO_API bool retro_load_game(const struct retro_game_info *info) {
    enum retro_pixel_format format = RETRO_PIXEL_FORMAT_XRGB8888;
    retro_unload_game();
    memset(&game, 0, sizeof game);
    game.file = -1;
    if (!info || !info->path || !environment(RETRO_ENVIRONMENT_SET_PIXEL_FORMAT, &format))
        return false;
    read_options();
    int more = snprintf(game.cart, sizeof game.cart, "%s", info->path);
    if (more <= 0 || (size_t)more >= sizeof game.cart || !name_file(game.save, game.cart, ".gbkeep", false)
        || !name_file(game.clock_file, game.cart, ".gbkeep.time", false))
        fail_with(0, "the name of the cartridge is too long", "");
    else if (!take_up())
        end_game();
    /* a game that is refused stays loaded, so that the player can read why */
    return true;
}

RETRO_API bool retro_load_game_special(unsigned type, const struct retro_game_info *info, size_t count) {
    (void)type, (void)info, (void)count;
    return false;
}

/* A second load that is no front end's way to run ahead is played by somebody: it is told that nothing is saved. */
static void tell_unsaved(int wanted) {
    if (game.machine && !(wanted & HAS_NO_SOUND) && game.unsaved_frames++ % FRAMES_UNSAVED == 0)
        tell(REFUSAL, 600, "This front end has the game open twice, and the first one alone has its SAVE: nothing that is played in this one is saved. What to do: "
             "close this one and go on in the first, or close both and open the game once.", "This game is open twice: nothing that is played here is saved");
}

/* Gives the game a frame, and saves it where that is due. */
static bool play_frame(uint8_t buttons) {
    game.has_state = false;
    if (game.machine) {
        gbkeep_machine_frames(game.machine, buttons, 1);
        return true;
    }
    if (!game.session || !look_around())
        return false;
    /* before the frame: a front end that runs ahead has then gone back from its last one */
    if (is_due() && !begin_save())
        return false;
    if (!has_room() || !was_given(gbkeep_session_frames(game.session, buttons, 1)))
        return false;
    game.frame++, game.played++;
    return true;
}

/* Four shades, a byte each, become the index of their four pixels by one product. */
static void draw(uint32_t pixels[SHADES]) {
    for (size_t at = 0; at < SHADES; at += 4) {
        uint32_t shades;
        memcpy(&shades, game.shades + at, sizeof shades);
        memcpy(pixels + at, four_pixels[(shades & 0x03030303) * 0x01041040 >> 24], sizeof *four_pixels);
    }
}

RETRO_API void retro_run(void) {
    static uint32_t pixels[SHADES];
    static int16_t silence[2 * SILENCE];
    bool is_changed = false;
    unsigned buttons = 0;
    int wanted = 1;
    poll_input();
    if (environment(RETRO_ENVIRONMENT_GET_VARIABLE_UPDATE, &is_changed) && is_changed)
        read_options();
    if (!environment(RETRO_ENVIRONMENT_GET_AUDIO_VIDEO_ENABLE, &wanted))
        wanted = 3;
    for (unsigned bit = 0; bit < 8; bit++)
        if (pressed(0, RETRO_DEVICE_JOYPAD, 0, BUTTONS[bit]))
            buttons |= 1u << bit;
    game.shown_frames++;
    tell_unsaved(wanted);
    if (play_frame((uint8_t)buttons)) {
        if (wanted & IS_SHOWN && game.session)
            gbkeep_session_picture(game.session, game.shades, SHADES);
        else if (wanted & IS_SHOWN)
            gbkeep_machine_picture(game.machine, game.shades, SHADES);
        look_into();
    } else if (game.fault[0] && game.shown_frames % 300 == 0) {
        tell(REFUSAL, 300, NULL, "%s", game.shown);
    }
    if (wanted & IS_SHOWN)
        draw(pixels);
    show(pixels, WIDTH, HEIGHT, WIDTH * sizeof *pixels);
    if (sound)
        sound(silence, SILENCE);
}

/* The power switch. */
RETRO_API void retro_reset(void) {
    game.has_state = false;
    if (game.machine) {
        gbkeep_machine_power(game.machine);
    } else if (game.session && look_around() && has_room()) {
        uint32_t code = gbkeep_session_power(game.session);
        if (code == GBKEEP_NO_MEMORY)
            fail_by(code, "stream");
        else
            game.is_whole = was_given(code);
    }
    look_into();
}

RETRO_API void retro_cheat_reset(void) {}
RETRO_API void retro_cheat_set(unsigned index, bool enabled, const char *code) { (void)index, (void)enabled, (void)code; }
