/* Plays a cartridge by the library or by the libretro core, so that what a frame costs there can be counted.
 *
 * shipped_player FILE CART FRAMES [picture | state]     FILE: libgbkeep.so or gbkeep_libretro.so; picture: each frame with its picture; state:
 *                                                       behind each frame a state is taken and given back
 *
 * The core keeps its game beside CART. Another core of a Game Boy is played, too, where it asks for no more than a path and the ROM. The types are those of libretro.h and gbkeep.h, as far as they are needed here. */
#include <dlfcn.h>
#include <stdbool.h>
#include <stdint.h>
#include <stdio.h>
#include <stdlib.h>
#include <string.h>

enum { SHADES = 160 * 144, GET_CAN_DUPE = 3, SET_PIXEL_FORMAT = 10, SET_MEMORY_MAPS = 36 | 0x10000, AUDIO_VIDEO_ENABLE = 47 | 0x10000, VIDEO = 1, AUDIO = 2 };

struct game_info {
    const char *path;
    const void *data;
    size_t size;
    const char *meta;
};

static bool with_pictures, with_states;
static unsigned long shown;
static uint8_t state[1 << 18], rom[8 << 20];

static void *found(void *from, const char *name) {
    void *at = dlsym(from, name);
    if (!at) {
        fprintf(stderr, "shipped_player: there is no %s\n", name);
        exit(1);
    }
    return at;
}

/* A call of what was opened: ISO C has no conversion from a pointer to an object. */
#define CALL(type, name) __typeof__(type) name; void *at_##name = found(from, #name); memcpy(&name, &at_##name, sizeof name)

static bool environment(unsigned what, void *data) {
    if (what == AUDIO_VIDEO_ENABLE)
        *(int *)data = (with_pictures ? VIDEO : 0) | AUDIO;
    if (what == GET_CAN_DUPE)
        *(bool *)data = true;
    /* RetroArch takes the map of the memory, too */
    return what == AUDIO_VIDEO_ENABLE || what == GET_CAN_DUPE || what == SET_PIXEL_FORMAT || what == SET_MEMORY_MAPS;
}

static void video(const void *data, unsigned width, unsigned height, size_t pitch) { shown += data && width && height && pitch; }
static void poll_input(void) {}
static void sample(int16_t left, int16_t right) { (void)left, (void)right; }
static size_t samples(const int16_t *data, size_t frames) { return (void)data, frames; }
static int16_t pressed(unsigned port, unsigned device, unsigned index, unsigned id) { return (void)port, (void)device, (void)index, (void)id, 0; }

static int by_core(void *from, const char *cart, size_t size, unsigned long frames) {
    CALL(void (*)(bool (*)(unsigned, void *)), retro_set_environment);
    CALL(void (*)(void (*)(const void *, unsigned, unsigned, size_t)), retro_set_video_refresh);
    CALL(void (*)(void (*)(void)), retro_set_input_poll);
    CALL(void (*)(int16_t (*)(unsigned, unsigned, unsigned, unsigned)), retro_set_input_state);
    CALL(void (*)(void (*)(int16_t, int16_t)), retro_set_audio_sample);
    CALL(void (*)(size_t (*)(const int16_t *, size_t)), retro_set_audio_sample_batch);
    CALL(void (*)(void), retro_init);
    CALL(bool (*)(const struct game_info *), retro_load_game);
    CALL(void (*)(void), retro_run);
    CALL(void (*)(void), retro_unload_game);
    CALL(size_t (*)(void), retro_serialize_size);
    CALL(bool (*)(void *, size_t), retro_serialize);
    CALL(bool (*)(const void *, size_t), retro_unserialize);
    struct game_info info = {cart, rom, size, NULL};
    retro_set_environment(environment);
    retro_set_video_refresh(video);
    retro_set_audio_sample(sample);
    retro_set_audio_sample_batch(samples);
    retro_set_input_poll(poll_input);
    retro_set_input_state(pressed);
    retro_init();
    /* a game that is refused is loaded, too, and has no state */
    if (!retro_load_game(&info) || retro_serialize_size() == 0 || retro_serialize_size() > sizeof state)
        return 1;
    for (unsigned long frame = 0; frame < frames; frame++) {
        retro_run();
        if (with_states && !(retro_serialize(state, retro_serialize_size()) && retro_unserialize(state, retro_serialize_size())))
            return 1;
    }
    retro_unload_game();
    return 0;
}

static int by_library(void *from, size_t size, unsigned long frames) {
    CALL(uint32_t (*)(const uint8_t *, size_t, void **), gbkeep_machine_new);
    CALL(void (*)(void *, uint8_t, uint32_t), gbkeep_machine_frames);
    CALL(uint32_t (*)(void *, uint8_t *, size_t), gbkeep_machine_picture);
    CALL(size_t (*)(const void *), gbkeep_machine_state_length);
    CALL(uint32_t (*)(void *, uint8_t *, size_t), gbkeep_machine_state);
    CALL(uint32_t (*)(void *, const uint8_t *, size_t), gbkeep_machine_restore);
    CALL(void (*)(void *), gbkeep_machine_free);
    static uint8_t shades[SHADES];
    void *machine = NULL;
    if (gbkeep_machine_new(rom, size, &machine) != 0)
        return 1;
    size_t length = gbkeep_machine_state_length(machine);
    for (unsigned long frame = 0; frame < frames; frame++) {
        gbkeep_machine_frames(machine, 0, 1);
        if (with_pictures)
            shown += gbkeep_machine_picture(machine, shades, sizeof shades) == 0;
        if (with_states && (gbkeep_machine_state(machine, state, length) != 0 || gbkeep_machine_restore(machine, state, length) != 0))
            return 1;
    }
    gbkeep_machine_free(machine);
    return 0;
}

int main(int count, char **words) {
    with_pictures = count == 5 && strcmp(words[4], "picture") == 0;
    with_states = count == 5 && strcmp(words[4], "state") == 0;
    if (count != 4 + (with_pictures || with_states)) {
        fprintf(stderr, "shipped_player FILE CART FRAMES [picture | state]\n");
        return 1;
    }
    void *from = dlopen(words[1], RTLD_NOW);
    if (!from) {
        fprintf(stderr, "shipped_player: %s\n", dlerror());
        return 1;
    }
    FILE *file = fopen(words[2], "rb");
    size_t size = file ? fread(rom, 1, sizeof rom, file) : 0;
    unsigned long frames = strtoul(words[3], NULL, 10);
    int status = dlsym(from, "retro_run") ? by_core(from, words[2], size, frames) : by_library(from, size, frames);
    if (status == 0 && with_pictures && shown != frames)
        status = 1;
    if (status != 0)
        fprintf(stderr, "shipped_player: %s does not play %s\n", words[1], words[2]);
    return status;
}
