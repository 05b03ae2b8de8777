/* A front end of few lines, to try the libretro core for another processor: usage: front_end CORE CART SAVES FRAMES SECONDS. It prints what the core tells,
 * and a sum of all pictures. The time of day is SECONDS since 1970 for as long as it runs: a game with a clock then shows the same in each run. */
#define _GNU_SOURCE
#include <dlfcn.h>
#include <stdarg.h>
#include <stdint.h>
#include <stdio.h>
#include <stdlib.h>
#include <string.h>
#include <sys/syscall.h>
#include <time.h>
#include <unistd.h>
#include "libretro.h"

static const char *saves;
static time_t seconds;
static uint64_t sum;
static unsigned frame;

/* The core calls this one, not the C library's, since the program exports it. */
int clock_gettime(clockid_t clock, struct timespec *now) {
    if (clock != CLOCK_REALTIME)
        return (int)syscall(SYS_clock_gettime, clock, now);
    *now = (struct timespec){seconds, 0};
    return 0;
}

static bool environment(unsigned what, void *data) {
    switch (what) {
    case RETRO_ENVIRONMENT_SET_MESSAGE:
        printf("%s\n", ((struct retro_message *)data)->msg);
        return true;
    case RETRO_ENVIRONMENT_GET_SAVE_DIRECTORY:
        *(const char **)data = saves;
        return true;
    case RETRO_ENVIRONMENT_SET_PIXEL_FORMAT:
    case RETRO_ENVIRONMENT_SET_VARIABLES:
        return true;
    default:
        return false;
    }
}

static void show(const void *pixels, unsigned width, unsigned height, size_t pitch) {
    for (unsigned y = 0; y < height; y++)
        for (unsigned x = 0; x < width; x++)
            sum = sum * 31 + ((const uint32_t *)((const char *)pixels + y * pitch))[x];
}

static size_t sound(const int16_t *data, size_t frames) {
    (void)data;
    return frames;
}

static void poll_input(void) {}

static int16_t pressed(unsigned port, unsigned device, unsigned index, unsigned id) {
    (void)device, (void)index;
    return port == 0 && (frame / 8 + id) % 5 == 0;
}

int main(int count, char **words) {
    void *core = count == 6 ? dlopen(words[1], RTLD_NOW) : NULL;
    if (!core) {
        fprintf(stderr, "front_end: %s\n", count == 6 ? dlerror() : "front_end CORE CART SAVES FRAMES SECONDS");
        return 1;
    }
    saves = words[3];
    seconds = atoll(words[5]);
#define CALL(name) ((__typeof__(&retro_##name))dlsym(core, "retro_" #name))
    struct retro_game_info info = {words[2], NULL, 0, NULL};
    CALL(set_environment)(environment);
    CALL(set_video_refresh)(show);
    CALL(set_audio_sample_batch)(sound);
    CALL(set_input_poll)(poll_input);
    CALL(set_input_state)(pressed);
    CALL(init)();
    bool is_loaded = CALL(load_game)(&info);
    for (frame = 0; is_loaded && frame < (unsigned)atoi(words[4]); frame++)
        CALL(run)();
    CALL(unload_game)();
    CALL(deinit)();
    printf("%016llx\n", (unsigned long long)sum);
    return !is_loaded;
}
