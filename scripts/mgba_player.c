/* Plays a Game Boy cartridge in mGBA's library, for other_emulators.py:
 *
 *     mgba_player ROM SAV [at SECONDS | frames N | idle N | look]...
 *
 * SAV is opened and written by mGBA as its front ends have it do. `at` sets the time of day that mGBA sees, in seconds since 1970 (0 before the
 * first), and it stands still until the next; `idle` is frames with A held; `look` prints the cartridge's RAM as mGBA holds it and the five
 * registers of the clock, in hexadecimal digits. */
#include <mgba/flags.h>

#include <mgba/core/core.h>
#include <mgba/core/log.h>
#include <mgba/internal/gb/gb.h>
#include <mgba/internal/gb/input.h>
#include <mgba-util/vfs.h>

#include <fcntl.h>
#include <stdio.h>
#include <stdlib.h>
#include <string.h>

static color_t pixels[256 * 256];

static void silent(struct mLogger* logger, int category, enum mLogLevel level, const char* format, va_list words) {
	(void) logger, (void) category, (void) level, (void) format, (void) words;
}

static struct mLogger silence = { .log = silent };

static void print(const char* name, const uint8_t* bytes, size_t count) {
	printf("%s ", name);
	for (size_t at = 0; at < count; ++at) {
		printf("%02x", bytes[at]);
	}
	printf("\n");
}

static int failed(const char* what) {
	fprintf(stderr, "mgba_player: %s\n", what);
	return 1;
}

int main(int count, char** words) {
	if (count < 3) {
		return failed("ROM SAV [at SECONDS | frames N | idle N | look]...");
	}
	mLogSetDefaultLogger(&silence);
	struct mCore* core = mCoreCreate(mPLATFORM_GB);
	if (!core || !core->init(core)) {
		return failed("no core");
	}
	mCoreInitConfig(core, NULL);
	core->setVideoBuffer(core, pixels, 256);
	core->rtc.override = RTC_FIXED;
	core->rtc.value = 0;
	struct VFile* rom = VFileOpen(words[1], O_RDONLY);
	if (!rom || !core->loadROM(core, rom)) {
		return failed("ROM is not taken");
	}
	struct VFile* sav = VFileOpen(words[2], O_RDWR | O_CREAT);
	if (!sav || !core->loadSave(core, sav)) {
		return failed("SAV is not taken");
	}
	core->reset(core);
	struct GB* gb = core->board;
	for (int at = 3; at < count; ++at) {
		if (!strcmp(words[at], "at") && at + 1 < count) {
			core->rtc.value = 1000 * strtoll(words[++at], NULL, 10);
		} else if ((!strcmp(words[at], "frames") || !strcmp(words[at], "idle")) && at + 1 < count) {
			core->setKeys(core, strcmp(words[at], "idle") ? 0 : 1 << GB_KEY_A);
			for (long left = strtol(words[++at], NULL, 10); left > 0; --left) {
				core->runFrame(core);
			}
		} else if (!strcmp(words[at], "look")) {
			print("ram", gb->memory.sram, gb->sramSize);
			print("clock", gb->memory.rtcRegs, sizeof(gb->memory.rtcRegs));
		} else {
			return failed(words[at]);
		}
	}
	core->unloadROM(core);
	mCoreConfigDeinit(&core->config);
	core->deinit(core);
	return 0;
}
