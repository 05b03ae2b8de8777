# gbkeep: make help lists the targets.
RT ?= rt
PREFIX ?= $(HOME)/.local
# where libraries are installed: as seen from PREFIX, or absolute
LIBDIR ?= lib
PROGRAM := crates/gbkeep_program
# empty, or arm64: what is built for it lies in bin/arm64
ARCH ?=
OUT := bin$(if $(ARCH),/$(ARCH))
ifneq ($(filter-out arm64,$(ARCH)),)
$(error ARCH is arm64, or left out for this computer)
endif
# the package, and what tests and scripts take from each other
export PYTHONPATH := $(CURDIR)/python:$(CURDIR)$(if $(PYTHONPATH),:$(PYTHONPATH))
# the Python that has PIL, by which tests read pictures a second time: Debian's, where another one comes first
PIL_PYTHON ?= $(shell for one in python3 /usr/bin/python3; do $$one -c 'import PIL' > /dev/null 2>&1 && echo $$one && exit; done; echo python3)
# the Python that has numpy, likewise
NUMPY_PYTHON ?= $(shell for one in python3 /usr/bin/python3; do $$one -c 'import numpy' > /dev/null 2>&1 && echo $$one && exit; done; echo python3)
SOURCES := crates.txt $(shell find crates -name out -prune -o -type f \( -name '*.rt' -o -name '*.antt' \) -print)

# make looks by scripts/doctor.py for what its targets need before it proves or builds anything; a question (make -q) needs nothing
LOOK := $(if $(findstring q,$(firstword -$(MAKEFLAGS))),,looked)

help:
	@echo 'To install and to play (in a browser, at http://localhost:8000, with nothing'
	@echo 'built: python3 -m http.server -d web/page 8000):'
	@echo '  make build      proves the program and leaves it at bin/gbkeep: 47 minutes'
	@echo '                  from nothing with two processors, 48 with four, 87 with one'
	@echo '                  (one crate a processor and 2.5 GB of memory, or JOBS=N)'
	@echo '  make demo       plays a minute of a small game: bin/demo.gbkeep, bin/demo.png'
	@echo '  make play       plays a cartridge in a window (CART=examples/demo/demo.gb'
	@echo '                  SAVE=NAME.gbkeep; without SAVE, in ~/.local/share/gbkeep)'
	@echo '  make install    puts program, library, window, tools, man pages, completions'
	@echo '                  and, where it is built, the core below PREFIX (~/.local);'
	@echo '                  LIBDIR=lib64: another folder for libraries'
	@echo '  make uninstall  removes what make install puts there'
	@echo '  make run        tries the program on a small ROM before any proof: compiles it'
	@echo '                  first, each time (ARGS="info data/rom.gb": on other words)'
	@echo '  make libretro   leaves bin/gbkeep_libretro.so, a core for RetroArch'
	@echo '  make library    leaves bin/libgbkeep.a, bin/libgbkeep.so, bin/gbkeep.h and'
	@echo '                  bin/gbkeep.pc, the library for C'
	@echo '  make windows    leaves gbkeep.dll and gbkeep_libretro.dll in bin/windows'
	@echo '  make wheels     leaves in dist what pip installs, for Linux and Windows'
	@echo '  make dist       leaves a tarball, the page, Debian packages and wheels in'
	@echo '                  dist, and their sums'
	@echo '  make doctor     tells what of all that they need is there, and what each'
	@echo '                  missing thing costs'
	@echo '  make clean      removes what make has made in bin and dist, and no game'
	@echo '  make clean-cache'
	@echo '                  removes what proofs keep for the next one'
	@echo '  ARCH=arm64      build, install, library, libretro and dist for aarch64: in'
	@echo '                  bin/arm64 and dist/arm64'
	@echo
	@echo 'To change it (times are of two idle processors; docs/CONTRIBUTING.md):'
	@echo '  make check      proves what changed, seconds a crate (CRATE=NAME for one)'
	@echo '  make edits      tries every wrong body, 10 to 40 s each (CRATE=NAME for one)'
	@echo '  make lint       looks at all Python by pyflakes3 (two seconds)'
	@echo '  make refusals   makes the tables of refusals of docs, gbkeep.h, window and'
	@echo '                  page anew (docs/ARCHITECTURE.md)'
	@echo '  make test       the gate: proves everything from nothing, runs the tests and'
	@echo '                  the programs, and ends with what was not tried, and why'
	@echo '  make bench      counts what frames, pictures, steps and saves cost in what'
	@echo '                  ships'
	@echo '  make compare    compares the program with a second one, in Python, on random'
	@echo '                  ROMs (SECONDS=20 a kind)'
	@echo '  make hostile    gives the program damaged files and wrong scripts, kills it,'
	@echo '                  and looks at what is left (SECONDS=20 a kind)'
	@echo '  make fuzz       gives it random ROMs, scripts and save files, by another seed'
	@echo '                  each time (SECONDS=20 in all), and its tools hostile files'
	@echo '  make faults     makes each call of a tool for a file fail, hang, or be its'
	@echo '                  last one, and looks at what is left'
	@echo '  make strace     compares each write and sync of the save file with a second'
	@echo '                  writer'
	@echo '  make memory     refuses each allocation in turn (20 s once both are built)'
	@echo '  make test-window'
	@echo '                  plays in the window on a display of its own, by keys and by'
	@echo '                  its accessibility tree, and kills it (six minutes)'
	@echo '  make test-library'
	@echo '                  plays by the library from C and from Python, under the'
	@echo '                  sanitizers, and cuts it at each call (a minute)'
	@echo '  make test-libretro'
	@echo '                  plays by the core: states, slow and failing disks, kills at'
	@echo '                  each kind of call, garbage (two minutes)'
	@echo '  make test-retroarch'
	@echo '                  plays by the core in RetroArch: rewind, run-ahead, kills (two'
	@echo '                  minutes)'
	@echo '  make test-slow-disk'
	@echo '                  plays in the window and by the core while each sync takes'
	@echo '                  300 ms (a minute)'
	@echo '  make web        renews the module of the page, web/page, where it is older'
	@echo '                  than its sources (docs/BROWSER.md)'
	@echo '  make test-web   plays by the page in Chromium, kills it, and gives it wrong'
	@echo '                  files, a full disk, no network and calls that fail; plays in'
	@echo '                  Firefox and WebKit (fifteen minutes)'
	@echo '  make test-arm64 runs the program for aarch64 by qemu: tests, damaged files,'
	@echo '                  comparisons, games from one processor to the other'
	@echo '                  (SECONDS=20 a kind; after make build ARCH=arm64)'
	@echo '  make test-windows'
	@echo '                  plays by the library and the core for Windows, in wine, and'
	@echo '                  kills it (five minutes)'
	@echo '  make test-packages'
	@echo '                  looks at the packages of dist by lintian, and installs,'
	@echo '                  upgrades and removes them in a system of their own (ten'
	@echo '                  minutes)'
	@echo '  make test-reproducible'
	@echo '                  builds it all again in a clone of another name, and compares'
	@echo '                  each byte with dist'
	@echo '  make test-cards cuts the power of a card with exFAT or vfat in a virtual'
	@echo '                  machine (four minutes; KERNEL=FOLDER of a linux-image)'
	@echo
	@python3 -B scripts/clean.py sizes 2> /dev/null || true

looked:
	@command -v python3 > /dev/null || { echo 'python3 is missing: install python3' >&2; exit 1; }
	@python3 -B scripts/doctor.py $(MAKECMDGOALS)

doctor:
	@python3 -B scripts/doctor.py

clean:
	@python3 -B scripts/clean.py

clean-cache:
	@python3 -B scripts/clean.py cache

ARGS ?= step data/rom.gb 2

run:
	@cd $(PROGRAM) && python3 -B "$(CURDIR)/scripts/alive.py" 'compiling the program, unproved, and then running gbkeep $(subst ','\'',$(ARGS)): one to three minutes' $(RT) try -- $(ARGS)

bin/gbkeep: $(SOURCES) | $(LOOK)
	@RT=$(RT) JOBS=$(JOBS) python3 -B scripts/build.py

BY_ARM64 := $(addprefix scripts/arm64/,target.py os.c start.S)
bin/arm64/gbkeep: $(SOURCES) $(BY_ARM64) library/heap.c | $(LOOK)
	@RT=$(RT) JOBS=$(JOBS) python3 -B scripts/build.py arm64

build: $(OUT)/gbkeep

# the window plays by the library: where there is no C compiler, all else is installed
install: $(OUT)/gbkeep $(if $(shell command -v $(if $(ARCH),aarch64-linux-gnu-gcc,$(CC))),$(OUT)/libgbkeep.so)
	@python3 -B packaging/installed.py --destdir "$(DESTDIR)" --libdir "$(LIBDIR)" --built $(OUT) "$(PREFIX)"

uninstall:
	@python3 -B packaging/installed.py --remove --destdir "$(DESTDIR)" --libdir "$(LIBDIR)" "$(PREFIX)"

check:
ifdef CRATE
	cd crates/$(CRATE) && $(RT) check
else
	$(RT) all check
endif

edits:
	RT=$(RT) python3 -B scripts/edits.py $(CRATE)

bench: bin/gbkeep
	$(MAKE) bin/gbkeep_libretro.so
	python3 -B scripts/shipped.py bin/gbkeep bin bin/gbkeep_libretro.so
	python3 -B scripts/session_cost.py bin/gbkeep
	python3 -B scripts/program_cost.py bin/gbkeep
	python3 -B scripts/state_cost.py bin/gbkeep
	cd crates/bench && $(RT) run -- lines
	cd crates/bench && $(RT) run -- units

SECONDS ?= 20

compare: bin/gbkeep
	python3 -B scripts/second_machine/compare.py bin/gbkeep $(SECONDS)

hostile: bin/gbkeep
	python3 -B scripts/second_storage/hostile.py bin/gbkeep $(SECONDS)

fuzz: bin/gbkeep bin/libgbkeep.so
	python3 -B scripts/second_storage/hostile.py bin/gbkeep fuzz $(SECONDS)
	$(PIL_PYTHON) -B scripts/tool_fuzz.py bin/gbkeep 60

faults: bin/gbkeep bin/libgbkeep.so
	python3 -B scripts/tool_faults.py bin/gbkeep

strace: bin/gbkeep
	python3 -B scripts/second_storage/traced.py bin/gbkeep

demo: bin/gbkeep
	rm -f bin/demo.gbkeep
	bin/gbkeep new examples/demo/demo.gb bin/demo.gbkeep
	bin/gbkeep play examples/demo/demo.gb bin/demo.gbkeep examples/demo/tour.txt
	bin/gbkeep frame examples/demo/demo.gb bin/demo.gbkeep bin/demo.pgm
	python3 -B -m gbkeep.png bin/demo.pgm bin/demo.png
	@echo 'bin/demo.png: the picture at the end of the tour'

# the Python that has GTK: Debian's, where another one comes first
PYTHON ?= $(shell python3 -c 'import gi; gi.require_version("Adw", "1")' > /dev/null 2>&1 && echo python3 || echo /usr/bin/python3)
CART ?= examples/demo/demo.gb

# a game that is in bin goes on there
play: bin/gbkeep bin/libgbkeep.so
	@save="$(SAVE)" older="bin/play-$$(basename "$(CART)" .gb).sav"; if [ -z "$$save" ] && [ -e "$$older" ]; then save=$$older; fi; \
	$(PYTHON) -B -m gbkeep.window "$(CART)" $${save:+"$$save"}

CC ?= cc
LIBRETRO ?= /usr/include/libretro-common
export CC_WINDOWS ?= x86_64-w64-mingw32-gcc

CORE := scripts/libretro.py $(wildcard players/libretro/*.c players/libretro/*.h players/libretro/Makefile* players/libretro/link.T) \
  players/libretro/tables_h.py python/gbkeep/faults.py python/gbkeep/palettes.py
$(OUT)/gbkeep_libretro.so: $(OUT)/libgbkeep.so $(CORE) | $(LOOK)
	CC="$(CC)" LIBRETRO="$(LIBRETRO)" python3 -B scripts/libretro.py $(ARCH)

libretro: $(OUT)/gbkeep_libretro.so

library: $(OUT)/libgbkeep.so

BY_MODULE := $(addprefix scripts/,changed_module.py library.py page.py)
bin/windows/gbkeep.dll: $(SOURCES) $(wildcard library/*.*) scripts/windows.py $(BY_MODULE) | $(LOOK)
	RT=$(RT) python3 -B scripts/windows.py

bin/windows/gbkeep_libretro.dll: bin/windows/gbkeep.dll $(CORE) | $(LOOK)
	LIBRETRO="$(LIBRETRO)" python3 -B scripts/libretro.py windows

windows: bin/windows/gbkeep_libretro.dll

# the calls of the library, and the core in a front end, by wine; the package of Python without what that system lacks; and what pip takes
test-windows: bin/gbkeep bin/libgbkeep.so bin/windows/gbkeep_libretro.dll
	CC="$(CC)" LIBRETRO="$(LIBRETRO)" python3 -B players/windows/test_windows.py bin/gbkeep
	$(NUMPY_PYTHON) -B python/gbkeep_tests/test_other_system.py
	python3 -B packaging/test_wheels.py

$(OUT)/libgbkeep.so: $(SOURCES) $(wildcard library/*) scripts/library.py $(if $(ARCH),scripts/arm64/target.py) | $(LOOK)
	RT=$(RT) python3 -B scripts/library.py $(ARCH)

test-library: bin/gbkeep bin/libgbkeep.so
	python3 -B library/test_library.py bin/gbkeep
	$(NUMPY_PYTHON) -B python/gbkeep_tests/test_env.py

# what is made of the table of refusals
refusals:
	@python3 -B scripts/refusal_table.py && python3 -B scripts/page.py

web:
	RT=$(RT) python3 -B scripts/web.py

# the Python that has selenium: Debian's, where another one comes first
WEB_PYTHON ?= $(shell python3 -c 'import selenium' > /dev/null 2>&1 && echo python3 || echo /usr/bin/python3)

# where the module of web/page is of other sources, a page with one of these is tried, too
test-web: bin/gbkeep bin/libgbkeep.so
	CC="$(CC)" python3 -B web/test_heap.py
	python3 -B web/test_module.py
	if python3 -B scripts/doctor.py --try 'the scripts of the page, by eslint' eslint; then \
	NODE_PATH=/usr/share/nodejs eslint --format unix --ext .js,.mjs web; fi
	if python3 -B scripts/doctor.py --try 'each cut of the acts on a game' node; then ALL=1 node --test web/tests/kills.test.mjs; fi
	pages=$$(RT=$(RT) python3 -B scripts/web.py pages) && for page in $$pages; do export PAGE="$$page"; \
	$(WEB_PYTHON) -B web/test_web.py bin/gbkeep && \
	$(WEB_PYTHON) -B web/test_view.py bin/gbkeep && \
	$(WEB_PYTHON) -B web/test_kept_games.py bin/gbkeep && \
	$(WEB_PYTHON) -B web/test_versions.py bin/gbkeep && \
	$(WEB_PYTHON) -B web/test_page_faults.py bin/gbkeep && \
	$(WEB_PYTHON) -B web/test_engines.py bin/gbkeep || exit 1; done

# a wheel for each library that is built
wheels: bin/libgbkeep.so
	python3 -B packaging/wheels.py

dist: $(OUT)/gbkeep $(OUT)/libgbkeep.so $(if $(wildcard $(LIBRETRO)/libretro.h),$(OUT)/gbkeep_libretro.so) \
  $(if $(ARCH),,$(if $(shell command -v $(CC_WINDOWS)),bin/windows/gbkeep.dll))
	$(if $(ARCH),,RT=$(RT) python3 -B scripts/web.py bin/web)
	RT=$(RT) python3 -B packaging/dist.py $(ARCH)

test-arm64: bin/gbkeep bin/arm64/gbkeep
	python3 -B scripts/arm64/test_arm64.py bin/gbkeep bin/arm64 $(SECONDS)

test-packages:
	python3 -B packaging/test_packages.py dist

test-reproducible:
	RT=$(RT) python3 -B packaging/test_reproducible.py $(ARCH)

test-cards: bin/gbkeep
	python3 -B scripts/second_storage/cards.py bin/gbkeep "$(KERNEL)"

test-slow-disk: bin/gbkeep bin/gbkeep_libretro.so
	CC="$(CC)" $(PYTHON) -B python/gbkeep_tests/test_slow_disk.py bin/gbkeep

test-window: bin/gbkeep bin/libgbkeep.so
	$(PYTHON) -B python/gbkeep_tests/test_window.py bin/gbkeep

test-libretro: bin/gbkeep bin/gbkeep_libretro.so
	CC="$(CC)" python3 -B players/libretro/test_libretro.py bin/gbkeep bin/gbkeep_libretro.so
	CC="$(CC)" LIBRETRO="$(LIBRETRO)" python3 -B players/libretro/test_garbage.py

test-retroarch: bin/gbkeep bin/gbkeep_libretro.so
	python3 -B players/libretro/test_retroarch.py bin/gbkeep bin/gbkeep_libretro.so

memory: bin/gbkeep
	cd crates/refused_memory && $(RT) run > /dev/null
	python3 -B scripts/second_storage/refused_memory.py bin/gbkeep crates/refused_memory/out/refused_memory

LINT := pyflakes3 examples library packaging players python scripts web

lint:
	@$(LINT)

# what a step leaves out, and why, is noted there, and told at the end
test: export NOT_TRIED := $(CURDIR)/bin/not_tried
test:
	@python3 -B scripts/not_tried.py begins
	RT=$(RT) python3 -B packaging/dist.py begins
	if python3 -B scripts/doctor.py --try 'all Python, by pyflakes3' pyflakes3; then $(LINT); fi
	python3 -B scripts/test_make.py
	RT=$(RT) sh scripts/opened_has_no_append.sh
	python3 -B scripts/front_door.py
	python3 -B packaging/completions.py check
	python3 -B examples/speed/build.py check
	python3 -B scripts/test_shipped.py
	python3 -B scripts/refusal_table.py --check
	python3 -B scripts/page.py check
	if python3 -B scripts/doctor.py --try 'the parts of the page that need no browser' node; then node --test web/tests/; fi
	if python3 -B scripts/doctor.py --try 'the types of the scripts of the page' tsc; then tsc -p web/jsconfig.json; fi
	python3 -B scripts/speed_chart.py check
	python3 -B scripts/refusals.py
	python3 -B scripts/definitions.py public
	python3 -B scripts/unused_names.py
	python3 -B scripts/no_memory.py
	python3 -B scripts/no_memory.py --try
	python3 -B scripts/edits.py --apply
# what tells the cost of a command ends as the command does
	! python3 -B scripts/gate_cost.py false > /dev/null
# rt ci takes no links; the library, whose name is one, is built behind it
	rm -f bin/libgbkeep.so.0 bin/arm64/libgbkeep.so.0
# a proof by one process: each more reads its libraries again
	RT_JOBS=$$(python3 -B -c 'from scripts.build import jobs; print(jobs())') python3 -B scripts/gate_cost.py $(RT) ci
	python3 -B scripts/program_tests/run.py $(PROGRAM)/out/gbkeep_program
	python3 -B python/gbkeep_tests/test_desktop_model.py
	$(NUMPY_PYTHON) -B python/gbkeep_tests/test_package.py
	$(PIL_PYTHON) -B python/gbkeep_tests/test_pictures.py
	CC="$(CC)" python3 -B packaging/test_installed.py
	python3 -B packaging/test_completions.py
	python3 -B web/test_module.py
	if python3 -B scripts/page.py is-current && python3 -B scripts/doctor.py --try 'the module of the page, in Node' node; then \
	python3 -B web/test_engines.py $(PROGRAM)/out/gbkeep_program node; fi
	if python3 -B scripts/doctor.py --try 'the library for C, and the window over it' cc ar; then RT=$(RT) CC="$(CC)" python3 -B scripts/library.py gate && \
	CC="$(CC)" python3 -B library/test_library.py $(PROGRAM)/out/gbkeep_program && \
	$(NUMPY_PYTHON) -B python/gbkeep_tests/test_env.py && \
	$(PIL_PYTHON) -B python/gbkeep_tests/test_players.py $(PROGRAM)/out/gbkeep_program && \
	python3 -B python/gbkeep_tests/test_slots.py $(PROGRAM)/out/gbkeep_program && \
	python3 -B python/gbkeep_tests/test_shown_game.py $(PROGRAM)/out/gbkeep_program && \
	$(PIL_PYTHON) -B scripts/tool_fuzz.py $(PROGRAM)/out/gbkeep_program 5 1 && \
	python3 -B scripts/tool_faults.py $(PROGRAM)/out/gbkeep_program 40 1; fi
	$(PIL_PYTHON) -B scripts/front_door.py $(PROGRAM)/out/gbkeep_program
	if python3 -B scripts/doctor.py --try 'the libretro core' cc ar libretro.h; then CC="$(CC)" LIBRETRO="$(LIBRETRO)" python3 -B scripts/libretro.py && \
	python3 -B players/libretro/test_libretro.py $(PROGRAM)/out/gbkeep_program bin/gbkeep_libretro.so && \
	if python3 -B scripts/doctor.py --try 'the libretro core, garbage' sanitizers; then \
	CC="$(CC)" LIBRETRO="$(LIBRETRO)" python3 -B players/libretro/test_garbage.py 10; fi; fi
	CC="$(CC)" python3 -B scripts/shipped.py gate $(PROGRAM)/out/gbkeep_program bin bin/gbkeep_libretro.so
	python3 -B scripts/second_storage/hostile.py $(PROGRAM)/out/gbkeep_program 4 1
	python3 -B scripts/second_machine/compare.py $(PROGRAM)/out/gbkeep_program tests 1 5
	python3 -B scripts/second_machine/compare.py $(PROGRAM)/out/gbkeep_program refuse 1 3
	python3 -B scripts/second_machine/compare.py $(PROGRAM)/out/gbkeep_program list 1 3
	python3 -B scripts/second_machine/compare.py $(PROGRAM)/out/gbkeep_program frames 1 6
	python3 -B scripts/second_machine/compare.py $(PROGRAM)/out/gbkeep_program features 1 25
	python3 -B scripts/second_machine/compare.py $(PROGRAM)/out/gbkeep_program debug 1 5
	python3 -B scripts/second_storage/traced.py $(PROGRAM)/out/gbkeep_program 2 1 crates/failed_syncs/out/failed_syncs
	python3 -B examples/demo/check.py $(PROGRAM)/out/gbkeep_program
	python3 -B examples/test_roms/check.py
	python3 -B -m gbkeep.run_tests --gbkeep $(PROGRAM)/out/gbkeep_program examples/test_roms/all.txt
	$(PIL_PYTHON) -B python/gbkeep_tests/test_run_tests.py $(PROGRAM)/out/gbkeep_program
	$(PIL_PYTHON) -B python/gbkeep_tests/test_debug.py $(PROGRAM)/out/gbkeep_program
	python3 -B python/gbkeep_tests/test_dap.py $(PROGRAM)/out/gbkeep_program
	python3 -B scripts/time_walks.py $(PROGRAM)/out/gbkeep_program 200
	$(PIL_PYTHON) -B python/gbkeep_tests/test_hostile_inputs.py $(PROGRAM)/out/gbkeep_program
	python3 -B scripts/second_storage/refused_memory.py $(PROGRAM)/out/gbkeep_program crates/refused_memory/out/refused_memory
	RT=$(RT) python3 -B packaging/dist.py passed $(PROGRAM)/out/gbkeep_program
	@python3 -B scripts/not_tried.py ends

TARGETS := build demo play install uninstall libretro dist run check edits lint refusals test bench compare hostile fuzz faults strace memory test-window test-libretro library test-library windows test-windows wheels test-arm64 test-packages test-reproducible test-slow-disk test-retroarch test-cards web test-web
FREE := help doctor clean clean-cache
$(TARGETS): | $(LOOK)
.PHONY: $(TARGETS) $(FREE) looked
