#!/usr/bin/python3
"""Makes pages that are wrong in one place each, and wants a test of the page to see it.

usage: wrong_pages.py GBKEEP [NAME ..]     NAME: of a page, as flushes_are_left_out; all are tried where none is given

Each is a copy of web/page. The status is 1 where the tests pass with one, or where one does not apply. It takes some ten minutes."""
import os
import shutil
import subprocess
import sys
import tempfile
from pathlib import Path

from scripts.page import list_files

HERE = Path(__file__).resolve().parent
DIST = HERE / 'page'

# its name, the file, the text that stands there once, what stands there then, and the test that has to see it: of test_web.py where no other is named
PAGES = [
    ('flushes_are_left_out', 'game.js', '      if (bytes === null) {\n        this.image.flush();\n', '      if (bytes === null) {\n', 'undone_writes'),
    ('saved_is_told_before_the_calls', 'game.js', '      this.makeCalls();\n      this.saved = saved;\n',
     '      this.saved = saved;\n      const { session } = this;\n      setTimeout(() => { if (this.session === session && session) { this.makeCalls(); } }, 400);\n', 'kills'),
    ('a_write_is_left_out', 'game.js', '      this.make(call);\n', '      this.left = (this.left ?? 0) + 1;\n      if (this.left % 7 !== 6) {\n        this.make(call);\n      }\n', 'undone_writes'),
    ('writes_are_made_last_first', 'game.js', "    for (let call = this.playing.nextCall(); call !== null; call = this.playing.nextCall()) {\n      this.make(call);\n    }\n",
     "    const all = [];\n    for (let call = this.playing.nextCall(); call !== null; call = this.playing.nextCall()) {\n      all.unshift(call.bytes === null ? call : { sector: call.sector, bytes: call.bytes.slice() });\n    }\n"
     "    for (const call of all) {\n      this.make(call);\n    }\n", 'undone_writes'),
    ('a_frame_has_other_buttons', 'player.js', '        this.play(order.buttons, some);\n', '        this.play(order.buttons & 0x7f, some);\n', 'as_the_program'),
    ('a_frame_is_lost', 'player.js', '        order.left -= some;\n', '        order.left -= some + (order.left > some ? 1 : 0);\n', 'as_the_program'),
    ('keys_do_not_reach_the_game', 'held.js', "      this.#held.hold(`key ${event.code}`, [action]);\n", '', 'test_view.py keys_anywhere'),
    ('going_back_writes_over_the_game', 'game.js', "    const number = nextNumber(await namesIn(this.folder), this.said);\n    const make",
     "    const number = nextNumber(await namesIn(this.folder), this.said) - (from === this.number ? 0 : 1);\n    const make", 'save_states'),
    ('a_save_is_taken_in_untried', 'games.js', "  Session.resume(library, await cartridgeIn(folder, id), image).free();\n", '', 'damaged_saves'),
    ('a_damaged_game_begins_anew', 'game.js', "      await this.goOn(there);\n", "      try { await this.goOn(there); } catch { this.disk.close(); await this.begin(there, null); }\n", 'damaged_saves'),
    ('time_passes_by_moments', 'player.js', '    return Math.floor((now() - this.since) * rate) - this.played;\n', '    return 1;\n', 'speed_of_a_game_boy'),
    ('seconds_are_given_twice', 'clock.js', '    this.held.give();\n', '', 'clock_rules'),
    ('a_claim_is_not_written_first', 'clock.js', "if (text === '' || !this.write(text)) {", "if (text === '') {", 'clock_rules'),
    ('a_rewound_clock_stays_behind', 'game.js', '    this.clock?.goBack(state.until);\n', '', 'rewound_clock'),
    ('a_rewound_game_goes_on_where_it_was', 'game.js', '    this.playing.restore(state.bytes);\n    this.count += 1n;\n', '', 'rewind'),
    ('a_state_is_kept_at_each_seventh_frame', 'past.js', 'const FRAMES_BETWEEN = 6;', 'const FRAMES_BETWEEN = 7;', 'rewind'),
    ('the_power_is_switched_without_an_answer', 'playing.js', '    if (agrees && store.now.game) {\n', '    if (store.now.game) {\n', 'power'),
    ('a_battery_file_is_forgotten', 'game.js', 'battery ? Session.import(this.library, this.rom, battery, sectors) : Session.begin(this.library, this.rom, sectors)',
     'Session.begin(this.library, this.rom, sectors)', 'battery_files'),
    ('a_battery_file_alone_is_passed_over', 'taking.js', "    if (plan.what === 'no cartridge') {\n", "    if (plan.what === 'no cartridge' && save) {\n", 'test_view.py second_refusal'),
    ('a_half_made_game_stays', 'folder.js', "      await root.removeEntry(id, { recursive: true }).catch(() => {});\n    }\n    throw refused;", '    }\n    throw refused;', 'small_quota'),
    ('a_full_disk_is_a_failed_page', 'disk.js', "  InvalidStateError: 'disk',\n", '', 'full_disk'),
    ('a_cut_write_is_taken_for_whole', 'disk.js', '  if (handle.write(bytes, { at }) !== bytes.length) {\n', '  if (handle.write(bytes, { at }) < 0) {\n', 'full_disk'),
    ('a_state_without_room_is_told_as_kept', 'game.js', '      await make().catch((again) => { throw refusalOf(again); });\n', '      await make().catch(() => {});\n', 'full_disk'),
    ('nothing_is_kept_for_later', 'service_worker.js', "await cache.match(request, { ignoreSearch: true }) ?? fetch(request)", 'fetch(request)', 'offline'),
    ('deleting_asks_nothing', 'home.js', "    if (agrees) {\n      await client.ask('deleteGame'", "    {\n      await client.ask('deleteGame'", 'delete'),
    ('starting_over_asks_nothing', 'home.js', "    if (agrees) {\n      await this.#page.playing.open({ id: row.id, anew: true });", "    {\n      await this.#page.playing.open({ id: row.id, anew: true });", 'new_game'),
    ('the_game_goes_on_without_an_index', 'game.js', "    this.isOver = true;\n    await this.index.write(said);\n", "    await this.index.write(said);\n", 'test_kept_games.py index_is_not_flushed'),
    ('what_stood_in_the_index_is_not_put_back', 'game_index.js', "      this.undo(place);\n", '', 'test_kept_games.py index_is_not_flushed'),
    ('the_newest_sector_is_written_over', 'game_index.js', "    await this.put(1 - this.place, said);\n  }\n", "    await this.put(this.place, said);\n  }\n", 'test_kept_games.py torn_index'),
    ('a_torn_sector_counts', 'game_index.js', " || await sha256(new TextEncoder().encode(found[1])) !== found[4]", '', 'test_kept_games.py torn_index'),
    ('a_long_index_stays_long', 'game_index.js', "        handle.truncate(LENGTH);\n", '', 'test_kept_games.py old_index'),
    ('a_cartridge_is_not_looked_at', 'folder.js', "if (rom === null || await sha256(rom) !== id) {", 'if (rom === null) {', 'test_kept_games.py cut_cartridge'),
    ('a_count_is_a_number', 'library.js', "    return BigInt.asUintN(64, this.library.calls.gbkeep_session_count(this.at));", "    return BigInt(Number(BigInt.asUintN(64, this.library.calls.gbkeep_session_count(this.at))));",
     'test_kept_games.py large_counts'),
    ('a_wrong_file_closes_the_game', 'taking.js', "    look.refused.forEach((one) => this.#page.refuse(one, one.name));\n",
     "    look.refused.forEach((one) => { this.#page.playing.over(); this.#page.refuse(one, one.name); });\n", 'test_view.py wrong_file_in_play'),
    ('a_private_window_is_taken_for_another', 'page.js', "    } else if (keepsNothing) {\n", "    } else if (keepsNothing && isKept === false) {\n", 'test_view.py private_window'),
    ('a_wrong_battery_file_ends_the_game', 'worker.js', "rom ?? (player.game?.id === id ? player.game?.rom : null)", 'rom', 'test_view.py wrong_file_in_play'),
    ('a_question_behind_another_is_lost', 'dialogs.js', "    await this.#leave('question');\n", '', 'test_view.py wrong_file_in_play'),
    ('words_that_are_dragged_light_up', 'taking.js', "event.dataTransfer?.types.includes('Files')", 'event.dataTransfer', 'test_view.py wrong_file_in_play'),
    ('the_list_is_older_than_the_game', 'taking.js', "      await home.list();\n", '', 'test_view.py second_refusal'),
    ('large_letters_are_cut', 'style.css', '#bar-title h1 { font-size: 15px;', '#bar-title h1 { font-size: 2rem;', 'test_view.py large_letters'),
    ('a_file_is_kept_unlooked_at', 'service_worker.js', " || await sha256(await answer.clone().arrayBuffer()) !== digest", '', 'test_versions.py mixture_is_not_kept'),
    ('files_of_other_places_are_deleted', 'service_worker.js', " && await (await caches.open(name)).match(scope) !== undefined", '', 'test_versions.py names_without_a_place'),
    ('a_kept_mixture_is_played', 'versions.js', "  if (mixed.length === 0) {\n", "  if (mixed.length >= 0) {\n", 'test_versions.py kept_mixture'),
    ('a_button_has_no_name', 'index.html', ' id="menu-open" class="icon" aria-label="Menu"', ' id="menu-open" class="icon"', 'test_view.py tree'),
    ('a_second_refusal_is_not_shown', 'page.js', "    this.say(refusalLine(error, file), { kind: 'refused' });\n",
     "    if (this.store.now.said?.kind !== 'refused') { this.say(refusalLine(error, file), { kind: 'refused' }); }\n", 'test_view.py second_refusal'),
    ('keys_die_beside_the_picture', 'held.js', "    addEventListener('keydown', (event) => this.#down(event));\n", "    document.getElementById('screen')?.addEventListener('keydown', (event) => this.#down(event));\n",
     'test_view.py keys_anywhere'),
    ('a_corner_holds_one_direction', 'pad.js', 'Math.tan((25 * Math.PI) / 180)', '1', 'test_view.py diagonals'),
    ('the_bar_never_comes_back', 'stage.js', "          this.showBar();\n        }\n", "        }\n", 'test_view.py full_screen_by_touch'),
    ('a_phone_is_shown_keys', 'keys_dialog.js', "      $('touch-help').hidden = !isTouch;\n", "      $('touch-help').hidden = true;\n", 'test_view.py help_on_a_phone'),
    ('the_bar_is_thick', 'layout.js', 'const BAR = 52;', 'const BAR = 300;', 'test_view.py sizes'),
    ('the_bar_lies_on_the_picture', 'layout.js', 'y: area.y + BAR, width: area.width, height: area.height - BAR - controls', 'y: area.y, width: area.width, height: area.height - controls', 'test_view.py sizes'),
    ('a_key_is_forgotten', 'keys_dialog.js', "      remember('keys', JSON.stringify(changes.keys));\n", '', 'test_view.py remap'),
    ('a_tab_forgets_its_game', 'settings.js', "      sessionStorage.setItem(OPEN, id);\n", '', 'test_view.py reload'),
    ('the_keys_leave_a_pause', 'menu.js', "this.#keys.begin()).then(() => this.#keys.end())", "this.#keys.begin()).then(() => { this.#keys.end(); this.#page.playing.pause(true); })", 'test_view.py menus_never_trap'),
    ('grey_words_are_pale', 'style.css', '  --soft: #55604a;\n', '  --soft: #a5b09a;\n', 'test_view.py contrast'),
]


def made(folder, file, old, new):
    """A wrong page; None where it does not apply."""
    page = folder / 'page'
    shutil.copytree(DIST, page)
    text = (page / file).read_text(encoding='utf-8')
    if text.count(old) != 1:
        return None
    (page / file).write_text(text.replace(old, new), encoding='utf-8')
    list_files(page)
    return page


def main():
    if len(sys.argv) < 2:
        sys.exit(__doc__)
    wanted, status = sys.argv[2:], 0
    for name, file, old, new, test in PAGES:
        if wanted and name not in wanted:
            continue
        with tempfile.TemporaryDirectory() as room:
            page = made(Path(room), file, old, new)
            if page is None:
                print(f'{name}: does not apply', flush=True)
                status = 1
                continue
            script, name_of_test = test.split(' ') if ' ' in test else ('test_web.py', test)
            ran = subprocess.run([sys.executable, '-B', str(HERE / script), sys.argv[1], name_of_test], env={**os.environ, 'PAGE': str(page)}, capture_output=True,
                                 text=True)
            why = [line for line in ran.stderr.splitlines() if 'Error: ' in line] or ['']
            print(f'{name}: {"seen by " + test + ": " + why[-1][:120] if ran.returncode else "NOT SEEN by " + test}', flush=True)
            status |= ran.returncode == 0
    return status


if __name__ == '__main__':
    sys.exit(main())
