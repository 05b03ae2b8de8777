#!/usr/bin/python3
"""Makes copies of the page's scripts that are wrong in one place each, and wants the tests of node to see it.

usage: wrong_parts.py [NAME ..]     NAME: of a wrong body, as index_is_not_flushed; all are tried where none is given"""
import shutil
import subprocess
import sys
import tempfile
from pathlib import Path

HERE = Path(__file__).resolve().parent

# its name: the file, what stands there once, what is to stand there, and the tests that have to see it
WRONG = {
    'index_is_not_flushed': ('game_index.js', '      this.open.flush();\n    } catch {\n      this.undo(place);', '    } catch {\n      this.undo(place);', 'index'),
    'index_is_written_in_place': ('game_index.js', '    await this.put(1 - this.place, said);\n  }', '    await this.put(this.place, said);\n  }', 'index'),
    'index_digest_is_not_looked_at': ('game_index.js', ' || await sha256(new TextEncoder().encode(found[1])) !== found[4]) {', ') {', 'index'),
    'index_forgets_the_other_sector': ('game_index.js', "newer.isWhole || !older?.isWhole", 'true', 'index'),
    'old_index_says_nothing': ('game_index.js', "    if (version === undefined) {\n      return { said, isWhole: false };\n    }", "    if (version === undefined) {\n      return null;\n    }", 'index'),
    'first_slot_has_another_name': ('game_index.js', 'play, slot: slots[0], slots', 'play, slot: slots[1], slots', 'index'),
    'image_is_made_after_the_index': ('game.js', '    try {\n      await make();', '    try {\n      await this.write(said(number));\n      await make();', 'kills'),
    'load_plays_the_slot_itself': ('states.js', 'return counted({ ...said, play: image, back:', 'return counted({ ...said, play: said.slots.find((one) => one) ?? image, back:', 'kills'),
    'undo_forgets': ('states.js', 'undo: changed(said.undo, place, said.slots[place]) });', 'undo: changed(said.undo, place, null) });', 'parts'),
    'second_load_forgets_the_game': ('states.js', 'wasShort && said.back !== 0 ? said.back : said.play', 'said.play', 'parts'),
    'numbers_are_given_twice': ('images.js', 'Math.max(0, said?.last ?? 0, ...(said ? namedBy(said) : []), ...there) + 1', 'Math.max(0, ...there)', 'parts'),
    'any_image_may_go': ('states.js', "about === null || count === null || about.kind === 'game'", 'about === null', 'parts'),
    'what_a_cut_brings_back_may_go': ('states.js', 'named.flatMap((said) =>', 'named.slice(0, 1).flatMap((said) =>', 'parts'),
    'a_new_file_has_its_root_first': ('disk.js', '    put(handle, new Uint8Array(head), 0);\n    put(handle, bytes.subarray(head), head);\n    handle.flush();', '    put(handle, bytes.subarray(0, head), 0);\n    put(handle, bytes.subarray(head), head);', 'kills'),
    'moments_behind_a_kill_stay': ('moments.js', 'moment.image !== image || moment.count <= count', 'true', 'timeline'),
    'moments_are_trusted': ('timeline.js', 'hex(await digest(bytes)) === moment.digest', 'true', 'timeline'),
    'moments_are_never_thinned': ('moments.js', 'moment.frames - before.frames >= space', 'true', 'timeline'),
    'moments_lie_on_one_another': ('moments.js', 'if (moment.sector - free >= sectors) {', 'if (moment.sector - free >= 1) {', 'timeline'),
    'clock_stays_at_a_moment': ('game.js', '      this.clock.goBack(moment.until);', '', 'timeline'),
    'a_moment_is_no_input': ('game.js', "      throw Refused.own('moment');\n    }\n    this.count += 1n;", "      throw Refused.own('moment');\n    }", 'timeline'),
    'sums_of_zips_are_not_looked_at': ('zip.js', ' || crc32(rom) !== cart.sum', '', 'zip'),
    'zips_are_unpacked_without_end': ('zip.js', 'await unpack(packed, MOST_ROM)', 'await unpack(packed, 2 * MOST_ROM)', 'zip'),
    'the_first_of_several': ('zip.js', 'carts.length !== 1', 'carts.length === 0', 'zip'),
    'welcome_of_another_image': ('played.js', 'record === null || record.image !== image', 'record === null', 'parts'),
    'a_blank_picture_is_kept': ('game.js', 'if (!isBlank(picture)) {', 'if (picture.length > 0) {', 'game'),
    'a_reset_forgets_its_picture': ('game.js', '    this.keepPicture(0);\n    this.playing.power();', '    this.playing.power();', 'game'),
    'a_full_disk_is_a_failed_page': ('disk.js', "  InvalidStateError: 'disk',\n", '', 'game'),
    'the_timeline_keeps_its_room': ('game.js', "['room', 'disk']", "['room']", 'game'),
    'four_times_is_twice': ('player.js', 'this.speed * FRAMES_A_SECOND', 'Math.min(this.speed, 2) * FRAMES_A_SECOND', 'player'),
    'orders_are_forgotten': ('player.js', '      this.refuseOrders(stopped);\n', '', 'player'),
}

KILLS = '^keep in a'


def main():
    wanted, missed = sys.argv[1:] or list(WRONG), []
    for name in wanted:
        file, old, new, tests = WRONG[name]
        with tempfile.TemporaryDirectory(prefix='wrong-') as room:
            web = Path(room) / 'web'
            shutil.copytree(HERE / 'page', web / 'page')
            shutil.copytree(HERE / 'tests', web / 'tests')
            shutil.copy(HERE / 'package.json', web)
            shutil.copytree(HERE.parent / 'examples/demo', Path(room) / 'examples/demo')
            path = web / 'page' / file
            text = path.read_text(encoding='utf-8')
            if text.count(old) != 1:
                sys.exit(f'wrong_parts.py: {name}: {file} has its text {text.count(old)} times')
            path.write_text(text.replace(old, new), encoding='utf-8')
            # the cuts of some acts are enough to see it
            some = ['--test-name-pattern', KILLS] if tests == 'kills' else []
            done = subprocess.run(['node', '--test', *some, *(str(web / f'tests/{one}.test.mjs') for one in tests.split())], capture_output=True, text=True, timeout=900)
            first = next((line for line in done.stdout.splitlines() if line.startswith('not ok') or line.startswith('    not ok')), '')
        print(f"{name}: {first.strip() or 'NOT SEEN'}", flush=True)
        if done.returncode == 0:
            missed.append(name)
    if missed:
        sys.exit(f"{len(missed)} of {len(wanted)} wrong bodies were not seen: {' '.join(missed)}")
    print(f'{len(wanted)} wrong bodies were seen')


if __name__ == '__main__':
    main()
