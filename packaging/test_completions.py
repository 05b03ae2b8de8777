"""Tries the completions of the program and its tools in real shells: what is offered where, in bash, zsh and fish alike.

usage: test_completions.py [TEST..]"""
import os
import pty
import re
import select
import shutil
import subprocess
import sys
import time
from dataclasses import replace
from pathlib import Path

import installed
from gbkeep_tests import support
from gbkeep_tests.support import TOP, expect, needs
from scripts.doctor import BASH_COMPLETION, is_there

FILES = {'A Game.gb', 'game.gbkeep', 'A folder/'}
FOLDERS = {'A folder/'}
NOTHING: set = set()
WORDS_FILE = (TOP / 'crates/command_line/src/words.rt').read_text(encoding='utf-8')
COMMANDS = set(re.findall(r'^        name: "([\w-]+)",$', WORDS_FILE, re.M))
TOOLS = re.findall(r'^(gbkeep-[a-z-]+) = ', (TOP / 'python/pyproject.toml').read_text(), re.M)
BATTERIES = {'to-mgba', 'to-gambatte', 'from-mgba', 'from-gambatte', 'of-save'}
# what is typed, and what is offered for its last word
TYPED = [
    ('gbkeep ne', {'new', 'new-recording'}),
    ('gbkeep help ', COMMANDS),
    ('gbkeep help sh', {'show'}),
    ('gbkeep help show ', NOTHING),
    ('gbkeep --v', {'--version'}),
    ('gbkeep info ', FILES),
    ('gbkeep info x.gb ', NOTHING),
    ('gbkeep list x.gb ', NOTHING),
    ('gbkeep new x.gb x.gbkeep ', NOTHING),
    ('gbkeep test x.gb 60 ', FILES),
    ('gbkeep play -- x.gb x.gbkeep ', FILES),
    ('gbkeep play --h', {'--help'}),
    ('gbkeep-window --sc', {'--scale'}),
    ('gbkeep-window ', FILES),
    ('gbkeep-window --scale ', NOTHING),
    ('gbkeep-window --scale 4 ', FILES),
    ('gbkeep-window --keys ', FILES),
    ('gbkeep-window --keys x x.gb ', FILES),
    ('gbkeep-window x.gb x.gbkeep ', NOTHING),
    ('gbkeep-window -- x.gb x.gbkeep ', NOTHING),
    ('gbkeep-script ', {'own', 'friendly', 'check', 'marks', 'play'}),
    ('gbkeep-script p', {'play'}),
    ('gbkeep-script own --', {'--help'}),
    ('gbkeep-script play --', {'--record', '--help'}),
    ('gbkeep-script play --record x.recording x.gb x.gbkeep ', FILES),
    ('gbkeep-rest --r', {'--record'}),
    ('gbkeep-movie ', {'script', 'friendly', 'bk2'}),
    ('gbkeep-movie bk2 x.gb x.recording ', FILES),
    ('gbkeep-movie script x.bk2 ', NOTHING),
    ('gbkeep-film --f', {'--from'}),
    ('gbkeep-branch x.gb x.recording ', NOTHING),
    ('gbkeep-branch x.gb x.recording 60 ', FILES),
    ('gbkeep-verify x.gb ', FILES),
    ('gbkeep-png x.pgm x.png ', NOTHING),
    ('gbkeep-battery ', BATTERIES),
    ('gbkeep-battery from-g', {'from-gambatte'}),
    ('gbkeep-battery from-gambatte --mb', {'--mbc2'}),
    ('gbkeep-battery to-mgba --time 0 ', FILES),
    ('gbkeep-battery of-save --', {'--help'}),
    ('gbkeep-run-tests --sl', {'--slowest'}),
    ('gbkeep-run-tests --out ', FOLDERS),
    ('gbkeep-run-tests -j ', NOTHING),
    ('gbkeep-run-tests -j 4 x.gb y.gb z.gb ', FILES),
    ('gbkeep-debug --d', {'--do'}),
    ('gbkeep-debug -c ', NOTHING),
    ('gbkeep-debug --do help --do ', NOTHING),
    ('gbkeep-debug --save ', FILES),
    ('gbkeep-debug x.gb ', FILES),
    ('gbkeep-dap --p', {'--program'}),
]


def room(folder: Path) -> None:
    (folder / 'A Game.gb').touch()
    (folder / 'game.gbkeep').touch()
    (folder / 'A folder').mkdir()


class Terminal:
    """A shell that somebody types to."""

    def __init__(self, words: list[str], folder: Path):
        self.got, self.child = b'', 0
        child, self.terminal = pty.fork()
        if child == 0:
            os.chdir(folder)
            env = {'PATH': os.environ['PATH'], 'HOME': str(folder), 'TERM': 'dumb', 'PS1': '', 'INPUTRC': '/dev/null', 'LC_ALL': 'C.UTF-8'}
            os.execvpe(words[0], words, env)
        self.child = child

    def type(self, text: str) -> None:
        os.write(self.terminal, text.encode())

    def until(self, what: str) -> str:
        """What was shown up to this."""
        end = time.monotonic() + 30
        while what.encode() not in self.got:
            if time.monotonic() > end:
                support.wrong(f'no {what!r} in {self.got[-2000:]!r}')
            if select.select([self.terminal], [], [], 0.1)[0]:
                self.got += os.read(self.terminal, 1 << 16)
        before, self.got = self.got.split(what.encode(), 1)
        return before.decode(errors='replace')

    def close(self) -> None:
        os.close(self.terminal)
        os.waitpid(self.child, 0)


def test_made(folder: Path) -> None:
    """The files are what is made of the sources, and a change of these is seen."""
    words = [sys.executable, '-B', 'packaging/completions.py', 'check']
    expect('as they are', subprocess.run(words, cwd=TOP, capture_output=True, text=True).returncode, 0)
    for name in ('packaging', 'completions', 'python', 'crates/command_line/src/words.rt'):
        (folder / name).parent.mkdir(parents=True, exist_ok=True)
        (shutil.copytree if (TOP / name).is_dir() else shutil.copy)(TOP / name, folder / name)
    for path, old, new in (('crates/command_line/src/words.rt', 'name: "show"', 'name: "shown"'),
                           ('python/gbkeep/rest.py', '[--record RECORDING]', '[--recorded RECORDING]'),
                           ('python/gbkeep/run_tests.py', "'--slowest', action='store_true', help='says", "'--slowest', action='store_true', help='tells"),
                           ('completions/_gbkeep', 'gbkeep-film', 'gbkeep-filmed')):
        text = (folder / path).read_text()
        expect(f'{path} has it', old in text, True)
        (folder / path).write_text(text.replace(old, new, 1))
        done = subprocess.run(words, cwd=folder, capture_output=True, text=True)
        expect(f'{path} was changed', (done.returncode, 'is not as packaging/completions.py makes it' in done.stderr, done.stderr.count('\n')), (1, True, 1))
        (folder / path).write_text(text)
    # an option of a parser that the usage does not name
    path = folder / 'python/gbkeep/run_tests.py'
    path.write_text(path.read_text().replace(' [--bless]', '', 1))
    expect('an option that is left out', "the usage has no [('--bless',)]" in subprocess.run(words, cwd=folder, capture_output=True, text=True).stderr, True)


def test_all_tools(folder: Path) -> None:
    """Each shell knows each tool by its name."""
    for name, line in (('gbkeep.bash', 'complete -F _gbkeep '), ('_gbkeep', '#compdef '), ('gbkeep.fish', 'for tool in ')):
        found = re.search(rf'^{line}(.*)$', (TOP / 'completions' / name).read_text(), re.M)
        expect(name, sorted(found[1].split() if found else []), sorted(['gbkeep', *TOOLS]))
    expect('tools that were typed', {line.split()[0] for line, _ in TYPED}, {'gbkeep', *TOOLS})


def test_bash(folder: Path) -> None:
    needs('completions of bash', 'a terminal', 'bash')
    room(folder)
    for line, wanted in TYPED:
        words = line.split(' ')
        asked = f'''source {TOP}/completions/gbkeep.bash
compopt() {{ case $2 in default) COMPREPLY=('A Game.gb' game.gbkeep 'A folder/') ;; dirnames) COMPREPLY=('A folder/') ;; esac; }}
COMP_WORDS=({' '.join(f"'{word}'" for word in words)}) COMP_CWORD={len(words) - 1}; _gbkeep; printf '%s\\n' "${{COMPREPLY[@]}}"
'''
        got = subprocess.run(['bash', '-c', asked], cwd=folder, capture_output=True, text=True)
        expect(f'bash: {line!r}', ({one for one in got.stdout.splitlines() if one}, got.stderr), (wanted, ''))
    # as bash parts it
    asked = f'source {TOP}/completions/gbkeep.bash\nCOMP_WORDS=(gbkeep-window --scale = 4 --sc) COMP_CWORD=4; _gbkeep; echo "${{COMPREPLY[@]}}"'
    expect('bash: an option with =', subprocess.run(['bash', '-c', asked], capture_output=True, text=True).stdout, '--scale\n')
    terminal = Terminal(['bash', '--norc', '--noprofile', '-i'], folder)
    terminal.type(f'source {TOP}/completions/gbkeep.bash; told() {{ printf "<%s>" "$@"; echo; }}; gbkeep-window() {{ told "$@"; }}\n')
    terminal.type('gbkeep-run-tests() { told "$@"; }; echo rea""dy\n')
    terminal.until('ready')
    for typed, wanted in (('gbkeep-window A\\ G\t\n', '<A Game.gb>'), ('gbkeep-window --pal\t3 gam\t\n', '<--palette><3><game.gbkeep>'),
                          ('gbkeep-run-tests --out A\t\n', '<--out><A folder/>')):
        terminal.type(typed)
        terminal.until(wanted)
    terminal.close()


def test_fish(folder: Path) -> None:
    needs('completions of fish', 'a terminal', 'fish')
    room(folder)
    (folder / 'gbkeep.fish').write_text((TOP / 'completions/gbkeep.fish').read_text())
    # a second time, as under the name of another tool
    asked = (f"echo :{at}:; complete -C '{line}'" for at, (line, _) in enumerate(TYPED))
    script = ['source gbkeep.fish', 'source gbkeep.fish', 'rm gbkeep.fish', *asked, 'echo :end:']
    env = {'PATH': os.environ['PATH'], 'HOME': str(folder / 'home'), 'LC_ALL': 'C.UTF-8'}
    # what is looked for below HOME is not what is completed
    (folder / 'home').mkdir()
    done = subprocess.run(['fish', '-c', '\n'.join(script)], cwd=folder, env=env, capture_output=True, text=True, timeout=120)
    expect('fish says', (done.returncode, done.stderr), (0, ''))
    for at, (line, wanted) in enumerate(TYPED):
        got = done.stdout.split(f':{at}:\n')[1].split(':')[0].splitlines()
        names = [one.split('\t')[0] for one in got]
        expect(f'fish: {line!r}', sorted(names), sorted(wanted | ({'home/'} if wanted & FOLDERS else set())))
    said = done.stdout.split(f':{[line for line, _ in TYPED].index("gbkeep help sh")}:\n')[1]
    expect('fish: what a command does', said.startswith('show\tPrints what a game\'s file holds'), True)


def test_zsh(folder: Path) -> None:
    needs('completions of zsh', 'a terminal', 'zsh')
    files = folder / 'files'
    files.mkdir()
    room(files)
    hits = folder / 'hits'
    (folder / 'begin').write_text(f'''unsetopt prompt_cr prompt_sp; fpath=({TOP}/completions $fpath)
autoload -Uz compinit; compinit -u -D
compadd() {{
    local -a hits
    local asks='-[OAD]'
    # what asks which words would match offers none
    if ! (( ${{@[(I)$asks]}} )); then
        builtin compadd -A hits "$@"
        (( $#hits )) && print -rl -- ${{(Q)hits}} >> {hits}
    fi
    builtin compadd "$@"
}}
completed() {{ zle expand-or-complete; print -r -- END >> {hits} }}
zle -N completed; bindkey '^I' completed
print rea''dy
''')
    terminal = Terminal(['zsh', '-f', '-i'], files)
    terminal.type(f'source {folder}/begin\n')
    terminal.until('ready')
    for at, (line, wanted) in enumerate(TYPED):
        hits.write_text('')
        terminal.type(f'{line}\t')
        support.until(f'zsh: {line!r} is completed', lambda: hits.read_text().endswith('END\n'), 30)
        got = set(hits.read_text().splitlines()[:-1])
        if not line.split(' ')[-1].startswith('-'):
            # where it has nothing else zsh offers options
            got = {one for one in got if not one.startswith('-')}
        expect(f'zsh: {line!r}', got, {one.rstrip('/') for one in wanted})
        # the line is taken away
        terminal.type(f'\x15print do""ne{at}\n')
        terminal.until(f'done{at}')
    terminal.close()


def test_places(folder: Path) -> None:
    """Each shell finds them where they are installed, by the name of a tool."""
    for file in installed.files(None):
        source = {'_gbkeep': '_gbkeep', 'gbkeep': 'gbkeep.bash', 'gbkeep.fish': 'gbkeep.fish'}.get(Path(file.path).name)
        if '/completions/' in file.path or '/vendor_completions.d/' in file.path or '/site-functions/' in file.path:
            installed.put(file if file.link else replace(file, data=(TOP / 'completions' / source).read_bytes()), folder)
        elif file.path.startswith('bin/'):
            installed.put(installed.File('', file.path, b'#!/bin/sh\n', True), folder)
    env = {'PATH': f'{folder}/bin:{os.environ["PATH"]}', 'XDG_DATA_DIRS': f'{folder}/share:/usr/share', 'HOME': str(folder), 'LC_ALL': 'C.UTF-8'}
    shells = {'fish': 'fish', 'zsh': 'zsh', 'bash': 'bash-completion'}
    for tool, typed, wanted in (('gbkeep', 'verif', 'verify'), ('gbkeep-window', '--sc', '--scale'), ('gbkeep-run-tests', '--sl', '--slowest')):
        looks = f'fpath=({folder}/share/zsh/site-functions $fpath); autoload -Uz compinit; compinit -u -D; [[ $_comps[{tool}] == _gbkeep ]]'
        loads = f'source {BASH_COMPLETION}; _completion_loader {tool}; COMP_WORDS=({tool} {typed}) COMP_CWORD=1; _gbkeep; echo ${{COMPREPLY[@]}}'
        for shell, script in (('fish', f"complete -C '{tool} {typed}' | string replace -r '\\t.*' ''"), ('zsh', f'{looks} && echo {wanted}'), ('bash', loads)):
            if not is_there(shells[shell]):
                continue
            got = subprocess.run([shell, '-c', script], cwd=folder, env=env, capture_output=True, text=True, timeout=120)
            expect(f'{shell}: {tool} {typed}', (got.stdout, got.stderr), (f'{wanted}\n', ''))
    needs('where completions are installed', 'fish', 'zsh', 'bash-completion')


if __name__ == '__main__':
    os.chdir(TOP)
    support.run_tests('completions', support.tests_in(globals()), lambda folder: (Path(folder),), sys.argv[1:])
