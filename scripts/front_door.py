"""Compares whole tables: what the sources say that the program has, and what README, COMMANDS, completion, `make help`, the package of
Python and its tools say of it. Then it deletes each row of each table, in turn and on a copy, and wants each deletion to be seen.

usage: front_door.py             at the top of the repository
       front_door.py GBKEEP      this too: runs each command block as it stands, in a copy of the clone, and compares what it prints;
                                 compares the program's helps; installs it all below a folder; completes a name with a space in a shell"""
import definitions, functools, hashlib, json, os, pty, re, select, shutil, subprocess, sys, tempfile, time, urllib.request
from pathlib import Path

from scripts.doctor import tries

COMMANDS, LINES = 'crates/command_line/specs/Commands.antt', 'crates/script/specs/Line.antt'
README, MANUAL, COMPLETION, MAKE = 'README.md', 'docs/COMMANDS.md', 'completions/gbkeep.bash', 'Makefile'
PLAYERS, TESTERS = 'docs/PLAYING.md', 'docs/TESTING_ROMS.md'
ORDERS, STREAM_ORDERS, PROMPT = 'crates/debugging/specs/Orders.antt', 'crates/streaming/specs/Orders.antt', 'python/gbkeep/debug.py'
LOOKS = 'crates/machine_lines/specs/Looks.antt'
# lines that are no lines of the prompt: bytes for a program, and a time of which the prompt, which goes back, knows more
RAW = {'bytes', 'position', 'shades'}
WORDS, ARCHITECTURE = 'crates/command_line/src/words.rt', 'docs/ARCHITECTURE.md'
# the library, where it is built
BUILT = [Path('bin', name) for name in ('libgbkeep.so', 'libgbkeep.a', 'gbkeep.h', 'gbkeep.pc')]


# ---- what the sources have

def commands_of(texts):
    """Each command with its operands and the ranges of its numbers."""
    found = {}
    for name, made in re.findall(r'usage \(codes "([\w-]+)"\) \((.*) ∷ \[\]\)', texts[COMMANDS]):
        operands, ranges = [], []
        for one in made.split(' ∷ '):
            shown = one.replace('cart_operand', '"CART"').replace('save_operand', '"SAVE"')
            operand = re.search(r'"(\w+)"', shown)[1]
            operands.append(f'[{operand}]' if 'optional' in one else operand)
            ranges += [f'{int(least):,} to {int(most):,}' for least, most in re.findall(r'\) (\d+) (\d+)', one)]
        found[name] = (tuple(operands), tuple(ranges))
    return found


def lines_of(texts):
    """The names of a script's lines."""
    return set(re.findall(r'name \(codes "(\w+)"\)', texts[LINES]))


def named_in(*texts):
    """The names of the lines that definitions read."""
    return {name for text in texts for name in re.findall(r'name \(codes "([\w-]+)"\)', text)}


def orders_of(texts):
    """The names of a debugger's lines."""
    return named_in(texts[ORDERS], texts[LOOKS]) | lines_of(texts) - {'save'}


def stream_lines_of(texts):
    """The names of a stream's own lines."""
    return named_in(texts[STREAM_ORDERS], texts[LOOKS])


# ---- what the documents have

def rows(text, heading):
    """The rows of the table below a head, each as its line and its cells."""
    head = re.search(r'^\| %s.*\n\|[-|]+\|\n((?:\|.*\n)+)' % re.escape(heading), text, re.M)
    return [(line, [cell.strip() for cell in line.strip('|').split(' | ')]) for line in head[1].splitlines()] if head else []


def code(cell):
    return re.findall(r'`([^`]+)`', cell)


@functools.lru_cache(None)
def completed(script, *words):
    """What the completion answers for the last of these words."""
    asked = '%s\nCOMP_WORDS=(%s) COMP_CWORD=%d; _gbkeep; printf "%%s\\n" "${COMPREPLY[@]}"' % (script, ' '.join(map(repr, words)), len(words) - 1)
    return tuple(sorted(subprocess.run(['bash', '-c', asked], capture_output=True, text=True).stdout.split()))


def helps(texts):
    """The targets that `make help` lists."""
    return re.findall(r"^\t@echo '  make ([\w-]+)", texts[MAKE], re.M)


def helps_of(texts):
    """The commands whose help has lines: the name of its text, and these lines."""
    return {'play': ('SCRIPT_LINES', lines_of(texts)), 'stream': ('STREAM_LINES', lines_of(texts) | stream_lines_of(texts)), 'debug': ('DEBUG_LINES', orders_of(texts))}


# ---- the comparison

def compared(place, what, got, wanted):
    """What is missing, too much or twice."""
    got, wanted = list(got), set(wanted)
    wrong = [f'{place} lacks the {what} {one!r}' for one in sorted(wanted - set(got), key=str)]
    wrong += [f'{place} has the {what} {one!r}, which is not there' for one in sorted(set(got) - wanted, key=str)]
    return wrong + [f'{place} has the {what} {one!r} twice' for one in sorted(set(got), key=str) if got.count(one) > 1]


def differences(texts):
    commands, wrong = commands_of(texts), []
    heads = {' '.join([name, *operands]) for name, (operands, _) in commands.items()}
    wrong += compared(MANUAL, 'command', [code(cells[0])[0] for _, cells in rows(texts[MANUAL], 'Command')], heads)
    wrong += [f'{MANUAL} does not say {span!r} of {cells[0]}' for _, cells in rows(texts[MANUAL], 'Command')
              for span in commands.get(code(cells[0])[0].split()[0], ((), ()))[1] if f'({span}' not in cells[1]]
    wrong += compared(MANUAL, 'line of a script', [code(one)[0].split()[0] for _, cells in rows(texts[MANUAL], 'Line | Means') for one in cells[:1]], lines_of(texts))
    wrong += compared(MANUAL, 'line of a stream', [one.split()[0] for _, cells in rows(texts[MANUAL], 'Line | Answer') for one in code(cells[0])],
                      lines_of(texts) | stream_lines_of(texts))
    wrong += compared(MANUAL, 'line of a debugger', [one.split()[0] for _, cells in rows(texts[MANUAL], 'Line | Does') for one in code(cells[0])], orders_of(texts))
    prompt = re.search(r"^HELP = '''(.*?)'''", texts[PROMPT], re.S | re.M)
    wrong += compared(PROMPT, 'line of its help', re.findall(r'^  ([a-z-]+) ', prompt[1] if prompt else '', re.M), orders_of(texts) - RAW)
    wrong += compared(README, 'command', [one for _, cells in rows(texts[README], 'Command') for one in code(cells[0])], heads)
    words = {*commands, 'help', '--help', '--version'}
    wrong += compared(COMPLETION, 'first word', completed(texts[COMPLETION], 'gbkeep', ''), words)
    wrong += compared(COMPLETION, 'word after help', completed(texts[COMPLETION], 'gbkeep', 'help', ''), commands)
    wrong += compared(MAKE, 'target in its help', helps(texts), set(' '.join(re.findall(r'^(?:TARGETS|FREE) := (.*)$', texts[MAKE], re.M)).split()) - {'help'})
    for place, (start, lines) in helps_of(texts).items():
        help_text = re.search(r'const %s: &str = "(.*?)";' % start, texts[WORDS], re.S)
        wrong += compared(f'help of {place}', 'line', re.findall(r'^  ([\w-]+)', help_text[1] if help_text else '', re.M), lines)
    wrong += walks(texts[ARCHITECTURE])
    if len(texts[README].splitlines()) >= 100:
        wrong.append(f'{README} has 100 lines or more')
    return wrong


@functools.lru_cache(None)
def counted():
    """How many files of definitions the main theorem needs, and how many with what the lines of a round ask for."""
    known = definitions.files()
    cited = definitions.cited(*definitions.HEADLINE)
    orders = definitions.closure(cited, known), definitions.closure([*cited, definitions.LINES], known)
    lines = [sum(len(known[module].read_text().splitlines()) for module in order) for order in orders]
    return f'{len(orders[0])} of {len(known)} files of definitions, {lines[0]:,} lines', f'{len(orders[1])} files, {lines[1]:,} lines'


@functools.lru_cache(None)
def source(path):
    path = Path('crates', path)
    return path.read_text() if path.exists() else ''


def walks(text):
    """What ARCHITECTURE says of functions and definitions that is not so."""
    wrong = [f'{ARCHITECTURE} does not count {count}' for count in counted() if count not in ' '.join(text.split())]
    steps = [cells for function in re.findall(r'^\| Function .*\n\|[-|]+\|\n((?:\|.*\n)+)', text, re.M) for cells in
             (line.strip('|').split(' | ') for line in function.splitlines())]
    wrong += [f'{ARCHITECTURE}: no function {name} in {path}' for names, file, _ in steps for name in code(names) for path in code(file)
              if not re.search(r'\bfn %s\b' % name, source(path))]
    named = re.findall(r'`(\w+/specs/\w+\.antt)`', text)
    wrong += [f'{ARCHITECTURE}: no {path}' for path in named if not Path('crates', path).exists()]
    return wrong + ([] if len(steps) > 20 else [f'{ARCHITECTURE} has no walks'])


def deletions(texts):
    """Each row of each table, as (path, what to delete, what is left there)."""
    for path in (README, MANUAL):
        for heading in ('Command', 'Line | Means', 'Line | Answer', 'Line | Does'):
            for line, _ in rows(texts[path], heading):
                yield path, line + '\n', ''
    for name in commands_of(texts):
        yield COMPLETION, f'{name} ' if f'{name} ' in texts[COMPLETION] else name, ''
        yield COMMANDS, re.search(r'usage \(codes "%s"\).*\n' % name, texts[COMMANDS])[0], ''
    for line in re.findall(r"^\t@echo '  make .*\n", texts[MAKE], re.M):
        yield MAKE, line, ''
    names = '|'.join(sorted(orders_of(texts) | {'save'}))
    for line in re.findall(rf'^  (?:{names}) .*$', texts[WORDS], re.M):
        yield WORDS, line, ''
    for line in re.findall(rf'^  (?:{names}) .*\n', texts[PROMPT], re.M):
        yield PROMPT, line, ''
    for path in (ORDERS, STREAM_ORDERS, LOOKS):
        for name in named_in(texts[path]) - lines_of(texts):
            yield path, f'name (codes "{name}")', 'name (codes "")'
    for line in re.findall(r'^\| `\w+`.*\| `\S+\.rt` \|.*$', texts[ARCHITECTURE], re.M):
        yield ARCHITECTURE, line, re.sub(r'^\| `(\w+)`', r'| `\1x`', line)


# ---- what the program does

def blocks(text):
    """The command blocks of a page: each a list of commands with the lines that they print."""
    for block in re.findall(r'^```sh\n(.*?)^```', text, re.S | re.M):
        commands = []
        for line in block.splitlines():
            if line.startswith('#'):
                commands[-1][1].append(line[2:])
            else:
                commands.append((line, []))
        yield commands


def shell(room, line, path=''):
    """Runs a line as a person would: without the PYTHONPATH of the gate, and with the Python that runs this."""
    env = {name: value for name, value in os.environ.items() if name != 'PYTHONPATH'}
    env['PATH'] = f'{path}{room}/path:{env["PATH"]}'
    done = subprocess.run(['bash', '-c', line], cwd=room, env=env, stdout=subprocess.PIPE, stderr=subprocess.STDOUT, text=True, timeout=300)
    return done.returncode, done.stdout


def served(room, line):
    """What is wrong with a line that serves a folder: at another port, it gives each file of the page's list as the list has it."""
    env = {name: value for name, value in os.environ.items() if name != 'PYTHONPATH'} | {'PYTHONUNBUFFERED': '1'}
    words = line.split()[:-1] + ['0']
    server = subprocess.Popen([sys.executable, *words[1:]], cwd=room, env=env, stdout=subprocess.PIPE, stderr=subprocess.DEVNULL, text=True)
    try:
        said = server.stdout.readline()
        port = re.search(r'port (\d+)', said)
        if not port:
            return [f'{line}: {said}']
        files = json.loads(re.search(r'^const FILES = (.*);$', Path(room, 'web/page/files.js').read_text(), re.M)[1])
        found = {name: hashlib.sha256(urllib.request.urlopen(f'http://127.0.0.1:{port[1]}/{name}', timeout=60).read()).hexdigest() for name in files}
        return [f'{line}: {name} is not as it is listed' for name in files if found[name] != files[name]]
    finally:
        server.kill()
        server.communicate()


def clone(room, program):
    """What of the clone the blocks need, with this program at bin/gbkeep."""
    for path in ('README.md', 'Makefile', 'crates.txt', 'examples', 'players', 'python', 'library', 'docs', 'editors', 'completions', 'packaging', 'scripts', 'web'):
        copy = shutil.copytree if os.path.isdir(path) else shutil.copy
        copy(path, os.path.join(room, path))
    os.makedirs(os.path.join(room, 'bin'))
    os.makedirs(os.path.join(room, 'path'))
    os.symlink(sys.executable, os.path.join(room, 'path/python3'))
    os.makedirs(os.path.join(room, 'crates/command_line/src'))
    shutil.copy(WORDS, os.path.join(room, WORDS))
    shutil.copy(program, os.path.join(room, 'bin/gbkeep'))
    for path in [Path(room, 'bin/gbkeep'), *(Path(shutil.copy(one, os.path.join(room, 'bin'))) for one in BUILT if one.exists())]:
        os.utime(path)


def run_blocks(program, texts):
    wrong, count = [], 0
    for page in (README, MANUAL, PLAYERS, TESTERS):
        for block in blocks(texts[page]):
            with tempfile.TemporaryDirectory(prefix='front-') as room:
                clone(room, program)
                for line, wanted in block:
                    count += 1
                    if line.startswith('python3 -m http.server '):
                        wrong += [f'{page}: {one}' for one in served(room, line.partition('#')[0])]
                    elif line.startswith('make ') and not line.startswith('make demo'):
                        status, got = shell(room, f'make -n {line[5:]}')
                        wrong += [f'{page}: {line}: {got}'] if status != 0 else []
                    else:
                        got = shell(room, line)[1]
                        if not line.startswith('make ') and [one.rstrip() for one in got.splitlines()] != wanted:
                            wrong.append(f'{page}: {line}\nprints\n{got}and not\n' + '\n'.join(wanted))
    with tempfile.TemporaryDirectory(prefix='front-') as room:
        clone(room, program)
        wrong += installed(room)
        wrong += completes_names(room, texts)
    return wrong, count


def run_helps(program, texts):
    """The program's helps against the tables."""
    wrong, commands = [], commands_of(texts)

    def said(*words):
        return subprocess.run([program, *words], capture_output=True, text=True).stdout
    listed = re.findall(r'^  ([\w-]+) ', re.search(r'Commands:\n(.*?)\n\n', said('--help'), re.S)[1], re.M)
    wrong += compared('gbkeep --help', 'command', listed, {*commands, 'help'})
    for name, (operands, _) in commands.items():
        usage = re.search(r'^Usage: gbkeep (.*)$', said(name, '--help'), re.M)[1]
        if usage.replace('<', '').replace('>', '') != ' '.join([name, *operands]):
            wrong.append(f'gbkeep {name} --help has the usage {usage!r}')
    for name, (_, lines) in helps_of(texts).items():
        for words in ((name, '--help'), ('help', name)):
            text = said(*words)
            wrong += [f'gbkeep {" ".join(words)} does not show the line {line!r}' for line in sorted(lines) if not re.search(rf'^  {line} ', text, re.M)]
    return wrong


def installed(room):
    """`make install`, and each tool that it installs."""
    status, got = shell(room, 'make install PREFIX=inst' + ('' if BUILT[0].exists() else ' CC=none'))
    wrong = [f'make install: {got}'] if status != 0 else []
    for path in ('bin/gbkeep', 'bin/gbkeep-window', 'bin/gbkeep-script', 'bin/gbkeep-rest', 'bin/gbkeep-movie', 'bin/gbkeep-film', 'bin/gbkeep-branch', 'bin/gbkeep-verify', 'bin/gbkeep-battery',
                 'bin/gbkeep-run-tests', 'bin/gbkeep-debug', 'bin/gbkeep-dap', 'share/man/man1/gbkeep.1', 'share/man/man1/gbkeep-window.1', 'share/applications/gbkeep.desktop',
                 'share/bash-completion/completions/gbkeep', 'share/gbkeep/gbkeep/__init__.py'):
        if not os.path.exists(os.path.join(room, 'inst', path)):
            wrong.append(f'make install leaves no {path}')
    played = shell(room, "printf 'A 3\\n' > few.txt; inst/bin/gbkeep-script play examples/demo/demo.gb few.gbkeep few.txt; inst/bin/gbkeep-rest examples/demo/demo.gb few.gbkeep few.txt")
    if played != (0, 'resumed 0\nsaved 3\nresumed 3\n'):
        wrong.append(f'the installed tools print {played}')
    # the folder of the package and the tools works alone
    tested = shell(room, 'cp -r inst/share/gbkeep alone; GBKEEP=bin/gbkeep python3 alone/gbkeep-run-tests examples/test_roms/passes.gb; inst/bin/gbkeep-run-tests examples/test_roms/all.txt | tail -1; '
                   "inst/bin/gbkeep-debug --do 'list start 1' examples/demo/demo.gb")
    if tested != (0, 'ok   examples/test_roms/passes.gb: passed, pass wanted\n1 as wanted, 0 failed\n3 as wanted, 0 failed\nstart:\n0150 F3     DI\n'):
        wrong.append(f"the testers' tools print {tested}")
    return wrong


def completes_names(room, texts):
    """Types the beginning of a name with a space and Tab in a shell."""
    if not tries('a name that a shell completes', 'a terminal'):
        return []
    shutil.copy('examples/demo/demo.gb', os.path.join(room, 'A Game.gb'))
    child, terminal = pty.fork()
    if child == 0:
        os.chdir(room)
        os.execvpe('bash', ['bash', '--norc', '--noprofile', '-i'], dict(os.environ, PS1='', TERM='dumb', INPUTRC='/dev/null'))
    got = b''
    os.write(terminal, b'source completions/gbkeep.bash; gbkeep() { printf "<%s>" "$@"; echo; }; echo rea""dy\n')
    typed, until = False, time.monotonic() + 20
    while time.monotonic() < until and b'<info><A Game.gb>' not in got:
        if not typed and b'ready' in got:
            typed = True
            os.write(terminal, b'gbkeep info A\t')
            time.sleep(0.5)
            os.write(terminal, b'\n')
        if select.select([terminal], [], [], 0.1)[0]:
            got += os.read(terminal, 4096)
    os.write(terminal, b'exit\n')
    os.close(terminal)
    os.waitpid(child, 0)
    return [] if b'<info><A Game.gb>' in got else [f'a name with a space is not completed: {got!r}']


def main():
    texts = {path: Path(path).read_text() for path in [README, MANUAL, PLAYERS, TESTERS, COMPLETION, MAKE, COMMANDS, LINES, ORDERS, STREAM_ORDERS, LOOKS, PROMPT, WORDS, ARCHITECTURE]}
    wrong, seen = differences(texts), 0
    for path, piece, left in deletions(texts) if not wrong else []:
        seen += 1
        if not differences({**texts, path: texts[path].replace(piece, left, 1)}):
            wrong.append(f'{path}: nobody sees that {piece.strip()!r} is gone')
    done = f'{len(commands_of(texts))} commands, {seen} deletions seen'
    if len(sys.argv) > 1 and not wrong:
        program = os.path.abspath(sys.argv[1])
        wrong, count = run_blocks(program, texts)
        wrong += run_helps(program, texts)
        done += f', {count} commands of the pages run'
    print('\n'.join(wrong) if wrong else f'front door: {done}')
    return 1 if wrong else 0


if __name__ == '__main__':
    sys.exit(main())
