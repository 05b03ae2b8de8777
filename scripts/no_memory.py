"""Looks that no call gives up for want of memory that nobody refused it.

std's `AllocError` is a value that anybody can make, so no clause can say that `no memory` is answered only where memory was refused. This looks at the
text instead. Each value that stands for it (`AllocError`, a variant `Memory` or `NoMemory`, the code `NO_MEMORY`, an `Ok(false)` of `FALSE`) stands

- in the arm of a `match`, the `else` of a `let`, or the block of an `if`, that takes the refusal of a call which is refused for want of memory alone: one of
  std's (`STANDARD`), one of ours that answers `AllocError`, or one of `ALONE`, whose own refusals are looked at in the same way;
- or in one that takes such a value of another call, or an `io::Error` of the kind `OutOfMemory`.

usage: no_memory.py           at the top of the repository: looks at all sources but those of tests
       no_memory.py --try     puts a body that gives up into each function of `TRIED`, and wants each to be found"""
import re
import sys
from pathlib import Path

VALUES = {'AllocError', 'Memory', 'NoMemory', 'NO_MEMORY'}
TESTS = {'saves_tests', 'machine_tests', 'bench', 'refused_memory', 'failed_syncs'}
TOKEN = re.compile(r'//[^\n]*|b?"(?:\\.|[^"\\])*"|b?\'(?:\\.|[^\'\\])\'|\'[a-z_]+\b|[A-Za-z_]\w*!?|\d[\w.]*|::|=>|->|[=!<>]=|&&|\|\||\.\.=?|\S', re.S)
# calls of std that are refused for want of memory alone
STANDARD = {'Vec::with_capacity', 'HeapCircularBuffer::with_capacity', 'Box::new', 'vec!', 'format!', '.to_vec', '.collect', '.extend_from_slice'}
# calls of ours whose type doesn't say that they are: these bodies are looked at
ALONE = {
    'Debugger::new': 'debugger/src/debugger.rt',
    'copy_of': 'commands/src/copy.rt',
    'debugger_of': 'commands/src/trace.rt',
    'push': 'embedding/src/host_device.rt',
    'HostDevice::note_write': 'embedding/src/host_device.rt',
    'HostDevice::note_sync': 'embedding/src/host_device.rt',
}
# calls that answer `Ok(false)` where there was no memory, and in these files for nothing else
FALSE = {'power', 'give_power', 'make_move', 'make_moves', 'play_on', 'obey_move', 'obey_keep'}
# a call in a file that has other refusals, of which a clause or a condition says that they don't come there
PROVED = {
    ('commands/src/copy.rt', 'decode'): 'the bytes are the snapshot of a machine of the cartridge',
    ('gbkeep/src/batteries.rt', 'machine_with_battery'): 'the battery file is one that the cartridge takes',
    ('embedding/src/host_device.rt', 'push_back'): 'onto a queue, which is refused for want of memory alone',
    ('c_interface/src/machine_exports.rt', 'power'): 'a console has no count of inputs that might be full',
}
# a game that takes no states answers `false` to the power switch, which no line of `record` asks for
STATELESS = 'recorded_play/src/recorded_game.rt'
# the calls that a body which gives up is put into
TRIED = {
    'play': 'playing/src/played.rt', 'stream': 'streaming/src/streamed.rt', 'record': 'recorded_play/src/recorded.rt', 'run_test': 'test_run/src/run.rt',
    'debug_rom': 'commands/src/debug.rt', 'debug_game': 'commands/src/debug.rt', 'show_lines': 'commands/src/show.rt',
    'resume': 'session/src/resuming.rt', 'read_script': 'script/src/lines.rt', 'power_on': 'machine/src/machine.rt', 'make_moves': 'playing/src/moves.rt',
    'obey': 'debugging/src/obeying.rt', 'gbkeep_raw_machine_new': 'c_interface/src/machine_exports.rt',
}
ANSWERS = {'power_on': 'Err(AllocError)', 'make_moves': 'Ok(false)', 'gbkeep_raw_machine_new': 'NO_MEMORY'}


def tokens(text):
    """The tokens of a source and their lines, without comments, clauses and what is ghost."""
    found = [(one.group(), text.count('\n', 0, one.start()) + 1) for one in TOKEN.finditer(text) if not one.group().startswith('//')]
    kept, at = [], 0
    while at < len(found):
        word = found[at][0]
        if word in ('ensures', 'requires', 'ghost'):
            at = behind(found, at, word == 'ghost')
        else:
            kept.append(found[at])
            at += 1
    return kept


def behind(found, at, is_ghost):
    """The place behind a clause, or behind something ghost, which may end in a comma or a semicolon."""
    deep = 0
    while True:
        at += 1
        word = found[at][0]
        deep += (word == '{') - (word == '}')
        if deep < 0:
            return at
        if deep == 0 and (word == '}' and (not is_ghost or found[at + 1][0] not in ',;') or is_ghost and word in ',;'):
            return at + 1


class Source:
    def __init__(self, path, text):
        self.path, self.crate, rows = path, path.split('/')[0], tokens(text)
        self.words, self.lines = [word for word, _ in rows], [line for _, line in rows]
        self.partner, self.outer, opened = {}, [], []
        for at, word in enumerate(self.words):
            if word in (')', ']', '}'):
                self.partner[at] = opened.pop()
                self.partner[self.partner[at]] = at
            self.outer.append(opened[-1] if opened else None)
            if word in ('(', '[', '{'):
                opened.append(at)

    def back(self, at, ends):
        """The words from behind the last of these ends, on the level of `at`, up to it."""
        first = at
        while first > 0:
            word = self.words[first - 1]
            if word in (')', ']', '}') and '}' not in ends or word in (')', ']'):
                first = self.partner[first - 1]
            elif word in ends or word in ('(', '[', '{'):
                break
            else:
                first -= 1
        return self.words[first:at]

    def functions(self):
        """Each function with a body: its name behind that of its type, what it answers, and its body's braces."""
        of_type = {}
        for at, word in enumerate(self.words):
            if word == 'impl' and self.outer[at] is None:
                brace = self.words.index('{', at)
                head = self.words[at:brace]
                name = head[head.index('for') + 1] if 'for' in head else next(one for one in unangled(head[1:]))
                of_type[brace] = name
            if word == 'fn':
                end = at
                while self.words[end] not in ('{', ';'):
                    end = self.partner[end] + 1 if self.words[end] in ('(', '[') else end + 1
                answers = self.words[at:end]
                answers = answers[answers.index('->'):] if '->' in answers else []
                name = self.words[at + 1]
                yield (f'{of_type[self.outer[at]]}::{name}' if self.outer[at] in of_type else name), answers, end


def unangled(words):
    """The words that stand in no pair of angle brackets."""
    deep = 0
    for word in words:
        deep += (word == '<') - (word == '>')
        if deep == 0 and word != '>':
            yield word


def callee(words):
    """The call that a piece of text is: the last name of it that is called, behind that of its type or a dot."""
    deep, name = 0, None
    for at, word in enumerate(words):
        if deep == 0 and at + 1 < len(words) and re.match(r'[A-Za-z_]', word) and (words[at + 1] == '(' or word.endswith('!')):
            before = words[at - 1] if at else ''
            name = f'{words[at - 2]}::{word}' if before == '::' and words[at - 2][:1].isupper() else '.' + word if before == '.' else word
        deep += (word in ('(', '[')) - (word in (')', ']'))
    return name


class Looking:
    def __init__(self, sources):
        self.known = {}
        for source in sources:
            for name, answers, _ in source.functions():
                is_refused = 'AllocError' in answers or 'AllocFailed' in answers or ALONE.get(name) == source.path
                for told in {name, '.' + name.split('::')[-1]} if '::' in name else {name}:
                    self.known.setdefault(told, []).append((source.crate, is_refused))

    def is_refused(self, source, words):
        """Whether a call is refused for want of memory alone: all of this name are, those of this crate if it has some."""
        name = callee(words)
        if name is None:
            return False
        if name in STANDARD or (source.path, name.strip('.')) in PROVED:
            return True
        found = self.known.get(name, [])
        found = [one for one in found if one[0] == source.crate] or found
        return bool(found) and all(is_refused for _, is_refused in found)

    def is_taken(self, source, pattern, call):
        """Whether a pattern takes nothing but want of memory, of the value that is looked at."""
        if '|' in pattern:
            return False
        if 'OutOfMemory' in pattern or stands_for_memory(pattern):
            return True
        if pattern == ['Ok', '(', 'false', ')']:
            return re.split('::|[.]', callee(call) or '')[-1] in FALSE
        return pattern[:2] == ['Err', '('] and len(pattern) == 4 and self.is_refused(source, call)

    def is_due(self, source, at):
        """Whether memory was refused where this word stands."""
        words = source.words
        while (block := source.outer[at]) is not None:
            if words[block] == '{':
                arm = source.back(at, (',', '}', '{')) if '=>' in source.back(at, (',', '{')) else []
                if '=>' in arm:
                    call = source.back(block, (';', '{', '}', '=>', '=', ','))
                    if 'match' in call and self.is_taken(source, arm[:arm.index('=>')], call[call.index('match') + 1:]):
                        return True
                head = source.back(block, (';', '{', '}'))
                if head[-1:] == ['else'] and 'let' in head:
                    head = head[head.index('let') + 1:-1]
                    pattern, call = head[:head.index('=')], head[head.index('=') + 1:]
                    if pattern[0] in ('Ok', 'Some', '(') and all(self.is_refused(source, one) for one in parts(call)):
                        return True
                elif 'if' in head:
                    head = head[head.index('if') + 1:]
                    if self.is_refusal(source, head):
                        return True
                elif 'fn' in head:
                    return False
            elif words[block] == '(' and words[block - 1] == 'map_err' and self.is_refused(source, source.back(block - 2, (';', '{', '}', '=>', '='))):
                return True
            at = block
        return False

    def is_refusal(self, source, head):
        """Whether the condition of an `if` is that a call was refused memory."""
        if 'OutOfMemory' in head and '==' in head:
            return True
        if head[:1] == ['let']:
            pattern, call = head[1:head.index('=')], head[head.index('=') + 1:]
            return self.is_taken(source, pattern, call)
        if head[:1] == ['!']:
            return self.is_refused(source, head[1:])
        return head[-4:] == ['.', 'is_err', '(', ')'] and self.is_refused(source, head[:-4])

    def wrong(self, source):
        """The lines of what stands where no memory was refused."""
        for at, word in enumerate(source.words):
            if is_value(source, at) and not self.is_due(source, at):
                yield f'crates/{source.path}:{source.lines[at]}: {word} where no call was refused memory'
        for name, _, brace in source.functions():
            if source.words[brace] == '{' and name.split('::')[-1] in FALSE and source.path != STATELESS:
                yield from self.wrong_ends(source, brace, ['Ok', '(', 'false', ')'])
            if ALONE.get(name) == source.path:
                for end in (['Err', '('], ['None'], ['false']):
                    yield from self.wrong_ends(source, brace, end)

    def wrong_ends(self, source, brace, end):
        """Of a body: ends of this form that are no refusal of memory, and refusals that are handed on and may be others."""
        words = source.words
        for at in range(brace, source.partner[brace]):
            if words[at:at + len(end)] == end and not is_pattern(source, at) and not self.is_due(source, at):
                yield f'crates/{source.path}:{source.lines[at]}: {" ".join(end)} where no call was refused memory'
            if words[at] in ('ok', 'is_ok') and words[at - 1] == '.' and not self.is_refused(source, source.back(at - 1, (';', '{', '}', '=>', '='))):
                yield f'crates/{source.path}:{source.lines[at]}: a refusal that may be another than of memory'


def parts(call):
    """The calls of a tuple of them, or the one call."""
    if call[:1] != ['(']:
        return [call]
    found, deep, start = [], 0, 1
    for at, word in enumerate(call):
        deep += (word in ('(', '[')) - (word in (')', ']'))
        if deep == 1 and word == ',' or deep == 0:
            found.append(call[start:at])
            start = at + 1
    return found


def stands_for_memory(words):
    return any(word in ('AllocError', 'NoMemory', 'NO_MEMORY') or word == 'Memory' and words[at + 1:at + 2] not in (['('], ['{']) for at, word in enumerate(words))


def is_pattern(source, at):
    """Whether a word stands in the pattern of an arm."""
    words = source.words
    while True:
        end = at
        while end < len(words) and words[end] not in ('=>', ',', ';', '{', '}', ')', ']'):
            end = source.partner[end] + 1 if words[end] in ('(', '[') else end + 1
        if end < len(words) and words[end] == '=>':
            return True
        if source.outer[at] is None or words[source.outer[at]] != '(':
            return False
        at = source.outer[at]


def is_value(source, at):
    """Whether a word is a value that stands for want of memory."""
    words = source.words
    if words[at] not in VALUES or not stands_for_memory(words[at:at + 2]) or words[at - 1] == 'const':
        return False
    if words[at] in ('Memory', 'NoMemory') and words[at - 1] != '::' or is_pattern(source, at):
        return False
    statement = source.back(at, (';', '{', '}'))
    outside = source.outer[at]
    if 'use' in statement or outside is not None and words[outside] == '{' and 'use' in source.back(outside, (';', '}')):
        return False
    return words[at] != 'AllocError' or words[at + 1] == ')' and words[at - 1] == '(' or words[at - 1] in ('=>', 'return', '{', ';')


def sources():
    paths = [path for path in sorted(Path('crates').glob('*/src/**/*.rt')) if path.parts[1] not in TESTS]
    return {'/'.join(path.parts[1:]): path.read_text() for path in paths}


def tried(looking, texts):
    """Puts a body that gives up before all else into each function of `TRIED`, and answers those that are not found."""
    for name, path in TRIED.items():
        text, answer = texts[path], ANSWERS.get(name, 'Err(SessionError::Memory)')
        head = re.search(rf'\bfn {name}\b.*?\n *\{{\n', text, re.S)
        changed = f'{text[:head.end()]}if 1 + 1 == 2 {{ return {answer}; }}{text[head.end():]}'
        if not list(looking.wrong(Source(path, changed))):
            yield f'crates/{path}: a body of {name} that gives up is not found'


def main():
    if sys.argv[1:] not in ([], ['--try']):
        sys.exit(__doc__)
    texts = sources()
    read = [Source(path, text) for path, text in texts.items()]
    looking = Looking(read)
    wrong = list(tried(looking, texts)) if sys.argv[1:] else [line for source in read for line in looking.wrong(source)]
    for line in wrong:
        print(line)
    if not wrong:
        values = sum(is_value(source, at) for source in read for at in range(len(source.words)))
        print(f'{len(TRIED)} bodies that give up are found' if sys.argv[1:] else f'{values} answers of no memory, each where a call was refused it')
    sys.exit(bool(wrong))


if __name__ == '__main__':
    main()
