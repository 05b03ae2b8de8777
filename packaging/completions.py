#!/usr/bin/env python3
"""Completions of the program and of its tools for bash, zsh and fish: one source, the words that the program and the tools say of themselves.

usage: completions.py           at the top of the clone: writes the folder completions
       completions.py check     compares it: the status is 1 where a file is another one

A command's words stand in crates/command_line/src/words.rt; those of a tool in the usage of its file, with the help of each option in its parser."""
import ast
import re
import sys
from collections.abc import Iterable, Iterator
from dataclasses import dataclass, field, replace
from pathlib import Path
from typing import Optional

import installed
from man_page import brief, parts_of

WORDS, FOLDER = Path('crates/command_line/src/words.rt'), Path('completions')
# what a word stands for: a file; a folder; none of these, so that there is nothing to offer
FILE, IN_FOLDER, OTHER = 'f', 'd', 'n'
NO_FILES = {'ADDR', 'COUNT', 'FRAMES', 'I/N', 'LINE', 'N', 'SECONDS', 'SECTORS', 'TEXT'}
HELP, VERSION = 'tells its help', 'tells its version'
MADE = 'made by packaging/completions.py'


@dataclass(frozen=True)
class Operand:
    """A word that is no option, by its name in the usage."""
    name: str
    may_be_left: bool = False
    is_repeated: bool = False

    @property
    def kind(self) -> str:
        return OTHER if self.name in NO_FILES else IN_FOLDER if self.name == 'DIR' else FILE

    def also(self, other: 'Operand') -> 'Operand':
        """One that another line of the usage calls something else."""
        return self if other.name in self.name.split(' or ') else replace(self, name=f'{self.name} or {other.name}')


@dataclass(frozen=True)
class Option:
    """An option by its names, with the word behind it, if it takes one."""
    names: tuple[str, ...]
    word: Optional[Operand] = None
    text: str = ''
    is_repeated: bool = False
    # of these one alone is given
    others: tuple[str, ...] = ()


@dataclass
class Form:
    """What may follow a word: another such word, each with what follows it, or options and operands."""
    name: str
    text: str = ''
    forms: 'list[Form]' = field(default_factory=list)
    options: list[Option] = field(default_factory=list)
    operands: list[Operand] = field(default_factory=list)


# ---- what the sources say

def program() -> Form:
    text = WORDS.read_text(encoding='utf-8')
    operands = {constant: Operand(name, kind.startswith('Optional')) for constant, kind, name in
                re.findall(r'^const (\w+): Operand = Operand::(\w+)\(\s*"(\w+)",', text, re.M)}
    commands = [Form(name, about, operands=[operands[one] for one in re.findall(r'\w+', words)]) for name, about, words in
                re.findall(r'Subcommand \{\s*name: "([\w-]+)",\s*about: "([^"]+)",\s*lines: [^,]+,\s*operands: &\[([^\]]*)\]', text)]
    if len(commands) != int(re.search(r'SUBCOMMANDS: \[Subcommand; (\d+)\]', text)[1]):
        raise ValueError(f'{WORDS} has commands that are not understood')
    for command in commands:
        command.options.append(Option(('--help', '-h'), text=HELP))
    helped = Form('help', 'tells the help of a command', [Form(command.name, command.text) for command in commands])
    options = [Option(('--help', '-h'), text=HELP), Option(('--version', '-V'), text=VERSION)]
    return Form('gbkeep', re.search(r'\.about\("([^"]+)"\)', text)[1], [*commands, helped], options)


def parser_options(path: Path) -> list[Option]:
    """The options that a file gives to its parser, with their helps."""
    found = []
    for call in ast.walk(ast.parse(path.read_text(encoding='utf-8'))):
        if isinstance(call, ast.Call) and isinstance(call.func, ast.Attribute) and call.func.attr == 'add_argument':
            names = tuple(one.value for one in call.args)
            named = {one.arg: one.value for one in call.keywords}
            if names[0].startswith('-'):
                action = named['action'].value if 'action' in named else 'store'
                word = Operand(named['metavar'].value if 'metavar' in named else names[-1].lstrip('-').upper()) if action in ('store', 'append') else None
                found.append(Option(names, word, text_of(named.get('help')), action == 'append'))
    return found


def text_of(node: Optional[ast.expr]) -> str:
    """The help of an option without its default, which depends on where it is started."""
    parts = [] if node is None else node.values if isinstance(node, ast.JoinedStr) else [node]
    text = ''.join(part.value if isinstance(part, ast.Constant) else '' for part in parts)
    return re.sub(r' \(default: .*', '', text).strip()


def usage_words(line: str) -> Iterator[object]:
    """The words of a line of a usage: a list of lists for what may be left out, a list for each of its choices; and `..` behind what may be given again."""
    for group, word in re.findall(r'\[([^\]]*)\]|([^\s\[\]]+)', line):
        if word:
            yield from ([word[:-2], '..'] if word.endswith('..') and word != '..' else [word])
        else:
            yield [choice.split() for choice in group.split('|')]


def add_usage(form: Form, line: str, known: dict[str, Option]) -> None:
    """Adds what a line of a usage has behind the name of a form. Where several lines have it, an operand that one lacks may be left out."""
    place, last = 0, None
    is_first = not form.operands
    for word in usage_words(line):
        if word == '..':
            if isinstance(last, Option):
                form.options[form.options.index(last)] = replace(last, is_repeated=True)
            else:
                form.operands[place - 1] = replace(form.operands[place - 1], is_repeated=True)
            continue
        choices = word if isinstance(word, list) else [[word]]
        if choices[0][0].startswith('-'):
            for name, *rest in choices:
                others = tuple(other for other, *_ in choices if other != name)
                last = replace(known.get(name, Option((name,), Operand(rest[0]) if rest else None)), others=others)
                if last.names not in [one.names for one in form.options]:
                    form.options.append(last)
            continue
        last = Operand(choices[0][0], isinstance(word, list))
        if place == len(form.operands):
            form.operands.append(last if is_first else replace(last, may_be_left=True))
        else:
            form.operands[place] = form.operands[place].also(last)
        place += 1
    form.operands[place:] = [replace(one, may_be_left=True) for one in form.operands[place:]]


def tool(name: str, path: Path) -> Form:
    """A tool, of the usage in its file."""
    first, usage, _ = parts_of(path)
    known = {option: one for one in parser_options(path) for option in one.names}
    found = Form(name, brief(first))
    for line in usage:
        if not line.startswith(name):
            # what the line above it does
            if found.forms and not found.forms[-1].text:
                found.forms[-1].text = line.strip()
            continue
        words, _, does = re.sub(rf'^{name}\s+', '', line).partition('    ')
        command, _, rest = words.partition(' ')
        if re.fullmatch('[a-z][a-z0-9-]*', command):
            form = next((one for one in found.forms if one.name == command), None)
            if form is None:
                form = Form(command, does.strip())
                found.forms.append(form)
            add_usage(form, rest, known)
        elif command.endswith('-..'):
            # for each command that begins so
            for form in found.forms:
                if form.name.startswith(command[:-2]):
                    add_usage(form, re.sub(r'^\[\.\.\] ', '', rest), known)
        else:
            add_usage(found, words, known)
    named = {option.names for form in (found, *found.forms) for option in form.options}
    if missing := {one.names for one in known.values()} - named:
        raise ValueError(f'{path}: the usage has no {sorted(missing)}')
    for form in found.forms or [found]:
        form.options.append(Option(('--help', '-h'), text=HELP))
    if found.forms:
        found.options.append(Option(('--help', '-h'), text=HELP))
    return found


def all_forms() -> list[Form]:
    return [program(), *(tool(name, installed.SOURCES / f'gbkeep/{module}.py') for name, module in installed.tools().items())]


# ---- what the shells read

def paths(forms: Iterable[Form], above: str = '') -> Iterator[tuple[str, Form]]:
    """Each form, with the words that lead to it."""
    for form in forms:
        yield above + form.name, form
        yield from paths(form.forms, f'{above}{form.name} ')


def offered(option: Option) -> str:
    """The name that is offered: the long one, where there is one."""
    return max(option.names, key=len)


def quoted(text: str) -> str:
    """A word of bash and of zsh."""
    return "'" + text.replace("'", "'\\''") + "'"


def kinds(form: Form) -> str:
    return ''.join(one.kind + '*' * one.is_repeated for one in form.operands)


def options_of(form: Form, is_offered: bool) -> Iterator[str]:
    for option in form.options:
        for name in option.names:
            if (name == offered(option)) == is_offered:
                yield f'{name}:{option.word.kind if option.word else "-"}'


BASH = '''# bash completion of gbkeep and its tools, MADE

# What may follow these words: other words; options, offered and others, each with what its own word is (f: a file, d: a folder, n: nothing that is
# known, -: it takes none); operands, in the same letters (a star: and so on).
_gbkeep_known() {
    local commands=COMMANDS
    words= options= others= operands=
    case $1 in
CASES
    esac
}

_gbkeep() {
    local path=${COMP_WORDS[0]##*/} word=${COMP_WORDS[COMP_CWORD]} words options others operands at each kind wanted= dashes= count=0
    COMPREPLY=()
    [ "$word" != = ] || word=
    _gbkeep_known "$path"
    for ((at = 1; at < COMP_CWORD; at++)); do
        each=${COMP_WORDS[at]}
        if [ -n "$wanted" ]; then
            # bash takes a `=` before it as a word, too
            [ "$each" = = ] || wanted=
        elif [ -z "$dashes" ] && [ "$each" = -- ]; then
            dashes=yes
        elif [ -z "$dashes" ] && [[ $each == -?* ]]; then
            for kind in f d n; do
                [[ " $options $others " == *" $each:$kind "* ]] && wanted=$kind
            done
        elif [ -n "$words" ]; then
            path="$path $each"
            _gbkeep_known "$path"
        else
            count=$((count + 1))
        fi
    done
    if [ -z "$wanted" ]; then
        if [ -z "$dashes" ] && [[ $word == -* ]]; then
            COMPREPLY=($(compgen -W "${options//:[fdn-]/}" -- "$word"))
            return
        elif [ -n "$words" ]; then
            COMPREPLY=($(compgen -W "$words" -- "$word"))
            return
        elif [[ $operands == *'*' ]] && [ $count -ge $((${#operands} - 2)) ]; then
            wanted=${operands: -2:1}
        else
            wanted=${operands:count:1}
        fi
    fi
    # with no answer of ours readline completes the names of files, and keeps those with spaces whole
    case $wanted in
        f) compopt -o default 2> /dev/null ;;
        d) compopt -o dirnames 2> /dev/null ;;
    esac
}

complete -F _gbkeep NAMES
'''


def bash(forms: list[Form]) -> str:
    def sets(form: Form) -> Iterator[str]:
        names = [one.name for one in form.forms]
        if names[:len(commands)] == commands:
            # a command line may also end with an option
            yield 'words="$commands%s"' % ''.join(f' {one}' for one in [*names[len(commands):], *(offered(one) for one in form.options)])
        elif names:
            yield f'words={quoted(" ".join(names))}'
        for name, is_offered in (('options', True), ('others', False)):
            if found := list(options_of(form, is_offered)):
                yield f'{name}={quoted(" ".join(found))}'
        if form.operands:
            yield f'operands={quoted(kinds(form))}'

    commands = [one.name for one in forms[0].forms if one.name != 'help']
    cases = '\n'.join(f'        {quoted(path) if " " in path else path}) {" ".join(sets(form))} ;;' for path, form in paths(forms) if list(sets(form)))
    return (BASH.replace('MADE', MADE).replace('COMMANDS', quoted(' '.join(commands) + ' ')).replace('CASES', cases)
            .replace('NAMES', ' '.join(form.name for form in forms)))


def zsh(forms: list[Form]) -> str:
    def action(operand: Operand) -> str:
        return f'{operand.name}:{dict(f="_files", d="_files -/", n=" ")[operand.kind]}'

    def specs(form: Form) -> Iterator[str]:
        for option in form.options:
            others = [*(option.names if len(option.names) > 1 and not option.is_repeated else ()), *option.others]
            exclusive = '(- *)' if option.text in (HELP, VERSION) else f'({" ".join(others)})' if others else ''
            text = re.sub(r'([\[\]\\])', r'\\\1', option.text or (option.word.name if option.word else ''))
            for name in option.names:
                yield quoted(f'{exclusive}{"*" * option.is_repeated}{name}[{text}]' + (f':{action(option.word)}' if option.word else ''))
        for place, operand in enumerate(form.operands, 1):
            yield quoted(f'{"*" if operand.is_repeated else place}:{":" * operand.may_be_left}{action(operand)}')

    def arguments(form: Form, indent: str, begins: str, more: Iterable[str] = ()) -> str:
        return f'{indent}{begins}' + ''.join(f' \\\n{indent}    {one}' for one in (*specs(form), *more))

    def cases(form: Form) -> Iterator[str]:
        if not form.forms:
            yield arguments(form, ' ' * 8, '_arguments -S :')
            return
        yield arguments(form, ' ' * 8, '_arguments -C -S :', ("'1:command:->command'", "'*::word:->word'", '&& return'))
        yield '        case $state in'
        yield '            command)'
        yield '                commands=(' + ''.join('\n                    ' + quoted(f'{one.name}:{one.text}') for one in form.forms) + '\n                )'
        yield "                _describe -t commands command commands"
        yield '                ;;'
        yield '            word)'
        yield '                case $words[1] in'
        for one in form.forms:
            yield f'                    {one.name})'
            if one.forms:
                yield f"                        _arguments -S : '1:command:({' '.join(other.name for other in one.forms)})'"
            else:
                yield arguments(one, ' ' * 24, '_arguments -S :')
            yield '                        ;;'
        yield '                esac'
        yield '                ;;'
        yield '        esac'

    lines = [f'#compdef {" ".join(form.name for form in forms)}', f'# zsh completion of gbkeep and its tools, {MADE}', '',
             'local curcontext=$curcontext state line', 'local -a commands', 'typeset -A opt_args', '', 'case $service in']
    for form in forms:
        lines += [f'    {form.name})', *cases(form), '        ;;']
    return '\n'.join([*lines, 'esac', ''])


FISH = '''# fish completion of gbkeep and its tools, MADE

# What may follow these words, four values each: w, a word, nothing, what it does; o or s, an option that is offered or not, what its own word is (f: a file,
# d: a folder, n: nothing that is known, -: it takes none), what it does; p, the operands in the same letters (a star: and so on), nothing, nothing.
function __gbkeep_known
    switch "$argv"
CASES
    end
end

# What is to be completed: f, d, n or w; of w, what is offered, a line each.
function __gbkeep_state
    set -l tokens (commandline -opc)
    set -l word (commandline -ct)
    set -l path (string replace -r '^.*/' '' -- $tokens[1])
    set -l known (__gbkeep_known $path)
    set -l wanted ''
    set -l dashes ''
    set -l count 1
    for each in $tokens[2..-1]
        if test -n "$wanted"
            set wanted ''
        else if test -z "$dashes"; and test "x$each" = x--
            set dashes yes
        else if test -z "$dashes"; and string match -q -- '-?*' "$each"
            for one in $known
                set -l parts (string split \\t -- $one)
                if contains -- $parts[1] o s; and test "x$parts[2]" = "x$each"; and test "$parts[3]" != -
                    set wanted $parts[3]
                end
            end
        else if string match -q -- w\\t'*' $known
            set path "$path $each"
            set known (__gbkeep_known $path)
        else
            set count (math $count + 1)
        end
    end
    if test -z "$wanted"
        set -l begins w
        if test -z "$dashes"; and string match -q -- '-*' "$word"
            set begins o
        end
        if test $begins = o; or string match -q -- w\\t'*' $known
            echo w
            for one in $known
                set -l parts (string split \\t -- $one)
                if test $parts[1] = $begins
                    printf '%s\\t%s\\n' $parts[2] $parts[4]
                end
            end
            return
        end
        set -l operands (string replace -r -f '^p\\t([fdn*]*)\\t.*' '$1' -- $known)
        set -l letters (string split '' -- "$operands")
        if string match -q -- '*\\*' "$operands"; and test $count -ge (math (count $letters) - 1)
            set wanted $letters[-2]
        else
            set wanted $letters[$count]
        end
    end
    echo "$wanted"
end

function __gbkeep_wants
    set -l state (__gbkeep_state)
    test "$state[1]" = $argv[1]
end

function __gbkeep_words
    set -l state (__gbkeep_state)
    printf '%s\\n' $state[2..-1]
end

for tool in NAMES
    complete -e -c $tool
    complete -c $tool -f
    complete -c $tool -n '__gbkeep_wants w' -a '(__gbkeep_words)'
    complete -c $tool -n '__gbkeep_wants f' -F
    complete -c $tool -n '__gbkeep_wants d' -a '(__fish_complete_directories (commandline -ct))'
end
'''


def fish(forms: list[Form]) -> str:
    def word(text: str) -> str:
        return "'" + re.sub(r"(['\\])", r'\\\1', text) + "'"

    def values(form: Form) -> Iterator[tuple[str, str, str, str]]:
        for one in form.forms:
            yield 'w', one.name, '', one.text
        for option in form.options:
            for name in option.names:
                yield 'o' if name == offered(option) else 's', name, option.word.kind if option.word else '-', option.text
        if form.operands:
            yield 'p', kinds(form), '', ''

    cases = []
    for path, form in paths(forms):
        if found := list(values(form)):
            cases += [f'        case {word(path)}', "            printf '%s\\t%s\\t%s\\t%s\\n' \\"]
            cases.append(' \\\n'.join('                ' + ' '.join(map(word, one)) for one in found))
    return FISH.replace('MADE', MADE).replace('CASES', '\n'.join(cases)).replace('NAMES', ' '.join(form.name for form in forms))


def made() -> dict[Path, str]:
    """Each file, with what it has."""
    forms = all_forms()
    return {FOLDER / 'gbkeep.bash': bash(forms), FOLDER / '_gbkeep': zsh(forms), FOLDER / 'gbkeep.fish': fish(forms)}


def main() -> None:
    words = sys.argv[1:]
    if words not in ([], ['check']):
        sys.exit(__doc__)
    for path, text in made().items():
        if not words:
            path.write_text(text, encoding='utf-8')
        elif not path.exists() or path.read_text(encoding='utf-8') != text:
            sys.exit(f'{path} is not as packaging/completions.py makes it: run it, at the top of the clone')


if __name__ == '__main__':
    main()
