"""The man page of a tool, of what its file says of itself."""
import ast
import functools
import re
from pathlib import Path


def roff(text):
    """A line of text as the page's source has it."""
    text = text.replace('\\', '\\e').replace('-', '\\-')
    return re.sub(r"^(?=[.'])", r'\\&', text)


def words(text):
    """The same, with what stands between back quotes in bold."""
    return re.sub('`([^`]+)`', r'\\fB\1\\fR', roff(text))


@functools.lru_cache(None)
def said_of(path):
    """What a file says of itself."""
    return ast.get_docstring(ast.parse(Path(path).read_text(encoding='utf-8'))) or ''


def parts_of(path):
    """What a tool's file says of itself: first, in one line; its usage, line by line; and the rest."""
    said = said_of(path)
    if said.count('\nusage: ') != 1:
        raise ValueError(f'{path} has no usage')
    head, _, rest = said.partition('\nusage: ')
    usage, _, more = rest.partition('\n\n')
    return ' '.join(head.split()), [line[7:] if line.startswith(' ' * 7) else line for line in usage.splitlines()], more


def brief(first):
    """What a tool does, of what its file says first."""
    return re.split(r'[.:;](?: |$)', first)[0]


def page(name, path, version):
    """The page of the tool that is installed as `name`."""
    first, usage, more = parts_of(path)
    does = brief(first)
    lines = [f'.TH {name.upper()} 1 "" "gbkeep {version}" "User Commands"', '.SH NAME', f'{roff(name)} \\- {words(does[0].lower() + does[1:])}', '.SH SYNOPSIS', '.nf']
    lines += map(roff, usage)
    lines += ['.fi', '.SH DESCRIPTION', words(first)]
    # what is indented stands as it is
    for part in re.split(r'\n\n+', more.strip('\n')):
        if part.startswith('    '):
            lines += ['.PP', '.nf', '.RS', *(words(line[4:]) for line in part.splitlines()), '.RE', '.fi']
        else:
            lines += ['.PP', *map(words, part.splitlines())]
    lines += ['.SH SEE ALSO', '\\fBgbkeep\\fR(1)']
    return '\n'.join(lines) + '\n'
