"""What web/page has beside its sources, so that it is a site as it stands: the texts and the palettes that the window has, too (messages.js,
palettes.js), the demo (demo.gb), what is known of the module (made.js), and the list of the page's files (files.js). None of it needs the
toolchain. The refusals of the library (faults.js) are made by scripts/refusal_table.py, the module by scripts/web.py.

usage: page.py              makes them
       page.py check        status 1, and a line for each that is not as it is to be; notes where the module was made from other sources
       page.py is-current   status 1 where the module was made from other sources"""
import gzip
import hashlib
import json
import re
import sys
import zlib
from pathlib import Path

from gbkeep.palettes import NAMES, PALETTES
from scripts.not_tried import note

TOP = Path(__file__).resolve().parent.parent
WEB, PAGE = TOP / 'web', TOP / 'web/page'
CRATE = 'c_interface'
MESSAGES = TOP / 'python/gbkeep/messages.json'
DEMO = TOP / 'examples/demo/demo.gb'
MODULE, OF, LIST = 'gbkeep.wasm.gz', 'gbkeep.wasm.of', 'files.js'
# what this script makes, in this order: the list has the digests of the others
MADE = ('demo.gb', 'messages.js', 'palettes.js', 'made.js', LIST)
# what a page needs without a network is all but these
NOT_LISTED = {'README', 'service_worker.js', OF, LIST}
MOST_BYTES = 640_000
# what the module is made of, beside the crates
OTHER_SOURCES = ('library/gbkeep.c', 'library/gbkeep.h', 'library/gbkeep_faults.h', 'web/heap.c', 'web/heap.h', 'web/memory.c',
                 'web/include/*.h', 'scripts/changed_module.py', 'scripts/web.py', 'scripts/memory32.py')


# ---- what the module is made of

def rows():
    """What each crate of the repository stands on, and the lines of crates.txt that say so."""
    needs, lines = {}, {}
    for line in (TOP / 'crates.txt').read_text(encoding='utf-8').splitlines():
        row = re.fullmatch(r'(\w+)(?: staticlib)?:(.*)', line.partition('#')[0].strip())
        if row:
            needs[row[1]], lines[row[1]] = row[2].split(), row[0]
    return needs, lines


def crates_below(name, needs):
    """The crates of the repository that one stands on, itself left out, each behind those that it stands on."""
    if name not in needs:
        sys.exit(f'page.py: crates.txt has no {name}')
    found = []

    def add(one):
        for other in needs[one]:
            if other in needs and other not in found:
                add(other)
                found.append(other)

    add(name)
    return found


def source_files():
    """What the module is made of: what a proof reads of its crates, and the C and the scripts."""
    needs, _ = rows()
    for crate in sorted([CRATE, *crates_below(CRATE, needs)]):
        for folder in ('src', 'specs', 'proofs'):
            yield from sorted(path for path in (TOP / 'crates' / crate / folder).rglob('*') if path.suffix in ('.rt', '.antt'))
    for pattern in OTHER_SOURCES:
        found = sorted(TOP.glob(pattern))
        if not found:
            sys.exit(f'page.py: there is no {pattern}')
        yield from found


def sources():
    """A digest of what the module is made of, wherever the clone lies."""
    needs, lines = rows()
    whole = hashlib.sha256()
    for name in sorted([CRATE, *crates_below(CRATE, needs)]):
        whole.update(f'{lines[name]}\n'.encode())
    for path in source_files():
        whole.update(f'{hashlib.sha256(path.read_bytes()).hexdigest()}  {path.relative_to(TOP).as_posix()}\n'.encode())
    return whole.hexdigest()


def kept(folder=PAGE):
    """What stands beside the module: the digest of the module, that of its sources, and the prover, by name."""
    try:
        lines = (folder / OF).read_text(encoding='utf-8').splitlines()
    except OSError as error:
        sys.exit(f'page.py: {error.filename}: {error.strerror}: make web leaves it')
    return dict(line.split(': ', 1) for line in lines if ': ' in line)


def is_of_sources(folder=PAGE):
    """Whether the module was made from the sources as they stand."""
    return kept(folder).get('sources') == sources()


def packed(module):
    """A module as gzip packs it, with no name and no time."""
    packing = zlib.compressobj(9, zlib.DEFLATED, -15)
    body = packing.compress(module) + packing.flush()
    return b'\x1f\x8b\x08\0\0\0\0\0\x02\xff' + body + zlib.crc32(module).to_bytes(4, 'little') + len(module).to_bytes(4, 'little')


def module_in(folder):
    """The module of a page."""
    try:
        module = gzip.decompress((folder / MODULE).read_bytes())
    except (OSError, EOFError, zlib.error) as error:
        sys.exit(f'page.py: {folder / MODULE}: {error}')
    if not module.startswith(b'\0asm'):
        sys.exit(f'page.py: {folder / MODULE} is no module')
    return module


def leave_module(folder, module, of, prover):
    """Puts a module and what is known of it into a folder: the digest of its sources, and the prover's name."""
    (folder / MODULE).write_bytes(packed(module))
    (folder / OF).write_bytes(f'module: {digest(module)}\nsources: {of}\nprover: {prover}\n'.encode())


# ---- what is made

def digest(data):
    return hashlib.sha256(data).hexdigest()


def messages():
    """The texts that the page shows as the window does."""
    texts = json.loads(MESSAGES.read_text(encoding='utf-8'))
    shown = json.dumps({kind: texts[kind] for kind in ('actions', 'said', 'asked')}, indent=2)
    return f'// Made by scripts/page.py of python/gbkeep/messages.json: the texts of the window, of which the page shows some.\nexport const MESSAGES = {shown};\n'.encode()


def palettes():
    """The palettes of the window."""
    rows = ''.join(f'  {json.dumps(palette)}, // {name}\n' for name, palette in zip(NAMES, PALETTES))
    return ('// Made by scripts/page.py of python/gbkeep/palettes.py: the colours of the four shades, darkest first, as red, green and blue.\n'
            f'export const PALETTES = [\n{rows}];\n').encode()


def about(folder):
    """What a page can tell of its module."""
    known = {'digest': digest(module_in(folder)), 'isOfSources': is_of_sources(folder)}
    return (b'// Made by scripts/page.py: the SHA-256 of the module, and whether it was made from the sources that lie beside this page.\n'
            b'export const MODULE = %s;\n' % json.dumps(known).encode())


def listed(folder):
    """The names of the files that a page needs without a network, but for the list of them."""
    return sorted({path.name for path in folder.iterdir() if not path.name.startswith('.')} - NOT_LISTED)


def list_of(folder):
    """The list of a page's files: the SHA-256 of each, and a version, which is another one where any of them is."""
    digests = {name: digest((folder / name).read_bytes()) for name in listed(folder)}
    files = {'./': digests['index.html'], **digests}
    version = digest(json.dumps(files).encode())[:16]
    return (f'// Made by scripts/page.py: what the page needs without a network, and what each file is.\n/* exported FILES, VERSION */\n'
            f'const VERSION = {json.dumps(version)};\nconst FILES = {json.dumps(files)};\n').encode()


def list_files(folder):
    """Writes the list of a page's files."""
    (folder / LIST).write_bytes(list_of(folder))


def wanted(name, folder):
    """The bytes of a made file."""
    return {'demo.gb': DEMO.read_bytes, 'messages.js': messages, 'palettes.js': palettes,
            'made.js': lambda: about(folder), LIST: lambda: list_of(folder)}[name]()


def length(folder):
    """The bytes of a page. Ends where they are too many."""
    found = sum(path.stat().st_size for path in folder.iterdir())
    if found > MOST_BYTES:
        sys.exit(f'page.py: the page has {found:,} bytes, more than {MOST_BYTES:,}')
    return found


def make(folder=PAGE, place=None):
    """Makes what is made, in a folder that has the sources of the page and a module, and will lie at a place."""
    for name in MADE:
        (folder / name).write_bytes(wanted(name, folder))
    place = place or folder
    print(f'{place.relative_to(TOP) if place.is_relative_to(TOP) else place}: {length(folder):,} bytes, {MODULE} {(folder / MODULE).stat().st_size:,}, {len(module_in(folder)):,} unpacked')


def stale(folder=PAGE):
    """A line for each file that is not what it is to be."""
    lines = []
    if kept(folder).get('module') != digest(module_in(folder)):
        lines.append(f'{MODULE} is not the one that {OF} tells of: make web makes both')
    for name in MADE:
        path = folder / name
        if not path.is_file() or path.read_bytes() != wanted(name, folder):
            lines.append(f'{name} is stale: python3 -B scripts/page.py makes it')
    return lines


def main(words):
    if words not in ([], ['check'], ['is-current']):
        sys.exit(__doc__)
    if words == ['is-current']:
        sys.exit(0 if is_of_sources() else 1)
    elif words == ['check']:
        lines = [f'page.py: web/page/{line}' for line in stale()]
        length(PAGE)
        if lines:
            sys.exit('\n'.join(lines))
        if not is_of_sources():
            note('the page with the module of these sources', f'web/page/{MODULE} was made from others: make web renews it')
    else:
        make()


if __name__ == '__main__':
    main(sys.argv[1:])
