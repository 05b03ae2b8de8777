"""Prints tables.h, what the core shares with others: the table of faults that docs/COMMANDS.md has, and the palettes of window and page.

usage: tables_h.py > tables.h"""
import json
import re

from gbkeep.faults import CODES, FAULTS
from gbkeep.palettes import NAMES, PALETTES


def quoted(text):
    return json.dumps(text.replace('`', ''), ensure_ascii=True)


print('/* made by tables_h.py of python/gbkeep/faults.py and python/gbkeep/palettes.py */')
print('/* the code of each refusal: those of gbkeep.h are among them */')
print('enum {')
for line, code in CODES.items():
    print(f"    FAULT_{re.sub(r'[^a-z]+', '_', re.split(r',? (?:N|XX)|:', line)[0]).upper()} = {code},")
print('};')
print('struct fault { uint32_t code; const char *of, *means, *advice; };')
print('static const struct fault FAULTS[] = {')
for line, of, means, advice in FAULTS:
    # of one number of a line the core has no words
    if line in CODES:
        print(f'    {{{CODES[line]}, {quoted(of)}, {quoted(means)}, {quoted(advice)}}},')
print('    {0, 0, 0, 0},\n};')
print('/* darkest first */')
print('static const uint32_t PALETTES[][4] = {')
for colours in PALETTES:
    print(f"    {{{', '.join(f'0x{bytes(colour).hex()}' for colour in colours)}}},")
print('};')
print(f"static const char *const PALETTE_NAMES[] = {{{', '.join(map(quoted, NAMES))}}};")
print(f"#define PALETTE_VALUES {', '.join(f'{{{quoted(name)}, NULL}}' for name in NAMES)}")
