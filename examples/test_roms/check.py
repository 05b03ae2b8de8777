"""Assembles the test ROMs, and compares them with those that lie here, and the tables of the tests with theirs.

usage: check.py

The status is 1 where a ROM is not what its source gives, or where a table of crates/machine_tests/src/roms.rt is not the ROM of its name from
address 0100 on."""
import re
import sys
from pathlib import Path

from examples.demo.assemble import Assembler

HERE = Path(__file__).resolve().parent
TABLES = HERE.parent.parent / 'crates/machine_tests/src/roms.rt'


def tables():
    """The bytes of each table, by the name of its ROM."""
    found = re.findall(r'pub const (\w+): \[u8; (\d+)\] = \[(.*?)\];', TABLES.read_text(), re.S)
    return {name.lower(): (int(length), bytes(int(byte, 16) for byte in re.findall(r'0x(\w\w)', body))) for name, length, body in found}


def main():
    known, status = tables(), 0
    if not known:
        print(f'{TABLES} has no table')
        status = 1
    sources = sorted(HERE.glob('*.asm'))
    for source in sources:
        rom = Assembler().assemble(source.read_text())
        if rom != source.with_suffix('.gb').read_bytes():
            print(f'{source.stem}.gb is not what {source.name} gives')
            status = 1
        if source.stem in known:
            length, table = known.pop(source.stem)
            if length != len(table) or rom != bytes(0x100) + table + bytes(0x7f00 - len(table)):
                print(f'the table of {source.stem} is another ROM')
                status = 1
    if known:
        print(f'no source is that of {", ".join(known)}')
        status = 1
    return status


if __name__ == '__main__':
    sys.exit(main())
