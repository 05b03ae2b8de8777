"""The registers at FF00 to FF7F and FFFF by their names, and what their bits mean."""

# names as Pan Docs has them
NAMES = {0xff00: 'P1', 0xff01: 'SB', 0xff02: 'SC', 0xff04: 'DIV', 0xff05: 'TIMA', 0xff06: 'TMA', 0xff07: 'TAC', 0xff0f: 'IF',
         0xff10: 'NR10', 0xff11: 'NR11', 0xff12: 'NR12', 0xff13: 'NR13', 0xff14: 'NR14', 0xff16: 'NR21', 0xff17: 'NR22', 0xff18: 'NR23', 0xff19: 'NR24',
         0xff1a: 'NR30', 0xff1b: 'NR31', 0xff1c: 'NR32', 0xff1d: 'NR33', 0xff1e: 'NR34', 0xff20: 'NR41', 0xff21: 'NR42', 0xff22: 'NR43', 0xff23: 'NR44',
         0xff24: 'NR50', 0xff25: 'NR51', 0xff26: 'NR52', 0xff40: 'LCDC', 0xff41: 'STAT', 0xff42: 'SCY', 0xff43: 'SCX', 0xff44: 'LY', 0xff45: 'LYC',
         0xff46: 'DMA', 0xff47: 'BGP', 0xff48: 'OBP0', 0xff49: 'OBP1', 0xff4a: 'WY', 0xff4b: 'WX', 0xffff: 'IE'}
ADDRESSES = {name: address for address, name in NAMES.items()}
INTERRUPTS = ((0, 'VBlank'), (1, 'STAT'), (2, 'timer'), (3, 'serial'), (4, 'joypad'))
# bits that are told where they are set
BITS = {'IF': INTERRUPTS, 'IE': INTERRUPTS, 'SC': ((7, 'transfer'), (0, 'own clock')),
        'LCDC': ((7, 'display'), (6, 'window map 9C00'), (5, 'window'), (4, 'tiles 8000'), (3, 'background map 9C00'), (2, 'objects 8x16'), (1, 'objects'),
                 (0, 'background')),
        'STAT': ((6, 'LYC interrupt'), (5, 'mode 2 interrupt'), (4, 'mode 1 interrupt'), (3, 'mode 0 interrupt'), (2, 'LY = LYC'))}
CLOCKS = (4_096, 262_144, 65_536, 16_384)
BUTTONS = (('right', 'left', 'up', 'down'), ('A', 'B', 'select', 'start'))


def decoded(name: str, value: int) -> str:
    """What a register's value means, in words; nothing where its number says all."""
    if name in BITS:
        words = [what for bit, what in BITS[name] if value >> bit & 1]
        return ', '.join([f'mode {value & 3}'] * (name == 'STAT') + words)
    if name == 'P1':
        selected = [names for bit, names in zip((4, 5), BUTTONS) if not value >> bit & 1]
        pressed = [one for names in selected for bit, one in enumerate(names) if not value >> bit & 1]
        return ', '.join(pressed) or 'nothing pressed' if selected else 'nothing selected'
    if name == 'TAC':
        return f'{CLOCKS[value & 3]:,} Hz' + ('' if value & 4 else ', stopped')
    if name in ('BGP', 'OBP0', 'OBP1'):
        return 'shades ' + ' '.join(str(value >> 2 * colour & 3) for colour in range(4))
    return ''
