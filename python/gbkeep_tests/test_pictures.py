"""Tries how pictures are read and written, and what is no picture: it needs no program. Where PIL is there, it reads them too.

usage: test_pictures.py [TEST..]"""
import random
import struct
import sys
import zlib

from gbkeep.pictures import HEIGHT, MOST_SCALE, PNG_HEAD, WIDTH, chunk, png_of, shades_of
from gbkeep_tests import support
from gbkeep_tests.support import expect, image_of, needs_pil, parts_of_png

# the samples of each colour type, and the depths that it may have
KINDS = {0: (1, (1, 2, 4, 8, 16)), 2: (3, (8, 16)), 3: (1, (2, 4, 8)), 4: (2, (8, 16)), 6: (4, (8, 16))}
# the first pixel of each pass of a PNG that is interlaced, and how far it is to the next
PASSES = ((0, 0, 8, 8), (4, 0, 8, 8), (0, 4, 4, 8), (2, 0, 4, 4), (0, 2, 2, 4), (1, 0, 2, 2), (0, 1, 1, 2))
SHADES = bytes((x // 5 + y // 3) % 4 for y in range(HEIGHT) for x in range(WIDTH))


def packed(samples, depth):
    """Samples of so many bits as bytes."""
    if depth >= 8:
        return struct.pack(f'>{len(samples)}{"B" if depth == 8 else "H"}', *samples)
    bits = ''.join(f'{sample:0{depth}b}' for sample in samples)
    bits += '0' * (-len(bits) % 8)
    return int(bits, 2).to_bytes(len(bits) // 8, 'big')


def filtered(kind, row, above, step):
    """A row of bytes as a filter leaves it."""
    if kind == 0:
        return b'\0' + row
    found = bytearray([kind])
    for one, left, up, corner in zip(row, bytes(step) + row, above, bytes(step) + above):
        guess = (0, left, up, (left + up) // 2)[kind] if kind < 4 else min((left, up, corner), key=lambda each: abs(left + up - corner - each))
        found.append(one - guess & 255)
    return bytes(found)


def png(shades, colour, depth, scale=1, interlaced=0, more=b'', width=WIDTH, height=HEIGHT, rows=None, filters=(0,)):
    """A PNG of a kind, its rows by these filters in turn."""
    samples, most = KINDS[colour][0], (1 << depth) - 1
    if rows is None:
        pixels = []
        for y in range(height):
            row = []
            for x in range(WIDTH):
                grey = shades[y * WIDTH + x]
                value = grey if colour == 3 else grey * most // 3
                # what is transparent counts as anything else
                row += [([value] * min(samples, 3) if samples != 2 else [value, 0])[:samples] + [0] * (samples == 4)] * scale
            pixels += [row] * scale
        rows, step = b'', max(1, samples * depth // 8)
        for left, top, across, down in PASSES if interlaced else ((0, 0, 1, 1),):
            above = bytes(len(pixels[0]) * 8)
            for number, row in enumerate(pixels[top::down]):
                whole = packed([sample for pixel in row[left::across] for sample in pixel], depth)
                rows += filtered(filters[number % len(filters)], whole, above, step)
                above = whole
    head = struct.pack('>IIBBBBB', width * scale, height * scale, depth, colour, 0, 0, interlaced)
    palette = chunk(b'PLTE', bytes(part for shade in range(4) for part in (shade * 85,) * 3)) if colour == 3 else b''
    return PNG_HEAD + chunk(b'IHDR', head) + palette + more + chunk(b'IDAT', zlib.compress(rows)) + chunk(b'IEND', b'')


def by_pil(folder, data):
    """The shades of a picture as PIL reads it."""
    path = folder / 'picture'
    path.write_bytes(data)
    image = image_of(path)
    image.info.pop('transparency', None)
    if image.mode.startswith('I'):
        # greys of 16 bits
        image = image.convert('I').point(lambda value: value * (1 / 257) + 0.001).convert('L')
    scale, raw = image.size[0] // WIDTH, image.convert('L').tobytes()
    return bytes((raw[(y * WIDTH * scale + x) * scale] + 42) // 85 for y in range(HEIGHT) for x in range(WIDTH))


def pgm(shades, most=3, scale=1):
    values = [shades[y // scale * WIDTH + x // scale] * most // 3 for y in range(HEIGHT * scale) for x in range(WIDTH * scale)]
    return f'P2\n{WIDTH * scale} {HEIGHT * scale}\n{most}\n{" ".join(map(str, values))}\n'.encode()


def refused(what, data, why=''):
    """A picture that has to be refused, with a line that no terminal is steered by."""
    try:
        shades_of(data)
    except ValueError as error:
        line = str(error)
        expect(f'{what}: {line!r}', (line.isprintable(), 0 < len(line) < 200, why in line), (True, True, True))
        return
    support.wrong(f'{what} is taken')


def test_what_is_written(folder):
    """A PNG that is written has the pixels that it should and nothing else, and is read as what it was."""
    for scale in (1, 2, 3):
        made = png_of(SHADES, scale=scale)
        wanted = [bytes(SHADES[y // scale * WIDTH + x // scale] * 85 for x in range(WIDTH * scale)) for y in range(HEIGHT * scale)]
        head, rows, end = parts_of_png(made)
        expect(f'scale {scale}', (head, rows[0], end), ((b'IHDR', struct.pack('>IIBBBBB', WIDTH * scale, HEIGHT * scale, 8, 0, 0, 0, 0)), b'IDAT', (b'IEND', b'')))
        expect('its rows', zlib.decompress(rows[1]), b''.join(b'\0' + row for row in wanted))
        expect('again', png_of(SHADES, scale=scale), made)
        expect('read again', shades_of(made), SHADES)
    head, palette, rows, end = parts_of_png(png_of(SHADES, scale=1, palette=bytes(range(12))))
    expect('of a palette', (palette, zlib.decompress(rows[1])), ((b'PLTE', bytes(range(12))), b''.join(b'\0' + SHADES[y * WIDTH:(y + 1) * WIDTH] for y in range(HEIGHT))))


def test_kinds(folder):
    """Each kind of PNG, and PGM of several sizes and counts of greys."""
    for data, what, shades in kinds():
        expect(what, shades_of(data), shades)


def kinds():
    """Pictures of each kind, with what they are and their shades."""
    for colour, (_, depths) in KINDS.items():
        for depth in depths:
            shades = bytes(shade // 2 * 3 for shade in SHADES) if depth == 1 else SHADES
            for scale, interlaced in ((1, 0), (2, 0), (1, 1)):
                what = f'colour type {colour}, {depth} bits, scale {scale}{", interlaced" * interlaced}'
                yield png(shades, colour, depth, scale, interlaced), what, shades
        yield png(SHADES, colour, depth, filters=(4, 1, 3, 2, 0)), f'colour type {colour}, {depth} bits, all filters', SHADES
    for kind in range(5):
        yield png(SHADES, 0, 8, filters=(kind,)), f'filter {kind}', SHADES
    yield png(SHADES, 0, 1, interlaced=1, filters=(4, 3)), 'a bit a pixel, interlaced and filtered', bytes(shade // 3 * 3 for shade in SHADES)
    yield png(SHADES, 0, 8, 3, 1, filters=(2, 4)), 'interlaced, scale 3', SHADES
    yield png(SHADES, 3, 8, more=chunk(b'tRNS', bytes(4))), 'a colour that is transparent', SHADES
    yield png(SHADES, 0, 8, more=chunk(b'tRNS', bytes(2))), 'a grey that is transparent', SHADES
    for most, scale in ((3, 1), (255, 1), (65535, 1), (3, 2), (15, 3)):
        yield pgm(SHADES, most, scale), f'PGM of {most}, scale {scale}', SHADES
    yield pgm(SHADES).replace(b' ', b'\t\r\n  '), 'other blanks', SHADES
    yield pgm(SHADES).replace(b'P2\n', b'P2 # drawn by hand\n# and twice\n'), 'comments', SHADES


def test_by_pil(folder):
    """PIL reads them as the package does, and what is written, too."""
    needs_pil('by a second reader')
    for data, what, shades in kinds():
        expect(f'{what}, by PIL', by_pil(folder, data), shades)
    for scale in (1, 2, 3):
        expect(f'written, scale {scale}, by PIL', by_pil(folder, png_of(SHADES, scale=scale)), SHADES)
    (folder / 'made.png').write_bytes(png_of(SHADES, palette=bytes(range(12))))
    image = image_of(folder / 'made.png').convert('RGB')
    expect('of a palette', {image.getpixel((3 * x, 3 * y)) == tuple(range(3 * SHADES[y * WIDTH + x], 3 * SHADES[y * WIDTH + x] + 3)) for x in range(WIDTH) for y in range(HEIGHT)}, {True})


def test_none(folder):
    """What is no picture of this size, whatever it says of itself."""
    for what, data in (('nothing', b''), ('a text', b'P1 2 3'), ('P2 alone', b'P2'), ('a head', b'P2\n160 144\n3\n'), ('PNG alone', PNG_HEAD), ('a JPEG', b'\xff\xd8\xff\xe0' + bytes(99)),
                       ('no values', b'P2\n160 144\n3\n' + b'x ' * WIDTH * HEIGHT), ('a value too many', pgm(SHADES).replace(b'3\n0', b'3\n4', 1)), ('a value less', pgm(SHADES)[:-3]), ('a value more', pgm(SHADES) + b'0'), ('half of the values', pgm(SHADES)[:20_000]),
                       ('minus', b'P2\n-160 -144\n3\n' + b'3 ' * WIDTH * HEIGHT), ('many digits', b'P2\n' + b'9' * 5000 + b' 144\n3\n0'), ('no greys', b'P2\n160 144\n0\n' + b'0 ' * WIDTH * HEIGHT)):
        refused(what, data)
    refused('another size', png(SHADES, 0, 8, height=143), '160 by 143')
    refused('no size', png(SHADES, 0, 8, width=0, height=0, rows=b''))
    refused('a huge one', png(SHADES, 0, 8, width=WIDTH * 200_000, height=HEIGHT * 200_000, rows=b''))
    refused('one that is too large', png(SHADES, 0, 8, scale=MOST_SCALE + 1, rows=b''), 'times as large')
    refused('many samples', png(SHADES, 6, 16, scale=MOST_SCALE, rows=b''), 'samples')
    for what, depth, colour in (('depth', 3, 0), ('colour type', 8, 9)):
        head = chunk(b'IHDR', struct.pack('>IIBBBBB', WIDTH, HEIGHT, depth, colour, 0, 0, 0))
        refused(f'a {what} that there is not', PNG_HEAD + head + chunk(b'IDAT', zlib.compress(bytes(161 * 144))) + chunk(b'IEND', b''))
    refused('a filter that there is not', png(SHADES, 0, 8, rows=b'\x09' * 161 * 144))
    refused('few rows', png(SHADES, 0, 8, rows=b''))
    refused('a colour that no palette has', png(bytes([9]) * WIDTH * HEIGHT, 3, 8), 'palette')
    refused('no palette', png(SHADES, 3, 8).replace(b'PLTE', b'pLTE'))
    refused('a wrong sum', png_of(SHADES).replace(b'IDATx', b'IDATy'), 'sum')
    refused('rows in no zlib', png(SHADES, 0, 8).replace(zlib.compress(b'')[:2], b'\0\0'))
    refused('a head that is short', PNG_HEAD + chunk(b'IHDR', bytes(12)), 'head')
    refused('another head', png_of(SHADES).replace(b'IHDR', b'iHDR'))


def test_cut(folder):
    """A PNG that is cut short anywhere before its rows end."""
    for whole in (png_of(SHADES), png(SHADES, 3, 2), png(SHADES, 6, 16)):
        end = whole.rindex(b'IEND') - 8
        for length in {*range(0, min(end, 200)), *range(200, end, max(1, end // 150)), *range(end - 12, end)}:
            try:
                got = shades_of(whole[:length])
            except ValueError:
                continue
            # the rows were whole, and the sum behind them was cut
            expect(f'{length} bytes of {len(whole)}', got, SHADES)


def test_bombs(folder):
    """Little that unpacks to much: as rows, as a text, as a profile of colours."""
    zeros = zlib.compressobj(9)
    bomb = b''.join(zeros.compress(bytes(1 << 20)) for _ in range(400)) + zeros.flush()
    head, end = chunk(b'IHDR', struct.pack('>IIBBBBB', WIDTH, HEIGHT, 8, 0, 0, 0, 0)), chunk(b'IEND', b'')
    rows = chunk(b'IDAT', zlib.compress(bytes(161 * 144)))
    for what, data in (('rows', PNG_HEAD + head + chunk(b'IDAT', bomb) + end), ('a text', PNG_HEAD + head + chunk(b'zTXt', b'a\0\0' + bomb) + rows + end),
                       ('a profile', PNG_HEAD + head + chunk(b'iCCP', b'a\0\0' + bomb) + rows + end), ('many texts', PNG_HEAD + head + chunk(b'zTXt', b'a\0\0' + bomb) * 20 + rows + end)):
        try:
            expect(f'{what} of {len(data):,} bytes', shades_of(data), bytes(WIDTH * HEIGHT))
        except ValueError as error:
            expect(f'{what}: {error}', str(error).isprintable(), True)


def test_damaged(folder):
    """Pictures with bytes changed at random are taken or refused, and nothing else happens."""
    rnd = random.Random(1)
    wholes = [png(SHADES, colour, depths[-1]) for colour, (_, depths) in KINDS.items()] + [png_of(SHADES), pgm(SHADES), pgm(SHADES, 65535)]
    for number in range(1500):
        data = bytearray(rnd.choice(wholes))
        for _ in range(rnd.choice([1, 1, 2, 5])):
            at = rnd.randrange(min(len(data), rnd.choice([60, len(data)])))
            data[at:at + rnd.choice([0, 1, 4])] = rnd.randbytes(rnd.choice([0, 1, 4]))
        try:
            expect(f'{number}: its size', len(shades_of(bytes(data))), WIDTH * HEIGHT)
        except ValueError as error:
            expect(f'{number}: {error}', str(error).isprintable(), True)


def test_damaged_within(folder):
    """Heads, palettes and rows with bytes changed at random, whose sums are right."""
    rnd = random.Random(1)
    wholes = [png(SHADES, colour, depths[0], filters=(4, 3, 1, 2), interlaced=colour == 3) for colour, (_, depths) in KINDS.items()]
    taken = 0
    for number in range(600):
        made = PNG_HEAD
        for kind, part in parts_of_png(rnd.choice(wholes)):
            part = bytearray(zlib.decompress(part) if kind == b'IDAT' else part)
            if part and rnd.random() < 0.5:
                at = rnd.randrange(len(part))
                part[at:at + rnd.choice([1, 1, 4])] = rnd.randbytes(rnd.choice([1, 1, 1, 0, 4]))
            made += chunk(kind, zlib.compress(part, 1) if kind == b'IDAT' else bytes(part))
        try:
            expect(f'{number}: its size', len(shades_of(made)), WIDTH * HEIGHT)
            taken += 1
        except ValueError as error:
            expect(f'{number}: {error}', (str(error).isprintable(), len(str(error)) < 200), (True, True))
    expect(f'{taken} are taken', 100 < taken < 500, True)


if __name__ == '__main__':
    support.run_tests('pictures', support.tests_in(globals()), lambda folder: (folder,), sys.argv[1:])
