"""Pictures of a game: a PNG is written, and a PNG or a PGM is read, by Python alone. The same picture is the same bytes."""
import re
import struct
import zlib
from collections.abc import Iterator

WIDTH, HEIGHT = 160, 144
PNG_HEAD, PGM_HEAD = b'\x89PNG\r\n\x1a\n', b'P2'
# what a picture begins with that the program writes
PICTURE_HEAD = b'P2\n160 144\n3\n'
SCALE = 3
# a picture that is read may be so many times as large as the game's, and has so many samples
MOST_SCALE, MOST_SAMPLES = 16, 1 << 24
# of a PNG that is read: the samples of a pixel and the bits that one may have, by the type of its colours
GREY, RGB, INDEXED, GREY_ALPHA, RGB_ALPHA = 0, 2, 3, 4, 6
SAMPLES = {GREY: (1, (1, 2, 4, 8, 16)), RGB: (3, (8, 16)), INDEXED: (1, (1, 2, 4, 8)), GREY_ALPHA: (2, (8, 16)), RGB_ALPHA: (4, (8, 16))}
# where the pixels of a pass stand, from left and from above, and how far apart they are: of a PNG that is not interlaced, and of one that is
WHOLE, INTERLACED = ((0, 0, 1, 1),), ((0, 0, 8, 8), (4, 0, 8, 8), (0, 4, 4, 8), (2, 0, 4, 4), (0, 2, 2, 4), (1, 0, 2, 2), (0, 1, 1, 2))
MOST_PALETTE = 3 * 256
# of a PGM a number has so many digits at the most, and a sample so much
MOST_DIGITS, MOST_SAMPLE = 9, 65_535


# ---- written

def chunk(kind: bytes, data: bytes) -> bytes:
    """A part of a PNG."""
    return struct.pack('>I', len(data)) + kind + data + struct.pack('>I', zlib.crc32(kind + data))


def png_head(scale: int) -> bytes:
    """What a PNG of the game's picture begins with, so many times as large."""
    return PNG_HEAD + struct.pack('>I4sII', 13, b'IHDR', WIDTH * scale, HEIGHT * scale)


# what may be there where a picture of the game is written: one of these
PNG_HEADS = (png_head(1), png_head(SCALE))
PICTURE_HEADS = (PICTURE_HEAD, *PNG_HEADS)


def pgm_of(shades: bytes) -> bytes:
    """Shades 0 (black) to 3 (white) as the program writes a picture: 32 of them a line."""
    text = bytearray(PICTURE_HEAD + (b'0 ' * 31 + b'0\n') * (WIDTH * HEIGHT // 32))
    text[len(PICTURE_HEAD)::2] = bytes(shades).translate(bytes(48 + (shade & 3) for shade in range(256)))
    return bytes(text)


def png_of(shades: bytes, width: int = WIDTH, height: int = HEIGHT, scale: int = SCALE, palette: bytes = b'') -> bytes:
    """A PNG of shades 0 (black) to 3 (white), row by row; with a palette, of its colours, each in three bytes."""
    values = bytes(shades) if palette else bytes(shades).translate(bytes(shade * 85 & 255 for shade in range(256)))
    rows = (b'\0' + b''.join(values[at:at + 1] * scale for at in range(y * width, (y + 1) * width)) for y in range(height))
    head = struct.pack('>IIBBBBB', width * scale, height * scale, 8, 3 if palette else 0, 0, 0, 0)
    packed = zlib.compress(b''.join(row * scale for row in rows), 9)
    return PNG_HEAD + chunk(b'IHDR', head) + (chunk(b'PLTE', palette) if palette else b'') + chunk(b'IDAT', packed) + chunk(b'IEND', b'')


# ---- read

def shades_of(data: bytes) -> bytes:
    """The 160 by 144 shades, 0 to 3, of a PNG or a PGM of that size or a multiple: each grey or colour counts as the nearest of four greys, whatever is
    transparent.

    Raises ValueError where it is another picture, or damaged."""
    if data.startswith(PNG_HEAD):
        scale, greys = png_greys(data)
    elif data.startswith(PGM_HEAD):
        scale, greys = pgm_greys(data)
    else:
        raise ValueError('no PNG, and no plain PGM as `gbkeep frame` writes it')
    nearest = bytes((grey + 42) // 85 for grey in range(256))
    width = WIDTH * scale
    return b''.join(greys[y * width:(y + 1) * width:scale] for y in range(0, HEIGHT * scale, scale)).translate(nearest)


def scale_of(width: int, height: int, samples: int) -> int:
    """How many times as large as the game's a picture is, before it is unpacked."""
    scale = width // WIDTH
    if scale < 1 or (width, height) != (WIDTH * scale, HEIGHT * scale):
        raise ValueError(f'{width:,} by {height:,} pixels, and {WIDTH} by {HEIGHT} or a multiple are wanted')
    if scale > MOST_SCALE:
        raise ValueError(f'the picture is more than {MOST_SCALE} times as large')
    if width * height * samples > MOST_SAMPLES:
        raise ValueError(f'the picture has more than {MOST_SAMPLES:,} samples')
    return scale


def damaged(why: str) -> ValueError:
    return ValueError(f'the picture is damaged: {why}')


# ---- a PGM

def pgm_greys(data: bytes) -> tuple[int, bytes]:
    """The scale of a plain PGM, and its greys, 0 to 255."""
    head, *sizes = re.sub(rb'#[^\r\n]*', b'', data).split(None, 4)
    if head != PGM_HEAD or len(sizes) != 4:
        raise ValueError('no plain PGM as `gbkeep frame` writes it')
    width, height, most = (sample_of(word, 10 ** MOST_DIGITS) for word in sizes[:3])
    if not 1 <= most <= MOST_SAMPLE:
        raise damaged(f'no sample can be {most:,}')
    scale = scale_of(width, height, 1)
    # no more than that are parted, however many there are
    words = sizes[3].split(None, width * height)
    if len(words) != width * height:
        raise ValueError(f'the picture has not {width * height:,} values')
    grey = {word: sample_of(word, most) * 255 // most for word in set(words)}
    return scale, bytes(map(grey.__getitem__, words))


def sample_of(word: bytes, most: int) -> int:
    if not word.isdigit() or len(word) > MOST_DIGITS or int(word) > most:
        raise damaged('a value is no number, or is too great')
    return int(word)


# ---- a PNG

def parts_of(data: bytes) -> Iterator[tuple[bytes, bytes]]:
    """The parts of a PNG, each with its kind."""
    at = len(PNG_HEAD)
    while True:
        if at + 8 > len(data):
            raise damaged('it is cut short')
        length, = struct.unpack_from('>I', data, at)
        end = at + 8 + length
        if end + 4 > len(data):
            raise damaged('it is cut short')
        if zlib.crc32(data[at + 4:end]) != struct.unpack_from('>I', data, end)[0]:
            raise damaged('a sum is wrong')
        yield data[at + 4:at + 8], data[at + 8:end]
        at = end + 4


def packed_of(data: bytes) -> tuple[bytes, bytes, bytes]:
    """The head, the palette and the packed rows of a PNG. What else it has says nothing of its greys."""
    parts, palette, packed = parts_of(data), b'', []
    kind, head = next(parts)
    if kind != b'IHDR' or len(head) != 13:
        raise damaged('it has no head')
    for kind, part in parts:
        if kind == b'IDAT':
            packed.append(part)
        elif packed or kind == b'IEND':
            break
        elif kind == b'PLTE':
            palette = part
    return head, palette, b''.join(packed)


def png_greys(data: bytes) -> tuple[int, bytearray]:
    """The scale of a PNG, and its greys, 0 to 255; those of the rows that count are right."""
    head, palette, packed = packed_of(data)
    width, height, depth, colours, packing, filters, interlaced = struct.unpack('>IIBBBBB', head)
    if depth not in SAMPLES.get(colours, (0, ()))[1] or (packing, filters) != (0, 0) or interlaced > 1:
        raise damaged('there is no such kind of PNG')
    samples = SAMPLES[colours][0]
    scale = scale_of(width, height, samples)
    # columns, rows and bytes a row of each pass
    passes = [(*one, -(-(width - one[0]) // one[2]), -(-(height - one[1]) // one[3])) for one in (INTERLACED if interlaced else WHOLE)]
    lengths = [(columns * samples * depth + 7) // 8 for *_, columns, _ in passes]
    wanted = sum((length + 1) * rows for length, (*_, rows) in zip(lengths, passes))
    try:
        raw = zlib.decompressobj().decompress(packed, wanted)
    except zlib.error:
        raise damaged('its rows can\'t be unpacked') from None
    if len(raw) != wanted:
        raise damaged('rows are missing')
    grey = grey_of(colours, depth, palette)
    greys, at = bytearray(width * height), 0
    for length, (left, top, across, down, columns, rows) in zip(lengths, passes):
        above = bytearray(length)
        for y in range(top, top + rows * down, down):
            row = bytearray(raw[at + 1:at + 1 + length])
            unfilter(raw[at], row, above, max(1, samples * depth // 8))
            if y % scale == 0:
                greys[y * width + left:(y + 1) * width:across] = greys_of(samples_of(row, depth), colours, columns, grey)
            above, at = row, at + 1 + length
    return scale, greys


def unfilter(kind: int, row: bytearray, above: bytearray, step: int) -> None:
    """Makes of the differences of a row what it is. `step` is how many bytes a pixel has."""
    if kind == 1:
        for at in range(step, len(row)):
            row[at] = row[at] + row[at - step] & 255
    elif kind == 2:
        row[:] = bytes(one + other & 255 for one, other in zip(row, above))
    elif kind == 3:
        for at, one in enumerate(above):
            row[at] = row[at] + ((row[at - step] if at >= step else 0) + one) // 2 & 255
    elif kind == 4:
        for at in range(min(step, len(row))):
            row[at] = row[at] + above[at] & 255
        for at in range(step, len(row)):
            left, up, corner = row[at - step], above[at], above[at - step]
            to_left, to_up, to_corner = abs(up - corner), abs(left - corner), abs(left + up - 2 * corner)
            near = left if to_left <= to_up and to_left <= to_corner else up if to_up <= to_corner else corner
            row[at] = row[at] + near & 255
    elif kind != 0:
        raise damaged('there is no such filter')


def samples_of(row: bytearray, depth: int) -> bytes:
    """The samples of a row: as they are where one has up to a byte, and of 16 bits as 0 to 255."""
    if depth == 8:
        return row
    if depth == 16:
        return bytes((high << 8 | low) // 257 for high, low in zip(row[::2], row[1::2]))
    places = range(8 - depth, -1, -depth)
    return bytes(one >> place & (1 << depth) - 1 for one in row for place in places)


def grey_of(colours: int, depth: int, palette: bytes) -> bytes:
    """The grey of each sample of a PNG that has one a colour; of a palette, of as many as it has."""
    if colours == INDEXED:
        if not 0 < len(palette) <= MOST_PALETTE or len(palette) % 3:
            raise damaged('its palette is none')
        return bytes(sum(palette[at:at + 3]) // 3 for at in range(0, len(palette), 3))
    most = (1 << min(depth, 8)) - 1
    return bytes(sample * 255 // most for sample in range(most + 1))


def greys_of(samples: bytes, colours: int, columns: int, grey: bytes) -> bytes:
    """The greys of a row. Behind its last pixel may be bits that mean nothing."""
    if colours in (RGB, RGB_ALPHA):
        step = SAMPLES[colours][0]
        return bytes((red + green + blue) // 3 for red, green, blue in zip(samples[::step], samples[1::step], samples[2::step]))
    alone = samples[::SAMPLES[colours][0]][:columns]
    if alone and max(alone) >= len(grey):
        raise damaged('a colour is not in its palette')
    return alone.translate(grey.ljust(256, b'\0'))
