"""Pictures of what is in a machine's memory: its tiles, its two maps and its objects, from bytes that `memory` of `gbkeep debug` answers.

Each is rows of shades 0 (black) to 3 (white), as a picture of the program has them, and `png_of` of `pictures` makes a PNG of it."""
from dataclasses import dataclass

VRAM, VRAM_BYTES = 0x8000, 0x1800
OAM, OAM_BYTES, OBJECTS = 0xfe00, 160, 40
REGISTERS, REGISTER_BYTES = 0xff40, 12
MAPS, MAP_BYTES = (0x9800, 0x9c00), 1024
TILE_BYTES, TILES, ACROSS = 16, 384, 16
# the palette that leaves colours as they are
PLAIN = 0b11_10_01_00
# what shows where an object has no colour
BACKGROUND = 2


@dataclass
class Canvas:
    """Shades, row by row."""
    width: int
    height: int
    shades: bytearray

    @classmethod
    def of(cls, width: int, height: int, shade: int = 3) -> 'Canvas':
        return cls(width, height, bytearray([shade]) * (width * height))

    def put(self, x: int, y: int, colours: list[list[int]], palette: int, is_object: bool = False) -> None:
        """Draws a tile with its upper left corner there. Of an object colour 0 is not drawn."""
        for row, line in enumerate(colours):
            for column, colour in enumerate(line):
                if colour or not is_object:
                    self.shades[(y + row) * self.width + x + column] = 3 - (palette >> 2 * colour & 3)


def tile(data: bytes, number: int) -> list[list[int]]:
    """The colours 0 to 3 of a tile, eight rows of eight."""
    at = number * TILE_BYTES
    return [[(low >> bit & 1) | (high >> bit & 1) << 1 for bit in range(7, -1, -1)] for low, high in zip(data[at:at + TILE_BYTES:2], data[at + 1:at + TILE_BYTES:2])]


def tiles(vram: bytes) -> Canvas:
    """The 384 tiles from 8000 on, sixteen a row, with colour 0 as white and 3 as black."""
    canvas = Canvas.of(ACROSS * 8, TILES // ACROSS * 8)
    for number in range(TILES):
        canvas.put(number % ACROSS * 8, number // ACROSS * 8, tile(vram, number), PLAIN)
    return canvas


def tile_of_map(number: int, lcdc: int) -> int:
    """Which of the 384 tiles an entry of a map means: bit 4 of LCDC says from where they are counted."""
    return number if lcdc & 0x10 or number >= 128 else number + 256


def map_of(vram: bytes, entries: bytes, registers: bytes) -> Canvas:
    """The 32 by 32 tiles of a map, by LCDC's bit 4 and BGP as they are."""
    canvas = Canvas.of(256, 256)
    for at, number in enumerate(entries):
        canvas.put(at % 32 * 8, at // 32 * 8, tile(vram, tile_of_map(number, registers[0])), registers[7])
    return canvas


def turned(colours: list[list[int]], flags: int) -> list[list[int]]:
    """An object as its flags have it: bit 5 left for right, bit 6 upside down."""
    rows = colours[::-1] if flags & 0x40 else colours
    return [row[::-1] for row in rows] if flags & 0x20 else rows


def objects(vram: bytes, oam: bytes, registers: bytes) -> Canvas:
    """The 40 objects in the order of OAM, eight a row, by their flags, OBP0, OBP1 and the height in LCDC's bit 2, on light grey with a gap of a pixel."""
    height = 16 if registers[0] & 4 else 8
    across = 8
    canvas = Canvas.of(across * 9 + 1, OBJECTS // across * (height + 1) + 1, BACKGROUND)
    for at in range(OBJECTS):
        number, flags = oam[4 * at + 2:4 * at + 4]
        colours = tile(vram, number & 0xfe) + tile(vram, number | 1) if height == 16 else tile(vram, number)
        canvas.put(at % across * 9 + 1, at // across * (height + 1) + 1, turned(colours, flags), registers[9 if flags & 0x10 else 8], True)
    return canvas
