"""A picture's shades as pixels: red, green and blue, a byte each. Of such alone GTK 4.8 makes a surface of cairo's without a float a colour, in a seventh of the time."""
from ..palettes import PALETTES
from ..pictures import HEIGHT, WIDTH

MOST_SCALE = 16
# rows of a picture that were drawn and may come again: so many bytes of them are kept
MOST_KEPT = 16 << 20


class Painter:
    """Draws pictures in the colours of a palette, each pixel as a square of so many. Most rows of a picture stood in the one before, and are drawn once."""

    def __init__(self, palette: int, scale: int):
        self.palette, self.scale = palette, scale
        colours = [bytes((red, green, blue)) * scale for red, green, blue in PALETTES[palette]]
        self.colours = dict(enumerate(colours))
        self.rows: dict[bytes, bytes] = {}
        self.most = MOST_KEPT // (3 * WIDTH * scale * scale)

    def pixels(self, shades: bytes) -> bytes:
        """The pixels of a picture, row by row."""
        rows, found = self.rows, []
        for at in range(0, WIDTH * HEIGHT, WIDTH):
            row = shades[at:at + WIDTH]
            drawn = rows.get(row)
            if drawn is None:
                if len(rows) >= self.most:
                    rows.clear()
                drawn = rows[row] = b''.join(map(self.colours.__getitem__, row)) * self.scale
            found.append(drawn)
        return b''.join(found)


def scale_of(width: int, height: int, is_whole: bool) -> tuple[int, float]:
    """How large a picture is drawn for so many pixels of the screen, and how large it is shown: the same, and a whole number, where it is to be so and three or
    more fit. Else what is drawn larger is made smaller, so that all its pixels are nearly of one size."""
    fits = max(min(width / WIDTH, height / HEIGHT), 0.1)
    if fits == int(fits) or is_whole and fits >= 3:
        return min(int(fits), MOST_SCALE), float(int(fits))
    return min(int(fits) + 1, MOST_SCALE), fits
