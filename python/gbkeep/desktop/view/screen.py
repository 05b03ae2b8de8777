"""The picture of the game, as large as fits."""
from typing import Optional

from ..pixels import scale_of
from .toolkit import HEIGHT, WIDTH, Gdk, GObject, Graphene, Gtk, texture_of


class Screen(Gtk.Widget):
    """Shows the newest picture: at a whole multiple, or fitted."""
    __gtype_name__ = 'GbkeepScreen'

    def __init__(self):
        super().__init__(hexpand=True, vexpand=True, focusable=True, can_focus=True, css_classes=['screen'])
        self.shades = bytes(WIDTH * HEIGHT)
        self.palette, self.is_whole, self.drawn = 0, True, 0
        self.texture: Optional[Gdk.Texture] = None
        self.of: Optional[tuple] = None
        self.update_property([Gtk.AccessibleProperty.LABEL], ['The picture of the game'])

    def show_picture(self, shades: bytes) -> None:
        if shades != self.shades:
            self.shades = shades
            self.queue_draw()

    def look(self, palette: int, is_whole: bool) -> None:
        """Takes what is chosen."""
        self.palette, self.is_whole = palette, is_whole
        self.queue_draw()

    def do_measure(self, orientation: Gtk.Orientation, for_size: int) -> tuple[int, int, int, int]:
        size = WIDTH if orientation == Gtk.Orientation.HORIZONTAL else HEIGHT
        return size, 2 * size, -1, -1

    def do_snapshot(self, snapshot: Gtk.Snapshot) -> None:
        width, height, device = self.get_width(), self.get_height(), self.get_scale_factor()
        drawn, shown = scale_of(width * device, height * device, self.is_whole)
        if (self.shades, self.palette, drawn) != self.of:
            self.of = self.shades, self.palette, drawn
            self.texture = texture_of(self.shades, self.palette, drawn)
        across, down = WIDTH * shown / device, HEIGHT * shown / device
        left, top = (int((width - across) / 2 * device) / device, int((height - down) / 2 * device) / device)
        snapshot.append_texture(self.texture, Graphene.Rect().init(left, top, across, down))
        self.drawn += 1


GObject.type_ensure(Screen)
