"""GTK, libadwaita and what they need, as the view takes them; and small helpers."""
import os
from typing import Optional

# where only software draws, cairo takes a fraction of the processor that GL takes
if not os.environ.get('GSK_RENDERER') and not any(name.startswith(('card', 'renderD')) for name in (os.listdir('/dev/dri') if os.path.isdir('/dev/dri') else ())):
    os.environ['GSK_RENDERER'] = 'cairo'

import gi  # noqa: E402

gi.require_version('Gtk', '4.0')
gi.require_version('Adw', '1')
from gi.repository import Adw, Gdk, Gio, GLib, GObject, Graphene, Gtk, Pango  # noqa: E402

from ...palettes import PALETTES  # noqa: E402
from ...pictures import HEIGHT, WIDTH  # noqa: E402
from ..pixels import Painter  # noqa: E402

__all__ = ['Adw', 'Gdk', 'Gio', 'GLib', 'GObject', 'Graphene', 'Gtk', 'PALETTES', 'Pango', 'HEIGHT', 'WIDTH', 'icon_button', 'labelled', 'picture_of', 'show_page', 'texture_of']
_painters: dict[tuple[int, int], Painter] = {}


def texture_of(shades: bytes, palette: int, scale: int) -> Gdk.Texture:
    """A picture in the colours of a palette, so many times as large."""
    painter = _painters.get((palette, scale))
    if painter is None:
        if len(_painters) > 16:
            _painters.clear()
        painter = _painters[palette, scale] = Painter(palette, scale)
    width, height = WIDTH * scale, HEIGHT * scale
    return Gdk.MemoryTexture.new(width, height, Gdk.MemoryFormat.R8G8B8, GLib.Bytes.new(painter.pixels(shades)), 3 * width)


class Thumb(Gtk.Widget):
    """A small picture of a game, always so wide; where there is none, its place."""
    __gtype_name__ = 'GbkeepThumb'

    def __init__(self, shades: Optional[bytes], palette: int, width: int):
        super().__init__(halign=Gtk.Align.CENTER, overflow=Gtk.Overflow.HIDDEN, css_classes=['thumb'] if shades is not None else ['thumb', 'empty'])
        self.shades, self.palette, self.width = shades, palette, width

    def do_measure(self, orientation: Gtk.Orientation, for_size: int) -> tuple[int, int, int, int]:
        size = self.width if orientation == Gtk.Orientation.HORIZONTAL else self.width * HEIGHT // WIDTH
        return size, size, -1, -1

    def do_snapshot(self, snapshot: Gtk.Snapshot) -> None:
        if self.shades is not None:
            texture = texture_of(self.shades, self.palette, -(-self.width * self.get_scale_factor() // WIDTH))
            snapshot.append_texture(texture, Graphene.Rect().init(0, 0, self.get_width(), self.get_height()))


def picture_of(shades: Optional[bytes], palette: int, width: int) -> Gtk.Widget:
    """A small picture of a game; where there is none, its place."""
    return Thumb(shades, palette, width)


def labelled(widget: Gtk.Widget, label: str) -> Gtk.Widget:
    """A widget with its name for who can't see it, and for who points at it."""
    widget.update_property([Gtk.AccessibleProperty.LABEL], [label])
    widget.set_tooltip_text(label)
    return widget


def icon_button(icon: str, label: str, kind: type = Gtk.Button, **more: object) -> Gtk.Button:
    button = kind(icon_name=icon, **more)
    labelled(button, label)
    return button


def show_page(stack: Gtk.Stack, name: str) -> None:
    """Shows a page of a stack. The others are hidden from who reads the window by its tree, too, where GTK would leave them in it."""
    stack.set_visible_child_name(name)
    shown = stack.get_visible_child()
    child = stack.get_first_child()
    while child:
        child.update_state([Gtk.AccessibleState.HIDDEN], [child is not shown])
        child = child.get_next_sibling()
