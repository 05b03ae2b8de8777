"""The window of shortcuts, of the keys as they are chosen."""
from xml.sax.saxutils import escape

from ..actions import ACTIONS, Keys
from .toolkit import Gtk

HEAD = '<interface><object class="GtkShortcutsWindow" id="window"><property name="modal">1</property><child><object class="GtkShortcutsSection">' \
       '<property name="section-name">keys</property><property name="max-height">18</property>'


def shortcuts_window(parent: Gtk.Window, keys: Keys) -> Gtk.ShortcutsWindow:
    groups: dict[str, list[str]] = {}
    for action in ACTIONS:
        if keys.get(action.name):
            groups.setdefault(action.group, []).append(
                '<child><object class="GtkShortcutsShortcut"><property name="accelerator">' + escape(' '.join(keys[action.name]))
                + f'</property><property name="title">{escape(action.words)}</property></object></child>')
    parts = [f'<child><object class="GtkShortcutsGroup"><property name="title">{escape(name)}</property>{"".join(rows)}</object></child>' for name, rows in groups.items()]
    window = Gtk.Builder.new_from_string(f'{HEAD}{"".join(parts)}</object></child></object></interface>', -1).get_object('window')
    window.set_transient_for(parent)
    return window
