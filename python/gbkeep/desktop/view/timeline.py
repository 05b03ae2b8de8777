"""The timeline: a strip of pictures, and a large one of the moment that is chosen; of a recorded game any moment, which can be given a name."""
import bisect
from collections.abc import Callable

from ...notes import keep_notes, notes_of
from .. import words
from ..recorded import RecordedTimeline, Seeker, clock
from ..refusals import told_of
from ..timeline import FRAMES_BETWEEN, Stamped, Timeline
from ..words import ago
from .screen import Screen
from .states import closed_by_escape
from .toolkit import Adw, Gio, GLib, GObject, Gtk, labelled, picture_of

WIDE = 120


class Item(GObject.Object):
    """A moment of the strip."""

    def __init__(self, moment: Stamped, label: str):
        super().__init__()
        self.moment, self.label = moment, label


class TimelineWindow(Adw.Window):
    """Shows the moments, and goes on from one."""

    def __init__(self, parent: Gtk.Window, timeline: Timeline, palette: int, go_to: Callable[[Stamped], None]):
        super().__init__(transient_for=parent, modal=True, title='Timeline', default_width=760, default_height=640)
        self.palette, self.go_to = palette, go_to
        self.recorded = recorded = timeline if isinstance(timeline, RecordedTimeline) else None
        self.scale = Gtk.Scale(draw_value=False, hexpand=True, margin_start=12, margin_end=12)
        box = Gtk.Box(orientation=Gtk.Orientation.VERTICAL)
        box.append(Adw.HeaderBar())
        self.set_content(box)
        self.add_controller(closed_by_escape(self))
        self.store = Gio.ListStore(item_type=Item)
        self.fill(timeline)
        if not (recorded.is_known if recorded else self.store.get_n_items()):
            box.append(Adw.StatusPage(icon_name='document-open-recent-symbolic', title='There is nothing yet', vexpand=True, description=words.said('no moments') if not recorded else
                                      words.said('recording unread') if recorded.is_read.is_set() else words.said('recording is read')))
            return
        self.screen = Screen()
        self.screen.look(palette, False)
        self.screen.set_focusable(False)
        self.screen.remove_css_class('screen')
        self.screen.set_margin_top(12)
        box.append(self.screen)
        self.said = Gtk.Label(css_classes=['heading', 'numeric'], margin_top=12)
        box.append(self.said)
        self.chosen = Gtk.SingleSelection(model=self.store, autoselect=not recorded, selected=Gtk.INVALID_LIST_POSITION)
        factory = Gtk.SignalListItemFactory()
        factory.connect('setup', lambda _f, item: item.set_child(Gtk.Box(orientation=Gtk.Orientation.VERTICAL, spacing=4, margin_start=4, margin_end=4, margin_top=4, margin_bottom=4)))
        factory.connect('bind', self.bind)
        self.strip = Gtk.ListView(model=self.chosen, factory=factory, orientation=Gtk.Orientation.HORIZONTAL, css_classes=['strip'])
        self.strip.update_property([Gtk.AccessibleProperty.LABEL], ['Moments of play'])
        self.strip.connect('activate', lambda _l, _at: self.go())
        scrolled = Gtk.ScrolledWindow(child=self.strip, vscrollbar_policy=Gtk.PolicyType.NEVER, min_content_height=WIDE * 144 // 160 + 52)
        box.append(scrolled)
        word = 'Begin a branch here' if recorded else 'Go on from here'
        button = Gtk.Button(label=word, css_classes=['pill', 'suggested-action'], halign=Gtk.Align.CENTER, margin_top=6, margin_bottom=18)
        button.connect('clicked', lambda _: self.go())
        box.append(button)
        self.chosen.connect('notify::selected', lambda *_: self.show_chosen())
        if recorded:
            self.seek(box, recorded)
        else:
            self.chosen.set_selected(self.store.get_n_items() - 1)
            self.show_chosen()
        self.strip.add_tick_callback(self.begin)

    def begin(self, *_words: object) -> bool:
        """Shows where the play is, once the strip has a size: one that has none neither scrolls nor takes the keys."""
        if not self.strip.get_width():
            return GLib.SOURCE_CONTINUE
        self.scroll(self.store.get_n_items() - 1)
        (self.scale if self.recorded else self.strip.get_last_child()).grab_focus()
        return GLib.SOURCE_REMOVE

    def scroll(self, place: int) -> None:
        """Brings a card into sight."""
        if self.store.get_n_items():
            self.strip.activate_action('list.scroll-to-item', GLib.Variant.new_uint32(place))

    def fill(self, timeline: Timeline) -> None:
        self.store.splice(0, self.store.get_n_items(), [Item(moment, clock(moment.frames) if self.recorded else ago(seconds)) for moment, seconds in timeline.shown()])

    def bind(self, _factory: Gtk.SignalListItemFactory, item: Gtk.ListItem) -> None:
        box, one = item.get_child(), item.get_item()
        while child := box.get_first_child():
            box.remove(child)
        box.append(picture_of(one.moment.picture(), self.palette, WIDE))
        box.append(Gtk.Label(label=one.label, css_classes=['caption', 'dim-label']))

    def show_chosen(self) -> None:
        one = self.chosen.get_selected_item()
        if one:
            self.screen.show_picture(one.moment.picture() or self.screen.shades)
            if self.recorded:
                self.scale.set_value(one.moment.count)
            else:
                self.said.set_label(one.label)

    def go(self) -> None:
        one = self.chosen.get_selected_item()
        moment = self.recorded.at(int(self.scale.get_value())) if self.recorded else one and one.moment
        self.close()
        if moment:
            self.go_to(moment)

    # ---- any moment of a recorded game

    def seek(self, box: Gtk.Box, timeline: RecordedTimeline) -> None:
        """A line of all inputs with their marks, along which any moment is looked at and can be given a name."""
        seeker = Seeker(timeline, lambda count, shades: GLib.idle_add(self.found, count, shades))
        seeker.start()
        self.connect('close-request', lambda _: seeker.end())
        adjustment = Gtk.Adjustment(lower=0, upper=timeline.count, value=timeline.count, step_increment=1, page_increment=FRAMES_BETWEEN)
        labelled(self.scale, 'Moment, by its inputs').set_adjustment(adjustment)
        self.scale.connect('value-changed', lambda _: self.sought(timeline, seeker))
        self.name = labelled(Gtk.Entry(placeholder_text='Name of this moment', width_chars=24, max_length=80, halign=Gtk.Align.CENTER), 'Name of this moment')
        self.name.connect('activate', lambda _: self.mark(timeline))
        box.insert_child_after(self.scale, self.said)
        box.insert_child_after(self.name, self.scale)
        self.show_marks(timeline)
        self.sought(timeline, seeker)

    def sought(self, timeline: RecordedTimeline, seeker: Seeker) -> None:
        count = int(self.scale.get_value())
        frames = timeline.frames_of(count)
        self.said.set_label(f'{clock(frames)}, frame {frames:,}')
        self.name.set_text(self.marks.get(count, ''))
        self.choose(count)
        seeker.seek(count)

    def choose(self, count: int) -> None:
        """The card of this moment is the chosen one; where the moment lies behind its card, none is."""
        counts = [one.moment.count for one in self.store]
        place = bisect.bisect_right(counts, count) - 1
        self.chosen.set_selected(place if place >= 0 and counts[place] == count else Gtk.INVALID_LIST_POSITION)
        self.scroll(max(place, 0))

    def found(self, count: int, shades: bytes) -> bool:
        if count == int(self.scale.get_value()):
            self.screen.show_picture(shades)
        if self.recorded and len(self.recorded.moments) != self.store.get_n_items():
            # what was passed on the way there
            self.fill(self.recorded)
            self.choose(int(self.scale.get_value()))
        return False

    def show_marks(self, timeline: RecordedTimeline) -> None:
        self.scale.clear_marks()
        self.marks: dict[int, str] = {}
        try:
            self.marks = notes_of(timeline.recording).marks
        except Exception as error:
            self.said.set_label(told_of(error).in_a_line())
        for count, name in self.marks.items():
            self.scale.add_mark(count, Gtk.PositionType.TOP, f'<small>{GLib.markup_escape_text(name)}</small>')

    def mark(self, timeline: RecordedTimeline) -> None:
        """Gives this moment the name that was typed, or none."""
        name, count = ' '.join(self.name.get_text().split()), int(self.scale.get_value())
        try:
            notes = notes_of(timeline.recording)
            notes.marks.pop(count, None)
            if name:
                notes.marks[count] = name
            keep_notes(timeline.recording, notes)
        except Exception as error:
            self.said.set_label(told_of(error).in_a_line())
            return
        self.show_marks(timeline)
        self.scale.grab_focus()
