"""A play of a game, in a thread of its own: frames at the pace of a Game Boy, a save each second, and what a person asks for between two frames."""
import contextlib
import os
import threading
import time
from dataclasses import dataclass
from pathlib import Path
from typing import Optional, Protocol

from ..game import Refused
from ..going_back import GoingBack, Moment
from ..input_files import WrongInput, printable
from ..new_files import Unsafe
from ..shown_game import Played, ShownGame
from ..slots import NotReplaced, short
from . import intake, words
from .files import (LINE_SECONDS, WARNING_SECONDS, Files, battery_name, keep_state, lasting_name, leave_picture, load_state, put_aside, take_battery, take_out,
                    with_recording)
from .mark import Mark
from .preferences import Preferences
from .recorded import RecordedTimeline
from .refusals import Stopped, Told, told_of
from .shelf import Shelf, entry_of, games_folder, keep_picture, own_save, picture_file
from .steering import Steering
from .timeline import Stamped, Timeline
from .words import FRAMES_A_SECOND, Question, Standing

FRAMES_A_SAVE = 60
STANDING_SECONDS = 0.25
# a program that is ended by something else is started again, so often in a minute
MOST_AGAIN = 3
# so long a program may save whose window was killed
KILLED_SECONDS = 1.5


@dataclass(frozen=True)
class Asked:
    """What is to be played, and how it is begun."""
    cart: str
    save: Optional[str] = None
    recording: Optional[str] = None
    battery: Optional[str] = None
    is_anew: bool = False
    state: Optional[int] = None


class PlayFace(Protocol):
    """What shows a play, and asks. Each call comes from the play's thread."""

    def say(self, line: str, seconds: float = LINE_SECONDS, file: Optional[str] = None) -> None: ...

    def say_held(self, line: str) -> None: ...

    def ask(self, question: Question) -> Optional[bool]: ...

    def tell(self, told: Told) -> None: ...

    def show(self, shades: bytes) -> None: ...

    def stands(self, standing: Standing) -> None: ...

    def began(self, save: str) -> None: ...

    def ended(self, told: Optional[Told]) -> None: ...


class Speed:
    """How many frames a second are played, taken anew each second or so; 1 is as a Game Boy plays."""

    def __init__(self):
        self.frames, self.since, self.rate = 0, time.monotonic(), 1.0

    def count(self) -> None:
        self.frames, passed = self.frames + 1, time.monotonic() - self.since
        if passed >= 1:
            self.rate, self.frames, self.since = self.frames / passed / FRAMES_A_SECOND, 0, time.monotonic()


class Play(threading.Thread):
    """A play from its beginning to its end."""

    def __init__(self, asked: Asked, face: PlayFace, chosen: Preferences, steering: Steering, shelf: Shelf, program: str):
        super().__init__(daemon=True, name='play')
        self.asked, self.face, self.chosen, self.steering, self.shelf, self.program = asked, face, chosen, steering, shelf, program
        self.shades = bytes(160 * 144)
        self.title = ''
        self.files: Optional[Files] = None
        self.timeline: Optional[Timeline] = None
        self.going_back = GoingBack()
        self.speed, self.due = Speed(), time.monotonic()
        self.told_time = self.saved_time = self.shown_time = 0.0
        self.pending = (0, 0.0)
        self.buttons = self.frames = 0
        self.held_line = ''

    # ---- what going back and files call

    @property
    def is_closed(self) -> bool:
        return self.steering.is_closed

    def is_held(self, name: str) -> bool:
        return self.steering.is_held(name)

    def say(self, line: str, seconds: float = LINE_SECONDS, file: Optional[str] = None) -> None:
        self.face.say(line, seconds, file)

    def say_rewound(self, line: str) -> None:
        if line != self.held_line:
            self.held_line = line
            self.face.say_held(line)

    def ask(self, question: Question) -> Optional[bool]:
        if self.is_closed:
            return None
        answer = self.face.ask(question)
        self.steering.forget()
        return answer

    def tell(self, told: Told) -> None:
        if not self.is_closed:
            self.face.tell(told)
            self.steering.forget()

    def show(self, shades: Optional[bytes] = None) -> None:
        self.shades = shades or self.shades
        self.face.show(self.shades)

    # ---- the play

    def run(self) -> None:
        told = None
        try:
            self.play()
        except BaseException as error:
            files = self.files
            told = told_of(error, self.asked.cart, files.save if files else self.asked.save, files.recording if files else self.asked.recording)
        self.face.ended(told)

    def play(self) -> None:
        files, is_agreed = self.begin()
        if files is None:
            return
        self.files = files
        is_new = not os.path.lexists(files.save)
        mark = Mark(files.save)
        game = self.opened(files, is_agreed, mark.left is not None)
        mark.note(game.count)
        welcome = words.welcome(mark.lost(game.count)) if not is_new else None
        self.take_up(game)
        if welcome:
            self.say(welcome, WARNING_SECONDS)
        elif is_new:
            self.say(words.said('keys hint'), 5)
        if self.asked.save and battery_name(self.asked.save):
            line = battery_name(self.asked.save) or ''
            self.say(f'{line[:1].upper()}{line[1:]}.', WARNING_SECONDS)
        if self.asked.state:
            self.steering.want('Go back', self.asked.state)
        again: list[float] = []
        while True:
            try:
                game = self.go(game, mark)
                game.save_all()
                game.close()
                break
            except Refused as refused:
                now = time.monotonic()
                again = [*(one for one in again if one > now - 60), now]
                if 'ended with status' not in refused.line or len(again) > MOST_AGAIN or self.is_closed:
                    raise
                abandon(game)
                game = files.open(self, self.chosen)
                self.take_up(game)
                self.say(words.said('goes on again'), WARNING_SECONDS)
        mark.remove()
        self.leave(game)

    def opened(self, files: Files, is_agreed: bool, was_killed: bool) -> Played:
        """Opens the game. Where its window was killed, the program that it had may still save, and is waited for a little."""
        until = time.monotonic() + (KILLED_SECONDS if was_killed else 0)
        while True:
            try:
                return files.open(self, self.chosen, is_agreed)
            except Refused as refused:
                if refused.line != 'gbkeep: device failed' or time.monotonic() > until or self.is_closed:
                    raise
            time.sleep(0.1)

    def begin(self) -> tuple[Optional[Files], bool]:
        """The files of the game that is asked for, which is begun by a battery file where there is one; and whether its clock is to be given the time since."""
        asked = self.asked
        found = intake.look(asked.cart)
        if found.kind != intake.CARTRIDGE:
            raise Stopped(Told(f'{found.name} is no cartridge', 'Give the cartridge (.gb) first, and then its save file.'))
        cart = found.path
        self.title = intake.check_cart(cart) or printable(Path(cart).stem)
        save, battery, recording, is_agreed = asked.save, asked.battery, asked.recording, False
        if save and Path(save).suffix.lower() in intake.BATTERIES and os.path.isfile(save) and intake.look(save).kind == intake.BATTERY:
            # a battery file in the place of a save file: a game is begun with it
            if not self.ask(words.asked('begin with', battery=short(save), title=self.title)):
                return None, False
            battery, save = save, None
        if save is None:
            save = own_save(cart, self.chosen.games)
        elif not os.path.isdir(os.path.dirname(os.path.abspath(save))):
            raise Stopped(Told(f'There is no folder for {short(save)}', f'{printable(os.path.dirname(os.path.abspath(save)))} is not there. Make it, or name another place.'))
        if asked.is_anew or battery and not asked.battery:
            put_aside(cart, save, self.program)
        beside = intake.battery_beside(cart, save) if not battery and not recording and not asked.is_anew else None
        if beside:
            answer = self.ask(words.asked('begin with', battery=short(beside), title=self.title))
            if answer is None:
                return None, False
            battery = beside if answer else None
        if recording:
            recording = lasting_name(save, recording)
        elif battery:
            is_agreed = take_battery(self, battery, cart, save, self.program)
        else:
            recording, is_played = with_recording(self, save)
            if not is_played:
                return None, False
        return Files(cart, save, recording, self.program), is_agreed

    def take_up(self, game: Played) -> None:
        """A game is open: the list and the view have it, and its timeline is read."""
        files = self.files
        assert files is not None
        with contextlib.suppress(WrongInput, Unsafe, OSError):
            entry = entry_of(files.cart, files.save, game.header.title, files.recording)
            self.shelf.note(entry)
            self.timeline, digest = None, bytes.fromhex(entry.digest)
            if game.command != 'record':
                self.timeline = Timeline(files.save, digest)
                self.timeline.read(game.count)
            elif isinstance(game, ShownGame):
                self.timeline = RecordedTimeline(files.cart, digest, entry.recording, self.program, game)
        self.face.began(files.save)
        self.title = printable(game.header.title) or printable(Path(files.cart).stem)
        self.saved_time = time.monotonic()
        self.pending = (game.count, self.saved_time)
        self.show(game.picture().shades)
        self.due, self.speed = time.monotonic(), Speed()
        self.stands(game, True)

    def leave(self, game: Played) -> None:
        files = self.files
        assert files is not None
        keep_picture(picture_file(files.save), self.shades)
        with contextlib.suppress(WrongInput, OSError):
            self.shelf.note(entry_of(files.cart, files.save, game.header.title, files.recording))

    def stands(self, game: Played, is_now: bool = False) -> None:
        """Tells how the play stands, now and then."""
        now = time.monotonic()
        if game.saved >= self.pending[0]:
            self.saved_time = max(self.saved_time, self.pending[1])
        if not is_now and now < self.told_time + STANDING_SECONDS:
            return
        self.told_time = now
        unsaved = now - self.saved_time if game.saved < game.count else 0.0
        steering = self.steering
        self.face.stands(Standing(self.title, game.count, game.saved, unsaved, self.speed.rate, steering.is_paused, steering.stays_fast or steering.is_held('Fast'),
                                  game.command == 'record', self.timeline.frames if self.timeline else self.frames, self.buttons,
                                  self.timeline.rerecords if isinstance(self.timeline, RecordedTimeline) else 0))

    def begin_save(self, game: Played) -> None:
        if game.saved >= self.pending[0]:
            self.saved_time = max(self.saved_time, self.pending[1])
            self.pending = (game.count, time.monotonic())
        game.begin_save()

    def frame(self, game: Played, is_shown: bool = True) -> None:
        self.buttons = self.steering.buttons()
        game.frame(self.buttons)
        self.frames += 1
        if is_shown or (self.going_back.frames + 1) % 4 == 0:
            self.shades = game.picture().shades
        if is_shown:
            self.show()
        self.going_back.note(game, self.shades)
        if self.timeline and self.timeline.note(game, self.shades) and self.files:
            # where the window is killed its card has a picture of the last ten seconds
            threading.Thread(target=keep_picture, args=(picture_file(self.files.save), self.shades), daemon=True).start()

    def go(self, game: Played, mark: Mark) -> Played:
        """Plays until the window is closed, and returns the game that is open then."""
        steering, was_paused, told = self.steering, False, None
        while not steering.is_closed:
            while (wanted := steering.next_wanted()) and not steering.is_closed:
                game = self.do(game, *wanted)
                self.due, self.speed = time.monotonic(), Speed()
            if game.trouble != told:
                before, told = told or '', game.trouble
                line = told or (words.said('clock goes on') if 'clock' in before else words.said('saved again'))
                self.say(line if line.endswith('.') else f'{line[:1].upper()}{line[1:]}.', WARNING_SECONDS)
            if steering.is_closed:
                break
            rests = steering.is_paused or steering.waits > 0
            if rests != was_paused:
                was_paused = rests
                if rests:
                    game.save_all()
                else:
                    self.speed = Speed()
                self.stands(game, True)
            if rests:
                if game.saved < game.count:
                    self.begin_save(game)
                self.stands(game)
                steering.rest(0.05)
                self.due = time.monotonic()
                continue
            fast = steering.stays_fast or steering.is_held('Fast')
            factor = self.chosen.fast if fast else 1
            now = time.monotonic()
            # of what runs fast only some pictures are shown
            is_shown = not fast or now >= self.shown_time + 1 / FRAMES_A_SECOND
            if is_shown:
                self.shown_time = now
            self.frame(game, is_shown)
            mark.note(game.count)
            if self.frames % FRAMES_A_SAVE == 0:
                self.begin_save(game)
            self.speed.count()
            self.stands(game)
            self.due += 1 / FRAMES_A_SECOND / (factor or 1)
            now = time.monotonic()
            if factor == 0 or self.due < now - 0.25:
                self.due = now
            elif self.due > now:
                time.sleep(self.due - now)
        return game

    def do(self, game: Played, action: str, what: object) -> Played:
        """Does what a person asks for between two frames, and answers the game that is open then."""
        files, chosen, back = self.files, self.chosen, self.going_back
        assert files is not None
        moved: Optional[Moment] = None
        if action == 'Picture':
            leave_picture(self, self.shades, self.title, chosen)
        elif action == 'Keep slot':
            keep_state(self, game, files, what if isinstance(what, int) else chosen.state, self.shades)
        elif action == 'Go back':
            before = back.moment(game, self.shades)
            game = load_state(self, game, files, chosen, what if isinstance(what, int) else chosen.state)
            back.came_back(game, before)
            self.show(game.picture().shades)
        elif action == 'Rewind':
            moved = back.rewind(self, game)
        elif action == 'Reset':
            back.reset(self, game)
        elif action == 'Undo':
            back.undo(self, game)
        elif action == 'Next frame':
            if self.steering.is_paused:
                self.frame(game)
                self.begin_save(game)
            self.steering.is_paused = True
        elif action == 'Go to' and isinstance(what, Stamped):
            moved = self.go_to(game, what)
        elif action == 'Take out' and isinstance(what, tuple):
            self.take_out(game, *what)
        if moved is not None:
            game = files.branch(self, game, chosen, moved.count, moved.given_until)
            self.take_up(game)
        self.stands(game, True)
        return game

    def go_to(self, game: Played, moment: Stamped) -> Optional[Moment]:
        """Goes on from a moment of the timeline; of a recorded game it answers that moment where the player agrees to a branch."""
        if game.command == 'record':
            return moment if self.ask(words.asked('branch here')) else None
        self.going_back.go_on(self, game, moment, Moment(game, self.shades))
        self.say(words.said('goes on from there'))
        return None

    def take_out(self, game: Played, path: str, is_battery: bool) -> None:
        files = self.files
        assert files is not None
        game.save_all()
        try:
            take_out(files.cart, files.save, path, is_battery, self.program)
        except (Refused, Unsafe, WrongInput, NotReplaced, OSError) as error:
            told = told_of(error, files.cart, files.save, files.recording)
            self.tell(told)
        else:
            self.say(words.said('made', name=printable(Path(path).name)), WARNING_SECONDS, path)


def abandon(game: Played) -> None:
    """Ends the programs of a game of which one was ended by something else. The other one saves."""
    if isinstance(game, ShownGame):
        for one in (game.player.process, game.game.process):
            if one.stdin:
                with contextlib.suppress(OSError, ValueError):
                    one.stdin.close()
        game.player.process.kill()
        game.player.process.wait()
        game.game.process.wait()
    else:
        game.process.kill()
        game.process.wait()


def usual_folder(chosen: Preferences) -> str:
    """Where games are kept, for people."""
    return str(games_folder(chosen.games))
