"""What the window says: the texts of messages.json, which the page has, too, with what is filled in."""
import json
import time
from dataclasses import dataclass
from pathlib import Path
from typing import Optional

MINUTE, HOUR, DAY = 60, 3_600, 86_400
FRAMES_A_SECOND = 4194304 / 70224
# the words of actions; what is said; what is asked, with its answers; refusals of the program, in words for players
MESSAGES = json.loads((Path(__file__).resolve().parent.parent / 'messages.json').read_text(encoding='utf-8'))


def said(name: str, /, **given: object) -> str:
    return MESSAGES['said'][name].format(**given)


@dataclass(frozen=True)
class Question:
    """What a person is asked: in a line, with what that means, and the two answers by the act that each stands for."""
    head: str
    body: str = ''
    yes: str = 'Yes'
    no: str = 'Cancel'
    is_grave: bool = False


@dataclass(frozen=True)
class Standing:
    """How a play stands: what the header tells of it."""
    title: str
    count: int = 0
    saved: int = 0
    # seconds since what is saved was played
    unsaved: float = 0
    rate: float = 1
    is_paused: bool = False
    is_fast: bool = False
    is_recorded: bool = False
    frames: int = 0
    buttons: int = 0
    rerecords: int = 0

    def line(self, pause_key: str = 'P') -> str:
        """What stands below the title."""
        if self.is_paused:
            return said('paused, with its key', key=pause_key) if self.saved >= self.count else said('paused')
        if self.unsaved >= 5:
            return said('not saved', count=int(self.unsaved))
        saved = said('saved before', count=max(1, int(self.unsaved))) if self.count > self.saved else said('saved')
        return f'{saved}, {self.rate:.0%}' if self.is_fast else saved

    def counter(self) -> str:
        return f'{self.rate:.0%}, frame {self.frames:,}' + (f', {self.rerecords:,} rerecord{"s" * (self.rerecords != 1)}' if self.rerecords else '')


def asked(name: str, is_grave: bool = False, /, **given: object) -> Question:
    return Question(**{part: text.format(**given) for part, text in MESSAGES['asked'][name].items()}, is_grave=is_grave)


def when(moment: float, now: float) -> str:
    """When something was, as seen from another moment; both in seconds since 1970."""
    seconds = int(now - moment)
    if seconds < HOUR:
        return said('just now') if seconds < 5 else ago(seconds if seconds < MINUTE else seconds - seconds % MINUTE)
    then, today = time.localtime(moment), time.localtime(now)
    clock = time.strftime('%H:%M', then)
    days = (time.mktime((*today[:3], 12, 0, 0, 0, 0, -1)) - time.mktime((*then[:3], 12, 0, 0, 0, 0, -1))) / DAY
    if round(days) in (0, 1):
        return said(('today', 'yesterday')[round(days)], clock=clock)
    return f'{then.tm_mday} {time.strftime("%b %Y", then)}'


def ago(seconds: float) -> str:
    """So many seconds before this moment."""
    if seconds < 1:
        return said('just now')
    return said('seconds ago', count=round(seconds)) if seconds < MINUTE else said('minutes ago', count=round(seconds / MINUTE))


def welcome(lost: Optional[float]) -> Optional[str]:
    """After a game was opened that was not closed: from where it goes on."""
    if lost is None:
        return None
    return said('welcome', where=said('where it was closed') if lost < 0.05 else said('before it was closed', seconds=f'{lost:.1f}'))


def rewound(seconds: float, is_oldest: bool) -> str:
    return said('rewound, oldest' if is_oldest else 'rewound', seconds=f'{seconds:.1f}')
