"""What its maker adds to a recording: author, comments, marks, and how often it was branched. It stands in RECORDING.notes (gbkeep-movie says how), a text that
can be edited, and may be missing."""
import os
import re
from dataclasses import dataclass, field

from .input_files import PathLike, WrongInput, is_there, owners_beside, printable, read_text
from .new_files import new_file

HEAD = '# notes of a recording of gbkeep'
MOST_BYTES, MOST_TEXT, MOST_COUNT = 1 << 20, 1000, 2 ** 64 - 1


@dataclass
class Notes:
    """The notes of a recording. A mark stands behind so many inputs."""
    author: str = ''
    rerecords: int = 0
    comments: list[str] = field(default_factory=list)
    marks: dict[int, str] = field(default_factory=dict)

    def take(self, line: str) -> bool:
        """Takes a line; False where it is none of these."""
        found = re.fullmatch(r'(author|comment|rerecords|mark) (?:([0-9]{1,20})(?: |$))?(.*)', line)
        if not found or len(line) > MOST_TEXT or not line.isprintable():
            return False
        word, digits, text = found.groups()
        if word in ('rerecords', 'mark'):
            if digits is None or int(digits) > MOST_COUNT or bool(text) != (word == 'mark'):
                return False
            if word == 'mark':
                self.marks[int(digits)] = text
            else:
                self.rerecords = int(digits)
        elif word == 'author':
            self.author = line[len('author '):]
        else:
            self.comments.append(line[len('comment '):])
        return True

    def about(self) -> list[str]:
        """The lines of all but the marks."""
        return [*([f'author {self.author}'] if self.author else []), *([f'rerecords {self.rerecords}'] if self.rerecords else []), *(f'comment {one}' for one in self.comments)]

    def up_to(self, count: int) -> 'Notes':
        """The notes of a branch with so many inputs."""
        return Notes(self.author, self.rerecords + 1, list(self.comments), {at: name for at, name in self.marks.items() if at <= count})


def notes_file(recording: PathLike) -> str:
    return f'{os.fsdecode(recording)}.notes'


def notes_of(recording: PathLike) -> Notes:
    """The notes of a recording; of one that has no file of them, none."""
    path, notes = notes_file(recording), Notes()
    if not is_there(path):
        return notes
    for number, line in enumerate(read_text(path, MOST_BYTES, owners_beside(recording)).splitlines(), 1):
        if line and not line.startswith('#') and not notes.take(line):
            raise WrongInput(f'{printable(path)}, line {number}: this is no author, comment, count of rerecords or mark')
    return notes


def keep_notes(recording: PathLike, notes: Notes) -> None:
    """Writes the notes of a recording beside it, where no other file has that name."""
    with new_file(notes_file(recording), text=True, begins=(HEAD.encode(),), save=recording) as file:
        file.write('\n'.join([HEAD, *notes.about(), *(f'mark {at} {name}' for at, name in sorted(notes.marks.items()))]) + '\n')
