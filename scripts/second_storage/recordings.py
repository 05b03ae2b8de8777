"""A second reader and writer of recordings and of the marks of recorded games, written from docs/STORAGE.md and docs/COMMANDS.md.

An input is six bytes, as save_files.inputs_of has it: `00` and the buttons, or `01`, four bytes of seconds and `00`."""
import hashlib
import re

from gbkeep.save_files import Game, MOST_UNSAVED, Refused, SECTOR, le, looked_at

ENTRIES = 83                # entries of a full sector
LONGEST = 216000            # frames of the longest run
MOST_TIMES = 1000000        # frames of a line of a script
MOST_BEYOND = 3200          # inputs that a recording may have beyond its game
MOST_COMPARED = 20000       # inputs of a game whose machine is compared
HEAD = b'GBKPRECD' + (1).to_bytes(4, 'little')
LIST = b'GBR1'


def head_of(cart):
    return HEAD + cart.id + bytes(SECTOR - len(HEAD) - len(cart.id))


def new_recording(sectors, cart):
    return bytearray(head_of(cart) + bytes((sectors - 1) * SECTOR))


# ---- entries: six bytes, a run of equal frames or seconds

def is_entry(code):
    return code[0] == 0 and 1 <= le(code[2:6]) <= LONGEST or code[0] == 1 and code[5] == 0


def inputs_in(code):
    return [code[:2]] * le(code[2:6]) if code[0] == 0 else [code]


def single(given):
    return given + (1).to_bytes(4, 'little') if given[0] == 0 else given


def lengthened(code, given):
    """The entry with one frame more; None where the input is no more of it."""
    if code[0] == 0 and given[0] == 0 and code[1] == given[1] and le(code[2:6]) < LONGEST:
        return code[:2] + (le(code[2:6]) + 1).to_bytes(4, 'little')
    return None


def with_inputs(entries, more):
    entries = list(entries)
    for given in more:
        longer = lengthened(entries[-1], given) if entries else None
        if longer:
            entries[-1] = longer
        else:
            entries.append(single(given))
    return entries


# ---- sectors

def entries_at(image, number):
    """The entries of the sector with this number; none where it is not valid there."""
    data = image[number * SECTOR:(number + 1) * SECTOR]
    count = le(data[8:10])
    if data[:4] != LIST or le(data[4:8]) != number or not 1 <= count <= ENTRIES:
        return []
    codes = [bytes(data[10 + 6 * at:16 + 6 * at]) for at in range(count)]
    return codes if all(is_entry(code) for code in codes) else []


def list_sector(number, entries):
    data = LIST + number.to_bytes(4, 'little') + len(entries).to_bytes(2, 'little') + b''.join(entries)
    return data + bytes(SECTOR - len(data))


class Recording:
    """A recording that is open. `writes` has the number and the bytes of each sector that is written, and `sync`, in order."""

    def __init__(self, image, cart):
        self.image, self.writes = bytearray(image), []
        if len(image) % SECTOR or len(image) // SECTOR > 65536:
            raise Refused('device size %d' % len(image))
        head = bytes(image[:SECTOR])
        if len(head) < SECTOR or head[:12] != HEAD or any(head[44:]):
            raise Refused('no recording')
        if head[12:44] != cart.id:
            raise Refused('other cartridge')
        self.full, self.is_clear, self.inputs = 0, False, []
        while True:
            self.tail = entries_at(image, self.full + 1) if (self.full + 2) * SECTOR <= len(image) else []
            for code in self.tail:
                self.inputs += inputs_in(code)
            if len(self.tail) < ENTRIES:
                break
            self.full += 1

    def sectors(self):
        return len(self.image) // SECTOR

    def write(self, number, data):
        self.image[number * SECTOR:(number + 1) * SECTOR] = data
        self.writes.append((number, bytes(data)))

    def append(self, more):
        entries = with_inputs(self.tail, more)
        if len(entries) > ENTRIES * (self.sectors() - 1 - self.full):
            raise Refused('recording full')
        if not more:
            return
        if not self.is_clear:
            # a sector of an append that was cut may stand after the list
            for number in range(self.full + (1 if self.tail else 0) + 1, self.sectors()):
                if any(self.image[number * SECTOR:(number + 1) * SECTOR]):
                    self.write(number, bytes(SECTOR))
            self.writes.append('sync')
            self.is_clear = True
        while entries:
            self.write(self.full + 1, list_sector(self.full + 1, entries[:ENTRIES]))
            if len(entries) < ENTRIES:
                break
            self.full, entries = self.full + 1, entries[ENTRIES:]
        self.tail = entries
        self.writes.append('sync')
        self.inputs += more


# ---- what the commands do

def script_of(inputs):
    """What `recorded` prints."""
    lines, at = [], 0
    while at < len(inputs):
        if inputs[at][0] == 1:
            lines.append('seconds %d' % le(inputs[at][1:5]))
            at += 1
            continue
        end = at
        while end < len(inputs) and inputs[end] == inputs[at] and end - at < MOST_TIMES:
            end += 1
        lines.append('frames %02X %d' % (inputs[at][1], end - at))
        at = end
    return ''.join(line + '\n' for line in lines).encode()


SECOND_LINE = b'\ngbkeep record\n'
MARKED = re.compile(rb'.*\ngbkeep record\n(?:(0|[1-9][0-9]*) ([0-9a-f]{64})\n)?', re.DOTALL)


def digest_of(inputs):
    """The SHA-256 of inputs, five bytes each."""
    return hashlib.sha256(b''.join(given[:5].ljust(5, b'\0') for given in inputs)).hexdigest().encode()


def mark_of(name, inputs):
    """The mark of a game that had these inputs when it was taken up, with a recording of this name."""
    return b'%s\ngbkeep record\n%d %s\n' % (name, len(inputs), digest_of(inputs))


def read_mark(mark):
    """How many inputs a mark knows, and their digest."""
    found = MARKED.fullmatch(mark)
    if not found or found[1] and int(found[1]) >= 2 ** 64:
        raise Refused('file failed')
    return int(found[1] or 0), found[2] or digest_of([])


class RecordedGame(Game):
    """A save file and a recording that `record` writes. `mark`: the bytes of SAVE.recorded, None where there is none; `name`: RECORDING as it is given."""

    def __init__(self, image, recording, cart, agree=True, mark=None, name=b''):
        super().__init__(image, cart)
        self.recording, self.agree, self.mark, self.name = None, agree, mark, name
        self.recorded_image = bytearray(recording)

    def take_up(self):
        if len(self.image) % SECTOR:
            raise Refused('device size %d' % len(self.image))
        count, _, _ = looked_at(self.image, self.cart, is_resumed=False)
        self.recording = Recording(self.recorded_image, self.cart)
        if len(self.recording.inputs) < count:
            raise Refused('recording behind, %d inputs' % len(self.recording.inputs))
        if len(self.recording.inputs) > count + MOST_BEYOND:
            raise Refused('recording ahead, %d inputs' % len(self.recording.inputs))
        if count <= MOST_COMPARED and not self.agree:
            raise Refused('machines differ')
        if self.mark is not None:
            known, digest = read_mark(self.mark)
            if not self.mark.startswith(self.name + SECOND_LINE) and known < count and not self.agree:
                raise Refused('machines differ')
            if known > len(self.recording.inputs) or digest_of(self.recording.inputs[:known]) != digest:
                raise Refused('other recording')
        self.mark = mark_of(self.name, self.recording.inputs[:count])
        self.resume()
        self.report = b''
        for given in self.recording.inputs[count:]:
            self.count += 1
            self.pending.append(given)
            if len(self.pending) == MOST_UNSAVED:
                super().save()
        if self.pending:
            super().save()
        self.report = b'resumed %d\n' % self.count

    def save(self):
        self.recording.append(self.pending)
        super().save()

    def recorded(self):
        """The bytes of the recording as it is now."""
        return bytes(self.recording.image if self.recording else self.recorded_image)
