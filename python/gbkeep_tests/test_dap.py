"""Goes through the Debug Adapter Protocol with gbkeep-dap: each request, runs and time in both directions, messages that mean harm, and ends.

usage: test_dap.py GBKEEP [TEST..]

Each message is checked by the schema that Debian's package python3-pydevd brings (python3-debugpy needs it), where it is installed. The status is 1 where a test
fails."""
import base64
import inspect
import json
import os
import subprocess
import sys
import unittest
from pathlib import Path
from typing import Optional

from gbkeep_tests import support
from gbkeep_tests.support import CART, DEMO, expect, tool_words, wrong
from gbkeep_tests.test_debug import C_SOURCE, DEBUG_CDB, DEBUG_NOI, ENDS, Room, cartridge
from scripts.doctor import told

SECONDS = 120
DEBIAN = '/usr/lib/python3/dist-packages'
ASSEMBLER = DEMO / 'demo.asm'
KINDS = {'integer': int, 'string': str, 'boolean': bool, 'array': list, 'object': dict, 'number': (int, float), 'null': type(None)}


# ---- the schema

def schema() -> Optional[object]:
    """The schema's classes; None where the package is not installed."""
    if DEBIAN not in sys.path:
        sys.path.append(DEBIAN)
    try:
        from _pydevd_bundle._debug_adapter import pydevd_base_schema, pydevd_schema
        return pydevd_schema and pydevd_base_schema
    except ImportError:
        return None


def fits(known: object, what: str, value: object, rule: dict) -> None:
    """Fails the test where a value is not what the schema says of it."""
    if '$ref' in rule:
        fits_class(known, value, known._all_messages[rule['$ref'].rpartition('/')[2]])
        return
    kinds = rule.get('type', list(KINDS))
    allowed = tuple(KINDS[one] for one in (kinds if isinstance(kinds, list) else [kinds]) if one in KINDS)
    if allowed and (not isinstance(value, allowed) or isinstance(value, bool) and bool not in allowed and kinds != list(KINDS)):
        wrong(f'{what}: {value!r:.200} is not {kinds}')
    if 'enum' in rule and value not in rule['enum']:
        wrong(f'{what}: {value!r} is none of {rule["enum"]}')
    if isinstance(value, list) and 'items' in rule:
        for one in value:
            fits(known, f'{what}[]', one, rule['items'])
    if isinstance(value, dict) and 'properties' in rule:
        has_all(known, what, value, rule['properties'], rule.get('required', []))


def has_all(known: object, what: str, value: dict, properties: dict, required: list) -> None:
    for name in required:
        if name not in value:
            wrong(f'{what} has no {name}: {value!r:.200}')
    for name, part in value.items():
        if name in properties:
            fits(known, f'{what}.{name}', part, properties[name])
        elif what != 'Capabilities':
            wrong(f'{what} has a {name}, which the protocol does not know')


def fits_class(known: object, value: object, kind: type) -> None:
    if hasattr(kind, 'VALID_VALUES'):
        expect(f'a value of {kind.__name__}: {value!r}', value in kind.VALID_VALUES, True)
        return
    if not isinstance(value, dict):
        wrong(f'{value!r:.200} is no {kind.__name__}')
    parameters = inspect.signature(kind.__init__).parameters.values()
    required = [one.name for one in parameters if one.default is inspect.Parameter.empty and one.kind is one.POSITIONAL_OR_KEYWORD and one.name not in ('self', 'seq')]
    has_all(known, kind.__name__, value, kind.__props__, [one for one in required if one in kind.__props__])


# ---- a client

class Client:
    """An editor."""

    def __init__(self, program: str, folder: Path):
        self.process = subprocess.Popen([*tool_words('dap'), '--program', program], stdin=subprocess.PIPE, stdout=subprocess.PIPE, stderr=subprocess.PIPE, cwd=folder)
        self.sequence, self.got, self.events, self.known = 0, 0, [], schema()

    def give(self, content: bytes, head: bytes = b'') -> None:
        self.process.stdin.write(head or b'Content-Length: %d\r\n\r\n' % len(content))
        self.process.stdin.write(content)
        self.process.stdin.flush()

    def message(self) -> dict:
        head = self.process.stdout.readline()
        if not head.startswith(b'Content-Length: ') or self.process.stdout.readline() != b'\r\n':
            wrong(f'no message: {head!r}, {self.process.stderr.read()[-2000:]!r}')
        message = json.loads(self.process.stdout.read(int(head.split()[1])))
        self.got += 1
        expect('the number of a message', message['seq'], self.got)
        self.check(message)
        return message

    def check(self, message: dict) -> None:
        if self.known is None:
            return
        kinds = self.known._event_to_types if message['type'] == 'event' else self.known._responses_to_types
        kind = kinds.get(message.get('event') or message.get('command'))
        if message['type'] == 'response' and not message['success']:
            kind = self.known._all_messages['ErrorResponse']
        if kind:
            fits_class(self.known, message, kind)
        elif not str(message.get('command', '')).startswith('gbkeep/'):
            wrong(f'the protocol has no such message: {message!r:.200}')

    def request(self, command: str, **arguments: object) -> int:
        self.sequence += 1
        self.give(json.dumps({'seq': self.sequence, 'type': 'request', 'command': command, 'arguments': arguments}).encode())
        return self.sequence

    def response(self, number: int) -> dict:
        while True:
            message = self.message()
            if message['type'] == 'event':
                self.events.append(message)
                continue
            expect('what is answered', message['request_seq'], number)
            return message

    def ask(self, command: str, **arguments: object) -> dict:
        """The body of an answer, which has to be good."""
        message = self.response(self.request(command, **arguments))
        if not message['success']:
            wrong(f'{command} is refused: {message["message"]}')
        return message.get('body', {})

    def refused(self, command: str, why: str, **arguments: object) -> None:
        message = self.response(self.request(command, **arguments))
        expect(f'{command} is refused, {message.get("message", "")}', (message['success'], why in message.get('message', '')), (False, True))

    def event(self, name: str) -> dict:
        """The next event of a name, whatever came before it."""
        while True:
            for at, one in enumerate(self.events):
                if one.get('event') == name:
                    del self.events[:at + 1]
                    return one.get('body', {})
            self.events.append(self.message())

    def runs(self, command: str, **arguments: object) -> str:
        """A request that moves the machine: why it stands still then."""
        self.events = [one for one in self.events if one['event'] != 'stopped']
        self.ask(command, threadId=1, **arguments)
        return self.event('stopped')['reason']

    def place(self) -> str:
        return self.ask('stackTrace', threadId=1)['stackFrames'][0]['instructionPointerReference']

    def name(self) -> str:
        return self.ask('stackTrace', threadId=1)['stackFrames'][0]['name']

    def digest(self) -> str:
        return self.ask('evaluate', expression='digest', context='repl')['result']

    def launch(self, cart: object, **more: object) -> None:
        capabilities = self.ask('initialize', adapterID='gbkeep', linesStartAt1=True)
        expect('time goes back', capabilities['supportsStepBack'], True)
        self.ask('launch', program=str(cart), **more)
        self.event('initialized')

    def begin(self) -> None:
        self.ask('configurationDone')
        expect('it stands at its entry', self.event('stopped')['reason'], 'entry')

    def ends(self) -> None:
        self.ask('disconnect')
        self.process.stdin.close()
        expect('its end', (self.process.wait(SECONDS), self.process.stderr.read()), (0, b''))
        self.process.stdout.close()


def test_schema(room):
    """Whether messages are checked by the schema."""
    if schema() is None:
        raise unittest.SkipTest(f"the schema of the debug adapter's messages: {told('pydevd')}")


def test_runs(room):
    """Breakpoints of each kind, steps, and time in both directions."""
    client = Client(room.program, room.folder)
    client.launch(CART)
    functions = client.ask('setFunctionBreakpoints', breakpoints=[{'name': 'walk'}, {'name': 'wolk'}, {'name': 'count_time', 'condition': '[$C008] >= 2', 'hitCondition': '1'}])['breakpoints']
    expect('functions', [one['verified'] for one in functions], [True, False, True])
    expect('why not', 'there is walk' in functions[1]['message'], True)
    client.begin()
    expect('threads', [one['id'] for one in client.ask('threads')['threads']], [1])
    expect('a breakpoint', (client.runs('continue'), client.name(), client.place()), ('breakpoint', 'walk', '0x020F'))
    first = client.digest()
    expect('a step', (client.runs('stepIn', granularity='instruction'), client.place()), ('step', '0x0212'))
    expect('a step back', (client.runs('stepBack', granularity='instruction'), client.place(), client.digest()), ('step', '0x020F', first))
    expect('a condition', (client.runs('continue'), client.name()), ('breakpoint', 'walk'))
    expect('back to the one before', (client.runs('reverseContinue'), client.digest()), ('breakpoint', first))
    expect('and to the beginning', (client.runs('reverseContinue'), client.place()), ('entry', '0x0100'))
    expect('and forth', (client.runs('continue'), client.digest()), ('breakpoint', first))
    client.ask('setFunctionBreakpoints', breakpoints=[{'name': 'begin_round', 'logMessage': 'A is {A}'}])
    place = client.ask('setInstructionBreakpoints', breakpoints=[{'instructionReference': '0x02AB'}, {'instructionReference': 'x'}])['breakpoints']
    expect('an instruction', [one['verified'] for one in place], [True, False])
    expect('it is met', (client.runs('continue'), client.name()), ('breakpoint', 'count_time'))
    expect('over a call', (client.runs('stepOut'), client.name()), ('step', 'vblank+13'))
    expect('back over it', (client.runs('stepBack'), client.name()), ('step', 'vblank+10'))
    client.runs('stepIn')
    info = client.ask('dataBreakpointInfo', name='[$C008]')
    expect('data', info['dataId'], 'C008-C008')
    expect('no data', client.ask('dataBreakpointInfo', name='A + 1')['dataId'], None)
    data = client.ask('setDataBreakpoints', breakpoints=[{'dataId': 'C008-C008', 'accessType': 'write'}, {'dataId': 'x'}])['breakpoints']
    expect('a data breakpoint', [one['verified'] for one in data], [True, False])
    client.ask('setInstructionBreakpoints', breakpoints=[])
    expect('it is met', (client.runs('continue'), client.name()), ('data breakpoint', 'count_time+12'))
    expect('the frame is entered again', (client.runs('restartFrame', frameId=1), client.name()), ('step', 'count_time'))
    client.ask('setDataBreakpoints', breakpoints=[])
    # a run without a stop is paused, and requests are answered meanwhile
    client.ask('continue', threadId=1)
    expect('while it runs', len(client.ask('threads')['threads']), 1)
    client.events.clear()
    client.ask('pause', threadId=1)
    expect('a pause', client.event('stopped')['reason'], 'pause')
    client.ask('restart')
    expect('a restart', (client.event('stopped')['reason'], client.place()), ('entry', '0x0100'))
    client.ends()


def test_looks(room):
    """Scopes, variables, memory, disassembly, pictures, and what is set."""
    client = Client(room.program, room.folder)
    client.launch(CART)
    client.begin()
    client.ask('setFunctionBreakpoints', breakpoints=[{'name': 'walk'}])
    client.runs('continue')
    frames = client.ask('stackTrace', threadId=1, startFrame=0, levels=20)
    expect('the stack', [(one['name'], one['line'] > 0) for one in frames['stackFrames']], [('walk', True), ('vblank+20', True)])
    expect('its source', frames['stackFrames'][0]['source']['path'], str(ASSEMBLER))
    scopes = {one['name']: one['variablesReference'] for one in client.ask('scopes', frameId=1)['scopes']}
    expect('scopes', list(scopes), ['Registers', 'Flags', 'Hardware registers', 'Globals', 'Time'])

    def values(name: str) -> dict:
        return {one['name']: one['value'] for one in client.ask('variables', variablesReference=scopes[name])['variables']}
    expect('registers', (values('Registers')['PC'], values('Registers')['SP'], values('Flags')), ('$020F', '$FFF2', {'Z': '0', 'N': '0', 'H': '0', 'C': '0'}))
    expect('hardware', (values('Hardware registers')['LY'], values('Hardware registers')['IE']), ('$93', '$01 (VBlank)'))
    expect('some of them', len(client.ask('variables', variablesReference=scopes['Hardware registers'], start=2, count=3)['variables']), 3)
    expect('an expression', client.ask('evaluate', expression='HL + 1', context='watch')['result'], '$A002 (40962)')
    expect('a line of the prompt', client.ask('evaluate', expression='list walk 1', context='repl')['result'], 'walk:\n020F 2101C0 LD HL,C001')
    client.refused('evaluate', 'is no register', expression='wolk', context='hover')
    listed = client.ask('disassemble', memoryReference='0x020F', instructionOffset=-2, instructionCount=4)['instructions']
    expect('disassembly', [one['address'] for one in listed], ['0x0209', '0x020C', '0x020F', '0x0212'])
    expect('an instruction', (listed[2]['symbol'], listed[2]['instruction'], listed[2]['instructionBytes']), ('walk', 'LD HL,C001', '21 01 C0'))
    expect('far away', len(client.ask('disassemble', memoryReference='0x0000', instructionOffset=-5, instructionCount=7)['instructions']), 7)
    memory = client.ask('readMemory', memoryReference='0xC000', count=3)
    expect('memory', base64.b64decode(memory['data']), bytes.fromhex('005050'))
    expect('behind its end', client.ask('readMemory', memoryReference='0xFFFF', count=3)['unreadableBytes'], 2)
    expect('written', client.ask('writeMemory', memoryReference='0xC000', data='AQI=')['bytesWritten'], 2)
    expect('it is there', base64.b64decode(client.ask('readMemory', memoryReference='0xC000', count=3)['data']), bytes.fromhex('010250'))
    client.refused('writeMemory', 'a ROM is not changed', memoryReference='0x0150', data='AQI=')
    client.refused('writeMemory', 'no base64', memoryReference='0xC000', data='*')
    expect('a register', client.ask('setVariable', variablesReference=scopes['Registers'], name='HL', value='$1234')['value'], '$1234')
    expect('a flag', client.ask('setVariable', variablesReference=scopes['Flags'], name='Z', value='1')['value'], '1')
    expect('hardware', client.ask('setVariable', variablesReference=scopes['Hardware registers'], name='SCX', value='7')['value'], '$07')
    client.refused('setVariable', 'does not take', variablesReference=scopes['Registers'], name='HL', value='70000')
    client.ask('setExpression', expression='[$C002]', value='A + 1')
    expect('what is set', client.ask('evaluate', expression='[$C002] == A + 1 && HL == $1234', context='watch')['result'], '$01 (1)')
    for what, size in (('picture', (160, 144)), ('tiles', (128, 192)), ('map9800', (256, 256)), ('objects', (73, 46))):
        image = client.ask('gbkeep/image', what=what)
        expect(f'the image {what}', ((image['width'], image['height']), base64.b64decode(image['data'])[:4]), (size, b'\x89PNG'))
    targets = client.ask('gotoTargets', source={'path': str(ASSEMBLER)}, line=frames['stackFrames'][0]['line'] + 1)['targets']
    expect('to another place', (client.runs('goto', targetId=targets[0]['id']), client.name()), ('goto', 'walk'))
    expect('completions', [one['label'] for one in client.ask('completions', text='wal', column=4)['targets']], ['walk'])
    expect('sources', [one['name'] for one in client.ask('loadedSources')['sources']], ['demo.asm'])
    expect('places for breakpoints', len(client.ask('breakpointLocations', source={'path': str(ASSEMBLER)}, line=1, endLine=100)['breakpoints']) > 2, True)
    bound = client.ask('setBreakpoints', source={'path': str(ASSEMBLER)}, breakpoints=[{'line': frames['stackFrames'][0]['line'] + 2}])['breakpoints'][0]
    expect('a line is bound to its label', (bound['verified'], bound['line'], 'bound to the label walk' in bound['message']), (True, frames['stackFrames'][0]['line'], True))
    none = client.ask('setBreakpoints', source={'path': str(ASSEMBLER)}, breakpoints=[{'line': 1}])['breakpoints'][0]
    expect('no label above', (none['verified'], 'no label' in none['message']), (False, True))
    client.ends()


def test_lines_of_c(room):
    """Lines and variables of C."""
    cart = room.folder / 'game.gb'
    cart.write_bytes(CART.read_bytes())
    for name, text in (('game.cdb', DEBUG_CDB.replace('L:C$../../secret.c$1$1_0$2:156\n', 'L:C$main.c$4$1_0$2:15A\n')), ('main.c', C_SOURCE), ('game.noi', DEBUG_NOI)):
        room.write(name, text)
    client = Client(room.program, room.folder)
    client.launch(cart)
    made = client.ask('setBreakpoints', source={'path': str(room.folder / 'main.c')}, breakpoints=[{'line': 1}, {'line': 3}, {'line': 99}])['breakpoints']
    expect('breakpoints', [(one['verified'], one.get('line')) for one in made], [(True, 2), (True, 3), (False, None)])
    client.begin()
    expect('the first', (client.runs('continue'), client.name()), ('breakpoint', 'main'))
    frame = client.ask('stackTrace', threadId=1)['stackFrames'][0]
    expect('its line', (frame['line'], frame['source']['path']), (2, str(room.folder / 'main.c')))
    expect('the next line', (client.runs('next'), client.ask('stackTrace', threadId=1)['stackFrames'][0]['line']), ('breakpoint', 3))
    client.ask('setBreakpoints', source={'path': str(room.folder / 'main.c')}, breakpoints=[])
    digest = client.digest()
    expect('a line that loops', (client.runs('next'), client.ask('stackTrace', threadId=1)['stackFrames'][0]['line']), ('step', 4))
    expect('back a line', (client.runs('stepBack'), client.ask('stackTrace', threadId=1)['stackFrames'][0]['line']), ('step', 3))
    client.ask('setBreakpoints', source={'path': str(room.folder / 'main.c')}, breakpoints=[{'line': 2}])
    expect('back to a line', (client.runs('reverseContinue'), client.ask('stackTrace', threadId=1)['stackFrames'][0]['line']), ('breakpoint', 2))
    expect('and forth', (client.runs('next'), client.digest()), ('step', digest))
    scopes = {one['name']: one['variablesReference'] for one in client.ask('scopes', frameId=1)['scopes']}
    local = {one['name']: one['value'] for one in client.ask('variables', variablesReference=scopes['Locals'])['variables']}
    expect('locals', local, {'count': '0', 'i': 'not available'})
    known = {one['name']: one for one in client.ask('variables', variablesReference=scopes['Globals'])['variables']}
    expect('globals', sorted(known), ['lives', 'player', 'trail'])
    fields = client.ask('variables', variablesReference=known['player']['variablesReference'])['variables']
    expect('fields', [(one['name'], one['type']) for one in fields], [('x', 'unsigned char'), ('y', 'char'), ('next', 'struct point *')])
    expect('a field is set', client.ask('setVariable', variablesReference=known['player']['variablesReference'], name='y', value='-3')['value'], '-3')
    expect('and a variable', client.ask('setVariable', variablesReference=scopes['Globals'], name='lives', value='7')['value'], '7')
    expect('what it is', client.ask('evaluate', expression='player.y + lives', context='hover')['result'], '$04 (4)')
    expect('a watch of it', client.ask('dataBreakpointInfo', variablesReference=scopes['Globals'], name='trail')['dataId'], 'C010-C017')
    client.ends()


def test_launches(room):
    """A game, a state and a script; what can't be launched; and an end of the program."""
    script, state = room.write('play.script', 'frames 00 30\nframes 80 4\nframes 01 20\n'), room.folder / 'one.state'
    subprocess.run([*tool_words('debug'), '--program', room.program, CART, '--do', 'frames 00 30', '--do', f'state {state}'], check=True, capture_output=True)
    client = Client(room.program, room.folder)
    client.refused('stackTrace', 'nothing is launched', threadId=1)
    for why, more in (('file failed', {'program': str(room.folder / 'none.gb')}), ("'program' is no text", {}), ('no state', {'program': str(CART), 'state': str(script)}),
                      ('No such file', {'program': str(CART), 'script': str(room.folder / 'none')}), ("can't be run", {'program': str(CART), 'gbkeep': '/none/gbkeep'})):
        client.refused('launch', why, **more)
    client.refused('attach', 'nothing to attach to')
    client.launch(CART, script=str(script), stopOnEntry=True)
    client.refused('launch', 'launched already', program=str(CART))
    client.ask('setFunctionBreakpoints', breakpoints=[{'name': 'begin_round'}])
    client.begin()
    expect('in the script', (client.runs('continue'), client.name()), ('breakpoint', 'begin_round'))
    played = {one['name']: one['value'] for one in client.ask('variables', variablesReference=6)['variables']}
    expect('where in the script', played['frames played'], '2')
    client.ask('terminate')
    client.event('terminated')
    client.refused('continue', 'nothing is launched', threadId=1)
    client.ask('launch', program=str(CART), state=str(state), stopOnEntry=True)
    client.event('initialized')
    client.begin()
    client.refused('evaluate', 'is no register', expression='none', context='watch')
    client.ends()


def test_hostile(room):
    """Messages that mean harm: each is answered, and the next one is, too."""
    client = Client(room.program, room.folder)
    for content in (b'', b'x', b'[]', b'1', b'null', b'{}', b'"', b'[' * 100_000, b'{"type": "request"}', b'{"type": "request", "command": 5}', b'{"type": "event", "event": "x"}', b'\xff\xfe', b'9' * 10_000,
                    b'{"seq": 1e999, "type": "request", "command": "threads"}', b'{"seq": "x", "type": "request", "command": "\\ud800"}', b'{"seq": 1, "type": "request", "command": "' + b'x' * 100_000 + b'"}'):
        client.give(content)
        expect(f'the answer to {content[:30]!r}', client.message()['success'], False)
    client.give(b'', b'nonsense\r\n')
    expect('no header', client.message()['success'], False)
    client.give(b'', b'X-Other: 1\r\n')
    client.launch(CART)
    client.begin()
    for command in ('setBreakpoints', 'setFunctionBreakpoints', 'setInstructionBreakpoints', 'setDataBreakpoints', 'stackTrace', 'scopes', 'variables', 'evaluate', 'completions', 'setVariable', 'setExpression', 'readMemory',
                    'writeMemory', 'disassemble', 'gotoTargets', 'goto', 'restartFrame', 'dataBreakpointInfo', 'breakpointLocations', 'gbkeep/image', 'gbkeep/press', 'setExceptionBreakpoints'):
        for arguments in ({}, {'breakpoints': 5}, {'breakpoints': [5]}, {'breakpoints': [{'line': -1, 'name': [], 'dataId': {}, 'instructionReference': 7}]}, {'source': 'x', 'breakpoints': [{'line': 10 ** 30}]},
                          {'frameId': -1, 'variablesReference': 10 ** 20, 'name': 'x' * 20_000, 'expression': 'x' * 20_000, 'text': 5, 'column': 'x', 'memoryReference': '0x', 'count': -1, 'line': 'x', 'targetId': 99},
                          {'expression': '((((((' * 1_000, 'memoryReference': '0xFFFFFF', 'count': 10 ** 18, 'instructionCount': 10 ** 9, 'what': '../x', 'buttons': 256, 'value': '\0', 'name': 'A', 'variablesReference': 1},
                          {'memoryReference': '0x0000', 'offset': -5, 'count': 4, 'instructionCount': 4, 'instructionOffset': -4_096, 'data': 'AAAA', 'filters': ['none', 'ld_b_b'], 'source': {'path': '/dev/zero'}, 'line': 5}):
            message = client.response(client.request(command, **arguments))
            expect(f'{command} is answered', isinstance(message['success'], bool), True)
    client.give(json.dumps({'seq': 0, 'type': 'request', 'command': 'stackTrace', 'arguments': 'x'}).encode())
    expect('arguments that are none', client.message()['success'], True)
    expect('it goes on', len(client.ask('threads')['threads']), 1)
    client.ends()


def test_ends(room):
    """The end of its input ends it, and its program with it; a program that ends is told."""
    client = Client(room.program, room.folder)
    client.launch(CART)
    client.process.stdin.close()
    expect('the end of its input', (client.process.wait(SECONDS), client.process.stderr.read()), (0, b''))
    ends = room.write('ends', ENDS.replace('A=01', 'A=01 F=B0 B=00 C=13 D=00 E=D8 H=01 L=4D SP=FFFE PC=0100 IME=0'), 0o755)
    client = Client(str(ends), room.folder)
    client.ask('initialize', adapterID='gbkeep')
    client.ask('launch', program=str(CART))
    client.event('initialized')
    client.request('configurationDone')
    client.event('terminated')
    client.process.stdin.close()
    expect('a program that ends', (client.process.wait(SECONDS), client.process.stderr.read()), (0, b''))
    expect('help', 'Debug Adapter Protocol' in subprocess.run([*tool_words('dap'), '--help'], capture_output=True, text=True).stdout, True)
    expect('wrong words', subprocess.run([*tool_words('dap'), 'x'], capture_output=True, text=True).returncode, 2)


def test_messages(room):
    """What a ROM says to debuggers, and what it sends, are output."""
    said = b'hello'
    code = bytes.fromhex('5218') + bytes([4 + len(said)]) + bytes.fromhex('64640000') + said + bytes.fromhex('3e41e0013e81e00218fe')
    cart = cartridge(room, 'says.gb', code)
    client = Client(room.program, room.folder)
    client.launch(cart, stopOnEntry=False)
    client.ask('configurationDone')
    expect('a message', client.event('output')['output'], 'hello\n')
    expect('what is sent', client.event('output')['output'], 'A')
    client.ask('pause', threadId=1)
    expect('it stands', client.event('stopped')['reason'], 'pause')
    client.ends()


def main():
    os.environ.pop('GBKEEP', None)
    support.run_room_tests('gbkeep-dap', globals(), __doc__, Room)


if __name__ == '__main__':
    main()
