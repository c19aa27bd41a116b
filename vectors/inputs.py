"""What faults and allocations share: a small input of each command, with what it must print and make, and a run of it, of a server or a
client with a peer over UDP of this machine. What is wanted was worked out by hand from docs/formats.md."""
import contextlib
import pathlib
import re
import select
import socket
import struct
import subprocess
import tempfile
import time

import cases

SECONDS = 60
HERE = pathlib.Path(__file__).resolve().parent
WORDS = ', '.join(f'"{byte:08b}"'[::-1] for byte in range(256))
PROFILE = f'protocol = 68\nserver_ring = 4096\nparse_ring = 8192\nentity = [0, 8, -16]\nplayer = [0, 16]\ncode = [{WORDS}]\n'.encode()

# messages: a gamestate, a whole snapshot without entities, and one in which entity 5 has the word 7 in its field 1
GAME = bytes.fromhex('0000000002000000000301005c73765f73657276657269645c310008000000004d0000000800')
WHOLE = bytes.fromhex('0000000007e803000000020000fe4700')
FIFTH = bytes.fromhex('0000000007e803000000040000' '0a50c007ff2300')
END = b'\xff' * 8
# datagrams of a client: its first, and one with its first move
ASKS = bytes.fromhex('010000008813' '000000000100000000000000' '1510')
ENTERS = bytes.fromhex('020000008813' '010000000200000000000000' '1113fa111212703e0612')

# each event of a replay, with what it prints
REPLAYED = [
    (b'client 0 17 5000 1 10.0.0.1:27960', b'client 0 ok\n'),
    (b'map 1 77', b'map 1 ok\n'),
    (b'time 1000', b'time ok\n'),
    (b'entity 5 1:7', b'entity 5 ok\n'),
    (b'serve 0', b'serve 0 snapshot 1 base 0 bytes 16 datagram 1\n'),
    (b'deliver 1', b'deliver 1 client 0 applied 1\n+ accepted 1 base 0\n'),
    (b'send 0', b'send 0 message 1 bytes 14 datagram 2\n'),
    (b'deliver 2', b'deliver 2 server 0 ignored 0\n+ owed\n'),
    (b'serve 0', b'serve 0 gamestate 2 bytes 38 datagram 3\n'),
    (b'deliver 3', b'deliver 3 client 0 applied 2\n+ gamestate id 1 slot 0 feed 77\n'),
    (b'move 0 500 0 0 0 10 0 0 0 0', b'move 0 ok\n'),
    (b'send 0', b'send 0 message 2 bytes 22 datagram 4\n'),
    (b'deliver 4', b'deliver 4 server 0 ran 2\n+ entered 500\n'),
    (b'serve 0', b'serve 0 snapshot 3 base 0 bytes 20 datagram 5\n'),
    (b'deliver 5', b'deliver 5 client 0 applied 3\n+ accepted 3 base 0\n'),
    (b'record 0 game', b'record 0 ok\n'),
    (b'move 0 510 0 0 0 0 0 0 0 0', b'move 0 ok\n'),
    (b'send 0', b'send 0 message 3 bytes 25 datagram 6\n'),
    (b'deliver 6', b'deliver 6 server 0 ran 3\n+ move 510 0 0 0 0 0 0 0 0\n'),
    (b'serve 0', b'serve 0 snapshot 4 base 0 bytes 20 datagram 7\n'),
    (b'deliver 7', b'deliver 7 client 0 applied 4\n+ accepted 4 base 0\n'),
    (b'stop 0', b'stop 0 ok\n'),
]

# the lines of a server's turns, and of a client's
SERVED = [b'client 0 ok\n', b'map 1 ok\n', b'time ok\n', b'serve 0 snapshot 1 base 0 bytes 16 datagram 1\n',
          b'arrive server 0 ignored 0\n+ owed\n', b'serve 0 gamestate 2 bytes 38 datagram 2\n', b'arrive server 0 ran 2\n+ entered 500\n',
          b'serve 0 snapshot 3 base 0 bytes 16 datagram 3\n']
JOINED = [b'client 0 ok\n', b'send 0 message 1 bytes 14 datagram 1\n', b'arrive client 0 applied 2\n+ gamestate id 1 slot 0 feed 77\n',
          b'record 0 ok\n', b'move 0 ok\n', b'send 0 message 2 bytes 22 datagram 2\n', b'arrive client 0 applied 3\n+ accepted 3 base 0\n',
          b'stop 0 ok\n']

# how many lines of a trial of the script of `make 1 7` there are of a kind: four clients each get 1 and then 20 snapshots, and issue as many
# moves, of which the first lets them enter; and the one drawn line says something to one of them
TRIED = b'events 527\ndatagrams 176\naccepted 84\nskipped 0\nserver commands 1\nclient commands 0\nmoves 80\n'


def recorded(number, message):
    return struct.pack('<2I', number, len(message)) + message


def clear(number, message):
    """The datagram of a server to the client of the challenge 17 that has sent no command."""
    return struct.pack('<I', number) + message[:4] + bytes(byte ^ 17 ^ number for byte in message[4:])


def demo(count):
    """A gamestate of number 4 and whole snapshots after it: the demo, the lines of each record, and the state that they leave."""
    numbers = range(5, 4 + count)
    lines = [b'record 0 number 4\n+ gamestate id 1 slot 0 feed 77\n']
    lines += [b'record %d number %d\n+ accepted %d base 0\n' % (at, number, number) for at, number in enumerate(numbers, 1)]
    state = b'state %d\n+ id 1 slot 0 feed 77 command 0\n+ config 1 "\\\\sv_serverid\\\\1"\n' % count
    state += b''.join(b'+ held %d 0\n' % number for number in numbers[-32:])
    state += b'+ snapshot %d time 1000 flags 2 area -\n+ player\n' % numbers[-1]
    return recorded(4, GAME) + b''.join(recorded(number, WHOLE) for number in numbers) + END, lines, state


def state_of_256():
    """The bytes of the state that 256 records of a `demo` leave: the last number is 259, and the last 32 snapshots are held."""
    text = b'\\sv_serverid\\1'
    state = struct.pack('<5IHBBH', 259, 1, 0, 77, 0, 0, 0, 1, 1) + struct.pack('<2H', 1, len(text)) + text + struct.pack('<HIB', 0, 259, 32)
    zeros = bytes(2 * 4 + 48 * 2 + 16 * 4 + 2)
    return state + b''.join(struct.pack('<3I2B', number, 0, 1000, 2, 0) + zeros for number in range(228, 260))


def index_of(data, count, profile=PROFILE):
    """The index of such a demo with 256 to 511 records, by a profile whose numbers of entities have 10 bits."""
    head = b'Q3INDEX2' + struct.pack('<2QB2I', len(data), cases.mark(profile), 10, count, 1)
    return head + struct.pack('<IQI', 256, 46 + 255 * 24, len(state_of_256())) + state_of_256()


class Command:
    """A command on its input."""

    # what is printed, piece by piece
    pieces = ()
    # the file that is made, what it is, and its bytes
    made, what, content = None, None, b''
    # how many times longer the times are that are tried
    longer = (1,)

    def __init__(self):
        self.files = {'p': PROFILE}

    def words(self, at, other):
        """The words of the command line, of which these two are addresses."""
        raise NotImplementedError

    def given(self, longer):
        return self.files

    def answers(self):
        """The datagrams that come back for each that the peer gets."""
        return ()

    def right(self, status, printed, left):
        """What differs in a run that met nothing."""
        if (status, printed) != (0, b''.join(self.pieces)):
            yield f'without a fault: status {status}, printed {printed[-300:]!r}'
        if left != ({self.made: self.content} if self.made else {}):
            yield f'without a fault: made {({name: data.hex() for name, data in left.items()})}'

    def fronts(self):
        return [b''.join(self.pieces[:count]) for count in range(len(self.pieces) + 1)]

    def wrongly_left(self, left):
        """What was made or changed that mustn't be: the file that is made holds a front of its bytes."""
        for name, data in left.items():
            if name != self.made or not self.content.startswith(data):
                yield f'file {name} has {len(data)} bytes, {data[:60].hex()}'


class Replay(Command):
    name, made, what = 'replay', 'game', 'recording'
    content = recorded(3, GAME) + recorded(4, FIFTH) + END
    pieces = [lines for _, lines in REPLAYED]
    # the events that make the recording and that write into it
    RECORDS, WRITES = 15, (20, 21)

    def __init__(self):
        super().__init__()
        self.files['s'] = b''.join(line + b'\n' for line, _ in REPLAYED)

    def words(self, at, other):
        return 'replay', 'p', 's'


class Play(Command):
    name = 'play'

    def __init__(self, count=40):
        super().__init__()
        self.files['d'], lines, state = demo(count)
        self.pieces = [*lines, state]

    def words(self, at, other):
        return 'play', 'p', 'd'

    @staticmethod
    def records_before(size):
        """How many records end at this place or before."""
        return max(0, 1 + (size - 46) // 24)


class Index(Command):
    name, made, what = 'index', 'i', 'index'

    def __init__(self, count=258):
        super().__init__()
        self.files['d'], _, _ = demo(count)
        self.content = index_of(self.files['d'], count)
        self.pieces = [b'indexed %d records 1 checkpoints\n' % count]

    def words(self, at, other):
        return 'index', 'p', 'd', 'i'


class Seek(Command):
    name = 'seek'

    def __init__(self, count=258):
        super().__init__()
        self.files['d'], _, state = demo(count)
        self.files['i'] = index_of(self.files['d'], count)
        self.pieces = [state]
        self.count = count

    def words(self, at, other):
        return 'seek', 'p', 'd', 'i', str(self.count)


class Node(Command):
    """A server or a client. What it prints depends on when its peer answers, so a run that differs is tried again with longer times."""

    longer = 1, 2, 4, 8
    script = ''

    def given(self, longer):
        lines = re.sub(r'(?m)^(at|end) (\d+)$', lambda line: f'{line[1]} {longer * int(line[2])}', self.script)
        return {**self.files, 's': lines.encode()}


class Serve(Node):
    name, pieces = 'serve', SERVED
    script = 'client 0 17 5000 1 @\nmap 1 77\ntime 1000\nserve 0\nat 30\nserve 0\nat 60\nserve 0\nend 70\n'

    def words(self, at, other):
        return 'serve', 'p', 's', at

    def answers(self):
        return [ASKS], [ENTERS], []


class Join(Node):
    name, pieces, made, what = 'join', JOINED, 'game', 'recording'
    content = recorded(2, GAME) + recorded(3, WHOLE) + END
    script = 'client 0 17 5000 1 127.0.0.1:27960\nsend 0\nat 30\nrecord 0 game\nmove 0 500 0 0 0 10 0 0 0 0\nsend 0\nat 60\nstop 0\nend 70\n'

    def words(self, at, other):
        return 'join', 'p', 's', at, other

    def answers(self):
        return [clear(2, GAME)], [clear(3, WHOLE)]


class Make(Command):
    name = 'make'

    def __init__(self):
        self.files = {}
        self.pieces = (HERE / 'by-hand/make_1_7/stdout').read_bytes().splitlines(keepends=True)

    def words(self, at, other):
        return 'make', '1', '7'


class Trial(Command):
    name, pieces = 'trial', [TRIED]

    def words(self, at, other):
        return 'trial', 'p', '1', '7'


class Version(Command):
    name, pieces = '--version', [b'q3net 0.1.0\n']

    def words(self, at, other):
        return ('--version',)


def bound():
    one = socket.socket(socket.AF_INET, socket.SOCK_DGRAM)
    one.bind(('127.0.0.1', 0))
    return one


def address(one):
    return '%s:%d' % one.getsockname()


def ran(command, program, longer, **options):
    """The status of the command, where these words stand for the program, what it printed, and the files that it made or changed."""
    with contextlib.ExitStack() as stack:
        peer = stack.enter_context(bound())
        with bound() as own:
            node = own.getsockname()
        place = pathlib.Path(stack.enter_context(tempfile.TemporaryDirectory()))
        printed = stack.enter_context(tempfile.TemporaryFile())
        given = {name: data.replace(b'@', address(peer).encode()) if name == 's' else data for name, data in command.given(longer).items()}
        cases.store(place, given)
        words = [*program, *command.words('%s:%d' % node, address(peer))]
        process = stack.enter_context(subprocess.Popen(words, cwd=place, stdin=subprocess.DEVNULL, stdout=printed, stderr=subprocess.DEVNULL, **options))
        stack.callback(process.kill)
        answers = list(command.answers())
        stop = time.monotonic() + SECONDS
        while answers and process.poll() is None and time.monotonic() < stop:
            if select.select([peer], [], [], 0.02)[0]:
                peer.recvfrom(65_536)
                for datagram in answers.pop(0):
                    peer.sendto(datagram, node)
        status = process.wait(SECONDS)
        printed.seek(0)
        left = {name: data for name, data in cases.files(place).items() if given.get(name) != data}
        return status, printed.read(), left
