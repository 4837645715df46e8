"""What the rows of examples/serving share: the desks of a row, what is said to them, and the texts that they are given."""
import contextlib
import os
import shutil
import socket
import subprocess
import sys
import tempfile
import threading
import time

from faulting.server import request, sealed
from loopback import ACTION, ENVIRONMENT, SECONDS, free_port

LOOPBACK = '127.0.0.1'
UNPROVED = '--unproved' in sys.argv
ROWS = []


class Differs(Exception):
    """What a row saw is not what it should be."""


class NotAsked(Exception):
    """Why a row can't be asked here."""


class Row:
    """A row: its name, why an unproved program isn't asked it, whether it takes longer, and what asks it."""

    def __init__(self, name, built, long, function):
        self.name, self.built, self.long, self.ask = name, built, long, function


IN_A_FILE = 'the unproved program keeps nothing in a file'
LARGE = 'the unproved program takes minutes over 4 MiB'


def row(name, built=None, long=False):
    def keep(function):
        ROWS.append(Row(name, built, long, function))
        return function
    return keep


def check(seen, wanted, of):
    if seen != wanted:
        raise Differs(f'{of}: {seen!r}, not {wanted!r}')


def check_at_most(seconds, most, of):
    if seconds > most:
        raise Differs(f'{of}: {seconds:.1f} s, where {most} s are allowed')


def wait_for(holds, seconds, what):
    until = time.monotonic() + seconds
    while not holds():
        if time.monotonic() > until:
            raise Differs(f'{what}: not so after {seconds} s')
        time.sleep(0.02)


# ---- what is said to a desk

def client(port, **options):
    """A connection to a desk, with these options of its socket."""
    peer = socket.socket()
    for option, value in options.items():
        peer.setsockopt(socket.SOL_SOCKET, getattr(socket, option), value)
    peer.settimeout(SECONDS)
    peer.connect((LOOPBACK, port))
    return peer


def everything(peer):
    """All that a peer says until it closes."""
    said = b''
    while piece := peer.recv(65536):
        said += piece
    return said


def parted(reply):
    """The status and the body of a whole reply of this desk's form, else None."""
    head, _, body = reply.partition(b'\r\n\r\n')
    lines = head.decode(errors='replace').split('\r\n')
    if lines[0][:9] != 'HTTP/1.1 ' or lines[1:] != [f'Content-Length: {len(body)}', 'Connection: close']:
        return None
    return int(lines[0].split(' ')[1]), body


def ask(port, method, path, body=b'', seconds=SECONDS):
    """The status and the body of the answer to one request, as agents and relays say it. OSError where there is none."""
    with client(port) as peer:
        peer.settimeout(seconds)
        peer.sendall(request(method, path, body))
        reply = everything(peer)
    found = parted(reply)
    if found is None:
        raise ConnectionError(f'{method} {path}: what came is no whole reply: {reply[:80]!r}')
    return found


# ---- desks

# one program is started at a time: until it runs it has whatever is open here, a lock too
STARTS = threading.Lock()


def has_read(port, peer):
    """Whether the desk at this port has taken a client's connection and all that came by it, by the system's table."""
    wanted = [f'0100007F:{port:04X}', f'0100007F:{peer.getsockname()[1]:04X}']
    with open('/proc/net/tcp', encoding='ascii') as table:
        found = [row for row in map(str.split, table) if row[1:3] == wanted]
    # what a connection has that wasn't read yet, and the file that it is of one who took it
    return any(row[4].endswith(':00000000') and row[9] != '0' for row in found)


def listens(port):
    """Whether somebody listens there, by the system's table."""
    wanted = f'0100007F:{port:04X} 00000000:0000 0A'
    with open('/proc/net/tcp', encoding='ascii') as table:
        return any(wanted in line for line in table)


class Desk:
    """A desk that runs. What it prints goes into a file."""

    def __init__(self, words, folder, port, variables):
        self.port = port
        self.printed = tempfile.TemporaryFile(dir=folder)
        with STARTS:
            self.process = subprocess.Popen(words, cwd=folder, env={**ENVIRONMENT, **variables}, stdin=subprocess.DEVNULL,
                                            stdout=self.printed, stderr=subprocess.DEVNULL)

    @property
    def lines(self):
        """The lines that it has printed so far. The place at which it writes on is the file's, so that it stays."""
        size = os.fstat(self.printed.fileno()).st_size
        *lines, last = os.pread(self.printed.fileno(), size, 0).decode().split('\n')
        return lines + [f'{last!r} without LF'] * (last != '')

    def until(self, count):
        """Its lines, when it has printed so many or has ended."""
        wait_for(lambda: self.process.poll() is not None or len(self.lines) >= count, SECONDS, f'it has printed {count} lines')
        return self.lines

    def end(self, seconds=SECONDS):
        """The status with which it ends, and its lines."""
        try:
            status = self.process.wait(seconds)
        except subprocess.TimeoutExpired:
            raise Differs(f'it has not ended after {seconds} s, and printed {self.lines[-3:]} last') from None
        return status, self.lines

    def kill(self):
        self.process.kill()
        self.process.wait()


class Office:
    """The desks of one row, in a folder of their own, all of which are ended with it."""
    program = room = None  # the desk's path, and the folder in which all rows have theirs
    begun = []  # all that were begun by any row

    def __enter__(self):
        self.folder = tempfile.mkdtemp(dir=self.room)
        self.desks = []
        return self

    def __exit__(self, *_):
        for desk in self.desks:
            desk.kill()
            desk.printed.close()
        shutil.rmtree(self.folder, ignore_errors=True)

    def path(self, *names):
        return os.path.join(self.folder, *names)

    def content(self, *names):
        """What a file has, or None where it isn't there."""
        with contextlib.suppress(FileNotFoundError), open(self.path(*names), 'rb') as file:
            return file.read()
        return None

    def run(self, *words, port=None, **variables):
        desk = Desk([self.program, *map(str, words)], self.folder, port, variables)
        self.desks.append(desk)
        self.begun.append(desk)
        return desk

    def open(self, command, port, *words, **variables):
        """A desk with a door, when that is open."""
        desk = self.run(command, port, *words, port=port, **variables)
        wait_for(lambda: listens(port) or desk.process.poll() is not None, SECONDS, f'{command} listens')
        check(desk.process.poll(), None, f'{command} has ended before a client came, with the status')
        return desk

    def serve(self, count=1000000, keep='keep', port=None):
        return self.open('serve', port or free_port(), keep, count)

    def relay(self, upstream, count=1000000, port=None, room=None, **variables):
        """A relay, with a cache where there is room for files."""
        return self.open('relay', port or free_port(), f'{LOOPBACK}:{upstream}', count, *([] if room is None else [room]), **variables)

    def agent(self, name, upstream, count, every=None, offset=0, second=None):
        """An agent whose pocket and work folder have its name; between its rounds it pauses for as many seconds as `every` says. There may
        be a second upstream."""
        os.makedirs(self.path(name), exist_ok=True)
        variables = {} if every is None else {'DESK_EVERY': str(every)}
        last = [] if second is None else [f'{LOOPBACK}:{second}']
        return self.run('agent', f'{LOOPBACK}:{upstream}', f'{name}.pocket', name, name, offset, count, *last, **variables)


# ---- texts

def fixlet(number, *script):
    """The lines of a fixlet that is done when its script is."""
    return [f'fixlet {number}', f'title Fixlet {number}', 'success lines', *(f'| {line}' for line in script), 'end']


def site(version, *lines):
    """The text of the site `desk`."""
    return sealed(''.join(f'{line}\n' for line in (f'site desk {version}', *lines)).encode())


def action(number, content=1, retries=0):
    """The text of an action on all computers, which runs a block of the site `desk`, and as often again as it fails."""
    text = ACTION.replace(b'action 7', b'action %d' % number).replace(b'content desk 1', b'content desk %d' % content)
    return text.replace(b'retries 0 0', b'retries %d 0' % retries)


def report(computer, number, of_action=7):
    """The text of a report that an action was done."""
    return f'report 2\ncomputer {computer}\nseq {number}\nrow {of_action} 1 fixed 1000 1060 0 - -\nend\n'.encode()
