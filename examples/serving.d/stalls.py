"""Rows of clients that stall: whoever comes next is answered all the same."""
import concurrent.futures
import contextlib
import time

from desks import LARGE, Office, ask, check, check_at_most, client, request, row
from loopback import free_port

MOST = 35  # seconds for the next client
FILE = bytes(4194304)
FILE_DIGEST = 'bb9f8df61474d25e71fa00722318cd387396ca1736605e1248821cc0de3d3af8'


def behind(desk, said, go_on=None):
    """Has a client say this and go on so each second, while another one comes. How long that one waits."""
    with client(desk.port, SO_RCVBUF=4096) as peer, concurrent.futures.ThreadPoolExecutor() as beside:
        peer.sendall(said)
        time.sleep(0.2)
        since = time.monotonic()
        following = beside.submit(ask, desk.port, 'GET', '/sites')
        with contextlib.suppress(OSError):
            while go_on and not following.done():
                go_on(peer)
                time.sleep(1)
        check(following.result()[0], 200, 'the next client')
        return time.monotonic() - since


def stalls(said, go_on=None):
    with Office() as it:
        check_at_most(behind(it.serve(), said, go_on), MOST, 'the next client is answered')


@row('behind a client that says nothing the next one is answered within 35 seconds')
def says_nothing():
    stalls(b'')


@row('behind one that says half a head')
def half_a_head():
    stalls(b'GET /sites HTTP/1.1\r\nHo')


@row('behind one that says half a body')
def half_a_body():
    stalls(b'POST /reports HTTP/1.1\r\nHost: desk\r\nContent-Length: 10\r\n\r\nhalf ')


@row('behind one that says a byte a second')
def drips():
    stalls(b'GET /', lambda peer: peer.sendall(b'x'))


@row('behind one that is refused and goes on for 4 MiB')
def says_on():
    stalls(b'POST /reports HTTP/1.1\r\nHost: desk\r\nContent-Length: 4194304\r\n\r\n', lambda peer: peer.sendall(b'x' * 65536))


@row('behind one that takes a byte a second of 4 MiB', LARGE)
def sips():
    with Office() as it:
        server = it.serve()
        check(ask(server.port, 'POST', '/files', FILE), (200, f'ok {FILE_DIGEST}\n'.encode()), 'the file')
        spent = behind(server, request('GET', f'/files/{FILE_DIGEST}'), lambda peer: peer.recv(1))
        check_at_most(spent, MOST, 'the next client is answered')


@row('behind one that says half a head to a relay')
def half_a_head_to_a_relay():
    with Office() as it:
        check_at_most(behind(it.relay(free_port()), b'GET /sites HTTP/1.1\r\nHo'), MOST, 'the next client is answered')
