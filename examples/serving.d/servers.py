"""Rows of a server: its routes and lines, what it keeps, how it is refused."""
import os
import socket

from desks import IN_A_FILE, Office, action, ask, check, client, everything, fixlet, has_read, report, row, site, wait_for
from loopback import ABC, SECONDS, free_port

SITE = site(1, *fixlet(1, '// nothing'))
ROUTES = (
    ('GET', '/sites', b'', 200, b''),
    ('POST', '/sites', SITE, 200, b'ok\n'),
    ('POST', '/sites', SITE, 200, b'again\n'),
    ('POST', '/sites', site(1), 409, b'older 1\n'),
    ('POST', '/sites', b'x\n', 400, b'bad text 1\n'),
    ('POST', '/actions', action(7), 200, b'ok\n'),
    ('POST', '/actions', action(7), 200, b'again\n'),
    ('POST', '/actions/7/stop', b'', 200, b'ok\n'),
    ('POST', '/actions/7/stop', b'', 200, b'again\n'),
    ('POST', '/actions/8/stop', b'', 404, b'no such\n'),
    ('POST', '/actions/0/stop', b'', 404, b'no such\n'),
    ('GET', '/sites', b'', 200, b'actionsite 2\ndesk 1\n'),
    ('GET', '/sites/desk/0', b'', 200, SITE),
    ('GET', '/sites/desk/1', b'', 200, b'same\n'),
    ('GET', '/sites/none/0', b'', 404, b'no such\n'),
    ('GET', '/sites/desk/01', b'', 404, b'no such\n'),
    ('POST', '/files', b'abc', 200, f'ok {ABC}\n'.encode()),
    ('GET', f'/files/{ABC}', b'', 200, b'abc'),
    ('GET', f'/files/{ABC.upper()}', b'', 404, b'no such\n'),
    ('GET', '/results/pc1', b'', 404, b'no such\n'),
    ('POST', '/reports', report('pc1', 1), 200, b'ok\n'),
    ('POST', '/reports', report('pc1', 1), 200, b'again\n'),
    ('POST', '/reports', b'report 3\n', 400, b'bad text 1\n'),
    ('POST', '/reports', b'x' * 65537, 413, b'too long\n'),
    ('GET', '/results/pc1', b'', 200, b'7 1 fixed 1000 1060 0 - - 1\n'),
    ('GET', '/nothing', b'', 404, b'no such\n'),
    ('PUT', '/sites', b'', 404, b'no such\n'),
)


def asked(desk, routes):
    """Asks a desk each of these, and looks for its line before the next one."""
    for index, (method, path, body, status, answer) in enumerate(routes, 1):
        check(ask(desk.port, method, path, body), (status, answer), f'{method} {path}')
        check(desk.until(index)[index - 1:], [f'answered {status}'], f'the line of {method} {path}')


@row('each route of a server answers, and a line says so before the next conversation')
def routes():
    with Office() as it:
        server = it.serve(len(ROUTES))
        asked(server, ROUTES)
        check(server.end()[0], 0, 'the status')


@row('a conversation without a byte is closed, and one that resets is a fault; the run goes on')
def odd_clients():
    with Office() as it:
        server = it.serve(3)
        with client(server.port) as peer:
            peer.shutdown(socket.SHUT_WR)
            check(everything(peer), b'', 'what is read')
        with client(server.port) as peer:
            peer.sendall(b'GET /si')
            wait_for(lambda: has_read(server.port, peer), SECONDS, 'the server has read what came')
            peer.setsockopt(socket.SOL_SOCKET, socket.SO_LINGER, b'\1\0\0\0\0\0\0\0')
        check(ask(server.port, 'GET', '/sites'), (200, b''), 'the next one')
        check(server.end(), (0, ['closed', 'door fault', 'answered 200']), 'the end')


@row('serve twice on one KEEP, one after the other: the second has what was put; KEEP is its owner\'s alone', IN_A_FILE)
def twice():
    with Office() as it:
        server = it.serve(2)
        asked(server, (('POST', '/files', b'abc', 200, f'ok {ABC}\n'.encode()), ('POST', '/sites', SITE, 200, b'ok\n')))
        check(server.end()[0], 0, 'the first run')
        server = it.serve(2)
        check(oct(os.stat(it.path('keep')).st_mode & 0o7777), '0o600', 'the mode of KEEP')
        asked(server, (('GET', f'/files/{ABC}', b'', 200, b'abc'), ('GET', '/sites', b'', 200, b'desk 1\n')))
        check(server.end()[0], 0, 'the second run')


@row('a second server on one KEEP is refused, and the first goes on', IN_A_FILE)
def second_server():
    with Office() as it:
        server = it.serve(1)
        check(it.run('serve', free_port(), 'keep', 1).end(), (7, []), 'the second')
        check(ask(server.port, 'GET', '/sites'), (200, b''), 'the first')
        check(server.end(), (0, ['answered 200']), 'the end of the first')


@row('a server and a relay are refused a port that is taken, and an address of another form')
def no_door():
    with Office() as it, socket.create_server(('127.0.0.1', 0)) as listener:
        taken, free = listener.getsockname()[1], free_port()
        for words in (('serve', 'keep'), ('relay', '127.0.0.1:1')):
            check(it.run(words[0], taken, words[1], 1).end(), (8, []), f'{words[0]} at a port that is taken')
            check(it.run(words[0], free, words[1], 1, DESK_LISTEN='').end(), (8, []), f'{words[0]} at an address of another form')


WORDS = (('serve', '0', 'k', '1'), ('serve', '65536', 'k', '1'), ('serve', '8080', '', '1'), ('serve', '8080', 'k', '0'),
         ('serve', '8080', 'k', '1000001'), ('relay', '0', 'u', '1'), ('relay', '8081', '', '1'),
         ('relay', '8081', 'u', '1', '0'), ('relay', '8081', 'u', '1', '65'),
         ('agent', 'u', 'p', 'w', 'a b', '0', '1'), ('agent', 'u', 'p', 'w', 'pc1', '-0', '1'),
         ('agent', 'u', 'p', 'w', 'pc1', '841', '1'), ('agent', 'u', 'p', 'w', 'pc1', '0', '0'),
         ('agent', 'u', 'p', 'w', 'pc1', '0', '1', ''), ('agent', 'u', 'p', 'w', 'pc1', '0', '1', 'v', 'v'))


@row('words of another form are refused')
def words_of_another_form():
    with Office() as it:
        for words in WORDS:
            check(it.run(*words).end(), (1, ['usage: desk --help']), ' '.join(words))
