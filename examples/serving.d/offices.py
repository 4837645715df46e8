"""Rows of relays and agents: a whole office, upstreams that are gone, pockets that are another's."""
import hashlib
import re
import socket
import threading

from desks import LOOPBACK, Office, ask, check, fixlet, report, row, site
from faulting.server import response, sealed
from loopback import ABC, ABC_SHA1, ACTION, SECONDS, SITE, free_port
from recorder import whole_request
from servers import asked


def turns(desk, seconds=SECONDS):
    """How an agent ends, and its lines, each moment of which is M."""
    status, lines = desk.end(seconds)
    return status, [re.sub(r'^(turn \w+) \d+:', r'\1 M:', line) for line in lines]


def results(server, name):
    """The results of a computer, each moment of which is M."""
    status, body = ask(server.port, 'GET', f'/results/{name}')
    return status, re.sub(rb'(fixed|failed) \d+ \d+', rb'\1 M M', body)


def published(it, published_site, *files):
    """A server with these files, this site and its action."""
    server = it.serve()
    for path, body in (*(('/files', file) for file in files), ('/sites', published_site), ('/actions', ACTION)):
        check(ask(server.port, 'POST', path, body)[0], 200, f'POST {path}')
    return server


@row('a published site and an action go through a relay to two agents, and their results come back')
def whole_office():
    with Office() as it:
        server = published(it, SITE, b'abc')
        # of each agent: the list, two sites, the file and two reports; in its second round the list and both reports once more, which the
        # server holds by then
        relay = it.relay(server.port, 18)
        for name in ('pc1', 'pc2'):
            check(turns(it.agent(name, relay.port, 2)), (0, [f'turn {name} M: began 7, fixed', f'turn {name} M: idle']), name)
            check(it.content(name, 'done'), b'abc', f'what {name} wrote')
        check(relay.end(), (0, ['answered 200'] * 18), 'the relay')
        # an agent may ask the server itself
        check(turns(it.agent('pc6', server.port, 2)), (0, ['turn pc6 M: began 7, fixed', 'turn pc6 M: idle']), 'pc6')
        check(it.content('pc6', 'done'), b'abc', 'what pc6 wrote')
        for name in ('pc1', 'pc2', 'pc6'):
            check(results(server, name), (200, b'7 1 fixed M M - - - 2\n'), f'the results of {name}')


def upstream(bodies):
    """The port of somebody who gives these bodies with status 200, one a connection, and is gone then; and the list of what each was asked
    for with."""
    port, asked_for = free_port(), []
    listener = socket.create_server((LOOPBACK, port))

    def give():
        with listener:
            for body in bodies:
                with listener.accept()[0] as peer:
                    asked_for.append(whole_request(peer)[0].decode())
                    peer.sendall(response((200, body)))

    threading.Thread(target=give, daemon=True).start()
    return port, asked_for


@row('an agent asks with the version that it keeps, not the listed one, and keeps its site at one that is not newer')
def kept_site():
    actions = sealed(b'site actionsite 1\n' + ACTION)
    first = ['GET /sites', 'GET /sites/actionsite/0', 'GET /sites/desk/0', f'GET /files/{ABC}', 'POST /reports', 'POST /reports']
    with Office() as it:
        for name, given in (('pc7', b'same\n'), ('pc8', SITE)):
            port, asked_for = upstream([b'actionsite 1\ndesk 1\n', actions, SITE, b'abc', b'ok\n', b'ok\n', b'desk 3\n', given])
            check(turns(it.agent(name, port, 2)), (0, [f'turn {name} M: began 7, fixed', f'turn {name} M: idle']), name)
            check(asked_for, first + ['GET /sites', 'GET /sites/desk/1'], f'what {name} asks')


@row('a script that waits for programs and fails is told of with its line and exit code')
def fails():
    with Office() as it:
        script = ('wait sleep 2', 'wait sh -c "exit 3"', 'continue if {exit code of action = 0}')
        server = published(it, site(1, *fixlet(1, *script)))
        status, lines = turns(it.agent('pc1', server.port, 10, every=1))
        told = (status, lines[0], lines.count('turn pc1 M: went on 7, failed at line 3 cause 41'), lines[-1])
        check(told, (0, 'turn pc1 M: began 7, held at line 1', 1, 'turn pc1 M: idle'), f'the agent, whose lines are {lines}')
        check(results(server, 'pc1'), (200, b'7 1 failed M M 3 0 3 2\n'), 'its results')


@row('each route of a relay answers, and those of a server alone are none')
def relay_routes():
    with Office() as it:
        server = published(it, SITE, b'abc')
        relay = it.relay(server.port)
        gathered = relay.lines[:]
        asked(relay, (
            ('GET', '/sites', b'', 200, b'actionsite 1\ndesk 1\n'),
            ('GET', '/sites/desk/0', b'', 200, SITE),
            ('GET', '/sites/desk/1', b'', 200, b'same\n'),
            ('GET', '/sites/none/0', b'', 200, b'same\n'),
            ('GET', f'/files/{ABC}', b'', 200, b'abc'),
            ('GET', f'/files/{ABC_SHA1}{"0" * 24}', b'', 404, b'no such\n'),
            ('POST', '/reports', report('pc1', 1), 200, b'carried\n'),
            ('POST', '/reports', report('pc1', 1), 200, b'stored\n'),
            ('POST', '/reports', b'report 3\n', 400, b'bad text 1\n'),
            ('POST', '/reports', b'x' * 65537, 413, b'too long\n'),
            ('POST', '/sites', SITE, 404, b'no such\n'),
            ('POST', '/actions', ACTION, 404, b'no such\n'),
            ('POST', '/actions/7/stop', b'', 404, b'no such\n'),
            ('POST', '/files', b'abc', 404, b'no such\n'),
            ('GET', '/results/pc1', b'', 404, b'no such\n'),
        ))
        check(gathered, [], 'what it printed before')
        check(results(server, 'pc1'), (200, b'7 1 fixed M M 0 - - 1\n'), 'what the server has of it')


@row('a relay whose upstream is gone answers with what it has, and says so')
def relay_alone():
    with Office() as it:
        relay = it.relay(free_port(), 3)
        check(ask(relay.port, 'GET', '/sites'), (200, b''), 'the sites')
        check(ask(relay.port, 'POST', '/reports', report('pc1', 1)), (200, b'carried\n'), 'a report')
        check(ask(relay.port, 'GET', f'/files/{ABC}'), (502, b'link fault\n'), 'a file')
        gone = 'link: no answer'
        # of each round the sites, and where there is one the report
        lines = [gone, 'answered 200', gone, 'answered 200', gone, gone, 'answered 502', gone, gone]
        check(relay.end(), (0, lines), 'the end')


@row('a relay with a cache asks for a file once, however often it is asked')
def kept_file():
    port, asked_for = upstream([b'', b'abc', b'', b'', b''])
    with Office() as it:
        relay = it.relay(port, 3, room=1)
        for _ in range(3):
            check(ask(relay.port, 'GET', f'/files/{ABC}'), (200, b'abc'), 'the file')
        check(relay.end(), (0, ['answered 200'] * 3), 'the end')
        check(asked_for, ['GET /sites', f'GET /files/{ABC}', 'GET /sites', 'GET /sites', 'GET /sites'], 'what it asks')


@row('a relay with room for one file, of two that are asked for by turns, answers the one that it keeps when its upstream is gone')
def kept_by_turns():
    abd = hashlib.sha256(b'abd').hexdigest()
    with Office() as it:
        server = it.serve()
        for file in (b'abc', b'abd'):
            check(ask(server.port, 'POST', '/files', file)[0], 200, f'{file} is put')
        relay = it.relay(server.port, 6, room=1)
        for digest, file in ((ABC, b'abc'), (abd, b'abd'), (ABC, b'abc')):
            check(ask(relay.port, 'GET', f'/files/{digest}'), (200, file), f'{file} before')
        server.kill()
        check(ask(relay.port, 'GET', f'/files/{ABC}'), (200, b'abc'), 'the kept one')
        check(ask(relay.port, 'GET', f'/files/{abd}'), (502, b'link fault\n'), 'the other one')
        check(ask(relay.port, 'GET', f'/files/{ABC}'), (200, b'abc'), 'the kept one again')
        status, lines = relay.end()
        # the upstream is killed before, in or behind a round, which tells so or has nothing to tell
        answered = [line for line in lines if line not in ('link: no answer', 'link: bad answer')]
        check((status, answered), (0, ['answered 200'] * 4 + ['answered 502', 'answered 200']), 'the end')


@row('an agent whose upstream is gone goes on, and says so; a second one on its pocket is refused')
def agent_alone():
    with Office() as it:
        gone = free_port()
        first = it.agent('pc4', gone, 2, every=20)
        first.until(2)
        check(it.agent('pc4', gone, 1).end(), (6, []), 'the second')
        check(turns(first), (0, ['link: no answer', 'turn pc4 M: idle'] * 2), 'the first')


@row('an agent turns to its second upstream where the first is gone, in each part of a round, and asks the same there')
def second_upstream():
    bodies = [b'actionsite 1\ndesk 1\n', sealed(b'site actionsite 1\n' + ACTION), SITE, b'abc', b'ok\n', b'ok\n']
    asks = ['GET /sites', 'GET /sites/actionsite/0', 'GET /sites/desk/0', f'GET /files/{ABC}', 'POST /reports', 'POST /reports']
    with Office() as it:
        for given in range(len(bodies)):
            name = f'pc{given}'
            first, of_first = upstream(bodies[:given])
            second, of_second = upstream(bodies[given:])
            lines = [f'turn {name} M: began 7, fixed']
            lines.insert(0 if given < 4 else 1, 'link: second')
            check(turns(it.agent(name, first, 1, second=second)), (0, lines), f'the agent whose first upstream answers {given} times')
            check((of_first, of_second), (asks[:given], asks[given:]), 'what both are asked')


@row('each round of an agent begins with its first upstream; where both are gone it says so, and goes on')
def first_again():
    with Office() as it:
        gone, second = free_port(), it.serve()
        agent = it.agent('pc9', gone, 2, every=20, second=second.port)
        agent.until(2)
        first = it.serve(keep='other', port=gone)
        check(turns(agent), (0, ['link: second', 'turn pc9 M: idle', 'turn pc9 M: idle']), 'the agent')
        check((first.until(1), second.until(1)), (['answered 200'], ['answered 200']), 'both upstreams')
        alone = it.agent('pc8', free_port(), 2, second=free_port())
        check(turns(alone), (0, ['link: second', 'link: no answer', 'turn pc8 M: idle'] * 2), 'one whose upstreams are both gone')


@row('a pause of another form fails each exchange')
def pause_of_another_form():
    with Office() as it:
        server = it.serve()
        check(turns(it.agent('pc3', server.port, 1, every='')), (0, ['link: no answer', 'turn pc3 M: idle']), 'the agent')
        check(server.lines, [], 'the server')


@row('a pocket of another form is refused with its line')
def pocket_of_another_form():
    with Office() as it:
        with open(it.path('pc5.pocket'), 'wb') as pocket:
            pocket.write(b'agent 3\n')
        check(it.agent('pc5', free_port(), 1).end(), (2, ['bad pocket 1']), 'the agent')
