"""Rows that take longer: a thousand agents at one server, an upstream that never accepts, a script that waits, a disk that fills."""
import concurrent.futures
import contextlib
import os
import socket
import subprocess
import time

from desks import IN_A_FILE, LOOPBACK, UNPROVED, NotAsked, Office, ask, check, check_at_most, fixlet, report, row, site
from loopback import ABC, ENVIRONMENT, SITE
from offices import published, turns
from recorder import Recorder

AGENTS = 25 if UNPROVED else 1000
LAST = 10  # seconds in which a thousand agents are answered that come within one
PAUSE = 32  # seconds between the rounds of an agent: an upstream whose connection ran out of time isn't tried again for 30


class Crowd:
    """Agents that wait until they are let go, each with a pocket of its own, and with a file for what it prints."""

    def __init__(self, office, upstream, rounds, pocket=None):
        self.office, self.names = office, [f'pc{n}' for n in range(1, AGENTS + 1)]
        waiting, self.gate = os.pipe()
        self.agents = [self.begin(name, upstream, rounds, waiting) for name in self.names]
        for name in self.names if pocket else ():
            with open(office.path(f'{name}.pocket'), 'wb') as file:
                file.write(pocket(name))

    def begin(self, name, upstream, rounds, waiting):
        """Begins an agent that waits for a line, and ends where none comes any more."""
        os.mkdir(self.office.path(name))
        words = ['agent', f'{LOOPBACK}:{upstream}', f'{name}.pocket', name, name, '0', str(rounds)]
        shell = ['sh', '-c', 'read -r line && exec "$@" </dev/null', 'sh']
        with open(self.office.path(f'{name}.lines'), 'wb') as lines:
            return subprocess.Popen([*shell, self.office.program, *words], cwd=self.office.folder, stdin=waiting, stdout=lines,
                                    stderr=subprocess.DEVNULL, env={**ENVIRONMENT, 'DESK_EVERY': str(PAUSE)})

    def go(self, seconds):
        """Lets them go within so many seconds, evenly. When the last one was let go, and when the last one has ended."""
        begun = time.monotonic()
        for at in range(len(self.agents)):
            time.sleep(max(0, begun + seconds * at / len(self.agents) - time.monotonic()))
            os.write(self.gate, b'\n')
        let_go = time.monotonic() - begun
        check([status for status in (agent.wait(300) for agent in self.agents) if status], [], 'the statuses of those that failed')
        return let_go, time.monotonic() - begun

    def lines(self):
        """The lines of each."""
        return {name: self.office.content(f'{name}.lines').decode().splitlines() for name in self.names}


@row('a thousand agents with nothing to report, within a second, are all answered, the last within 10 seconds', long=True)
def thousand_spread():
    with Office() as it:
        server = it.serve()
        crowd = Crowd(it, server.port, 1)
        let_go, spent = crowd.go(1)
        check([name for name, lines in crowd.lines().items() if lines[:-1]], [], 'whose exchange failed')
        check(server.until(AGENTS), ['answered 200'] * AGENTS, 'the lines of the server')
        check_at_most(spent, LAST, 'the last agent ends')
        return f'{AGENTS} agents, let go within {let_go:.1f} s; no exchange failed, and the last agent ended after {spent:.1f} s'


def pocket_with_a_report(name):
    """The pocket of an agent that has done an action and has its report in the outbox."""
    front = f'agent 2\ncomputer {name}\nnext 2\naction 7\nattempt 1 1000 fixed 1060 - 0 - -\n'
    return front.encode() + report(name, 1) + b'end\n'


@row('a thousand agents with a report each, at one instant: the next round delivers what the first one did not', long=True)
def thousand_at_once():
    with Office() as it:
        server = it.serve()
        crowd = Crowd(it, server.port, 2, pocket_with_a_report)
        let_go, spent = crowd.go(0)
        lines = crowd.lines().values()
        check([last for *_, last in lines if not last.endswith(': idle')], [], 'what came behind the turn of the second round')
        held = [ask(server.port, 'GET', f'/results/{name}') for name in crowd.names]
        check([answer for answer in held if answer != (200, b'7 1 fixed 1000 1060 0 - - 1\n')], [], 'what the server does not have of them')
        failed = [found.count('link: no answer') for found in lines]
        return (f'{AGENTS} agents, let go within {let_go:.2f} s; {sum(failed)} exchanges of {len(failed) - failed.count(0)} agents failed; '
                f'with the second round, {PAUSE} s behind the first, all was over after {spent:.1f} s')


@contextlib.contextmanager
def never_accepts():
    """The port of a listener whose places are all taken."""
    with contextlib.ExitStack() as stack:
        listener = stack.enter_context(socket.socket())
        listener.bind((LOOPBACK, 0))
        listener.listen(0)
        for _ in range(8):
            waiting = stack.enter_context(socket.socket())
            waiting.setblocking(False)
            waiting.connect_ex(listener.getsockname())
        time.sleep(0.2)
        yield listener.getsockname()[1]


@row('a relay whose upstream never accepts, with five agents: each request is answered within 40 seconds, within 5 from the second on',
     long=True)
def silent_upstream(rounds=100, first=40, following=5):
    names = [f'pc{n}' for n in range(5)]
    with Office() as it, never_accepts() as port:
        recorder = Recorder(it.relay(port).port)
        agents = [it.agent(name, recorder.port, rounds, every=1) for name in names]
        for name, agent in zip(names, agents):
            check(turns(agent, 4 * rounds), (0, [f'turn {name} M: idle'] * rounds), name)
        spent = recorder.spent
        check(len(spent), rounds * len(names), 'how many requests were answered')
        check_at_most(spent[0], first, 'the first answer')
        check_at_most(max(spent[1:]), following, 'one of the others')
        return f'the first answer took {spent[0]:.1f} s, the longest of {len(spent) - 1} others {max(spent[1:]):.1f} s'


@row('a script that waits for 30 seconds ends fixed by an agent that pauses between its rounds', long=True)
def waits():
    with Office() as it:
        server = published(it, site(1, *fixlet(1, 'wait sleep 30')))
        status, lines = turns(it.agent('pc1', server.port, 20, every=2), 120)
        check((status, lines[0], lines.count('turn pc1 M: went on 7, fixed'), lines[-1]),
              (0, 'turn pc1 M: began 7, held at line 1', 1, 'turn pc1 M: idle'), f'the agent, whose lines are {lines}')


DISK = 16  # MB, of which the log of SQLite takes some 4 before it is put into the file and written anew


@contextlib.contextmanager
def small_disk(it):
    """A folder of a file system of its own, which can be filled."""
    os.mkdir(it.path('small'))
    mount = ['mount', '-t', 'tmpfs', '-o', f'size={DISK}m', 'none', it.path('small')]
    if subprocess.run(mount, capture_output=True, check=False).returncode:
        raise NotAsked(f'a file system of {DISK} MB can not be mounted here, which root may')
    try:
        yield
    finally:
        subprocess.run(['umount', '-l', it.path('small')], check=False)


def fill(path):
    """Leaves no room on the disk of this file."""
    with contextlib.suppress(OSError), open(path, 'wb', buffering=0) as ballast:
        while True:
            ballast.write(bytes(1048576))  # or as much of it as there is room for


@row('a server whose disk fills under load, time after time, answers 200 again when it is freed', IN_A_FILE, long=True)
def full_disk(times=6, reports=600):
    with Office() as it, small_disk(it), concurrent.futures.ThreadPoolExecutor(4) as clients:
        server, answers = it.serve(keep='small/keep'), []

        def post(number):
            return ask(server.port, 'POST', '/reports', report('pc1', number))

        for _ in range(times):
            check(post(len(answers) + 1), (200, b'ok\n'), f'report {len(answers) + 1}, for which there is room')
            coming = clients.map(post, range(len(answers) + 2, len(answers) + reports + 1))
            fill(it.path('small', 'ballast'))
            answers += [(200, b'ok\n'), *coming]
            check(answers[-1], (500, b'keeper fault\n'), f'report {len(answers)}, for which there is none')
            os.remove(it.path('small', 'ballast'))
        check(set(answers), {(200, b'ok\n'), (500, b'keeper fault\n')}, 'the answers')
        for number, (status, _) in enumerate(answers, 1):
            check(post(number), (200, b'again\n' if status == 200 else b'ok\n'), f'report {number}, which was answered {status}')
        return f'{sum(status == 500 for status, _ in answers)} of {len(answers)} reports found no room, in {times} times'


@row('fifty agents that fetch one file through a relay with a cache ask the server for it once', long=True)
def one_exchange(agents=50):
    with Office() as it:
        server = published(it, SITE, b'abc')
        recorder = Recorder(server.port)
        relay = it.relay(recorder.port, room=1)
        with concurrent.futures.ThreadPoolExecutor(8) as pool:
            ends = list(pool.map(lambda n: turns(it.agent(f'pc{n}', relay.port, 1)), range(agents)))
        check(ends, [(0, [f'turn pc{n} M: began 7, fixed']) for n in range(agents)], 'the agents')
        check(recorder.asked.count(f'GET /files/{ABC}'.encode()), 1, 'how often the server was asked')
