"""Rows of servers, relays and agents that are killed at random moments while reports come: nothing that was answered is lost."""
import concurrent.futures
import contextlib
import fcntl
import random
import re
import threading
import time

from desks import IN_A_FILE, STARTS, UNPROVED, Office, action, ask, check, fixlet, report, row, site, wait_for
from loopback import SECONDS, free_port
from recorder import Recorder

HELD = {'server': (b'ok\n', b'again\n'), 'relay': (b'stored\n',)}  # the answers to a report that say that the server holds it
SLOWER = 8 if UNPROVED else 1  # so many times as long lives a desk that takes longer to begin
AGENTS = ('pc1', 'pc2', 'pc3')
RETRIES = 2  # of each action
EACH = 0.3  # seconds, in which there is one action more


class Killed:
    """Desks that are killed and begun again. Each is of a name, with how it is begun."""

    def __init__(self, begins):
        self.begins, self.kills = begins, 0
        self.desks = {name: begin() for name, begin in begins.items()}

    def until(self, over, least, most):
        """Kills any of them, between so many seconds, until it is over."""
        while not over.wait(random.uniform(least, most) * SLOWER):
            name = random.choice(list(self.desks))
            check(self.desks[name].process.poll(), None, f'the status of {name}, which lives')
            self.desks[name].kill()
            self.desks[name] = self.begins[name]()
            self.kills += 1


def posts(port, name, over):
    """Posts reports of a computer one after another, each until it is answered. How many were."""
    count = 0
    while not over.wait(0.02):
        with contextlib.suppress(OSError):
            check(ask(port, 'POST', '/reports', report(name, count + 1)) in ((200, b'ok\n'), (200, b'again\n')), True, 'the answer')
            count += 1
    return count


@row('a server that is killed while reports come holds each that it has answered', IN_A_FILE)
def killed_server():
    with Office() as it, concurrent.futures.ThreadPoolExecutor() as beside:
        port, over = free_port(), threading.Event()
        killed = Killed({'server': lambda: it.serve(port=port)})
        killer = beside.submit(killed.until, over, 0.2, 1.5)
        counts = {name: beside.submit(posts, port, name, over) for name in ('pc1', 'pc2', 'pc3', 'pc4')}
        time.sleep(15)
        over.set()
        killer.result()
        for name, count in counts.items():
            for number in range(1, count.result() + 1):
                check(ask(port, 'POST', '/reports', report(name, number)), (200, b'again\n'), f'report {number} of {name}')
        return f'{killed.kills} kills, {sum(count.result() for count in counts.values())} reports'


class Pocket:
    """What the pocket of an agent tells: its next number, the outcomes of the attempts of each action, and the reports in its outbox."""

    def __init__(self, text):
        self.next = int(re.search(r'^next (\d+)$', text, re.M)[1])
        self.outcomes = {int(number): re.findall(r'^attempt \d+ \d+ (\w+) ', attempts, re.M)
                         for number, attempts in re.findall(r'^action (\d+)\n((?:attempt .*\n)+)', text, re.M)}
        self.outbox = {int(seq): report.encode()
                       for report, seq in re.findall(r'^(report 2\ncomputer .*\nseq (\d+)\n(?:row .*\n)*end\n)', text, re.M)}


def act_on(port, over, most):
    """Gives so many actions one after another, each of a fixlet of its own and until it is answered. How many were before it was over."""
    count = 0
    while count < most and not over.wait(EACH * SLOWER):
        with contextlib.suppress(OSError):
            check(ask(port, 'POST', '/actions', action(count + 1, count + 1, RETRIES))[0], 200, 'an action')
            count += 1
    return count


def check_reports(name, pocket, port, recorders):
    """Each report of an agent that was answered so that the server holds it is held; each other one is in its outbox. How many it made."""
    texts, held = dict(pocket.outbox), set()
    for kind, recorder in recorders.items():
        for text, answers in list(recorder.answers.items()):
            computer, number = re.match(rb'report 2\ncomputer (\w+)\nseq (\d+)\n', text).groups()
            if computer.decode() == name:
                check(text, texts.setdefault(int(number), text), f'report {int(number)} of {name} has one text')
                held |= {int(number)} if set(answers) & set(HELD[kind]) else set()
    made = {*texts, *range(1, pocket.next)}
    check(made - held - set(pocket.outbox), set(), f'the reports of {name} that nobody said to hold, and that are not in its outbox')
    for number in sorted(held):
        check(ask(port, 'POST', '/reports', texts[number]), (200, b'again\n'), f'report {number} of {name}, which is said to be held')
    return len(made)


def check_attempts(name, pocket, done):
    """No command of an agent was done without a row of its attempt, and no action has more rows than its rule. How many were done."""
    for number, outcomes in pocket.outcomes.items():
        check(outcomes[RETRIES + 1:], [], f'the rows of action {number} of {name} above its rule')
    commands = [int(line) for line in done.split()]
    for number in set(commands):
        rows, times = len(pocket.outcomes.get(number, ())), commands.count(number)
        check(times <= rows, True, f'{name} has {rows} rows for {times} commands of action {number}, which are enough')
    return len(commands)


def is_free(path):
    """Whether nobody has the lock on a file. A program that is started meanwhile would keep it for a moment."""
    with STARTS, contextlib.suppress(FileNotFoundError), open(path, 'rb') as file:
        try:
            fcntl.flock(file, fcntl.LOCK_EX | fcntl.LOCK_NB)
        except BlockingIOError:
            return False
    return True


class Watched:
    """An office of a server, a relay and agents, in which each report goes through a recorder, and which can be killed."""

    def __init__(self, it, fixlets):
        self.it, self.port, relay_port = it, free_port(), free_port()
        self.recorders = {'server': Recorder(self.port), 'relay': Recorder(relay_port)}
        server = it.serve(port=self.port)
        check(ask(self.port, 'POST', '/sites', site(1, *fixlets)), (200, b'ok\n'), 'the site')
        begins = {name: lambda name=name: self.begin_agent(name) for name in AGENTS}
        begins['relay'] = lambda: it.relay(self.recorders['server'].port, port=relay_port)
        # an unproved server has its tables in memory alone, so that it has to live
        if not UNPROVED:
            server.kill()
            begins['server'] = lambda: it.serve(port=self.port)
        self.killed = Killed(begins)

    def begin_agent(self, name):
        """Begins an agent, when its pocket is free: a program that it was about to start when it was killed has the lock for a moment."""
        wait_for(lambda: is_free(self.it.path(f'{name}.pocket.lock')), SECONDS, f'the pocket of {name} is free')
        return self.it.agent(name, self.recorders['relay'].port, 1000000)

    def judged(self):
        """Ends all but the server, and judges what pockets and server have. How many commands were done, and reports made."""
        for name in ('relay', *AGENTS):
            check(self.killed.desks[name].process.poll(), None, f'the status of {name}, which lives')
            self.killed.desks[name].kill()
        commands = reports = 0
        for name in AGENTS:
            text = self.it.content(f'{name}.pocket')
            check(text is None, False, f'{name} has no pocket')
            pocket = Pocket(text.decode())
            commands += check_attempts(name, pocket, self.it.content(name, 'done') or b'')
            reports += check_reports(name, pocket, self.port, self.recorders)
        return commands, reports


def kill_office(seconds):
    """Kills desks of an office for so many seconds, while it is given actions."""
    most = int(seconds / EACH / SLOWER)
    fixlets = [line for number in range(1, most + 1) for line in fixlet(number, f'wait echo {number} >>done', 'continue if {false}')]
    over = threading.Event()
    with Office() as it, concurrent.futures.ThreadPoolExecutor() as beside:
        office = Watched(it, fixlets)
        killer, acts = beside.submit(office.killed.until, over, 0.1, 0.8), beside.submit(act_on, office.port, over, most)
        time.sleep(seconds)
        over.set()
        killer.result()
        for name in AGENTS:
            wait_for(lambda name=name: it.content(name, 'done'), SECONDS, f'{name} has done a command')
        kills, actions, (commands, reports) = office.killed.kills, acts.result(), office.judged()
        return f'{kills} kills{" of relay and agents alone" * UNPROVED}; {actions} actions, {commands} commands, {reports} reports'


@row('an office whose server, relay and agents are killed for 20 seconds loses nothing')
def killed_office():
    return kill_office(20)


@row('an office that is killed for two minutes loses nothing', long=True)
def killed_longer():
    return kill_office(120)
