"""What a run of an agent is to do and to write, call by call, written from the rules of docs/HTTP.md (rounds), docs/FORMATS.md (saved
texts, reports, lines of turns), docs/CONTENT.md and docs/SCRIPTS.md, for the two actions of `content.py`. Its devices say which of their
calls fail, and keep them in their order."""
import copy

from faulting.content import ABC, FIXLETS, LookFailed
from faulting.server import request


class Stopped(Exception):
    """The run is over, with this status."""


class Attempt:
    """An attempt that is held: its action, and its script as a generator of what it waits for."""

    def __init__(self, action, script):
        self.action, self.script = action, script


class Agent:
    def __init__(self, name, devices, saved, has_second):
        self.name, self.devices, self.has_second = name, devices, has_second
        self.rows, self.next, self.pending, self.outbox = copy.deepcopy(saved) if saved else ({}, 1, set(), [])
        self.shown = len(self.outbox)  # so many of its reports are saved
        self.sites, self.held, self.unsaved = {}, None, False
        self.lines, self.turned = [], False  # of the round

    # ---- what is saved and reported

    def spelled(self):
        """The saved text, form 2."""
        lines = ["agent 2", f"computer {self.name}", f"next {self.next}"]
        for action, rows in sorted(self.rows.items()):
            lines.append(f"action {action}")
            for number, row in enumerate(rows, 1):
                lines.append(f"attempt {number} {row['begun']} {row['outcome']} {row['end']} {row['cleared']} {row['note']}")
        lines += [f"pending {action}" for action in sorted(self.pending)]
        return ("\n".join(lines) + "\n").encode() + b"".join(text for _, text in self.outbox) + b"end\n"

    def save(self):
        """A save that fails leaves the old text or the new one; the pocket says which."""
        state = copy.deepcopy((self.rows, self.next, self.pending, self.outbox))
        self.unsaved = not self.devices.save(self.spelled(), state)
        if self.unsaved:
            raise Stopped(6)
        self.shown = len(self.outbox)

    def end_turn(self, changed):
        """A report is made where an action is pending, and whatever changed since the last save is saved."""
        if self.pending:
            rows = "".join(f"row {action} {len(self.rows[action])} {row['outcome']} {row['begun']} {row['end']} {row['note']}\n"
                           for action in sorted(self.pending) for row in self.rows[action][-1:])
            text = f"report 2\ncomputer {self.name}\nseq {self.next}\n{rows}end\n"
            self.outbox.append((self.next, text.encode()))
            self.next, self.pending, changed = self.next + 1, set(), True
        if changed:
            self.save()

    # ---- a turn

    def turn(self, moment):
        """The first of the steps that applies; the words of what the turn came to."""
        if self.unsaved:
            self.save()
        running = [it for it in sorted(self.rows) if self.rows[it][-1]["outcome"] == "running"]
        broken = [it for it in running if not (self.held and self.held.action == it)]
        if broken:
            self.rows[broken[0]][-1].update(outcome="interrupted", end=moment)
            self.pending.add(broken[0])
            self.save()
            self.end_turn(False)
            return f"interrupted {broken[0]}"
        if self.held:
            return self.go_on(moment, "went on", False)
        before = copy.deepcopy((self.rows, self.pending))
        try:
            marked, action = self.mark_cleared(moment), self.first_due(moment)
        except LookFailed:
            # the state is as step 1 left it: no mark stays
            self.rows, self.pending = before
            return "machine fault"
        if action is None:
            self.end_turn(marked)
            return "idle"
        rows = self.rows.setdefault(action, [])
        rows.append({"begun": moment, "outcome": "running", "end": "-", "cleared": "-", "note": "- - -"})
        self.pending.add(action)
        self.save()
        self.held = Attempt(action, FIXLETS[action].script(self.devices))
        return self.go_on(moment, "began", True)

    def mark_cleared(self, moment):
        """Marks what has ended and isn't relevant. Content that isn't gathered is not relevant, and no look is made for it."""
        marked = False
        for action in self.actions():
            last = self.rows.get(action, [{"outcome": "running"}])[-1]
            if last["outcome"] != "running" and last["cleared"] == "-" and not self.is_relevant(action):
                last["cleared"], marked = moment, True
        return marked

    def actions(self):
        return sorted(FIXLETS) if "actionsite" in self.sites else []

    def is_relevant(self, action):
        return "desk" in self.sites and FIXLETS[action].is_relevant(self.devices)

    def first_due(self, moment):
        for action in self.actions():
            rows, fixlet = self.rows.get(action, []), FIXLETS[action]
            # retries after a failure or a break, none after a success, and nothing is reapplied
            failed = bool(rows) and rows[-1]["outcome"] in ("failed", "interrupted")
            owed = not rows or failed and len(rows) <= fixlet.retries and moment >= rows[-1]["end"] + fixlet.wait
            if owed and fixlet.targets(self.devices) and self.is_relevant(action):
                return action
        return None

    def go_on(self, moment, words, began):
        """Goes on with the held attempt until it is held, wants a file or ends."""
        action = self.held.action
        row = self.rows[action][-1]
        try:
            wait = next(self.held.script)
        except StopIteration as over:
            line, code = over.value
            if line is None:
                row.update(end=moment, outcome="fixed", note=f"{code} - -")
            else:
                row.update(end=moment, outcome="failed", note=f"{code} 0 {line[0]}")
            self.held = None
            self.pending.add(action)
            self.end_turn(True)
            return f"{words} {action}, fixed" if line is None else f"{words} {action}, failed at line {line[0]} cause {line[1]}"
        self.end_turn(False)
        return f"{words} {action}, {wait}"

    # ---- rounds

    def exchange(self, method, path, body=b""):
        """The upstream's answer. Where the first exchange of a round fails, the second upstream is asked the same, and all later ones."""
        answer = self.devices.exchange(method, path, request(method, path, body), body)
        if answer is not None or self.turned or not self.has_second:
            return answer
        self.turned = True
        self.lines.append("link: second")
        return self.devices.exchange(method, path, request(method, path, body), body)

    def gather(self, lines):
        listed = self.exchange("GET", "/sites")
        if listed is None:
            return lines.append("link: no answer")
        for line in listed[1].decode().splitlines():
            name, version = line.split(" ")
            if int(version) > self.sites.get(name, 0):
                site = self.exchange("GET", f"/sites/{name}/{self.sites.get(name, 0)}")
                if site is None:
                    return lines.append("link: no answer")
                self.sites[name] = int(version)
        return None

    def turn_with_files(self, moment, lines):
        """Turns at one moment, with a file between any two. X is `began` where one of them began the attempt."""
        told, began = self.turn(moment), False
        while told.endswith(f"wants {ABC}"):
            began = began or told.startswith("began")
            file = self.exchange("GET", f"/files/{ABC}")
            if file is None:
                lines.append("link: no answer")
                break
            self.devices.supplied = file
            told = self.turn(moment)
        if began:
            told = told.replace("went on", "began")
        lines.append(f"turn {self.name} {moment}: {told}")

    def post(self, lines):
        for number, text in list(self.outbox[:self.shown]):
            answer = self.exchange("POST", "/reports", text)
            if answer is None:
                return lines.append("link: no answer")
            if answer[1] in (b"ok\n", b"again\n", b"stored\n"):
                self.outbox = [it for it in self.outbox if it[0] != number]
                self.shown, self.unsaved = self.shown - 1, True
        return None

    def round(self):
        lines = []
        self.lines, self.turned = lines, False
        self.gather(lines)
        moment = self.devices.now()
        if moment is None:
            raise Stopped(5)
        self.turn_with_files(moment, lines)
        self.post(lines)
        return lines


def run_agent(name, devices, rounds, has_second):
    """Runs the agent of the pocket's text. Its status."""
    try:
        loaded, saved = devices.load()
        if not loaded:
            raise Stopped(6)
        agent = Agent(name, devices, saved, has_second)
        for number in range(rounds):
            if number:
                devices.pause()
            if not devices.write(agent.round()):
                raise Stopped(4)
    except Stopped as stop:
        return stop.args[0]
    return 0
