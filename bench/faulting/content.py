"""The machine, the site and the two actions that the runs of an agent are over, and what their relevance and scripts ask and do, line by
line, as docs/SCRIPTS.md and docs/CONTENT.md have it."""
from faulting.server import sealed, sha256

FILE = b"abc"
ABC = sha256(FILE)
ABC_SHA1 = "a9993e364706816aba3e25717850c26c9cd0d89d"  # of FIPS 180-4

MACHINE = b"""world
name pc1
system 12.4 Debian
offset 0
moment 0
folder /etc
file 5 /etc/old
| x
program 1 0 slow
end
"""

SITE = sealed(f"""site desk 1
fixlet 1
title Put abc
relevance not exists file "/done"
success relevance
| prefetch abc sha1:{ABC_SHA1} size:3 http://desk/abc sha256:{ABC}
| copy "__Download/abc" "/done"
| parameter "host" = "{{computer name}}"
| wait slow
| continue if {{exit code of action = 0}}
end
fixlet 2
title Note the system
relevance exists folder "/etc"
success lines
| createfile until E
| {{name of operating system}}
| E
| delete "/etc/old"
end
""".encode())


def action(number, fixlet, target, retries):
    return f"""action {number}
issued 900
content desk {fixlet}
members stop
target {target}
start none
until none
hours none
days 1111111
retries {retries}
reapply never
state open
end
""".encode()


# what is handed to a server before an agent of it runs
ACTIONS = {7: action(7, 1, 'where exists folder "/etc"', "1 60"), 8: action(8, 2, "all", "0 0")}

# the cause of a line whose look, command or poll failed
FAULT = 43


class LookFailed(Exception):
    """A look failed."""


class PutAbc:
    """Fixlet 1 by action 7: on all computers with the folder /etc, one retry 60 seconds after a failure."""
    retries, wait = 1, 60

    @staticmethod
    def targets(devices):
        devices.look("stat /etc")
        return True

    @staticmethod
    def is_relevant(devices):
        devices.look("stat /done")
        return "/done" not in devices.world

    @staticmethod
    def script(devices):
        """Gives what it waits for, and in the end the line and cause of its failure, or none, with the exit code of its run."""
        devices.supplied = None
        while devices.supplied is None:
            yield f"wants {ABC}"
        if not devices.act("do place abc 3", "__Download/abc"):
            return (1, FAULT), "-"
        # it was not there, or the fixlet was not relevant
        if not devices.act("do copy __Download/abc /done", "/done"):
            return (2, FAULT), "-"
        try:
            devices.look("name")
        except LookFailed:
            return (3, FAULT), "-"
        if not devices.act("do start slow", None):
            return (4, FAULT), "-"
        for answer in ("running", "exited"):
            if not devices.poll(answer):
                return (4, FAULT), "-"
            if answer == "running":
                yield "held at line 4"
        # its success: some clause of the relevance is not true now
        try:
            return (None if not PutAbc.is_relevant(devices) else (0, 49)), "0"
        except LookFailed:
            return (0, FAULT), "0"


class NoteSystem:
    """Fixlet 2 by action 8: on all computers, without a retry."""
    retries, wait = 0, 0

    @staticmethod
    def targets(_devices):
        return True

    @staticmethod
    def is_relevant(devices):
        devices.look("stat /etc")
        return True

    @staticmethod
    def script(devices):
        try:
            devices.look("system")
        except LookFailed:
            return (1, FAULT), "-"
        if not devices.act("do write __createfile 7", "__createfile"):
            return (1, FAULT), "-"
        if not devices.act("do delete /etc/old", None):
            return (4, FAULT), "-"
        return None, "-"
        yield  # it waits for nothing


FIXLETS = {7: PutAbc, 8: NoteSystem}
