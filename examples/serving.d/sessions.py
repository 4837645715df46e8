"""Rows of `desk session`: questions over what a server has kept, and a KEEP that isn't found."""
import os
import shutil
import subprocess

from desks import IN_A_FILE, STARTS, Differs, NotAsked, Office, action, ask, check, fixlet, report, row, site
from loopback import ENVIRONMENT, SECONDS

NOBODY = ('setpriv', '--reuid=65534', '--regid=65534', '--clear-groups')
QUESTIONS = 'names of bes computers\nstatus of result "7" of bes computer "pc1"\nline 2 of bes action "7"\nnames of bes sites\n'
ANSWERS = """Q: names of bes computers
A: pc1
Q: status of result "7" of bes computer "pc1"
A: fixed
Q: line 2 of bes action "7"
A: issued 0
Q: names of bes sites
A: desk
"""


def ended(words, folder, lines=''):
    """The status of a program that is given these lines, and what it writes."""
    with STARTS:
        asked = subprocess.Popen(words, cwd=folder, env=ENVIRONMENT, text=True,
                                 stdin=subprocess.PIPE, stdout=subprocess.PIPE, stderr=subprocess.DEVNULL)
    try:
        written, _ = asked.communicate(lines, SECONDS)
    except subprocess.TimeoutExpired:
        asked.kill()
        raise Differs(f'{words} has not ended after {SECONDS} s') from None
    return asked.returncode, written


def session(it, keep, before=(), program=None):
    """The status and what is written of a session over a KEEP."""
    return ended([*before, program or it.program, 'session', keep], it.folder, QUESTIONS)


def kept(it):
    """A server that has kept something, and goes on."""
    server = it.serve()
    for path, body in (('/sites', site(1, *fixlet(1, '// nothing'))), ('/actions', action(7)), ('/reports', report('pc1', 1))):
        check(ask(server.port, 'POST', path, body), (200, b'ok\n'), f'POST {path}')
    return server


def listing(folder):
    """All that stands in a folder, with its bytes."""
    found = {}
    for place, folders, names in os.walk(folder):
        found.update({os.path.join(place, name): None for name in folders})
        for name in names:
            with open(os.path.join(place, name), 'rb') as file:
                found[os.path.join(place, name)] = file.read()
    return found


@row('a session answers over what a server has kept that was killed, and the next server goes on with it', IN_A_FILE)
def answers():
    with Office() as it:
        kept(it).kill()
        shutil.copy(it.path('keep'), it.path('copy'))
        shutil.copy(it.path('keep-wal'), it.path('copy-wal'))
        check(session(it, 'keep'), (0, ANSWERS), 'a session')
        os.rename(it.path('keep'), it.path('alone'))
        check(session(it, 'alone'), (0, ANSWERS), 'one over KEEP alone')
        check(session(it, 'copy'), (0, ANSWERS), 'one over a copy of both files')
        server = it.serve(1, 'alone')
        check(ask(server.port, 'POST', '/reports', report('pc1', 1)), (200, b'again\n'), 'the report')
        check(server.end()[0], 0, 'the end of the server')


@row('a session beside a server is refused, and the server goes on', IN_A_FILE)
def beside():
    with Office() as it:
        server = kept(it)
        check(session(it, 'keep'), (7, ''), 'the session')
        check(ask(server.port, 'POST', '/reports', report('pc1', 1)), (200, b'again\n'), 'the server')


@row('a session over a KEEP that is missing, or is no database, is refused; nothing is written and nothing made', IN_A_FILE)
def missing():
    with Office() as it:
        os.mkdir(it.path('folder'))
        for name, data in (('empty', b''), ('text', b'no database\n')):
            with open(it.path(name), 'wb') as file:
                file.write(data)
        before = listing(it.folder)
        for keep in ('missing', 'missing/keep', 'folder', 'empty', 'text', ':memory:'):
            check(session(it, keep), (7, ''), keep)
        check(listing(it.folder), before, 'the folder')


@row('a session over a KEEP without leave is refused; nothing is written and nothing made', IN_A_FILE)
def without_leave():
    with Office() as it:
        if os.geteuid() != 0 or not shutil.which(NOBODY[0]):
            raise NotAsked('it takes root and setpriv')
        program = it.path('program')
        # nothing that is started here meanwhile has the copy open
        ended(['cp', it.program, program], it.folder)
        for place in (it.room, it.folder):
            os.chmod(place, 0o711)
        if ended([*NOBODY, program, '--help'], it.folder)[0] != 0:
            raise NotAsked('another user can not run a program in the folder for temporary files')
        server = kept(it)
        server.process.terminate()
        server.process.wait(SECONDS)
        before = listing(it.folder)
        for mode in (0o600, 0o644, 0o666):
            os.chmod(it.path('keep'), mode)
            check(session(it, 'keep', before=NOBODY, program=program), (7, ''), f'the mode {mode:o}')
        check(listing(it.folder), before, 'the folder')
        check(session(it, 'keep'), (0, ANSWERS), 'one with leave')


@row('words of a session of another form are refused')
def words_of_a_session():
    with Office() as it:
        for words in (('session',), ('session', ''), ('session', 'keep', 'keep')):
            check(it.run(*words).end(), (1, ['usage: desk --help']), ' '.join(words))
