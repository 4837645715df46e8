"""What the scripts that talk to a desk over loopback share.
  examples/loopback.py COUNT   for a script in another language: writes so many free ports, and holds them as long as its input lasts"""
import hashlib
import os
import random
import socket
import sys
import time

SECONDS = 120  # how long an answer, or the end of a process, is waited for
# no variable of the user's own is the desk's
ENVIRONMENT = {k: v for k, v in os.environ.items() if not k.startswith('DESK_')}

# the file `abc`, by the SHA-1 and the SHA-256 in FIPS 180-4
ABC_SHA1 = 'a9993e364706816aba3e25717850c26c9cd0d89d'
ABC = 'ba7816bf8f01cfea414140de5dae2223b00361a396177a9cb410ff61f20015ad'

# a fixlet that wants this file, and an action on all computers that runs it
SITE = f"""site desk 1
fixlet 1
title Put abc
success lines
| prefetch abc sha1:{ABC_SHA1} size:3 http://desk/abc sha256:{ABC}
| copy "__Download/abc" "done"
end
""".encode()
SITE += b'digest ' + hashlib.sha256(SITE).hexdigest().encode() + b'\n'
ACTION = b"""action 7
issued 0
content desk 1
members stop
target all
start none
until none
hours none
days 1111111
retries 0 0
reapply never
state open
end
"""


def ports():
    """The ports of this machine in any order, without those that the system gives to clients: a desk that is begun again at its port would
    find one of them there."""
    with open('/proc/sys/net/ipv4/ip_local_port_range', encoding='ascii') as file:
        first, last = map(int, file.read().split())
    found = [port for port in range(10000, 65536) if not first <= port <= last] or range(10000, 65536)
    return iter(random.sample(found, len(found)))


PORTS, HELD = ports(), []


def free_port():
    """A port that is free, and that nobody else is given: a socket that doesn't listen has it as long as this process runs. So whoever
    connects is refused, until a desk listens there beside it."""
    for port in PORTS:
        it = socket.socket()
        try:
            it.bind(('127.0.0.1', port))
        except OSError:
            it.close()
            continue
        # with this a desk may take it too; set before, it would be given a port that another process holds
        it.setsockopt(socket.SOL_SOCKET, socket.SO_REUSEADDR, 1)
        HELD.append(it)
        return port
    raise OSError('no port is free')


def talk(port, said):
    """What is answered to one who says this and then no more. The desk is waited for."""
    until = time.monotonic() + SECONDS
    while True:
        try:
            it = socket.create_connection(('127.0.0.1', port), SECONDS)
            break
        except OSError:
            if time.monotonic() > until:
                return b'no connection'
            time.sleep(0.02)
    with it:
        it.sendall(said)
        it.shutdown(socket.SHUT_WR)
        read = b''
        while piece := it.recv(65536):
            read += piece
        return read


if __name__ == '__main__':
    print(*(free_port() for _ in range(int(sys.argv[1]))), flush=True)
    sys.stdin.read()
