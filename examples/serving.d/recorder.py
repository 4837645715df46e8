"""What stands before a desk and keeps what goes by."""
import contextlib
import re
import socket
import threading
import time

from desks import LOOPBACK, client, everything, parted
from loopback import SECONDS


def whole_request(peer):
    """What a peer asks, all that it says, and the body. ConnectionError where that doesn't come whole."""
    said = b''
    while piece := peer.recv(65536):
        said += piece
        head, end, body = said.partition(b'\r\n\r\n')
        if end and len(body) >= int(re.search(rb'Content-Length: (\d+)', head)[1]):
            return b' '.join(head.split(b' ')[:2]), said, body
    raise ConnectionError('the request is cut')


class Recorder:
    """Hands requests on to a desk, and its answers back. Keeps what was asked, what was answered to each report, and how long each answer
    took."""

    def __init__(self, upstream):
        self.upstream, self.asked, self.answers, self.spent = upstream, [], {}, []
        self.listener = socket.create_server((LOOPBACK, 0), backlog=64)
        self.port = self.listener.getsockname()[1]
        threading.Thread(target=self.serve, daemon=True).start()

    def serve(self):
        while True:
            peer, _ = self.listener.accept()
            threading.Thread(target=self.hand_on, args=(peer,), daemon=True).start()

    def hand_on(self, peer):
        """Hands one whole request on, and its answer back. Where either side is gone, so is this conversation."""
        with peer, contextlib.suppress(OSError):
            peer.settimeout(SECONDS)
            asked, said, body = whole_request(peer)
            self.asked.append(asked)
            answers = self.answers.setdefault(body, []) if asked == b'POST /reports' else []
            since = time.monotonic()
            with client(self.upstream) as desk:
                desk.sendall(said)
                reply = everything(desk)
            if parted(reply):
                self.spent.append(time.monotonic() - since)
                answers.append(parted(reply)[1])
            peer.sendall(reply)
