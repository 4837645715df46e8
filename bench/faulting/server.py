"""What a server answers to requests over HTTP and what it keeps, written from the rules of docs/FORMATS.md and docs/HTTP.md: the reply to
each request is a function of those that were accepted before it. Of texts it knows the first lines alone, and which ones are bad is told
to it, so that no reader stands here."""
import hashlib

REASONS = {200: "OK", 400: "Bad Request", 404: "Not Found", 409: "Conflict", 413: "Content Too Large", 500: "Internal Server Error",
           502: "Bad Gateway", 503: "Service Unavailable", 507: "Insufficient Storage"}
LIMITS = {"sites": 100, "actions": 1000, "files": 500}
KEEPER_FAULT = (500, b"keeper fault\n")


def sha256(data):
    return hashlib.sha256(data).hexdigest()


def request(method, path, body=b""):
    """The bytes of a request as agents and relays send it."""
    return f"{method} {path} HTTP/1.1\r\nHost: desk\r\nContent-Length: {len(body)}\r\n\r\n".encode() + body


def response(answer):
    """The bytes of the response with this status and body."""
    status, body = answer
    return f"HTTP/1.1 {status} {REASONS[status]}\r\nContent-Length: {len(body)}\r\nConnection: close\r\n\r\n".encode() + body


def sealed(text):
    """A site's text with its digest line."""
    return text + b"digest " + sha256(text).encode() + b"\n"


class Server:
    """The tables are those of the requests that were accepted."""

    def __init__(self, bad=()):
        self.bad = dict(bad)
        self.sites, self.actions, self.files = {}, {}, {}
        self.stopped, self.version = set(), 0
        self.reports, self.results = {}, {}

    def actionsite(self):
        text = f"site actionsite {self.version}\n".encode()
        for number in sorted(self.actions):
            kept = self.actions[number]
            text += kept.replace(b"\nstate open\n", b"\nstate stopped\n") if number in self.stopped else kept
        return sealed(text)

    def answer(self, method, path, body=b""):
        """The status and the body of the reply, where no device fails."""
        words = path.strip("/").split("/")
        if method == "POST" and body in self.bad:
            return 400, f"bad text {self.bad[body]}\n".encode()
        asked = (method, *words[:1], *(["stop"] if words[2:] == ["stop"] else []))
        return {("POST", "sites"): lambda: self.publish(body), ("POST", "actions"): lambda: self.act(body),
                ("POST", "actions", "stop"): lambda: self.stop(int(words[1])), ("POST", "files"): lambda: self.file(body),
                ("GET", "sites"): lambda: self.ask_site(*words[1:]), ("GET", "files"): lambda: self.ask_file(words[1]),
                ("POST", "reports"): lambda: self.report(body), ("GET", "results"): lambda: self.ask_results(words[1])}[asked]()

    def publish(self, body):
        _, name, version = body.split(b"\n")[0].decode().split(" ")
        kept = self.sites.get(name)
        if kept == (int(version), body):
            return 200, b"again\n"
        if kept and kept[0] >= int(version):
            return 409, f"older {kept[0]}\n".encode()
        if not kept and len(self.sites) >= LIMITS["sites"]:
            return 507, f"full {LIMITS['sites']}\n".encode()
        self.sites[name] = (int(version), body)
        return 200, b"ok\n"

    def act(self, body):
        number = int(body.split(b"\n")[0].split(b" ")[1])
        if number in self.actions:
            same = self.actions[number] == body
            return (200, b"again\n") if same else (409, f"conflict {sha256(self.actions[number])}\n".encode())
        if len(self.actions) >= LIMITS["actions"]:
            return 507, f"full {LIMITS['actions']}\n".encode()
        self.actions[number] = body
        self.version += 1
        return 200, b"ok\n"

    def stop(self, number):
        if number not in self.actions:
            return 404, b"no such\n"
        if number in self.stopped:
            return 200, b"again\n"
        self.stopped.add(number)
        self.version += 1
        return 200, b"ok\n"

    def file(self, body):
        if sha256(body) not in self.files and len(self.files) >= LIMITS["files"]:
            return 507, f"full {LIMITS['files']}\n".encode()
        self.files[sha256(body)] = body
        return 200, f"ok {sha256(body)}\n".encode()

    def listed(self):
        """The sites as they are told, with their versions and texts."""
        made = {"actionsite": (self.version, self.actionsite())} if self.version else {}
        return dict(sorted({**self.sites, **made}.items()))

    def ask_site(self, name=None, version=None):
        sites = self.listed()
        if name is None:
            return 200, "".join(f"{name} {version}\n" for name, (version, _) in sites.items()).encode()
        if name not in sites:
            return 404, b"no such\n"
        return (200, sites[name][1]) if sites[name][0] > int(version) else (200, b"same\n")

    def ask_file(self, digest):
        return (200, self.files[digest]) if digest in self.files else (404, b"no such\n")

    def report(self, body):
        lines = body.decode().splitlines()
        computer, number = lines[1].split(" ")[1], int(lines[2].split(" ")[1])
        kept = self.reports.get((computer, number))
        if kept:
            return (200, b"again\n") if kept == sha256(body) else (409, f"conflict {kept}\n".encode())
        self.reports[computer, number] = sha256(body)
        rows = self.results.setdefault(computer, {})
        for line in lines[3:-1]:
            fields = line.split(" ")[1:]
            fields += ["-"] * 3 if lines[0] == "report 1" else []
            if number > rows.get(int(fields[0]), (0, ""))[0]:
                rows[int(fields[0])] = (number, " ".join(fields))
        return 200, b"ok\n"

    def ask_results(self, computer):
        if computer not in self.results:
            return 404, b"no such\n"
        rows = self.results[computer]
        return 200, "".join(f"{rows[it][1]} {rows[it][0]}\n" for it in sorted(rows)).encode()
