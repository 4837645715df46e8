"""What a run of a relay is to answer, to ask and to write, written from docs/HTTP.md: an upstream round, and then so many conversations
with a round after each."""
from faulting.server import request, sha256

LINK_FAULT = (502, b"link fault\n")


class Relay:
    def __init__(self, devices):
        self.devices, self.sites, self.queue, self.known = devices, {}, [], {}

    def exchange(self, method, path, body=b""):
        return self.devices.exchange(method, path, request(method, path, body), body)

    # ---- the upstream round

    def round(self):
        lines = []
        self.gather(lines)
        self.post(lines)
        return lines

    def gather(self, lines):
        listed = self.exchange("GET", "/sites")
        if listed is None:
            return lines.append("link: no answer")
        for line in listed[1].decode().splitlines():
            name, version = line.split(" ")
            if int(version) > self.kept(name):
                site = self.exchange("GET", f"/sites/{name}/{self.kept(name)}")
                if site is None:
                    return lines.append("link: no answer")
                self.sites[name] = int(version), site[1]
        return None

    def kept(self, name):
        return self.sites.get(name, (0, b""))[0]

    def post(self, lines):
        """Reports that the upstream holds leave the queue, and their keys are remembered with the digest that it holds."""
        for key, text in list(self.queue):
            answer = self.exchange("POST", "/reports", text)
            if answer is None:
                return lines.append("link: no answer")
            if answer[0] in (200, 409):
                self.known[key] = sha256(text) if answer[0] == 200 else answer[1].split()[1].decode()
                self.queue.remove((key, text))
        return None

    # ---- conversations

    def answer(self, method, path, body=b""):
        words = path.strip("/").split("/")
        if (method, words[0]) == ("POST", "reports"):
            return self.take(body)
        if method != "GET":
            return 404, b"no such\n"
        if words[0] == "files":
            answer = self.exchange("GET", path)
            return LINK_FAULT if answer is None else answer
        if words == ["sites"]:
            return 200, "".join(f"{name} {version}\n" for name, (version, _) in sorted(self.sites.items())).encode()
        if words[0] == "sites":
            version, text = self.sites.get(words[1], (0, b""))
            return (200, text) if version > int(words[2]) else (200, b"same\n")
        return 404, b"no such\n"

    def take(self, body):
        lines = body.decode().splitlines()
        key = lines[1], lines[2]
        queued = [sha256(text) for it, text in self.queue if it == key]
        if key in self.known:
            same = self.known[key] == sha256(body)
            return (200, b"stored\n") if same else (409, f"conflict {self.known[key]}\n".encode())
        if queued:
            return (200, b"carried\n") if queued == [sha256(body)] else (409, f"conflict {queued[0]}\n".encode())
        self.queue.append((key, body))
        return 200, b"carried\n"
