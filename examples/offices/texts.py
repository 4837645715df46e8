"""Texts of offices, and the parts that they are made of: what made and bench/office put together."""
import hashlib


def digest(text):
    """The SHA-256 of a text, in hexadecimal digits."""
    return hashlib.sha256(text.encode()).hexdigest()


def site(lines):
    """The order that publishes a site of these lines, which it seals."""
    return f"publish\n{lines}digest {digest(lines)}\n"


def fixlet(number, script, relevance="true", success="success lines", title="A fixlet"):
    """The lines of a fixlet with this script."""
    return (f"fixlet {number}\ntitle {title}\nrelevance {relevance}\n{success}\n"
            + "".join(f"| {line}\n" for line in script) + "end\n")


def action(number, fixlet_number=1, retries="0 0", reapply="never"):
    """The text of an action that is open to all computers at every moment."""
    return (f"action {number}\nissued 0\ncontent desk {fixlet_number}\nmembers stop\ntarget all\nstart none\nuntil none\nhours none\n"
            f"days 1111111\nretries {retries}\nreapply {reapply}\nstate open\nend\n")


def act(*fields, **more):
    """The order of that action."""
    return "act\n" + action(*fields, **more)


def computer(name, relay="r1", lines=""):
    """A computer at a relay, whose world has these lines beside its head."""
    return f"computer {name} {relay}\nworld\nname {name}\nsystem 12.4 Debian\noffset 0\nmoment 1000\n{lines}end\n"


def office(*orders):
    """An office of these orders."""
    return "office\n" + "".join(orders) + "end\n"
