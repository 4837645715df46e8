"""What section by section of docs/PROVED.md, 'The other statuses' and 'What stays', a run may end with and write whose one call failed.
Each rule is a function that gives what is not so."""
from faulting.devices import ALL, HALF, NOTHING

# of a device whose fault ends a run: the status
ENDS = {"source": 3, "sink": 4, "clock": 5, "pocket": 6}
# of the keeper and the door: the calls whose fault ends a run, and the status
ENDING_CALLS = {("keeper", "open"): 7, ("door", "open"): 8, ("door", "next"): 8}


def failed_calls(ran):
    return [call for call in ran.calls if call.answer == "failed"]


def status_of(call):
    """The status with which a run ends whose first fault is this call, or None where the run goes on."""
    return ENDS.get(call.device, ENDING_CALLS.get((call.device, call.name)))


def judge_status(ran, sound):
    """A fault of source, sink, clock and pocket, of the keeper's opening, and of the door's opening and beginning ends the run with its
    own status; no other one does, and no status comes without its cause. `sound` is the status where nothing of that failed."""
    ending = next((it for it in map(status_of, failed_calls(ran)) if it), None)
    wanted = sound if ending is None else ending
    return [] if ran.status == wanted else [f"status {ran.status}, not {wanted}"]


def judge_end(ran):
    """A run that ends with 3 to 8 makes no call behind the one that ended it, but that it lets go of a conversation."""
    for number, call in enumerate(ran.calls):
        if call.answer == "failed" and status_of(call):
            later = [it for it in ran.calls[number + 1:] if it.name != "close"]
            return [f"a call of {later[0].device} {later[0].name} behind the fault that ends the run"] if later else []
    return []


def judge_silence(ran):
    """Where the source or the keeper's opening failed, nothing was written, and no device was asked but these; where the door's opening
    failed, or the pocket's load, nothing was written either."""
    silent = {("source", "read"), ("keeper", "open"), ("door", "open"), ("pocket", "load")}
    failed = [(it.device, it.name) for it in failed_calls(ran)]
    if failed and failed[0] in silent and ran.sink:
        return [f"written: {ran.sink!r}"]
    others = {it.device for it in ran.calls} - {"source", failed[0][0]} if failed and failed[0] in {("source", "read"), ("keeper", "open")} else set()
    return [f"asked: {others}"] if others else []


def judge_sink(ran, choice):
    """What is written is what the writes were given, of a failed one the front that stands."""
    wanted = b""
    for call in ran.calls:
        if call.device == "sink":
            fronts = {NOTHING: b"", ALL: call.about, HALF: call.about[:len(call.about) // 2]}
            wanted += call.about if call.answer == "done" else fronts[choice.way]
    return [] if ran.sink == wanted else [f"the sink has {ran.sink!r}, and {wanted!r} was written"]


def judge_written(ran, said):
    """At status 0, and at 1 and 2, all that the command says was written, and otherwise a front of it."""
    if ran.status in (0, 1, 2):
        return [] if ran.sink == said else [f"written {ran.sink!r}, not {said!r}"]
    return [] if said.startswith(ran.sink) else [f"written {ran.sink!r}, no front of {said!r}"]


def judge_steps(ran, steps):
    """Of a run of steps, each with its lines, all were written; where the sink failed, those before its last step, and of this one a
    front."""
    whole, last = ["".join(f"{line}\n" for lines in some for line in lines).encode() for some in (steps[:-1], steps[-1:])]
    if ran.status != 4:
        return [] if ran.sink == whole + last else [f"written {ran.sink!r}, not {whole + last!r}"]
    is_front = ran.sink.startswith(whole) and (whole + last).startswith(ran.sink)
    return [] if is_front else [f"written {ran.sink!r}, not {whole!r} and a front of {last!r}"]


def judge_calls(ran, wanted, devices):
    """The calls of these devices are exactly these, in this order."""
    made = [tuple(call) for call in ran.calls if call.device in devices]
    wanted = [call for call in wanted if call[0] in devices]
    for number, (one, other) in enumerate(zip(made, wanted), 1):
        if one != other:
            return [f"call {number} of {', '.join(devices)} is {one}, not {other}"]
    if len(made) != len(wanted):
        more = made[len(wanted):] or wanted[len(made):]
        return [f"{len(made)} calls of {', '.join(devices)}, not {len(wanted)}: {more[0]}"]
    return []


def judge(ran, choice, sound):
    """The rules of every run."""
    return judge_status(ran, sound) + judge_end(ran) + judge_silence(ran) + judge_sink(ran, choice)
