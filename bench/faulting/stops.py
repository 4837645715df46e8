"""An agent that is stopped between any two calls of its devices over the rounds of a run: from that call on every call fails. Then a new
agent is opened from its pocket, over the same machine and sound devices."""
from faulting.commands import Agent
from faulting.devices import ALL, NOTHING, Choice
from faulting.program import clock, link

# the most attempts of an action: one, and its retries
MOST = {b"7": 2, b"8": 1}


def rows(text):
    """The attempts of each action in a saved text, each with its outcome."""
    found, action = {}, None
    for line in (text or b"").splitlines():
        words = line.split(b" ")
        if words[0] == b"action":
            action = found.setdefault(words[1], [])
        elif words[0] == b"attempt":
            action.append(words[3])
    return found


def judge_rows(ran, saved, way):
    """No command is done but with a saved row that runs, and no action has more rows than its rule, in any text that was saved."""
    for call in ran.calls:
        if (call.device, call.name) == ("machine", "act") and not any(b"running" in it[-1:] for it in rows(saved).values()):
            return [f"{call.about!r} is done without a row"]
        if (call.device, call.name) == ("pocket", "save") and (call.answer == "done" or way == ALL):
            saved = call.about
        more = [action for action, some in rows(saved).items() if len(some) > MOST[action]]
        if more:
            return [f"action {more[0]} has {len(rows(saved)[more[0]])} rows"]
    return []


def again(program, agent, devices, moment):
    """What is not so of a new agent that is opened from the pocket and turned at later moments."""
    moments = [moment + 5, moment + 64, moment + 65, moment + 200]
    words = [*agent.words[:-1], str(len(moments))]
    sound = Choice()
    plays = agent.play(sound, devices.world, devices.pocket, moments, devices.upstream)
    ran = program.run(words, ["sink", clock(moments), link(plays[0].replies)], sound)
    return agent.judge_play(ran, sound, *plays) + judge_rows(ran, devices.pocket[0], NOTHING)


def tried(program, each):
    """Stops an agent at every point, each way or by turns. What was stopped, how often, and what is not so."""
    agent, complaints, points = Agent(), [], 0
    sound = program.run(agent.words, agent.devices(Choice(), None), Choice())
    order = [it for it in sound.calls if it.name != "pause"]
    for number in range(1, len(order) + 1):
        for way in (NOTHING, ALL) if each else [(NOTHING, ALL)[number % 2]]:
            choice = Choice(number=number, way=way, onwards=True)
            ran = program.run(agent.words, agent.devices(choice, sound), choice)
            told = agent.judge(ran, choice, sound) + judge_rows(ran, None, way)
            moments = agent.MOMENTS[:max(1, sum(it.device == "clock" for it in order[:number]))]
            told += again(program, agent, agent.plays[0], moments[-1])
            complaints += [f"stopped at call {number}, {order[number - 1].device} {order[number - 1].name}, way {way}: {it}" for it in told]
            points += 1
    return f" at each of {len(order)} calls, and a new one behind it", points, complaints
