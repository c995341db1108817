"""What every trace of a script keeps, as the tools that run scripts judge it. It is no command.

It reads the numbers of lines, the phases, the calls of each frame and of each thread and the works of each worker in their order, and that
each duty begins exactly once. It does not say what a call answers."""
import collections
import re

LINE = re.compile(r"(\d+) (env|[tw]\d+) (\w+) (\d+) (.*)")
DUTIES = re.compile(r"( -(?P<dropped>#\d+))?( \+(?P<made>[#jf][\d.]+))?$")
BEGUN = re.compile(r"\w+:\d+\.\d+(?::([#jf][\d.]+))?$")
FRAME = re.compile(r"(\w+):(\d+)\.(\d+)")
PHASES = ["opened", "go", "loop_end", "drain", "finals", "gone"]
STEPS = {*PHASES, "abandon", "close_tsfn", "finish_tsfn"}


class Unlawful(Exception):
    """A trace is not lawful, or what came in its place is not."""


def need(holds, why):
    """Ends the judging where something does not hold."""
    if not holds:
        raise Unlawful(why)


def lines_of(text):
    """Returns the lines of a trace: the actor, the name, the status and the rest of each."""
    need(text.endswith("\n"), "the trace does not end with a newline")
    found = []
    for at, line in enumerate(text[:-1].split("\n"), 1):
        parts = LINE.fullmatch(line)
        need(parts and int(parts[1]) == at, f"line {at} is no line with that number: {line}")
        found.append((parts[2], parts[3], int(parts[4]), parts[5]))
    return found


def judge_thread(calls, lines, is_short):
    """Judges the lines of a thread: its script's calls in their order, and its end."""
    made = [it[1] for it in lines]
    need(made and made[-1] == "actor_end" and made.count("actor_end") == 1, "a thread does not end, or not once")
    need(made[:-1] == [it[0] for it in calls[: len(made) - 1]], "a thread makes other calls than its script's")
    if lines[-1][3] == "-":
        need(len(made) == len(calls) + 1, "a thread that is not cut leaves calls out")
    else:
        need(is_short, f"a thread is cut: {lines[-1][3]}")


def judge_worker(lines, begun):
    """Judges the lines of a worker: starts and finishes by turns, and its end. Each work is started once over all workers."""
    need(lines and lines[-1][1:] == ("actor_end", 0, "-"), "a worker does not end")
    for at, (_actor, name, _status, rest) in enumerate(lines[:-1]):
        need(name == ("start", "finish")[at % 2], "a worker's starts and finishes do not come by turns")
        if name == "start":
            need(rest not in begun, f"{rest} is started twice")
            begun.add(rest)
    need(len(lines) % 2 == 1, "a worker ends while its work runs")


def operations_of(script, rest):
    """Returns the names of the operations of the entry that a begin tells, up to where it leaves."""
    _cause, addon, entry = FRAME.match(rest).groups()
    entries = script["addons"][int(addon)]["entries"]
    names = [it[0] for it in entries[int(entry)]] if int(entry) < len(entries) else []
    return names[: names.index("return")] if "return" in names else names


def judge_frames(script, lines):
    """Judges the frames of the environment: each makes the calls of its entry in their order, and all of them where it is not cut."""
    frames = []
    for name, rest in ((name, rest) for actor, name, _status, rest in lines if actor == "env"):
        is_inner = name == "begin" and rest.startswith("call:")
        if name == "begin" and not is_inner or name in STEPS:
            need(not frames, f"`{name}` comes inside a frame")
        elif name != "end":
            need(frames and frames[-1][:1] == ["call_function" if is_inner else name], f"`{name}` is not the next call of a frame")
            frames[-1].pop(0)
        if name == "begin":
            frames.append(operations_of(script, rest))
        elif name == "end":
            need(frames, "a frame ends, and none stands")
            left = frames.pop()
            need(not left or rest.startswith("cut:"), "a frame that is not cut leaves calls out")
    need(not frames, "a frame does not end")


def judge_duties(lines):
    """Judges that each duty that is made and not withdrawn begins exactly once, after it was made, and that a function's items begin in their order."""
    left, known, items, functions = set(), set(), collections.Counter(), collections.Counter()
    for _actor, name, status, rest in lines:
        found = DUTIES.search(rest)
        if found["dropped"]:
            need(found["dropped"] in left, f"{found['dropped']} is withdrawn, and is not there")
            left.remove(found["dropped"])
        if found["made"]:
            need(found["made"] not in known, f"{found['made']} is made twice")
            known.add(found["made"])
            left.add(found["made"])
        begun = BEGUN.fullmatch(rest) if name == "begin" else None
        if begun and begun[1]:
            need(begun[1] in left, f"{begun[1]} begins, and is not there")
            left.remove(begun[1])
            function, dot, item = begun[1].partition(".")
            if dot:
                items[function] += 1
                need(int(item) == items[function], f"{begun[1]} begins out of its order")
        if name == "create_threadsafe_function" and status == 0:
            functions[rest.split()[0]] += 1
        if name == "finish_tsfn":
            functions[rest] -= 1
    need(not left, f"{', '.join(sorted(left)[:3])} never begins")
    need(not any(functions.values()), "a function does not finish once")


def judge(script, text, is_short):
    """Judges a trace by what every run of the script is to keep. Raises `Unlawful`."""
    lines = lines_of(text)
    need([it[1] for it in lines if it[0] == "env" and it[1] in PHASES] == PHASES, "the phases do not come once each in their order")
    need(lines[-1][1] == "gone", "the last line is not that of the end")
    actors = collections.defaultdict(list)
    for line in lines:
        actors[line[0]].append(line)
    begun = set()
    for at, calls in enumerate(script["threads"]):
        judge_thread(calls, actors.pop(f"t{at}", []), is_short)
    for at in range(script["workers"]):
        judge_worker(actors.pop(f"w{at}", []), begun)
    need(set(actors) == {"env"}, "an actor makes a line that is not there")
    places = {it[1]: at for at, it in enumerate(lines) if it[0] == "env" and it[1] in PHASES}
    abandoned = [at for at, it in enumerate(lines) if it[:2] == ("env", "abandon")]
    need(len(abandoned) < 2 and all(places["loop_end"] < at < places["drain"] for at in abandoned), "hooks are abandoned twice, or not before the drain")
    for at, line in enumerate(lines):
        need(line[0][0] != "t" or at > places["go"], "a thread makes a line before `go`")
        need(line[0] == "env" or at < places["finals"], "an actor makes a line behind `finals`")
        need(line[:2] != ("env", "end") or is_short or not line[3].startswith("cut:memory"), "a frame is cut for memory")
    judge_frames(script, lines)
    judge_duties(lines)
