"""Reads the trace of a script here and under a runtime, and tells where they differ, call by call. It is no command.

A frame is found by its key: `init:0.0`, the duty that began it as the trace here numbers it, or for the frame of a call its caller's key
and the call's place in it. A difference is a call, an answer here and an answer there, and where the call stands."""
import collections
import re

LINE = re.compile(r"(?:\d+ )?(env|w|[tw]\d+) (\w+) (\S+) (.*)")
DUTIES = re.compile(r"((?: -#\d+)?)((?: \+[#jf][\d.]+)?)$")
MOST_TURNS = 4000
LOOP, TEARDOWN = "in the loop", "in the teardown"
NO_END, QUIET = "no end in time", "no end, where the loop here ends as quiet"
LATE = "the loop has ended before it"
BEYOND = " of the runtime"
FIRST, LAST = "the first one first", "the last one first"


class Frame:
    """A frame: its key, how it began, the calls that it made, and how it ended."""

    def __init__(self, key, began, place):
        self.key, self.began, self.place, self.calls, self.end = key, began, place, [], None


class Trace:
    """What stands in a trace: its frames by their keys in their order, the calls of each thread, and notes. The events are those by which turns
    are kept: the actor, the events that wait, and the one that may be waited for."""

    def __init__(self):
        self.frames, self.outermost, self.threads, self.notes, self.events, self.early = {}, [], collections.defaultdict(list), [], [], collections.Counter()
        self.made, self.phase, self.loop_end, self.abandons, self.back = {}, LOOP, None, False, []

    def event(self, actor, waits, awaited):
        """Takes in a line by which turns are kept. Once the loop has ended none are: how a runtime goes on then is its own."""
        if self.phase == LOOP:
            self.events.append((actor, waits, awaited))

    def next_of_loop(self, event):
        """Takes in what the loop does next: it waits also before the loop goes on, since a runtime takes an item off its queue before the frame."""
        self.event("env", [event, *self.back], event)
        self.back = []


class Reader:
    """Reads a trace line by line. The duties of one of a runtime get the numbers that they have here: both are made at one place."""

    def __init__(self, here=None):
        self.trace, self.here, self.stack, self.names, self.runs = Trace(), here, [], {}, {}

    def name_of(self, duty):
        """Returns what a duty is called here."""
        function, dot, item = duty.partition(".")
        return self.names.get(duty) or (f"{self.names.get(function, function)}.{item}" if dot else duty)

    def keep_duty(self, place, duty):
        """Takes in a duty that was made at a place."""
        self.trace.made[place] = duty
        if self.here:
            self.names[duty] = self.here.made.get(place, duty + BEYOND)

    def begin(self, status, rest):
        """Takes in the begin of a frame."""
        cause, entry, duty = (rest.split(":") + ["", ""])[:3]
        if cause == "call" and self.stack:
            caller = self.stack[-1]
            key, began = f"{caller.key}/{len(caller.calls)}", "begins"
            self.trace.event("env", [f"{caller.key} {len(caller.calls)}"], f"{key} begin")
            caller.calls.append(("call_function", began))
        else:
            key = self.name_of(duty) if duty else f"{cause}:{entry}"
            began = f"{status} {cause}" + ("" if cause == "init" else f" {self.trace.phase}")
            self.trace.outermost.append(key)
            self.trace.next_of_loop(f"{key} begin")
        frame = self.trace.frames.setdefault(key, Frame(key, began, entry))
        self.stack.append(frame)

    def of_env(self, name, status, rest):
        """Takes in a line of the environment."""
        if name == "begin":
            self.begin(status, rest)
        elif name == "end" and self.stack:
            frame = self.stack.pop()
            frame.end = f"{status} {rest}"
            self.trace.event("env", [], f"{frame.key} end")
            self.trace.back = self.trace.back if self.stack else [f"{frame.key} back"]
        elif name == "note":
            self.trace.notes.append(f"{status}: {rest}")
        elif name == "loop_end":
            self.trace.next_of_loop("env loop_end")
            self.trace.phase, self.trace.loop_end = TEARDOWN, rest
        elif name == "abandon":
            self.trace.abandons = True
        elif name == "go":
            self.trace.event("env", [], "env go")
            self.trace.back = ["env back"]
        elif self.stack:
            self.call(name, status, rest)

    def call(self, name, status, rest):
        """Takes in a call of the frame that runs."""
        frame, found = self.stack[-1], DUTIES.search(rest)
        told, place = rest if status == "~" else rest[: found.start()], (frame.key, len(frame.calls))
        if status != "~" and found[2]:
            self.keep_duty(place, found[2][2:])
        if name == "create_threadsafe_function" and status == "0":
            self.keep_duty((*place, name), told)
            told = self.name_of(told)
        frame.calls.append((name, f"{status} {told}"))
        self.trace.event("env", [f"{frame.key} {place[1]}"], f"{frame.key} {place[1]}")

    def of_thread(self, actor, name, status, rest):
        """Takes in a line of a thread."""
        if name != "actor_end":
            event = f"{actor} {len(self.trace.threads[actor])}"
            self.trace.early[actor] += self.trace.phase == LOOP
            told = rest if status == "~" else DUTIES.sub("", rest)
            self.trace.threads[actor].append((name, f"{status} {told}"))
            self.trace.event(actor, [event], event)

    def of_worker(self, actor, name, rest):
        """Takes in a line of a worker."""
        if name == "start":
            self.runs[actor] = rest
        if name in ("start", "finish") and actor in self.runs:
            event = f"{self.runs[actor]} {name}"
            self.trace.event(actor, [event], event)

    def line(self, line):
        """Takes in a line, if it is one of a trace."""
        found = LINE.fullmatch(line)
        if not found:
            return
        actor, name, status, rest = found.groups()
        if actor == "env":
            self.of_env(name, status, rest)
        elif actor[0] == "t":
            self.of_thread(actor, name, status, rest)
        else:
            self.of_worker(actor, name, rest)


def read(text, here=None):
    """Returns what stands in a trace. That of a runtime is read beside the one here."""
    reader = Reader(here)
    for line in text.split("\n"):
        reader.line(line)
    return reader.trace


def turns_of(trace):
    """Returns the pairs of events of two actors of which one comes first, as far as an addon can keep them."""
    last, seen, found = {}, collections.Counter(), []
    for at, (actor, waits, awaited) in enumerate(trace.events, 1):
        for other, (when, event) in last.items() if waits else ():
            if other != actor and when > seen[actor, other]:
                seen[actor, other] = when
                found += ((event, it) for it in waits)
        if awaited:
            last[actor] = at, awaited
    return found[:MOST_TURNS]


def answers_of(trace):
    """Yields the key of each frame, what the register of each of its calls keeps, and which duty each call makes, a letter each."""
    for key, frame in trace.frames.items():
        kinds, duties = "", ""
        for at, (_name, answer) in enumerate(frame.calls):
            inner = trace.frames.get(f"{key}/{at}") if answer == "begins" else None
            answer = (inner.end or "") if inner else answer
            kinds += "-" if not answer.startswith("0 ") else {"handle": "h", "promise": "p", "ref": "r"}.get(answer[2:], "n")
            duties += {"#": "t", "j": "j"}.get(trace.made.get((key, at), "-")[0], "-")
        yield key, kinds, duties


class Plan:
    """What an addon in C has of the trace here, so that both go on alike."""

    def __init__(self, script, trace):
        held = held_back(trace)
        self.early = [trace.early[f"t{at}"] for at in range(len(script["threads"]))]
        self.turns = turns_of(trace) + [(call, f"hold {work}") for work, call in held]
        self.held_back = [work[1:] for work, _ in held]
        self.answers = list(answers_of(trace))
        self.hooks_wait = not trace.abandons and all(len(calls) == trace.early[actor] for actor, calls in trace.threads.items())


def held_back(trace):
    """Returns the works that a call cancels before they start, each with the event of this call: completions with 11 come in the order of cancelling."""
    calls = [f"{key} {at}" for key, frame in trace.frames.items() for at, it in enumerate(frame.calls) if it == ("cancel_async_work", "0 -")]
    works = [key for key in trace.outermost if trace.frames[key].began.startswith("11 complete")]
    return list(zip(works, calls))


class Comparison:
    """What came of a comparison: how many answers are the same, what was not made, and the differences."""

    def __init__(self):
        self.same, self.not_made, self.found = 0, [], []

    def differ(self, at, call, here, there):
        """Takes in a difference."""
        self.found.append({"at": at, "call": call, "here": here, "there": there})

    def answers(self, at, here, there):
        """Compares a call's answer here with that of the runtime."""
        (name, one), (_name, other) = here, there
        if other.startswith("~"):
            self.not_made.append({"at": at, "call": name, "here": one, "why": other[2:]})
        elif one == other or name == "collect" and one[:2] == other[:2] == "0 ":
            self.same += 1
        else:
            self.differ(at, name, one, other)

    def calls(self, at, here, there, whole=True):
        """Compares two lists of calls. That of the runtime is not whole where its process ended inside."""
        for i, call in enumerate(here):
            if i >= len(there) and not whole:
                return
            if i >= len(there) or there[i][0] != call[0]:
                self.differ(f"{at} {i}", call[0], call[1], "another call" if i < len(there) else "no call")
                return
            self.answers(f"{at} {i}", call, there[i])


def is_inside(key, missing):
    """Whether a frame stands inside one of these."""
    parts = key.split("/")
    return any("/".join(parts[:at]) in missing for at in range(1, len(parts)))


def was_made(there, place):
    """Whether the runtime accepted the call that makes a duty at this place here. Where it did not, that was told."""
    frame = there.frames.get(place[0])
    return frame is not None and place[1] < len(frame.calls) and frame.calls[place[1]][1].startswith("0 ")


def compare_frames(it, here, there, ended):
    """Compares the frames of two traces. Of one that is missing those inside are not told, and none whose duty was not made or where the runtime's
    process did not end well."""
    missing, places = set(), {duty: place for place, duty in here.made.items()}
    for key, frame in here.frames.items():
        other = there.frames.get(key)
        if is_inside(key, missing) or other is None:
            missing.add(key)
            if other is None and "/" not in key and ended and (key not in places or was_made(there, places[key])):
                it.differ(key, "begin", frame.began, "-")
            continue
        if frame.began != other.began:
            it.differ(key, "begin", frame.began, other.began)
        if frame.place != other.place:
            it.differ(key, "begin", frame.place, other.place)
        it.calls(key, frame.calls, other.calls, ended or other.end is not None)
        if frame.end != other.end and (ended or other.end):
            it.differ(key, "end", frame.end, other.end or "-")


def compare_more(it, here, there):
    """Tells frames that begin under the runtime alone. A duty that a call made there alone was told with the call, and so was an item."""
    made = sum(1 for found in it.found if found["call"] == "call_threadsafe_function" and found["there"].startswith("0 "))
    for key in there.outermost:
        began = there.frames[key].began
        if key in here.frames or key.endswith(BEYOND):
            continue
        if made and re.match(r"\d+ (item|torn) ", began):
            made -= 1
        else:
            it.differ(key, "begin", "-", began)


def common(here, there, belongs):
    """Returns the order of those outermost frames that belong to a group on both sides, here and there."""
    both = {key for key in here.outermost if key in there.frames and belongs(key, here.frames[key].began) and belongs(key, there.frames[key].began)}
    return [[key for key in one.outermost if key in both] for one in (here, there)]


def order_of(it, what, pair):
    """Tells where the order of some frames differs. A whole order that is turned round has words of its own."""
    one, other = pair
    if one == other:
        return
    if sorted(one) == sorted(other) and one == other[::-1]:
        it.differ("order", what, FIRST, LAST)
    elif what == "order of items" and one == other[1:] + other[:1]:
        it.differ("order", what, "the finalizer last", "the finalizer first")
    else:
        it.differ("order", what, " ".join(one), " ".join(other))


def compare_orders(it, script, here, there):
    """Compares in which order frames began: finalizers of each phase, hooks, completions of one worker, the items of each function; and then all
    that is no finalizer, where the script has the environment alone."""
    for phase in (LOOP, TEARDOWN):
        order_of(it, "order of finalizers", common(here, there, lambda key, began, phase=phase: key[0] == "#" and began == f"0 finalize {phase}"))
    before = len(it.found)
    order_of(it, "order of hooks", common(here, there, lambda key, began: " hook " in began))
    if script["workers"] < 2:
        order_of(it, "order of completions", common(here, there, lambda key, began: " complete " in began))
    for function in sorted({key.partition(".")[0] for key in here.outermost if key[0] == "f"}):
        order_of(it, "order of items", common(here, there, lambda key, began, function=function: key.partition(".")[0] == function))
    if not script["threads"] and not script["workers"] and len(it.found) == before:
        order_of(it, "order of frames", common(here, there, lambda key, began: not (key[0] == "#" and " finalize " in began)))


def compare(script, here, there, outcome):
    """Returns the comparison of the trace here with that of a runtime, of which `outcome` tells how it ended where that was not well."""
    it = Comparison()
    ended = not outcome
    compare_frames(it, here, there, ended)
    compare_orders(it, script, here, there)
    for actor, calls in here.threads.items():
        early = here.early[actor]
        late = [(name, f"~ {LATE}") for name, _ in calls[early:]]
        it.calls(actor, calls, there.threads.get(actor, [])[:early] + (late if ended else []), ended)
    compare_more(it, here, there)
    for note in there.notes:
        it.differ("run", "note", "-", note)
    if outcome:
        it.differ("run", "process", "0", QUIET if outcome == NO_END and here.loop_end == "quiet" else outcome)
    return it
