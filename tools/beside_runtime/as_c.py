"""Writes a script as C: an addon with one function for each entry and one line for each operation. It is no command."""
import json

MASK = (1 << 64) - 1
# The names that C has already.
NAMES = {"typeof": "type_of", "throw": "throw_value", "exit": "ask_exit", "return": "leave"}
THREAD_KINDS = {"call_threadsafe_function": "c", "acquire_threadsafe_function": "a", "release_threadsafe_function": "r"}
SIGNED = ("create_int64", "create_bigint_int64")


def text(it):
    """Returns a text of a script as a literal of C."""
    out = (chr(byte) if 32 <= byte < 127 and chr(byte) not in '"\\?' else f"\\{byte:03o}" for byte in it.encode("utf-8"))
    return '"' + "".join(out) + '"'


def number(it):
    """Returns a number of a script as one of C."""
    return f"{it}u" if it > 2147483647 else str(it)


def argument(it):
    """Returns an argument that is a flag, a number or a text."""
    if isinstance(it, bool):
        return "true" if it else "false"
    return text(it) if isinstance(it, str) else number(it)


def arguments(operation):
    """Returns the arguments of an operation."""
    name, given = operation[0], operation[1:]
    if name in SIGNED:
        return [f"(int64_t){given[0] & MASK}u", argument(given[1])]
    if name == "create_string_utf8":
        return [text(given[0]), str(len(given[0].encode())), argument(given[1])]
    if name == "throw_error":
        return ["NULL" if given[0] == -1 else text(given[0]), text(given[1])]
    if name == "call_function":
        receiver, function, registers, kept = given
        listed = ", ".join(map(str, registers)) or "0"
        return [str(receiver), str(function), str(len(registers)), f"(const int[]){{{listed}}}", str(kept)]
    if name == "create_async_work":
        job, *others = given
        return [argument(job[0] == "mix"), number(job[1]), number(job[2]) if job[0] == "mix" else "0", *map(argument, others)]
    return [argument(it) for it in given]


def texts_of(script):
    """Returns the table of a script's texts: each text of an operation at its first place."""
    operations = (it for addon in script["addons"] for entry in addon["entries"] for it in entry)
    return list(dict.fromkeys(["message", "code", "stack depth", *(it for operation in operations for it in operation[1:] if isinstance(it, str))]))


def line(operation, keeping):
    """Returns the line of an operation. A `return` ends the function. Those of `keeping` name the register that keeps their result last."""
    kept = operation[-1] if operation[0] in keeping else -1
    call = f"{NAMES.get(operation[0], operation[0])}({', '.join(['f', *arguments(operation)])});"
    return f"  {call}\n  return;" if operation[0] == "return" else f"  next(f, {kept}); {call}"


def listed(kind, name, items, none):
    """Returns the table of these items, which has one of none where there are none, and its count."""
    return f"{kind} {name}[] = {{{', '.join(items) or none}}};"


def of_addon(at, addon, keeping):
    """Yields the functions of an addon's entries, and their table."""
    for e, entry in enumerate(addon["entries"]):
        yield f"static void addon{at}_entry{e}(frame *f) {{\n  (void)f;"
        yield from (line(operation, keeping) for operation in entry)
        yield "}"
    yield listed("static entry *const", f"ADDON{at}", [f"addon{at}_entry{e}" for e in range(len(addon["entries"]))], "NULL")


def of_thread(at, operations):
    """Returns the table of a thread's operations."""
    rows = []
    for name, function, *others in operations:
        payload = others[0] if name == "call_threadsafe_function" else 0
        mode = others[-1] if others else 0
        rows.append(f"{{'{THREAD_KINDS[name]}', {number(function)}, {number(payload)}, {mode}}}")
    return listed("static const thread_op", f"THREAD{at}", rows, "{0, 0, 0, 0}")


def as_c(script, name, keeping, plan):
    """Returns the source of a script, of which `plan` says what the trace here tells: how many calls each thread makes before the loop ends, pairs of
    events of which the first comes first, the works that a call cancels before they start, whether asynchronous hooks may be left to wait, and what the
    calls of each frame gave."""
    addons, threads = script["addons"], [it[:many] for it, many in zip(script["threads"], plan.early)]
    out = [f"/* Made of {name} by tools/beside. */", f"#define NAPI_VERSION {script['version']}", '#include "calls.h"', ""]
    for at, addon in enumerate(addons):
        out += of_addon(at, addon, keeping)
    out += [of_thread(at, it) for at, it in enumerate(threads)]
    texts = texts_of(script)
    out.append(listed("const text", "TEXTS", [f"{{{len(it.encode())}, {text(it)}}}" for it in texts], ""))
    out.append(listed("const plan", "PLANS", [f"{{{len(it['entries'])}, ADDON{at}}}" for at, it in enumerate(addons)], "{0, NULL}"))
    out.append(listed("const thread_plan", "THREADS", [f"{{{len(it)}, THREAD{at}}}" for at, it in enumerate(threads)], "{0, NULL}"))
    out.append(listed("const turn", "TURNS", [f"{{{json.dumps(first)}, {json.dumps(then)}}}" for first, then in plan.turns], "{0, 0}"))
    given = [f'{{"{key}", "{kinds}", "{duties}"}}' for key, kinds, duties in plan.answers]
    out.append(listed("const answers", "ANSWERS", given, "{0, 0, 0}"))
    out.append(listed("const u64", "HELD_BACK", map(str, plan.held_back), "0"))
    counts = {"TEXT_COUNT": texts, "ANSWER_COUNT": given, "PLAN_COUNT": addons, "THREAD_COUNT": threads}
    counts |= {"TURN_COUNT": plan.turns, "HELD_BACK_COUNT": plan.held_back}
    out.append(f"const bool HOOKS_WAIT = {argument(plan.hooks_wait)};")
    out.append(f"const size_t {', '.join(f'{it} = {len(items)}' for it, items in counts.items())}, WORKERS = {max(1, script['workers'])};")
    return "\n".join(out) + "\n"
