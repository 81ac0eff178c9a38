"""What `brokerd new-root` and `brokerd after-restore` make of a database.

The databases are those that SQLite makes of the reference broker at the end of each row of tests/rows, some of their
secrets in the older format, and of one with rows of every kind, two more root tokens and a child of each. Afterwards
the rows have to be those of the reference broker to which the same was done, byte for byte, and `brokerd check` accepts
them. A program that serves them takes the new root token, and refuses what is gone. What cannot be done changes no row:
in a file that is none of a broker, or in use, and where a call fails, or the program is killed before it.
"""

import random
import subprocess
from dataclasses import replace

from asking import RESPONSE, TOKEN, Reply, word, words_between
from broker.rows import rows_of
from broker.state import Token, at, having, orphaned, with_token
from broker.texts import identifier
from checked import SECONDS, at_the_end, broker_with_all, check, fault_in
from drawn_requests import request_text
from kept import in_a_format, rows_of_tests, write
from program import Running, expect, root_token
from rows import rows_in
from trial import FAULT_OF_STORAGE, Tally, side_by_side

LATER, EARLIER = 100, -1000  # seconds from the clock of a broker to that of the system
FAILED = ("pwrite", "fsync", "fdatasync", "ftruncate")
WAYS = ("EIO", "ENOSPC", "kill")
TASKS = (("new-root",), ("new-root", "--revoke-others"), ("after-restore",), ("after-restore", "--tokens"))
LEAST = {"done": 150, "rows in the older format": 5, "responses dropped": 5, "tokens revoked": 20, "asked": 20,
         "refused": 20, "failed": 20, "killed": 10}


# ---------------------------------------------------------------------------------------- the reference broker

def with_root(broker, text, accessor):
    """The broker with one more root token."""
    root = Token(None, accessor, ("root",), broker.clock, None, 0, 0, 0, None, ())
    return replace(with_token(broker, text, root), used=broker.used | {text.removeprefix("hvs."), accessor})


def revoked(broker, texts):
    """The broker after tokens were revoked, each alone."""
    for text in texts:
        broker = orphaned(broker, text)
    return broker


def other_roots(broker, own):
    """The root tokens but for one."""
    return [text for text, token in broker.tokens.items() if token.is_root() and text != own]


def passing(broker):
    """The tokens that a restore must not bring back."""
    return [text for text, token in broker.tokens.items() if not token.is_root() or token.end is not None]


def with_more_roots(broker):
    """The broker with two more root tokens, of which one is a child of the other and ends, and with a child of each."""
    child = next(token for token in broker.tokens.values() if not token.is_root())
    texts = [f"hvs.{identifier(2**100 + place)}" for place in range(4)]
    for place, (parent, end, policies) in enumerate((
            (None, None, ("root",)), (texts[0], broker.clock + 900, ("root",)),
            (texts[0], broker.clock + 900, ("default",)), (texts[1], broker.clock + 900, ("default",)))):
        accessor = identifier(2**101 + place)
        token = replace(child, parent=parent, accessor=accessor, policies=policies, issued=broker.clock, end=end,
                        ttl=900 if end else 0, cubbyhole={}, leases={})
        broker = replace(broker, tokens=having(broker.tokens, texts[place], token),
                         used=broker.used | {texts[place].removeprefix("hvs."), accessor})
    return broker


# ---------------------------------------------------------------------------------------- what is done

def run(trial, moment, file, task, *rules):
    """A run of the program at a moment until it ends."""
    return subprocess.run([trial.program, task[0], "--db", file, *task[1:]], stdin=subprocess.DEVNULL, text=True,
                          capture_output=True, timeout=SECONDS, env=trial.at(moment, *rules))


def does(trial, moment, file, task, broker):
    """Does a task to the database of a broker, and compares its rows. The broker after it, and the new root token.
    Raises Wrong."""
    before, ended = rows_in(file), run(trial, moment, file, task)
    expect(ended.returncode == 0, f"{ended}")
    after = rows_in(file)
    if task[0] == "new-root":
        text, words = root_token(ended.stdout), words_between(before, after)
        expect(text is not None and word(text) == words[1], f"{ended.stdout} is printed, and made {words[1:3]}")
        broker = with_root(at(broker, moment), text, identifier(words[2]))
        others = other_roots(broker, text) if task[1:] else []
        broker = revoked(broker, others)
        wanted = f"root token: {text}\n", f"{file}: revoked root tokens: {len(others)}\n" if task[1:] else ""
    else:
        text, others, many = None, passing(broker) if task[1:] else [], len(broker.waiting)
        broker = revoked(replace(broker, waiting={}), others)
        wanted = f"{file}: dropped wrapped responses: {many}, revoked tokens: {len(others)}\n", ""
    expect((ended.stdout, ended.stderr) == wanted, f"{ended.stdout}{ended.stderr} in place of {wanted}")
    wanted = rows_of(broker)
    differing = sorted(place for place in {*after, *wanted} if after.get(place) != wanted.get(place))
    expect(not differing, f"{len(differing)} rows differ, the first is {differing[:1]}")
    checked = check(trial, file)
    expect(checked.returncode == 0, f"it is not accepted: {checked.stdout}{checked.stderr}")
    return broker, text


def try_task(trial, task, moved, _, seed, broker):
    """One task over the rows of a broker. Raises Wrong."""
    rows, draw, file = rows_of(broker), random.Random(seed), trial.place() / "broker.db"
    written = {place: in_a_format(place, row, draw) for place, row in rows.items()}
    write(file, written, draw)
    moment = max(broker.clock + moved, 0)
    after, _ = does(trial, moment, file, task, broker)
    gone = [kind for kind, key in {*rows} - {*rows_of(after)}]
    return ["done", *["rows in the older format"] * sum(written[place] != rows[place] for place in rows),
            *["responses dropped"] * gone.count(RESPONSE), *["tokens revoked"] * gone.count(TOKEN)]


def status(running, method, path, token, body=None):
    """The status of the reply to a request."""
    return Reply(running.ask(request_text(method, path, token, None, body).encode())).status


def try_asked(trial, task):
    """A broker is served after a task: who is let in. Raises Wrong."""
    first, known = broker_with_all()
    broker, file = with_more_roots(first), trial.place() / "broker.db"
    write(file, rows_of(broker), random.Random(1))
    moment = broker.clock + LATER
    after, text = does(trial, moment, file, task, broker)
    asked = 0
    with Running(trial.program, file, trial.at(moment)) as running:
        for token in {*broker.tokens, *filter(None, [text])}:
            wanted = 200 if token in after.tokens else 403
            found = status(running, "GET", "auth/token/lookup-self", token)
            expect(found == wanted, f"a token is answered {found} in place of {wanted}")
            asked += 1
        if text is not None:
            made = status(running, "POST", "sys/policies/acl/new", text, '{"policy":"{\\"path\\":{}}"}')
            expect(made == 204, f"it is no root: {made}")
        root = text or next(token for token in after.tokens if after.tokens[token].is_root())
        body = f'{{"token":"{known["waiting"]}"}}'
        found, wanted = status(running, "POST", "sys/wrapping/unwrap", root, body), 200 if after.waiting else 400
        expect(found == wanted, f"the wrapping token is answered {found} in place of {wanted}")
        running.close()
    return ["asked"] * asked


# ---------------------------------------------------------------------------------------- what cannot be done

def try_refused(trial, task):
    """Files that are none of a broker, one in which a rule is broken, and one in use. Raises Wrong."""
    place, (broker, _) = trial.place(), broker_with_all()
    absent, empty, other, broken = (place / f"{name}.db" for name in ("absent", "empty", "other", "broken"))
    empty.touch()
    other.write_bytes(b"x" * 5000)
    rows = rows_of(broker)
    write(broken, {each: row for each, row in rows.items() if each[0] != 1}, random.Random(1))
    for file in (absent, empty, other):
        before = file.exists() and file.read_bytes()
        ended = run(trial, broker.clock, file, task)
        expect((ended.returncode, ended.stdout, fault_in(ended)) == (1, "", FAULT_OF_STORAGE), f"{file}: {ended}")
        expect((file.exists() and file.read_bytes()) == before, f"{file.name} has changed")
    before = rows_in(broken)
    ended = run(trial, broker.clock, broken, task)
    wanted = (1, "", f"{broken}: there is no row of kind clock\n")
    expect((ended.returncode, ended.stdout, ended.stderr) == wanted, f"{ended} in place of {wanted}")
    expect(rows_in(broken) == before, "a row has changed")
    with Running(trial.program, place / "used.db", {}) as running:
        running.told_root()
        ended = run(trial, broker.clock, place / "used.db", task)
        running.close()
    expect((ended.returncode, ended.stdout, fault_in(ended)) == (1, "", FAULT_OF_STORAGE), f"of a file in use: {ended}")
    return ["refused"] * 5


def try_failed(trial, task, call, way):
    """Each call of the program in turn fails, or the program is killed before it: the rows are as before, or the task
    is done as a whole. Raises Wrong."""
    first, _ = broker_with_all()
    broker, met = with_more_roots(first), []
    for number in range(1, 100):
        file = trial.place() / "broker.db"
        write(file, rows_of(broker), random.Random(1))
        before = rows_in(file)
        ended = run(trial, broker.clock, file, task, f"{call}:{number}:{way}")
        after = rows_in(file)
        if ended.returncode == 0:
            break
        is_killed = ended.returncode == -9
        expect(is_killed if way == "kill" else fault_in(ended) == FAULT_OF_STORAGE, f"{call} {number}: {ended}")
        # A sync that fails can leave what it should have kept.
        may_be_done = is_killed or call in ("fsync", "fdatasync")
        expect(after == before or (may_be_done and is_whole(task, broker, before, after)),
               f"{call} {number}: a part is done")
        met.append("killed" if is_killed else "failed")
    else:
        expect(False, f"{call} is called more than 99 times")
    return met


def is_whole(task, broker, before, after):
    """Whether the task was done to the broker as a whole."""
    if task[0] == "after-restore":
        done = replace(broker, waiting={})
        return after == rows_of(revoked(done, passing(broker)) if task[1:] else done)
    words = words_between(before, after)
    text = f"hvs.{identifier(words[1])}"
    done = with_root(at(broker, broker.clock), text, identifier(words[2]))
    return after == rows_of(revoked(done, other_roots(done, text)) if task[1:] else done)


# ---------------------------------------------------------------------------------------- what is tried

def try_maintained(trial, jobs):
    """All of it."""
    tally, tasks = Tally("maintained"), []
    brokers = [(file.stem, at_the_end(file, events)) for file, events in rows_of_tests()]
    brokers.append(("with all", with_more_roots(broker_with_all()[0])))
    ways = [(task, moved) for task in TASKS for moved in (LATER, EARLIER)]

    def attempt(it):
        # A broker cannot be handed to another process: it is found there by its place.
        task, arguments = it
        more = brokers[arguments[-1]] if task is try_task else ()
        return task(trial, *arguments, *more)

    for place, (name, _) in enumerate(brokers):
        some = ways if name == "with all" else ways[place % len(ways)::len(ways)]
        tasks += [(try_task, (task, moved, place)) for task, moved in some]
    for task in TASKS:
        tasks += [(try_asked, (task,)), (try_refused, (task,))]
    tasks += [(try_failed, (task, call, way)) for task in (TASKS[1], TASKS[3]) for call in FAILED for way in WAYS]
    for (task, arguments), found, wrong in side_by_side(attempt, tasks, jobs):
        if wrong is None:
            tally.passes(*found)
        else:
            tally.fails(f"{task.__name__}, {arguments[0]}, {arguments[-1]}: {wrong}")
    for name, least in LEAST.items():
        tally.has(name, least)
    return tally
