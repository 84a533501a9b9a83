"""Claims that a file is whole when append is killed at any of its calls or at any time, and as it was when a signal
ends it that can be caught."""

import os
import signal
import time

from command_run import SOON, claim, claim_held, difference, ended, good
from command_traced import HEADER, INSIDE, LAYERED, MOST_CALLS, OUTSIDE, SYNCING, to, traceable, traced, words_of
from command_wanted import appended, claim_map, map_text
from expecting import expect

TIMED_KILLS = 12
SIGNALS = ["SIGINT", "SIGTERM", "SIGHUP", "SIGQUIT", "SIGALRM", "SIGVTALRM", "SIGPROF", "SIGXCPU", "SIGUSR1", "SIGUSR2"]

# What may be read of a file after a kill beside what was read before: a refusal.
UNREAD = [b"refused\t2\n", b"refused\t3\n", b"refused\t5\n"]


def without_header(case):
    return case.new[:case.box] + bytes(HEADER) + case.new[case.box + HEADER:]


def claim_whole(name, command, case):
    """The old bytes stand; what stands behind them is refused or changes nothing; cut, the file is the old one, and its
    lock is free."""
    name = f"{case.name}, {name}"
    content = command.held("film")
    expect(f"the old bytes after {name}", content.startswith(case.film))
    expect(f"nothing new is read after {name}", content == case.new or map_text(content) in [map_text(case.film), *UNREAD] or map_text(content))
    expect(f"what was written after {name}", case.new.startswith(content) or without_header(case).startswith(content) or len(content))
    claim_map(f"the film after {name}", command, "film", content)
    os.truncate(command.path("film"), len(case.film))
    claim_map(f"the film cut after {name}", command, "film", case.film)
    start = time.monotonic()
    claim(f"append after {name}", command.append("film", 4, [good(b"xyz")], to=to(case)), 0)
    expect(f"no waiting after {name}", time.monotonic() - start < SOON)
    claim_held(f"the film appended to after {name}", command, "film", appended(case.film, 4, [good(b"xyz")], source=case.source)[1])


def killed_at(command, case, call):
    """Killed at its first such call, its second, and so on until there is none; how many there were."""
    for count in range(1, MOST_CALLS):
        command.put("film", case.film)
        answer, calls = traced(command, case, f"{call}:signal=SIGKILL:when={count}")
        if answer.status != -signal.SIGKILL:
            claim(f"{case.name} with fewer than {count} {call}", answer, 0)
            claim_held(f"the film with fewer than {count} {call}", command, "film", case.new)
            return count - 1
        claim_whole(f"a kill at {call} {count}", command, case)
    return MOST_CALLS


def killed(command, case):
    counts = [killed_at(command, case, call) for call in ["pwrite64", "flock", *SYNCING]]
    expect("kills at five writes or more", counts[0] >= 5)
    expect("kills at two syncs or more", counts[2] + counts[3] >= 2)


def hang_up_ignored():
    signal.signal(signal.SIGHUP, signal.SIG_IGN)


# The calls of an append at which a signal comes, and what is said of the film then; a signal before the first write
# ends the command at once.
AS_IT_WAS, APPENDED = b"it is as it was\n", b"after the segment was appended\n"
CALLS = [("flock", 1, b""), ("pwrite64", 1, AS_IT_WAS), ("pwrite64", 3, AS_IT_WAS), ("pwrite64", 5, AS_IT_WAS), ("fdatasync", 1, AS_IT_WAS), ("pwrite64", 6, APPENDED),
         ("fsync", 1, APPENDED)]


def ended_by_signals(command, case):
    """A signal that can be caught, at any call: the film is cut to its old length, or it came too late and all is done;
    the command ends by the signal."""
    for name in SIGNALS:
        for call, count, said in CALLS:
            command.put("film", case.film)
            answer, calls = traced(command, case, f"{call}:signal={name}:when={count}")
            expect(f"{name} at {call} {count}", difference(command.held("film"), case.new if said == APPENDED else case.film), None)
            said_so = answer.err.startswith(b"paff: film: ") and answer.err.endswith(b", " + said) and answer.err.count(b"\n") == 1
            expect(f"the answer to {name} at {call} {count}", (answer.status, answer.err == said or said_so or answer.err), (-getattr(signal, name), True))
    command.put("film", case.film)
    claim("append under nohup", traced(command, case, "pwrite64:signal=SIGHUP:when=3", preexec_fn=hang_up_ignored)[0], 0)
    claim_held("the film after nohup", command, "film", case.new)


def new_files_ended(command):
    """A signal while a file is made: nothing of it is left."""
    before = sorted(os.listdir(command.folder))
    for words in [("begin", "new", "u"), ("get", "film", "0", "4", "--output", "new")]:
        for call, count, said in [("pwrite64", 1, b"it was not made\n"), ("fsync", 1, b"it was not made\n"), ("fsync", 2, b"after it was made\n")]:
            command.put("film", INSIDE.film)
            answer = command.run(*words, before=["strace", "-f", "-o", "/dev/null", "-e", f"inject={call}:signal=SIGINT:when={count}"])
            expect(f"{words} ended at {call} {count}", (answer.status, answer.err), (-signal.SIGINT, b"paff: new: Interrupt, " + said))
            made = sorted(set(os.listdir(command.folder)) - set(before))
            expect(f"what is there after {words} ended at {call} {count}", made, ["new"] if b"after" in said else [])
            if made:
                command.remove("new")


def killed_at_any_time(command, case):
    """The same where the kill may fall into the middle of a write: the times are spread over those that a whole append
    takes."""
    command.put("film", case.film)
    words = words_of(command, case)
    start = time.monotonic()
    claim(f"{case.name} that is not killed", command.run(*words), 0)
    whole = time.monotonic() - start
    for turn in range(TIMED_KILLS):
        command.put("film", case.film)
        process = command.start(*words_of(command, case))
        time.sleep(whole * turn / TIMED_KILLS)
        process.kill()
        ended(process)
        claim_whole(f"a timed kill, {turn}", command, case)


def check(command):
    for case in (INSIDE, OUTSIDE, LAYERED):
        if traceable(command):
            killed(command, case)
        killed_at_any_time(command, case)
    if traceable(command):
        ended_by_signals(command, INSIDE)
        new_files_ended(command)
