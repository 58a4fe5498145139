"""Reads the tasks of a gate's run off its processes, and prints the minutes of each.

Usage: gate.py LOG CRATES COMMAND..     runs the command, and writes LOG
       gate.py LOG[,LOG..] CRATES       prints the logs together: of a task that several have, the last one's
       gate.py --budget LOG CRATES      prints one line: how far the run is from the budget of CONTRIBUTING.md

A line of LOG is a task: crate, kind (proof, tests or edits), when it began and ended, and its processor seconds.
The last line, `all whole`, is the whole run, with all that it started.
"""
import os
import pathlib
import re
import resource
import subprocess
import sys
import time

KINDS = ("proof", "tests", "edits")
# The line of the whole run, and the task whose processor seconds are the unit of the measure.
WHOLE = ("all", "whole")
UNIT = ("sn_frame", "proof")
TICKS = os.sysconf("SC_CLK_TCK")
# The page that has the budget, and the sentence that says it.
PAGE = pathlib.Path(__file__).resolve().parent.parent / "CONTRIBUTING.md"
SAYS = re.compile(r"at most\s+([0-9]+\.[0-9])\s+proofs\s+of\s+`sn_frame`")


def below(root):
    """The processes below one, and that one."""
    found, left = [], [root]
    while left:
        pid = left.pop()
        found.append(pid)
        try:
            for thread in os.listdir(f"/proc/{pid}/task"):
                with open(f"/proc/{pid}/task/{thread}/children") as it:
                    left += [int(child) for child in it.read().split()]
        except OSError:
            pass
    return found


def look(pid):
    """Which task a process works for, when it began, and its processor seconds so far."""
    try:
        with open(f"/proc/{pid}/cmdline", "rb") as it:
            words = it.read().decode(errors="replace").split("\0")
        if "--crate-name" not in words:
            return None
        crate = words[words.index("--crate-name") + 1]
        is_edit = "/rt-edit-" in os.readlink(f"/proc/{pid}/cwd")
        with open(f"/proc/{pid}/stat") as it:
            fields = it.read().rsplit(")", 1)[1].split()
    except OSError:
        return None
    kind = "edits" if is_edit else "tests" if "--test" in words else "proof"
    spent = (int(fields[11]) + int(fields[12])) / TICKS
    return (crate, kind), fields[19], spent


def run(log, command):
    """Runs the command, and writes its tasks."""
    began = time.monotonic()
    tasks, spent = {}, {}
    with subprocess.Popen(command) as ran:
        while ran.poll() is None:
            now = time.monotonic() - began
            for pid in below(ran.pid):
                seen = look(pid)
                if seen:
                    task, start, seconds = seen
                    tasks.setdefault(task, [now, now])[1] = now
                    spent[task, pid, start] = seconds
            time.sleep(1)
    end, used = time.monotonic() - began, resource.getrusage(resource.RUSAGE_CHILDREN)
    with open(log, "w") as out:
        for task, (first, last) in tasks.items():
            work = sum(it for (of, _, _), it in spent.items() if of == task)
            print(*task, f"{first:.0f} {last:.0f} {work:.0f}", file=out)
        print(*WHOLE, f"0 {end:.0f} {used.ru_utime + used.ru_stime:.0f}", file=out)
    return ran.returncode


def read_tasks(log):
    """The tasks of a log."""
    tasks = {}
    with open(log) as it:
        for line in it:
            crate, kind, first, last, work = line.split()
            tasks[crate, kind] = int(first), int(last), int(work)
    return tasks


def read_together(logs, crates):
    """The tasks of several logs, and the whole run if there is one log. A crate's tasks are those of the last log that has its proof."""
    if len(logs) == 1:
        tasks = read_tasks(logs[0])
        whole = tasks.pop(WHOLE, None)
        return tasks, whole
    tasks = {}
    for log in logs:
        of_log = read_tasks(log)
        proved = {crate for crate, kind in of_log if kind == "proof"}
        tasks = {task: it for task, it in tasks.items() if task[0] not in proved}
        tasks.update({task: it for task, it in of_log.items() if task[0] in proved or task not in tasks and task != WHOLE})
    return {task: it for task, it in tasks.items() if task[0] in crates}, None


def read_crates(path):
    """What each crate stands on, lowest first."""
    crates = {}
    with open(path) as it:
        for line in it:
            name, found, rest = line.partition(":")
            if found and not name.startswith("#"):
                crates[name.split()[0]] = rest.split()
    return crates


def waits(crates, task):
    """What a task waits for."""
    crate, kind = task
    if kind == "edits":
        return [(crate, "proof"), (crate, "tests")]
    return [(it, "proof") for it in crates[crate]]


def chain(crates, tasks):
    """The tasks that led to the last one, each the last of those that the next one waited for."""
    found = [max(tasks, key=lambda it: tasks[it][1])]
    while True:
        before = [it for it in waits(crates, found[-1]) if it in tasks]
        if not before:
            return found[::-1]
        found.append(max(before, key=lambda it: tasks[it][1]))


def reckon(crates, tasks, lanes):
    """The seconds that the tasks would take on so many lanes that are always busy: the longest chain of work first."""
    ahead = {}
    for task in sorted(tasks, key=lambda it: (list(crates).index(it[0]), KINDS.index(it[1])), reverse=True):
        after = [ahead[it] for it in ahead if task in waits(crates, it)]
        ahead[task] = tasks[task][2] + max(after, default=0)
    ended, running, now = {}, [], 0
    left = set(tasks)
    while left or running:
        ready = [it for it in left if all(up in ended or up not in tasks for up in waits(crates, it))]
        for task in sorted(ready, key=lambda it: -ahead[it])[: lanes - len(running)]:
            left.discard(task)
            running.append((now + tasks[task][2], task))
        running.sort()
        now, task = running.pop(0)
        ended[task] = now
    return now


def minutes(seconds):
    return f"{seconds / 60:7.1f}"


def table(crates, tasks):
    """Prints the minutes of each crate, by the clock and by processor."""
    print(f"{'crate':16} {'clock: proof':>14} {'tests':>8} {'edits':>8}   {'processor: proof':>16} {'tests':>8} {'edits':>8}")
    for crate in crates:
        given = [tasks.get((crate, kind), (0, 0, 0)) for kind in KINDS]
        clock = [minutes(last - first) for first, last, _ in given]
        work = [minutes(it) for _, _, it in given]
        print(f"{crate:16} {clock[0]:>14} {clock[1]:>8} {clock[2]:>8}   {work[0]:>16} {work[1]:>8} {work[2]:>8}")
    whole = [sum(work for (_, kind), (_, _, work) in tasks.items() if kind == it) for it in KINDS]
    end = max(last for _, last, _ in tasks.values())
    print(f"{'all':16} {minutes(end):>14} {'':8} {'':8}   {minutes(whole[0]):>16} {minutes(whole[1]):>8} {minutes(whole[2]):>8}")


def dearest(tasks, most=10):
    """Prints the tasks that took most of the processor."""
    print(f"\nthe {most} dearest tasks (minutes of a processor):")
    for crate, kind in sorted(tasks, key=lambda it: -tasks[it][2])[:most]:
        print(f"  {crate:16} {kind:6} {minutes(tasks[crate, kind][2])}")


def lacking(crates, tasks):
    """The crates whose proof is not in the log, since an earlier run had kept it."""
    return [it for it in crates if (it, "proof") not in tasks]


def measure(crates, tasks, whole):
    """Prints the measure: what the whole run took, in proofs of sn_frame. It depends little on the machine."""
    unit = tasks.get(UNIT, (0, 0, 0))[2]
    kept = lacking(crates, tasks)
    if kept or not unit:
        print(f"\nno measure: the log lacks the proofs of {len(kept)} of {len(crates)} crates")
        return
    work = whole[2] if whole else sum(it for _, _, it in tasks.values())
    if whole:
        print(f"\nthe whole run: {whole[1] / 60:.1f} minutes, {work / 60:.1f} of a processor; the proof of sn_frame: {unit / 60:.1f}")
    else:
        print(f"\nthe tasks together: {work / 60:.1f} minutes of a processor; the proof of sn_frame: {unit / 60:.1f}")
    for lanes in (4, 2):
        print(f"reckoned for {lanes} lanes that are always busy: {reckon(crates, tasks, lanes) / 60:.0f} minutes")
    print(f"measure of the gate, in proofs of sn_frame: {work / unit:.1f}")


def budget(log, path):
    """Prints how far a run is from the budget. A run that took proofs of earlier runs has no measure."""
    crates, tasks = read_crates(path), read_tasks(log)
    whole, unit = tasks.pop(WHOLE, None), tasks.get(UNIT, (0, 0, 0))[2]
    found = SAYS.search(PAGE.read_text())
    if not found:
        print("gate: CONTRIBUTING.md does not say its budget")
        return 1
    most, kept = float(found[1]), lacking(crates, tasks)
    if kept or not whole or not unit:
        print(f"gate: {len(crates) - len(kept)} of {len(crates)} crates were proved in this run, so it has no measure; the budget is {most:.1f} proofs of sn_frame")
        return 0
    taken = whole[2] / unit
    over = taken > most
    print(f"gate: {taken:.1f} proofs of sn_frame, {abs(most - taken):.1f} {'OVER' if over else 'below'} the budget of {most:.1f}; {whole[1] / 60:.0f} minutes, {whole[2] / 60:.0f} of a processor")
    return 0


def main(words):
    if words[0] == "--budget":
        return budget(*words[1:])
    log, path, *command = words
    if command:
        return run(log, command)
    crates = read_crates(path)
    tasks, whole = read_together(log.split(","), crates)
    if not tasks:
        print("no task was seen")
        return 1
    table(crates, tasks)
    if whole:
        print("\nthe chain that ended last (minutes from the start):")
        for crate, kind in chain(crates, tasks):
            first, last, _ = tasks[crate, kind]
            print(f"  {crate:16} {kind:6} {minutes(first)} to {minutes(last)}")
    dearest(tasks)
    measure(crates, tasks, whole)
    return 0


if __name__ == "__main__":
    sys.exit(main(sys.argv[1:]))
