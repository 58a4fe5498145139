#!/usr/bin/env python3
"""What an event costs as a gateway goes on: no difference of two unlike runs, but what each stretch of one script adds to it.

Usage: bench/goes_on.py PROGRAM        (gw_sim)

40 sleepers get up to 1,000 messages each, the best of seven runs; one client gets 100,000 of its own messages and acknowledges each, the best of
three. Processor time is counted. Every stretch is printed: on a machine with other work they differ by half and more.
"""
import resource
import subprocess
import sys
import tempfile

sys.dont_write_bytecode = True
import steps


def best(program, lines, times):
    """The least processor seconds of a script."""
    with tempfile.NamedTemporaryFile("w") as script:
        script.write("gateway 1\n" + "\n".join(lines) + "\n")
        script.flush()
        found = []
        for _ in range(times):
            before = resource.getrusage(resource.RUSAGE_CHILDREN)
            with open(script.name) as given:
                subprocess.run([program], stdin=given, stdout=subprocess.DEVNULL, check=True)
            after = resource.getrusage(resource.RUSAGE_CHILDREN)
            found.append(after.ru_utime + after.ru_stime - before.ru_utime - before.ru_stime)
    return min(found)


def stretches(program, script, ends, apiece, times):
    """Prints what each stretch adds, an event."""
    last = (0, best(program, script(0), times))
    for end in ends:
        now = best(program, script(end), times)
        print(f"  {last[0]:,} to {end:,}: {(now - last[1]) / (apiece * (end - last[0])) * 1e6:.1f} us")
        last = (end, now)


def to_oneself(count):
    """A message is handed over with the next frame, so each PUBACK is for the one before."""
    topic = b"aa"
    lines = [steps.connect(0, 1), steps.subscribe(1, topic, 1)]
    for number in range(count):
        lines += [steps.publish(1, topic, 1, number), steps.puback(1, topic, number - 1)]
    return lines


def main(words):
    if len(words) != 1:
        return __doc__
    sleepers = steps.sleepers(40)
    print("a PUBLISH at 1 to one of 40 sleepers, by how many wait for it")
    stretches(words[0], lambda count: sleepers + steps.to_each(40, count), [100, 400, 900, 1000], 40, 7)
    print("a PUBLISH at 1 to oneself and its PUBACK, by how many were delivered")
    stretches(words[0], to_oneself, [25000, 50000, 75000, 100000], 1, 3)
    return 0


if __name__ == "__main__":
    sys.exit(main(sys.argv[1:]))
