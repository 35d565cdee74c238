"""`rtnl-record monitor --dump link,route link route | rtnl mirror --changes` in a network namespace of
its own, while `ip` makes changes there: the end of each dump is told, and each change soon behind
it, most within 50 milliseconds."""
import re
import subprocess

from live import PATIENCE, PROGRAM, SOON, Heard
from proved import ROOT

RECORDER = [f"{ROOT}/rtnl-record", "monitor", "--dump", "link,route", "link", "route"]
ROUNDS = 10
# How long most changes take at most, in seconds.
TOLD = 0.05


def changes():
    """Each change, as `ip` is told it, and a pattern of what is told of it."""
    for at in range(ROUNDS):
        route = rf" route \d+\n(?:  .*\n)*?    attr 1 DST - ipv4 198\.51\.{at}\.0$"
        yield f"route add blackhole 198.51.{at}.0/24", rf"^\+{route}"
        yield f"link set lo txqueuelen {500 + at}", (
            rf"^~ link 1\n(?:  .*\n)*?    attr 13 TXQLEN - u32 {500 + at}\n(?:  .*\n)*was$"
        )
        yield f"route del blackhole 198.51.{at}.0/24", rf"^-{route}"


def delay_of(mirror, telling, change, pattern):
    """The seconds until what is told of a change is there, or none."""
    before = len(mirror.text)
    telling.stdin.write(change + "\n")
    return mirror.hear_until(lambda text: re.search(pattern, text[before:], re.M), SOON)


def changed(mirror):
    # One `ip` makes all changes, so that none waits for the start of another.
    telling = subprocess.Popen(["ip", "-batch", "-"], stdin=subprocess.PIPE, text=True, bufsize=1)
    delays = []
    for change, pattern in changes():
        delay = delay_of(mirror, telling, change, pattern)
        yield f"live, mirrored: {change}", [] if delay is not None else ["it is not told"]
        delays.append(SOON if delay is None else delay)
    telling.communicate()
    late = [it for it in delays if it > TOLD]
    wrong = [f"{len(late)} of {len(delays)} come later"] if len(late) > len(delays) // 4 else []
    yield "live, mirrored: within 50 milliseconds", wrong
    print(f"live, mirrored: the greatest delay of a change is {max(delays) * 1000:.1f} milliseconds")


def has_dumps(text):
    return all(re.search(rf"^= {kind} \d+$", text, re.M) for kind in ("link", "route"))


def cases():
    """The cases; they change the network of the namespace that this runs in."""
    recorder = subprocess.Popen(RECORDER, stdout=subprocess.PIPE)
    mirror = Heard([PROGRAM, "mirror", "--changes"], recorder.stdout)
    recorder.stdout.close()
    try:
        delay = mirror.hear_until(has_dumps, PATIENCE)
        yield "live, mirrored: both dumps", [] if delay is not None else ["they are not told"]
        yield from changed(mirror)
    finally:
        recorder.terminate()
        statuses = recorder.wait(PATIENCE), mirror.end()
    # The other three kinds were never dumped.
    yield "live, mirrored: it ends", [] if statuses == (0, 1) else [f"{statuses}"]
