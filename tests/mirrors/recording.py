"""Records what a socket is told amid random changes, and what the quiet kernel dumps beside it.

Each run has a network namespace of its own, in which this module is run as a program: FOLDER SEED.
"""
import os
import random
import signal
import subprocess
import sys
import time
from concurrent.futures import ThreadPoolExecutor
from itertools import groupby
from typing import List

sys.dont_write_bytecode = True
import changes

HERE = os.path.dirname(os.path.realpath(__file__))
RECORD = f"{HERE}/../../rtnl-record"
KINDS = ["link", "addr", "route", "neigh", "rule"]
GROUPS = ["link", "address", "route", "neigh", "rule"]
AF_BRIDGE = 7
# Of so many runs the first so many lose something.
RUNS, LOSING = 20, 5
# How long nothing must come until all has been told, in seconds, and how long that may take: the
# kernel tells of carriers once a second.
QUIET, PATIENCE = 1.5, 60.0
# How long a neighbour stays that nobody asks for, in seconds: the kernel would clear some away
# between the last dump and the end, where a run takes more than a minute.
LONG = 86_400


def is_losing(seed: int) -> bool:
    """Whether the kernel drops messages in this run."""
    return seed % RUNS < LOSING


def change(lines: List[str], program: str = "ip") -> None:
    """Asks for changes; the kernel refuses some. Those of `ip -6` have a batch of their own."""
    for is_6, batch in groupby(lines, lambda it: it.startswith("-6 ")):
        options = ["-6"] if is_6 else []
        subprocess.run(
            [program, *options, "-force", "-batch", "-"],
            input="\n".join(it.removeprefix("-6 ") for it in batch).encode(),
            stdout=subprocess.DEVNULL,
            stderr=subprocess.DEVNULL,
            check=False,
        )


def begin(path: str) -> None:
    """Waits until the socket listens: the first line says so."""
    end = time.monotonic() + PATIENCE
    while not os.path.getsize(path):
        if time.monotonic() > end:
            raise TimeoutError(f"nothing was written to {path}")
        time.sleep(0.05)


def settle(path: str) -> None:
    """Waits until nothing more is written."""
    end, size, since = time.monotonic() + PATIENCE, -1, time.monotonic()
    while time.monotonic() < end:
        now = os.path.getsize(path)
        if now != size:
            size, since = now, time.monotonic()
        elif time.monotonic() - since > QUIET:
            return
        time.sleep(0.05)
    raise TimeoutError(f"{path} grows without an end")


def dump(folder: str) -> None:
    """A dump of each kind of the quiet kernel, and of the bridge."""
    for kind in KINDS:
        with open(f"{folder}/quiet.{kind}", "wb") as out:
            subprocess.run([RECORD, "dump", kind], stdout=out, check=True)
    dump_bridge(f"{folder}/quiet.bridge")


def dump_bridge(path: str) -> None:
    """A dump of the bridge's forwarding entries."""
    asks = [RECORD, "dump", "neigh", "--family", str(AF_BRIDGE)]
    with open(path, "wb") as out:
        subprocess.run(asks, stdout=out, check=True)


def amid_forwarding(choose: random.Random, folder: str, name: str) -> None:
    """A dump of the bridge amid changes of its entries, and how much the socket was told before."""
    told = os.path.getsize(f"{folder}/events")
    with open(f"{folder}/{name}.since", "w", encoding="utf-8") as since:
        since.write(str(told))
    with ThreadPoolExecutor(1) as lane:
        dumped = lane.submit(dump_bridge, f"{folder}/{name}.bridge")
        change(changes.forwarding(choose, 60), "bridge")
        dumped.result()


def ask(again: int, *kinds: str) -> None:
    """Has the monitor ask for dumps."""
    os.write(again, "".join(f"{kind}\n" for kind in kinds).encode())


def overrun(choose: random.Random, path: str, monitor: int, again: int) -> None:
    """More changes than the socket has room for, while nobody receives them. They are of
    neighbours, which are dumped before."""
    ask(again, "neigh")
    settle(path)
    os.kill(monitor, signal.SIGSTOP)
    for _ in range(8):
        change(changes.flood(choose))
    os.kill(monitor, signal.SIGCONT)


def amid(choose: random.Random, folder: str, monitor: int, again: int, is_lost: bool) -> None:
    """Changes of all sorts, and dumps meanwhile."""
    for turn in range(8):
        if is_lost and turn == 4:
            overrun(choose, f"{folder}/events", monitor, again)
        if turn == 5:
            amid_forwarding(choose, folder, "early")
        ask(again, choose.choice(KINDS))
        change(changes.any_change(choose, 40))
        change(changes.forwarding(choose, 10), "bridge")


def switch(name: str, number: int) -> None:
    """Sets a parameter of this namespace (sysctl(8))."""
    with open(f"/proc/sys/net/{name}", "w", encoding="utf-8") as file:
        file.write(str(number))


def record(folder: str, seed: int) -> None:
    """One run, in this namespace: `events` is what the socket was told, and `length` how much of it
    before the last changes; `first.KIND` are the dumps before these, and `quiet.KIND` those after
    them."""
    choose = random.Random(seed)
    for scope in ("all", "default"):
        switch(f"ipv6/conf/{scope}/accept_dad", 0)
    change(changes.setting())
    for device in changes.DEVICES:
        for version in ("ipv4", "ipv6"):
            switch(f"{version}/neigh/{device}/gc_stale_time", LONG)
    os.mkfifo(f"{folder}/again")
    again = os.open(f"{folder}/again", os.O_RDWR)
    with open(f"{folder}/events", "wb") as out:
        asks = ["--dump", ",".join(KINDS), "--again", f"{folder}/again"]
        with subprocess.Popen([RECORD, "monitor", *asks, *GROUPS], stdout=out) as monitor:
            begin(out.name)
            amid(choose, folder, monitor.pid, again, is_losing(seed))
            change(changes.standing())
            settle(out.name)
            ask(again, "route")
            settle(out.name)
            change(changes.doubtful(seed))
            settle(out.name)
            dump(folder)
            with open(f"{folder}/length", "w", encoding="utf-8") as length:
                length.write(str(os.path.getsize(out.name)))
            ask(again, *KINDS)
            amid_forwarding(choose, folder, "late")
            for _ in range(4):
                change(changes.told(choose, 25))
                change(changes.forwarding(choose, 10), "bridge")
            settle(out.name)
            for kind in [*KINDS, "bridge"]:
                os.rename(f"{folder}/quiet.{kind}", f"{folder}/first.{kind}")
            dump(folder)
            monitor.send_signal(signal.SIGINT)


def recorded(folder: str, seed: int) -> str:
    """The folder of a run that is recorded now, in a network namespace of its own."""
    run = f"{folder}/{seed}"
    os.mkdir(run)
    again = [sys.executable, os.path.realpath(__file__), run, str(seed)]
    subprocess.run(["unshare", "-n", *again], check=True)
    return run


if __name__ == "__main__":
    record(sys.argv[1], int(sys.argv[2]))
