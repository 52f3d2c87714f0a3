"""What the parts share: checks that are counted, ports, and relays as programs that are started, read and ended.

A part is run as `PART PROGRAM`. Its last line is `N passed, M failed`, or `N passed, M failed, K busy` where K scenes told nothing, since
the machine woke who slept later than they can bear, each time that they were tried."""
import concurrent.futures
import os
import pathlib
import re
import shutil
import signal
import subprocess
import sys
import tempfile
import threading
import time

LONG = 40  # seconds that anything may take: the machine may be busy with proofs
NAP = 0.01  # seconds that the watch sleeps at a time
TRIES = 3  # how often a scene is played that fails on a busy machine
QUIET = 0.02  # seconds by which a machine that has nothing else to do wakes nobody later
FIRST_LINE = re.compile(r"^listening at (\S+):(\d+),? sending to (\S+):(\d+) from (\S+):(\d+) carrying payloads of up to (\d+) octets$")
COUNTS = {
    "send": "sent unsent marked retransmitted early expired refused stray lost others unknown exhausted crowded strangers full unreachable oversize rejected failed unauthenticated unprotected".split(),
    "receive": "taken repaired played gaps overrun abandoned skipped asked refused padding unasked restarts moved stray lost rtt full unreachable oversize rejected failed unauthenticated unprotected".split(),
}
STANDS = {  # what is told beside the counts to who asks
    "send": "running session buffer_in buffer_out".split(),
    "receive": "running session latency buffer_in buffer_out".split(),
}
DROPPED = "dropped"  # that too, but for the times at which the system's table passes a socket over, since others come and go


class Checks:
    """Counts checks, and names those that fail."""

    def __init__(self):
        self.passed = self.failed = self.busy = 0
        self.faults = []

    def count(self, good, name):
        if good:
            self.passed += 1
        else:
            self.failed += 1
            self.faults.append(f"FAILED: {str(name)[:600]}")
        return good

    def same(self, came, wanted, name):
        return self.count(came == wanted, f"{name}: {came!r}, where {wanted!r} is right")

    def add(self, other):
        """Takes over what another one counted, and names what failed there."""
        self.passed, self.failed, self.busy = self.passed + other.passed, self.failed + other.failed, self.busy + other.busy
        for fault in other.faults:
            print(fault, flush=True)

    def tell(self):
        for fault in self.faults:
            print(fault, flush=True)
        busy = f", {self.busy} busy" if self.busy else ""
        print(f"{self.passed} passed, {self.failed} failed{busy}")
        sys.exit(1 if self.failed else 0)


class Watch:
    """How late the machine wakes who sleeps. A thread naps, and keeps how much longer each nap took than it was to, and how long each
    relay that runs waited meanwhile for a processor."""

    def __init__(self):
        self.late, self.waits = [], {}
        threading.Thread(target=self.nap, daemon=True).start()

    def follow(self, process):
        """From now on a process is looked at until it ends."""
        self.waits[os.open(f"/proc/{process}/schedstat", os.O_RDONLY)] = 0

    def nap(self):
        while True:
            due = time.monotonic() + NAP
            time.sleep(NAP)
            self.tell(due)
            for stat, before in list(self.waits.items()):
                self.look(stat, before, due)

    def look(self, stat, before, due):
        """How long a process waited so far, in nanoseconds, is the second word that the system has of it."""
        try:
            self.waits[stat] = int(os.pread(stat, 100, 0).split()[1])
            self.keep(due, (self.waits[stat] - before) / 1e9)
        except (OSError, IndexError):
            del self.waits[stat]
            os.close(stat)

    def tell(self, due):
        """Something was to be done at this moment, and is done now."""
        self.keep(due, time.monotonic() - due)

    def keep(self, due, late):
        if late > 0.001:
            self.late.append((due, late))

    def since(self, began):
        """The most seconds by which anyone woke too late since a moment."""
        return max((late for due, late in list(self.late) if due >= began), default=0)


WATCH = Watch()


def on_time(bound):
    """A scene that rests on moments, and bears no waking later than by so many seconds."""
    def marked(play):
        play.bound = bound
        return play
    return marked


def soon(holds, seconds=LONG):
    """Waits until something holds, and tells whether it does."""
    until = time.monotonic() + seconds
    while not holds():
        if time.monotonic() > until:
            return False
        time.sleep(0.01)
    return True


def address(host, port):
    """An address as the command line has it."""
    return f"[{host}]:{port}" if ":" in host else f"{host}:{port}"


def counts_of(line, side):
    """The counts of a line, or None where it is no line of counts of this side."""
    words = line.split(" ")
    if words[0::2] != COUNTS[side]:
        return None
    if not all(re.fullmatch(r"0|[1-9][0-9]*", one) or (name == "rtt" and one == "-") for name, one in zip(words[0::2], words[1::2])):
        return None
    return {name: None if one == "-" else int(one) for name, one in zip(words[0::2], words[1::2])}


class Relay:
    """A relay that runs: where it listens, what it says, what it logs. A socket that is handed over is its descriptor 3."""

    def __init__(self, stage, side, *words, log=True, handed=None, env=None):
        self.side, self.began, self.lasted = side, time.monotonic(), None
        self.base = stage.room / f"relay{len(stage.relays)}"
        self.log = self.base.with_suffix(".log")
        words = [stage.program, side, *map(str, words), *(["--log", self.log, "--log-form", "packets"] if log else [])]
        self.said, self.printed = (open(self.base.with_suffix(end), "w") for end in (".err", ".out"))
        if handed:
            words = ["bash", "-c", f'exec "$@" 3<&{handed.fileno()}', "bash", *words]
        self.run = subprocess.Popen(words, stdin=subprocess.DEVNULL, stdout=self.printed, stderr=self.said, env=env,
                                    pass_fds=[handed.fileno()] if handed else [])
        WATCH.follow(self.run.pid)
        stage.relays.append(self)
        soon(lambda: "\n" in self.errors() or self.run.poll() is not None)
        found = FIRST_LINE.match(self.errors().partition("\n")[0])
        if not found:
            raise RuntimeError(f"{side} doesn't tell where it listens: {self.errors()!r}")
        self.at, self.to, self.source = ((found[i].strip("[]"), int(found[i + 1])) for i in (1, 3, 5))
        self.longest = int(found[7])

    def errors(self):
        return self.base.with_suffix(".err").read_text()

    def output(self):
        return self.base.with_suffix(".out").read_text()

    def status(self, seconds=LONG):
        """Its status, once it ended; None where it goes on."""
        try:
            status = self.run.wait(seconds)
        except subprocess.TimeoutExpired:
            return None
        self.lasted = self.lasted or time.monotonic() - self.began
        return status

    def stop(self, number=signal.SIGKILL):
        self.run.send_signal(number)
        return self.status()

    def freeze(self):
        """Stops it where it is, and waits until it stands still."""
        self.run.send_signal(signal.SIGSTOP)
        soon(lambda: pathlib.Path(f"/proc/{self.run.pid}/stat").read_text().rpartition(")")[2].split()[0] == "T")

    def lines(self):
        """What it said behind its first line, but for the one that tells how little the system keeps for its sockets."""
        return [one for one in self.errors().splitlines()[1:] if not one.startswith("the system keeps ")]

    def counts(self):
        """The counts of its last line, with a zero for each where there are none."""
        lines = self.errors().splitlines() or [""]
        return counts_of(lines[-1], self.side) or {}

    def words(self):
        """Its log so far: the words of each whole line, without the moment. It says its first line before it opens its log."""
        text = self.log.read_text() if self.log.exists() else ""
        return [line.split(" ")[1:] for line in text[:text.rfind("\n") + 1].splitlines()]

    def logged(self, word):
        """The lines of its log that begin with a word."""
        return [one for one in self.words() if one[0] == word]

    def spent(self):
        """The seconds of processor time that it has used so far."""
        tasks = pathlib.Path(f"/proc/{self.run.pid}/task").iterdir()
        return sum(int((one / "schedstat").read_text().split()[0]) for one in tasks) / 1e9

    def memory(self):
        """Its resident memory in KiB."""
        return int(re.search(r"VmRSS:\s+(\d+)", pathlib.Path(f"/proc/{self.run.pid}/status").read_text())[1])


class Stage:
    """A folder, and the relays that run. It ends all of them where its block ends."""

    def __init__(self, program):
        self.program, self.relays, self.closing = str(pathlib.Path(program).resolve()), [], []
        self.room = pathlib.Path(tempfile.mkdtemp())

    def __enter__(self):
        return self

    def __exit__(self, *error):
        for one in self.relays:
            if one.run.poll() is None:
                one.stop()
            one.said.close()
            one.printed.close()
        for one in self.closing:
            one.close()
        shutil.rmtree(self.room, ignore_errors=True)

    def keep(self, one):
        """Closes it with the stage."""
        self.closing.append(one)
        return one

    def send(self, to, *words, listen="127.0.0.1:0", **more):
        return Relay(self, "send", "--listen", listen, "--to", address(*to[:2]), *words, **more)

    def receive(self, to, *words, listen="127.0.0.1:0", **more):
        return Relay(self, "receive", "--listen", listen, "--to", address(*to[:2]), *words, **more)

    def pair(self, player, *words, send=(), receive=()):
        """Both relays, one behind the other, before a player."""
        receiver = self.receive(player.at, *words, *receive)
        return self.send(receiver.at, *words, *send), receiver


def ends(checks, name, *relays, seconds=LONG):
    """Each ends by itself with status 0, a last line of counts, and nothing on its output."""
    for one in relays:
        status = one.status(seconds)
        checks.count(status == 0 and one.counts(), f"{name}: {one.side} ended with {status}: {one.errors()[-300:]!r}")
        checks.same(one.output(), "", f"{name}: the output of {one.side}")


def played(play):
    """Plays a scene of a part with a stage of its own, and gives its checks. One that breaks is a check that fails."""
    checks = Checks()
    try:
        with Stage(sys.argv[1]) as stage:
            play(checks, stage)
    except (RuntimeError, OSError, ValueError, LookupError, TypeError, AttributeError) as error:
        where = error.__traceback__
        while where.tb_next:
            where = where.tb_next
        place = f"{pathlib.Path(where.tb_frame.f_code.co_filename).name} line {where.tb_lineno}"
        checks.count(False, f"{play.__name__} broke in {place}: {type(error).__name__} {error}")
    return checks


def scene(play):
    """The checks of a scene. One that fails while the machine is quiet has failed. Else it is played again, and what fails each time has failed, but for
    one that rests on moments, where the machine woke a sleeper too late for it: that says nothing, and is neither passed nor failed."""
    began, bound = time.monotonic(), getattr(play, "bound", None)
    quiet = QUIET if bound is None else min(QUIET, bound)
    for _ in range(TRIES):
        start = time.monotonic()
        checks = played(play)
        late = WATCH.since(start)
        if not checks.failed or late <= quiet:
            break
        print(f"{play.__name__}: woken {1000 * late:.0f} milliseconds late, with {checks.failed} that fail: {checks.faults[0]}", flush=True)
    if checks.failed and bound is not None and late > bound:
        print(f"BUSY: {play.__name__}: {checks.faults[0]}", flush=True)
        checks = Checks()
        checks.busy = 1
    if "-v" in sys.argv:
        print(f"{play.__name__}: {time.monotonic() - began:.1f} seconds", flush=True)
    return checks


def part(*plays, beside=True):
    """Runs the scenes of a part beside each other, since most of their time is waiting, or one after the other."""
    signal.signal(signal.SIGTERM, lambda *_: sys.exit(1))
    checks, began = Checks(), time.monotonic()
    with concurrent.futures.ThreadPoolExecutor(len(plays) if beside else 1) as pool:
        for one in [pool.submit(scene, play) for play in plays]:
            checks.add(one.result())
    print(f"{pathlib.Path(sys.argv[0]).stem}: {time.monotonic() - began:.0f} seconds")
    checks.tell()
