"""Runs built programs with memory refused, one growth after the other, and with each read and write failing or moving a single byte: by
tests/refused-memory.sh, which says what is looked for. Words: the runs, none for all of them. CARGO_PROGRAMS is the folder of the programs that
cargo built: Rust's own start ends such a program by a signal where its memory is refused, before the first read or write."""
import collections, os, re, signal, subprocess, sys, tempfile
from pathlib import Path

ROOT = Path(__file__).resolve().parent.parent.parent
STARVED = ["wire", "packet", "send", "send-i", "burst", "burst-i", "receive", "receive-i", "resets", "resets-i", "three", "ends", "bundles", "closing", "skipped", "end-mark", "full"]
KINDS = {"REFUSE": 0, "FAIL": 1, "SHORT": 2}  # what the shim is told, and the place of its number in what it tells
START = 3  # the place of the number of growths before the first read or write
BY_CARGO = os.environ.get("CARGO_PROGRAMS")
ABORTED = -signal.SIGABRT
room = Path(tempfile.mkdtemp())
failed = 0


def program(crate):
    if BY_CARGO:
        return str(Path(BY_CARGO) / crate.removesuffix("_main").replace("_", "-"))
    return str(ROOT / "crates" / crate / "out" / crate)


class Starts:
    """The runs that Rust's own start ended, where cargo built the program; `most` growths were made before the first read or write."""

    def __init__(self, most):
        self.most, self.sizes = most, []

    def has(self, number, status, output, faults):
        """Whether this run is one of them; its size is noted then."""
        size = re.search(rb"memory allocation of (\d+) bytes failed", faults)
        if not BY_CARGO or status != ABORTED or number > self.most or output or not size:
            return False
        self.sizes.append(int(size[1]))
        return True

    def told(self):
        return f", {len(self.sizes)} by Rust's own start (bytes: {' '.join(map(str, sorted(self.sizes)))})" if BY_CARGO else ""


def calls_told(count):
    """The numbers that the shim wrote; of a program that a signal ended there are none: it had the call that was refused."""
    return [int(word) for word in count.read_text().split()] if count.exists() else [sys.maxsize] * 4


def run(words, text=b"", **asked):
    """A run with what is asked of the shim: status, both outputs, and how many calls of each kind there were."""
    count = room / "calls"
    count.unlink(missing_ok=True)
    told = {"LD_PRELOAD": os.environ["REFUSE_LIBRARY"], "CALLS": str(count), **{name: str(value) for name, value in asked.items()}}
    ended = subprocess.run(words, input=text, capture_output=True, env=told, timeout=60)
    return ended.returncode, ended.stdout, ended.stderr, calls_told(count)


def each(kind, words, text=b""):
    """The runs in which the first, the second and so on call of a kind is refused, up to the run in which none is."""
    number = 0
    while True:
        number += 1
        ended = run(words, text, **{kind: number})
        yield number, ended
        if ended[3][KINDS[kind]] < number:
            return


def report(right, line):
    global failed
    print(("ok      " if right else "FAILED  ") + line, flush=True)
    failed |= not right


def parted(output):
    """What is the same in every run, and the lines that tell of refusals."""
    lines = output.decode().splitlines()
    told = [line for line in lines if line.startswith(("no memory: ", "before the refused one"))]
    return [line for line in lines if line not in told], told


def starve(name):
    """A run of tests/starved: whatever is refused, it prints what it prints where nothing is."""
    words = [os.environ["STARVED_PROGRAM"], name, "told"]
    status, output, _, calls = run(words)
    whole, told = parted(output)
    wrong = [] if status == 0 and not told else ["without a refusal"]
    refused, starts = collections.Counter(), Starts(calls[START])
    for number, (status, output, faults, _) in each("REFUSE", words):
        if starts.has(number, status, output, faults):
            continue
        lines, told = parted(output)
        refused.update(line.split(": ", 1)[1] if line.startswith("no") else line for line in told)
        if status != 0 or lines != whole:
            other = next((line for line in lines if line not in whole), f"status {status}")
            wrong.append(f"{number}: {other}")
    if told:
        wrong.append("the last run was refused memory")
    seen = ", ".join(f"{call} {times}" for call, times in sorted(refused.items()))
    report(not wrong, f"{name}: {number - 1} growths; refused: {seen or 'none'}{starts.told()}")
    for line in wrong[:9]:
        print("        " + line)


def endure(kind, crate, words, text, name):
    """A program under refusals: all of its output and its status, or status 3 behind a beginning of it."""
    words = [program(crate), *words]
    status, whole, _, calls = run(words, text)
    wrong, ended, number, starts = [], 0, 0, Starts(calls[START] if kind == "REFUSE" else 0)
    for number, (code, output, faults, _) in each(kind, words, text):
        if code == 3 and whole.startswith(output) and kind != "SHORT":
            ended += 1
        elif starts.has(number, code, output, faults):
            continue
        elif (code, output) != (status, whole):
            wrong.append(f"{number}: status {code}, {len(output)} bytes")
    last = (code, output) == (status, whole)
    kinds = {"REFUSE": "growths", "FAIL": "reads and writes", "SHORT": "reads and writes of several bytes"}
    report(last and not wrong, f"{crate}, {name}: {number - 1} {kinds[kind]}, {ended} runs ended by them with status 3{starts.told()}")
    for line in wrong[:9]:
        print("        " + line)


class End:
    """sctp-end, asked line by line, with what is asked of the shim."""

    def __init__(self, words, **asked):
        count = room / "calls"
        count.unlink(missing_ok=True)
        told = {"LD_PRELOAD": os.environ["REFUSE_LIBRARY"], "CALLS": str(count), **{name: str(value) for name, value in asked.items()}}
        pipes = dict.fromkeys(("stdin", "stdout", "stderr"), subprocess.PIPE)
        self.process = subprocess.Popen([program("sctp_end_main"), *words], **pipes, env=told, bufsize=0)
        self.lines, self.answers, self.refused = [], [], 0

    def ask(self, line):
        """Its answer; where that is `memory`, the one when it is asked again; None where it has ended."""
        self.lines.append(line)
        for _ in range(2):
            try:
                self.process.stdin.write(line.encode() + b"\n")
            except BrokenPipeError:
                return None
            answer = self.process.stdout.readline().decode().rstrip("\n")
            if answer != "memory":
                break
            self.refused += 1
        if answer:
            self.answers.append(answer)
        return answer or None

    def close(self):
        """Its status, and how many calls of each kind there were."""
        try:
            self.process.stdin.close()
        except BrokenPipeError:
            pass
        self.process.stdout.read()
        self.faults = self.process.stderr.read()
        return self.process.wait(timeout=60), calls_told(room / "calls")


def ends(mode):
    """The words of two ends, and what is asked of each while they open, talk, give up a message and close."""
    common = ["1500", "1400", "65536", "2", mode]
    words = [["caller", *common, "5000", "5001"], ["listener", *common, "5001", "5000", "07" * 32]]
    caller, listener = both = [End(word) for word in words]

    def carry(one, other):
        packet = one.ask("build").split()
        while packet[0] in ("sent", "answer"):
            packet, one, other = other.ask("packet " + packet[1]).split(), other, one

    caller.ask("connect 7 100")
    listener.ask("draw 9 500")
    script = ["send 0 o 5 - 4869", "send 1 u 6 - " + "61" * 4000, "abandon 2", "at 1000", "take 0", "take 1", "next", "held"]
    for line in ["state", *script, "shutdown", "state", "state"]:
        for end in both:
            end.ask(line)
        for _ in range(3):
            carry(caller, listener)
            carry(listener, caller)
    starts = [end.close()[1][START] for end in both]
    return [(word, end.lines, end.answers, start) for word, end, start in zip(words, both, starts)]


def converse(words, lines, answers, start, mode):
    """An end under refusals: all answers, those to what is asked again in the place of `memory`; or a beginning of them, and status 3."""
    wrong, ended, refused, number, starts = [], 0, 0, 0, Starts(start)
    while True:
        number += 1
        end = End(words, REFUSE=number)
        for line in lines:
            if end.ask(line) is None:
                break
        status, calls = end.close()
        refused += end.refused
        if status == 3 and end.answers == answers[: len(end.answers)]:
            ended += 1
        elif starts.has(number, status, b"".join(map(str.encode, end.answers)), end.faults):
            continue
        elif (status, end.answers) != (0, answers):
            wrong.append(f"{number}: status {status}, {len(end.answers)} answers")
        if calls[0] < number:
            break
    last = (status, end.answers, end.refused) == (0, answers, 0)
    report(last and not wrong, f"sctp_end_main, {words[0]}, {mode}: {number - 1} growths, {refused} lines asked again, {ended} runs ended with status 3{starts.told()}")
    for line in wrong[:9]:
        print("        " + line)


def programs():
    """sctp-trace and sctp-end."""
    closing = (ROOT / "crates/sctp_trace_main/stdin").read_bytes()
    short = (ROOT / "examples/one-message.script").read_bytes()
    hi = "0003001200000001000000000000000048690000"
    for kind in KINDS:
        endure(kind, "sctp_trace_main", ["run"], short, "one message")
        endure(kind, "sctp_trace_main", ["run"], closing, "the closing script")
        endure(kind, "sctp_trace_main", ["chunks", hi], b"", "chunks")
    for mode in ("data", "idata-pr"):
        for words, lines, answers, start in ends(mode):
            converse(words, lines, answers, start, mode)
            for kind in ("FAIL", "SHORT"):
                endure(kind, "sctp_end_main", words, "".join(line + "\n" for line in lines).encode(), f"{words[0]}, {mode}")


for name in sys.argv[1:] or [*STARVED, "programs"]:
    programs() if name == "programs" else starve(name)
sys.exit(failed)
