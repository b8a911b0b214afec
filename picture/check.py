"""What `check` does: draws the pictures that stand here, draws and judges every example, and tries inputs that are refused.

It says nothing where all is right.
"""

import subprocess
import sys
from dataclasses import dataclass
from pathlib import Path

from judge import faults_of
from picture import Picture
from run import read_run, window_of
from transcript import Unreadable, read_transcript
from waits import read_trace

HERE = Path(__file__).resolve().parent
EXAMPLES = HERE.parent / "examples"


@dataclass(frozen=True)
class Committed:
    """A picture that stands here: its name, the folder of its trace and transcript, its title and its window."""

    name: str
    folder: Path
    title: str
    first: int | None = None
    last: int | None = None


PICTURES = (
    Committed("deadlock_of_two", EXAMPLES, "A deadlock of two"),
    Committed("gained_key", EXAMPLES, "A key gained by escalation"),
    Committed("forty", HERE, "Forty transactions on a small tree", 1023, 1056),
)

# Edits of the transcript of a deadlock of two, each of which is to be refused.
EDITS = {
    "a grant of what another holds": ('ask 0 "a" "a" held by 1', 'ask 0 "a" "a" granted'),
    "another owner than that in the way": ('ask 0 "a" "a" held by 1', 'ask 0 "a" "a" held by 2'),
    "a free that counts too much": ('free 0 "b" "b" 1\n6', 'free 0 "b" "b" 2\n6'),
    "a walk that is not closed": ("deadlock 2 1 2", "deadlock 2 1"),
    "a walk of a transaction that is not there": ("deadlock 2 1 2", "deadlock 2 7 2"),
    "an event that is missing": ('2 1 ask 0 "b" "b" held by 2\n', ""),
    "an outcome that is missing": ("txn 1 done\n", ""),
    "a last line that is missing": ("end 9 0\n", ""),
    "a last line that tells more events": ("end 9 0", "end 10 0"),
    "a range that runs backwards": ('3 2 ask 0 "a" "a"', '3 2 ask 0 "b" "a"'),
}

# Edits of its trace, with each of which it is no longer its run.
TRACE_EDITS = {
    "another range": ('1 lock 0 "b" "b"', '1 lock 0 "b" "c"'),
    "another tree": ('1 lock 0 "b" "b"', '1 lock 1 "b" "b"'),
    "another form of line": ('1 lock 0 "b" "b"', "1 escalate 0"),
    "a line that is missing": ('1 lock 0 "b" "b"\n', ""),
    "another transaction": ('2 lock 0 "b" "b"', '3 lock 0 "b" "b"'),
}


def drawn(transcript, trace, title="", first=None, last=None):
    """The picture of a transcript and, where one is given, its trace."""
    run = read_run(read_transcript(transcript), None if trace is None else read_trace(trace))
    return Picture(run, window_of(run, first, last), title).draw()


def lines_of(transcript):
    return transcript.decode("ascii").splitlines()


def check_committed(one, writes):
    """Draws a picture that stands here, and compares it, or writes it anew."""
    transcript, trace = (Path(one.folder / f"{one.name}.{end}").read_bytes() for end in ("text", "trace"))
    picture, path = drawn(transcript, trace, one.title, one.first, one.last), HERE / f"{one.name}.svg"
    if writes:
        path.write_bytes(picture.encode())
    elif not path.exists() or path.read_bytes() != picture.encode():
        yield f"{path.name} is not what is drawn: draw it anew with `picture/check --write`, and look at it"
    window = None if one.first is None else (one.first, one.last)
    for fault in faults_of(lines_of(transcript), picture, window):
        yield f"{path.name}: {fault}"


def check_example(path):
    """Draws an example with its trace and without it, and judges both."""
    transcript = path.read_bytes()
    if transcript.startswith(b"refused "):
        return
    for trace in (path.with_suffix(".trace").read_bytes(), None):
        for fault in faults_of(lines_of(transcript), drawn(transcript, trace), None):
            yield f"{path.name}, {'without' if trace is None else 'with'} its trace: {fault}"


def check_refusal(what, data, *words):
    """Gives draw.py an input that it has to refuse, by status 2 and one line on standard error."""
    ran = subprocess.run([sys.executable, HERE / "draw.py", *words], input=data, capture_output=True, check=False)
    if ran.returncode != 2 or ran.stderr.count(b"\n") != 1 or ran.stdout:
        yield f"{what}: the status is {ran.returncode}, and {ran.stderr.count(10)} lines are told"


def check_traces():
    """A transcript with the trace of another run is refused."""
    run, trace = ((EXAMPLES / f"deadlock_of_two.{end}").read_bytes() for end in ("text", "trace"))
    for what, (old, new) in TRACE_EDITS.items():
        try:
            drawn(run, trace.replace(old.encode(), new.encode()))
        except Unreadable:
            continue
        yield f"{what} in the trace: the transcript is drawn as its run"


def check_refusals():
    run, trace = ((EXAMPLES / f"deadlock_of_two.{end}").read_bytes() for end in ("text", "trace"))
    for what, (old, new) in EDITS.items():
        if run.decode().count(old) != 1:
            yield f"{what}: the edit is of no place, or of several"
        yield from check_refusal(what, run.decode().replace(old, new).encode())
    yield from check_refusal("no input", b"")
    yield from check_refusal("a transcript that is cut in a line", run[:100])
    yield from check_refusal("a trace in place of a transcript", trace)
    yield from check_refusal("a refused trace", (EXAMPLES / "backwards.text").read_bytes())
    yield from check_refusal("a file that is not there", b"", HERE / "nothing")
    yield from check_refusal("the trace of another run", run, "--trace", EXAMPLES / "gained_key.trace")
    yield from check_refusal("a transcript in place of a trace", run, "--trace", EXAMPLES / "gained_key.text")
    yield from check_refusal("a window behind the run", run, "--from", "9")
    yield from check_refusal("a window that runs backwards", run, "--from", "5", "--to", "3")


def check(writes):
    """All that is wrong, in words."""
    for one in PICTURES:
        yield from check_committed(one, writes)
    for path in sorted(EXAMPLES.glob("*.trace")):
        yield from check_example(path.with_suffix(".text"))
    yield from check_traces()
    yield from check_refusals()


def main():
    faults = list(check("--write" in sys.argv[1:]))
    for fault in faults:
        print(fault)
    return 1 if faults else 0


if __name__ == "__main__":
    sys.exit(main())
