"""Counts and times the calls, and prints the tables: bench/table runs it.

    python3 bench/table.py WHAT PROGRAM

WHAT is `counts`, `times` or both in one word; PROGRAM is that of bench/program. A count is what three calls take more than two, over the message's bytes.
It is the same in every run.
"""
import re
import subprocess
import sys
import tempfile
from pathlib import Path

HEADER = rb"MSH|^~\&|LABSYS|LAB1|DEPOT|D1|20240305101500||ORU^R01^ORU_R01|C7|P|2.5.1" + b"\r"
PATIENT = b"PID|1||A55||LANE^JANE||20240301\r"
GROUP = b"OBR|1||F9|54089-8^Panel^LN|||20240304\r"
RESULT = b"OBX|1|NM|45222-7^C4-DC^LN||3.16|umol/L|||||F\r"
M = HEADER + PATIENT + GROUP + RESULT
ENTRIES = ["frame", "judge", "look", "reply", "short", "file"]
PAIRS = [f"{entry}, {who}" for entry in ENTRIES for who in ("ours", "second")]
MOST = 65535


def filled(size):
    """M with results as they come from a newer sender, and a note that fills it up to that size."""
    longer = RESULT[:-1] + b"|||||||20240305^^|LAB^Laboratory^L" + b"|text of some length" * 2 + b"\r"
    message = M + longer * 500
    note = b"NTE|1||" + b"~".join([b"x" * 1024] * 8)
    message = message[: message[: size - 9000].rfind(b"\r") + 1]
    while size - len(message) > 9000:
        message += note + b"\r"
    left = size - len(message) - len(b"NTE|1||\r")
    return message + b"NTE|1||" + b"~".join([b"y" * (left // 4 - 1)] * 3 + [b"y" * (left - 3 * (left // 4))]) + b"\r"


def note(text):
    return M + b"NTE|1||" + text + b"\r"


def result(text):
    return HEADER + PATIENT + GROUP + b"OBX|1|ST|45222-7||" + text + b"||||||F\r"


# the usual ones: each entry
USUAL = [
    ("M", M),
    ("M with 42 results", M + RESULT * 41),
    ("M with 506 results", M + RESULT * 505),
    ("the longest message", filled(MOST)),
]
# results as other senders write them, for the judge
OTHER = [
    ("500 results with an escape", M + b"OBX|1|ST|45222-7^C4-DC^LN||a\\T\\b|umol/L|||||F\r" * 499),
    ("500 results with two repetitions in OBX-8", M + b"OBX|1|NM|45222-7^C4-DC^LN||3.16|umol/L|1-2|N~H|||F\r" * 499),
    ("500 results with `&` in a field that is not listed", M + b"OBX|1|NM|45222-7^C4-DC^LN||3.16|umol/L|||||F||||LAB&X\r" * 499),
    ("500 results with the last code of its list in OBX-11", M + RESULT.replace(b"|F\r", b"|X\r") * 499),
    ("500 results with a date in OBX-14", M + RESULT.replace(b"|F\r", b"|F|||20240304101500\r") * 499),
    ("500 results with 29 February in OBX-14", M + RESULT.replace(b"|F\r", b"|F|||20240229101500\r") * 499),
    ("150 results of 300 letters", M + (b"OBX|1|TX|45222-7^C4-DC^LN||" + b"x" * 300 + b"|umol/L|||||F\r") * 149),
    (
        "300 results with long names and units",
        M + b"OBX|1|NM|45222-7^Carnitine free [Moles/volume] in DBS^LN^C0^Free^L||3.16|umol/L^micromoles per liter^UCUM|1-2|N|||F|||20240304\r" * 299,
    ),
]
# hard ones for the judge
HARD = [
    ("M with 508 segments `NTE`", M + b"NTE\r" * 508),
    ("M with 508 segments `ZZZ`", M + b"ZZZ\r" * 508),
    ("a note of 65,000 field separators", note(b"|" * 65000)),
    ("a note of 65,000 repetition separators", note(b"~" * 65000)),
    ("a note of 65,000 component separators", note(b"^" * 65000)),
    ("a note of 65,000 subcomponent separators", note(b"&" * 65000)),
    ("a note of 65,000 letters", note(b"x" * 65000)),
    ("a note of 21,667 escapes", note(b"\\E\\" * 21667)),
    ("a result of 65,000 repetition separators", result(b"~" * 65000)),
    ("a result of 65,000 component separators", result(b"^" * 65000)),
    ("a result of 65,000 subcomponent separators", result(b"&" * 65000)),
    ("a note of eight times 4,096 letters", note(b"~".join([b"x" * 4096] * 8))),
    ("a note of eight times 1,365 escapes", note(b"~".join([b"\\E\\" * 1365] * 8))),
    ("a note of five times 4,096 escapes", note(b"~".join([b"\\E\\" * 4096] * 5))),
]


def instructions(command, message, folder):
    run = ["valgrind", "--tool=callgrind", f"--callgrind-out-file={folder}/out", *command]
    with open(message, "rb") as sent:
        said = subprocess.run(run, stdin=sent, stdout=subprocess.DEVNULL, stderr=subprocess.PIPE, check=True).stderr
    return int(re.search(rb"Collected : (\d+)", said)[1])


def counted(program, who, what, message):
    """Instructions of a call for each byte."""
    with tempfile.TemporaryDirectory() as folder:
        sent = Path(folder) / "message"
        sent.write_bytes(message)
        two, three = (instructions([program, who, what, times], sent, folder) for times in ("2", "3"))
    return (three - two) / len(message)


def timed(program, who, what, message):
    """Nanoseconds of a call: the least of five runs, each of some hundredths of a second."""
    times = str(max(1, 20_000_000 // len(message) // 10))
    runs = []
    for _ in range(5):
        said = subprocess.run([program, who, what, times, "timed"], input=message, stdout=subprocess.PIPE, check=True).stdout
        runs.append(int(said.split()[-1]) / int(times))
    return min(runs)


PARSE = """
import sys, time, hl7
text = sys.stdin.buffer.read().decode("ascii")
runs = []
for _ in range(5):
    begin = time.perf_counter()
    hl7.parse(text)
    runs.append(time.perf_counter() - begin)
print(min(runs) * 1e9)
"""


def parsed(message):
    """Nanoseconds that python3-hl7 takes."""
    return float(subprocess.run(["/usr/bin/python3", "-c", PARSE], input=message, stdout=subprocess.PIPE, check=True).stdout)


def row(*cells):
    print("| " + " | ".join(str(cell) for cell in cells) + " |", flush=True)


def table(*heads):
    print()
    row(*heads)
    row(*["---"] + ["---:"] * (len(heads) - 1))


def counts(program):
    table("Message", "Bytes", "Sum of the bytes", *PAIRS)
    for what, message in USUAL:
        cells = [f"{counted(program, 'sum', 'bytes', message):.2f}"]
        for entry in ENTRIES:
            cells += [f"{counted(program, who, entry, message):.2f}" for who in ("ours", "second")]
        row(what, f"{len(message):,}", *cells)
    table("Message", "Bytes", "judge, ours", "judge, second")
    for what, message in OTHER + HARD:
        row(what, f"{len(message):,}", *(f"{counted(program, who, 'judge', message):.2f}" for who in ("ours", "second")))


def times(program):
    table("Message", "Bytes", "Sum of the bytes", *PAIRS, "python3-hl7 parses")
    for what, message in USUAL:
        cells = [timed(program, "sum", "bytes", message)]
        for entry in ENTRIES:
            cells += [timed(program, who, entry, message) for who in ("ours", "second")]
        cells.append(parsed(message))
        row(what, f"{len(message):,}", *(f"{cell / 1000:,.2f}" for cell in cells))


def main():
    if len(sys.argv) != 3:
        sys.exit("usage: python3 bench/table.py WHAT PROGRAM (bench/table does it)")
    asked, program = sys.argv[1:]
    if "counts" in asked:
        print("\nInstructions for each byte of the message")
        counts(program)
    if "times" in asked:
        print("\nMicroseconds a call")
        times(program)


try:
    main()
except subprocess.CalledProcessError as failed:
    said = (failed.stderr or b"").decode(errors="replace")
    sys.exit(f"{said}bench/table: status {failed.returncode} of {' '.join(failed.cmd)}")
