"""What the tests of the programs have in common: the cases of a file, and how a command is run on them and on files."""
import subprocess
import sys
from concurrent.futures import ThreadPoolExecutor
from difflib import unified_diff
from itertools import islice
from pathlib import Path

ROOT = Path(__file__).resolve().parent.parent
WHOLE = "samples/four-tracks.mid"


def stored(folder):
    """The cases of a folder's file: the place of each, its bytes and the lines to be written."""
    file = folder / "cases"
    block = []
    for at, line in enumerate(file.read_text(encoding="ascii").split("\n"), 1):
        if line and not line.startswith("#"):
            block.append((at, line))
        elif block:
            given = " ".join(text for _, text in block if not text.startswith(" "))
            wanted = [text.strip() for _, text in block if text.startswith(" ")]
            yield f"{file.relative_to(ROOT)}:{block[0][0]}", bytes.fromhex("" if given == "nothing" else given), wanted
            block = []


def number(n):
    """A variable-length number, as SMF writes it."""
    high = n >> 7
    sevens = [n & 127]
    while high:
        sevens.insert(0, high & 127 | 128)
        high >>= 7
    return bytes(sevens)


def differs(command, case, status=0):
    """What is wrong of a case, or nothing."""
    name, given, wanted = case
    run = subprocess.run(command, input=given, stdout=subprocess.PIPE, stderr=subprocess.DEVNULL, check=False)
    text = "".join(line + "\n" for line in wanted)
    if run.returncode == status and run.stdout == text.encode():
        return None
    wrote = run.stdout.decode("ascii", "replace").split("\n")
    differences = unified_diff(text.split("\n"), wrote, "wanted", "written", lineterm="", n=1)
    shown = [line[:120] for line in islice(differences, 20)]
    return "\n".join([f"{name}: DIFFERS, exit status {run.returncode}", *shown])


def asked(command, cases, sample):
    """What is wrong of a command asked for a file: a sample, which is one of the cases; one that is not there; a
    folder; two."""
    held = (ROOT / sample).read_bytes()
    wanted = next((lines for _, given, lines in cases if given == held), ["the sample is none of the cases"])
    return [
        differs([*command, str(ROOT / sample)], (sample, b"", wanted)),
        differs([*command, str(ROOT / "none")], ("a file that is not there", b"", []), 2),
        differs([*command, str(ROOT / "samples")], ("a folder", b"", []), 2),
        differs([*command, str(ROOT / sample), "more"], ("two words", b"", []), 2),
    ]


def whole(command, written):
    """What is wrong of a whole MIDI file: that it is one is said on standard error alone."""
    for given in ([*command, str(ROOT / WHOLE)], command):
        with open(ROOT / WHOLE, "rb") as file:
            run = subprocess.run(given, stdin=file, capture_output=True, check=False)
        read = run.returncode == 0 and run.stdout == written
        told = b"whole MIDI file" in run.stderr and b"tools/track" in run.stderr
        yield None if read and told else f"{WHOLE}: DIFFERS, {run.stdout} and {run.stderr}"


def silent(command, sample):
    """What is wrong where a track is read: nothing is said on standard error."""
    run = subprocess.run([*command, str(ROOT / sample)], capture_output=True, check=False)
    return f"{sample}: DIFFERS, {run.stderr}" if run.stderr else None


def compare(script, cases, of_files, what):
    """Runs the command that was named, or the script where none was, on every case; the script also on files. Prints
    what differs, and how many of what were compared; answers the exit status."""
    command = sys.argv[1:] or [str(ROOT / script)]
    if not sys.argv[1:]:  # it may have to be built, and two are run at a time
        if subprocess.run(command, stdin=subprocess.DEVNULL, stdout=subprocess.DEVNULL, check=False).returncode:
            return f"./{script} does not run"
    with ThreadPoolExecutor(2) as pool:
        answers = [*pool.map(lambda case: differs(command, case), cases)]
    answers += [] if sys.argv[1:] else of_files(command, cases)
    wrong = [answer for answer in answers if answer]
    name = " ".join(sys.argv[1:]) or f"./{script}"
    print("\n".join(wrong + [f"{name}: {len(answers)} {what}, {len(wrong)} differ"]))
    return 1 if wrong else 0
