"""What tools count of a run: instructions and copied bytes by valgrind, and by perf's samples where its processor time goes."""

import os
import re
import shutil
import subprocess
import tempfile
from collections import Counter

LINE = re.compile(r"^\s*(\d+\.\d+)%\s+\[(.)\]\s+(.*?)[\s-]*$")
KERNEL = "the kernel"
COLLECTED = re.compile(r"Collected : (\d+)")
COPIED = re.compile(r"Total: +([\d,]+) bytes")
FUNCTION = re.compile(r"^\s*([\d,]+) \(\s*[\d.]+%\)\s+\S*?[^:]:(?!:)(\S+)", re.M)
# What most of a run is made of: the name in tables, and how the names of its functions begin. The rest is the program's own.
PARTS = {"SHA-256": ("sha2::",), "lines and digits": ("df_lines::",), "zeros": ("__memset",), "copies": ("__memcpy", "__memmove", "mempcpy")}
COPIES = ["--tool=dhat", "--mode=copy", "--dhat-out-file=/dev/null"]


def valgrind(tool: list, total: re.Pattern, command: list, source: str) -> int:
    """A total that a tool of valgrind tells at the end of a run."""
    with open(source, "rb") as stdin:
        ended = subprocess.run(["valgrind", *tool, *command], stdin=stdin, capture_output=True, text=True, check=False)
    found = total.search(ended.stderr)
    if found is None:
        raise SystemExit(f"valgrind told no total: {command}\n{ended.stderr}")
    return int(found[1].replace(",", ""))


def instructions(command: list, source: str = os.devnull) -> Counter:
    """The instructions of a run outside the kernel, by function: their sum is that of the run."""
    with tempfile.TemporaryDirectory() as folder:
        data = os.path.join(folder, "counts")
        total = valgrind(["--tool=callgrind", f"--callgrind-out-file={data}"], COLLECTED, command, source)
        text = subprocess.run(["callgrind_annotate", "--threshold=100", data], capture_output=True, text=True, check=True).stdout
    counts = Counter()
    for count, name in FUNCTION.findall(text):
        counts[name] += int(count.replace(",", ""))
    counts["what is too small to be told"] += total - counts.total()
    return counts


def parts_of(more: Counter, less: Counter, number: int) -> list:
    """Cells of what each of `number` things costs that one run has and the other hasn't: all its instructions, its parts, the rest, and of the
    rest the function that has most of it."""
    spent = Counter({name: (more[name] - less[name]) / number for name in more | less})
    cells = [round(spent.total())]
    for begins in PARTS.values():
        names = [name for name in spent if name.startswith(begins)]
        cells.append(round(sum(spent.pop(name) for name in names)))
    name, most = max(spent.items(), key=lambda item: item[1])
    return [*cells, round(spent.total()), f"`{name.split('::<')[0]}`: {most:,.0f}"]


def copied(command: list, source: str = os.devnull) -> int:
    """The bytes that the functions of the C library that copy and move memory copied in a run."""
    return valgrind(COPIES, COPIED, command, source)


def peak(command: list) -> object:
    """The most kilobytes that a run has resident. A process that is started from here would count this one's too, so `time` starts it."""
    if shutil.which("time") is None:
        return "-"
    ended = subprocess.run([shutil.which("time"), "-f", "%M", *command], stdin=subprocess.DEVNULL, capture_output=True, check=False)
    return int(ended.stderr.split()[-1])


def has_valgrind() -> bool:
    return shutil.which("valgrind") is not None


def has_perf() -> bool:
    return shutil.which("perf") is not None


def samples(command: list, source: str) -> Counter:
    """Of each function of a run the percent of the samples that it has; those of the kernel as one."""
    with tempfile.TemporaryDirectory() as folder, open(source, "rb") as stdin:
        data = os.path.join(folder, "samples")
        record = ["perf", "record", "-q", "-e", "cpu-clock", "-c", "50000", "-o", data, "--", *command]
        subprocess.run(record, stdin=stdin, stdout=subprocess.DEVNULL, stderr=subprocess.DEVNULL, check=True)
        report = ["perf", "report", "--stdio", "-i", data, "--sort", "symbol"]
        text = subprocess.run(report, capture_output=True, text=True, check=True).stdout
    found = Counter()
    for match in filter(None, map(LINE.match, text.splitlines())):
        found[KERNEL if match[2] == "k" else match[3].split("::<")[0]] += float(match[1])
    return found
