"""What the benches share: the program, processor time, peak memory by GNU time, growth."""
import math
import os
import resource
import subprocess
import sys

HERE = os.path.dirname(os.path.abspath(__file__))


def program():
    """The proved program: the script's first word, or the one that a run of the checks has left."""
    named = sys.argv[1] if len(sys.argv) > 1 else os.path.join(HERE, "..", "crates", "plcr_tool", "out", "plcr_tool")
    return os.path.abspath(named)


def processor_seconds():
    """What all children that have ended took."""
    used = resource.getrusage(resource.RUSAGE_CHILDREN)
    return used.ru_utime + used.ru_stime


def measured(command, folder, source=None, keeps=False):
    """Seconds of a processor, the system's work for it too; peak memory in bytes, status, and what was printed where it
    is kept. What else the machine does counts little in such seconds. A small program starts the command, since a
    child's peak begins with that of its parent."""
    note = os.path.join(folder, "peak")
    begin = processor_seconds()
    child = subprocess.Popen(["/usr/bin/time", "-q", "-f", "%M", "-o", note, *command], cwd=folder, stdin=source,
                             stdout=subprocess.PIPE if keeps else subprocess.DEVNULL)
    said, _ = child.communicate()
    seconds = processor_seconds() - begin
    with open(note) as file:
        peak = int(file.read()) * 1024
    os.remove(note)
    return seconds, peak, child.returncode, (said or b"").decode("latin1").strip()


def ratios(before, count, seconds, peak):
    """By how much time and memory grew per doubling since the line before."""
    doublings = math.log2(count / before[0])
    return (seconds / before[1]) ** (1 / doublings), (peak / before[2]) ** (1 / doublings)


def growth(before, count, seconds, peak):
    """The same in words, where there is a line before."""
    if not before or count <= before[0] or before[0] < 2:
        return ""
    return ", per doubling time x%.2f, memory x%.2f" % ratios(before, count, seconds, peak)
