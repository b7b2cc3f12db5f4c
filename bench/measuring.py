"""What the scripts share that time the built program on texts of growing size."""
import os
import subprocess
import sys

TOP = os.path.dirname(os.path.dirname(os.path.realpath(__file__)))
MOST_GROWTH = 2.3
# the status of ./st_main where it could not build the program
NOT_BUILT = 126
MOST_MEMORY = 256 * 1024 * 1024


def built_program():
    """The program to time: the one that the caller names, else that of ./st_main, which builds it first where it has to."""
    if sys.argv[1:]:
        return sys.argv[1]
    built = subprocess.run([f"{TOP}/st_main"], stdout=subprocess.DEVNULL, stderr=subprocess.PIPE)
    if built.returncode == NOT_BUILT:
        raise SystemExit(built.stderr.decode(errors="replace") + "the program was not built")
    return f"{TOP}/crates/st_main/out/st_main"


def write_apart(path, make):
    """Writes the text that `make` gives in a process of its own: a peak of memory here would be told of each run too."""
    child = os.fork()
    if child == 0:
        with open(path, "wb") as it:
            it.write(make())
        os._exit(0)
    if os.waitpid(child, 0)[1] != 0:
        raise SystemExit(f"{path} was not written")


def run(command):
    """The processor seconds of a run, its peak memory in bytes, its status, and what it told."""
    process = subprocess.Popen(command, stdout=subprocess.DEVNULL, stderr=subprocess.PIPE)
    told = process.stderr.read()
    _, status, usage = os.wait4(process.pid, 0)
    return usage.ru_utime + usage.ru_stime, usage.ru_maxrss * 1024, os.waitstatus_to_exitcode(status), told.decode(errors="replace").strip()


def by_turns(commands, rounds):
    """Of each command the least processor seconds of so many runs, the peak memory, the status and what it told; they are run by turns."""
    tried = [[] for _ in commands]
    for _ in range(rounds):
        for command, runs in zip(commands, tried):
            runs.append(run(command))
    return [(min(it[0] for it in runs), max(it[1] for it in runs), runs[0][2], runs[0][3]) for runs in tried]
