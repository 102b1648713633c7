"""What a run of a program costs: seconds, those of the processor, and memory."""
import subprocess
import sys

# The peak that the system tells of a process counts also what its parent held when it was started, so a small process starts
# the program.
WEIGH = """
import resource, subprocess, sys, time
begin = time.perf_counter()
done = subprocess.run(sys.argv[2:], stdout=subprocess.PIPE if sys.argv[1] == "get" else subprocess.DEVNULL)
took = time.perf_counter() - begin
used = resource.getrusage(resource.RUSAGE_CHILDREN)
print(took, used.ru_utime + used.ru_stime, used.ru_maxrss * 1024, done.returncode, (done.stdout or b"").decode())
"""


def weighed(program, step, words, text):
    """The seconds of a run, those of the processor, the greatest memory that it held, in bytes, and its exit status with what
    a get printed. The text is what it reads: bytes, or an open file.
    """
    command = [sys.executable, "-I", "-S", "-c", WEIGH, step, program, *words]
    given = {"input": text} if isinstance(text, bytes) else {"stdin": text}
    done = subprocess.run(command, stdout=subprocess.PIPE, stderr=subprocess.DEVNULL, check=True, **given)
    took, busy, held, status, answer = done.stdout.decode().split(" ", 4)
    return float(took), float(busy), int(held), (int(status), answer.strip())
