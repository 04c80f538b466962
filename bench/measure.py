"""measure.py ROUNDS INPUT PROGRAM WORD..: the best of ROUNDS runs in seconds, and the most memory of one more in KiB.

The program reads INPUT and its output is thrown away. Its memory is what the system tells while it runs: what it
tells behind the end counts this program too, from which the other one was started.
"""
import subprocess
import sys
import time


def begin(words, path):
    with open(path, "rb") as source:
        return subprocess.Popen(words, stdin=source, stdout=subprocess.DEVNULL)


def seconds(words, path):
    start = time.time()
    status = begin(words, path).wait()
    if status != 0:
        sys.exit(f"{words[0]} ended with status {status}")
    return time.time() - start


def most_memory(words, path):
    child, most = begin(words, path), 0
    while child.poll() is None:
        try:
            with open(f"/proc/{child.pid}/status") as status:
                told = [line.split()[1] for line in status if line.startswith("VmHWM")]
        except (FileNotFoundError, ProcessLookupError):
            break
        most = max([most, *map(int, told)])
    return most


if __name__ == "__main__":
    rounds, path, *words = sys.argv[1:]
    print(f"{min(seconds(words, path) for _ in range(int(rounds))):.3f} {most_memory(words, path)}")
