"""in_turn.py ROUNDS INPUT PROGRAM OTHER WORD..: the best of ROUNDS runs of each of two programs, run in turn, in seconds of processor
time, and the most memory of one more run of each in KiB: PROGRAM's seconds, OTHER's seconds, PROGRAM's memory, OTHER's memory.

Both read INPUT and are run with the same words. Processor time is the user's and the system's, so that what else runs on the
machine disturbs little.
"""
import os
import sys

from measure import begin, most_memory


def processor_seconds(words, path):
    _, status, used = os.wait4(begin(words, path).pid, 0)
    if status != 0:
        sys.exit(f"{words[0]} ended with status {status}")
    return used.ru_utime + used.ru_stime


rounds, path, program, other, *words = sys.argv[1:]
both = [[program, *words], [other, *words]]
times = [[processor_seconds(one, path) for one in both] for _ in range(int(rounds))]
best = [min(column) for column in zip(*times)]
memory = [most_memory(one, path) for one in both]
print(f"{best[0]:.3f} {best[1]:.3f} {memory[0]} {memory[1]}")
