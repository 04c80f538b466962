#!/usr/bin/env python3
"""Random networks, played by the program and judged by it.

networks.py judge BINARY FIRST COUNT [KIND..]   plays and judges the networks FIRST to FIRST + COUNT - 1 of each KIND (by default of all)
networks.py script BINARY KIND NUMBER           writes the script of one network

A script is drawn line by line. Which connections there are, and how many bytes are on their way, is what BINARY itself tells of the lines
so far (its `bytes` lines); a line that it refuses is left out. So nearly every script is played to its end; some end in a refused line on
purpose. Each is played with `replay` and with `replay --moments`, and `check journal` has to answer `lawful` on both journals.
"""
import collections
import concurrent.futures
import os
import random
import subprocess
import sys

# What each kind of network does, by weights.
STEPS = {
    "mixed": dict(send=14, tell=14, watch=12, tick=12, carry=10, dial=5, cut=6, restart=3, start=2, quarantine=1, pair=3, passes=12),
    "delivery": dict(send=30, tell=4, tick=10, carry=24, dial=6, cut=6, restart=1, start=1, quarantine=0.5, pair=3, passes=8),
    "cuts": dict(send=16, tell=8, watch=4, tick=12, carry=8, dial=8, cut=24, restart=1, start=1, quarantine=0.5, pair=3, passes=14),
    "restarts": dict(send=14, tell=8, watch=6, tick=14, carry=8, dial=5, cut=8, restart=10, start=5, quarantine=2, pair=3, passes=12),
    "quarantines": dict(send=14, tell=10, watch=8, tick=12, carry=6, dial=4, cut=5, restart=4, start=2, quarantine=10, pair=3, passes=20),
    "watches": dict(send=4, tell=2, watch=36, tick=18, carry=6, dial=3, cut=5, restart=3, start=2, quarantine=1, pair=1, passes=18),
    "names": dict(send=3, tell=40, tick=16, carry=4, dial=2, cut=3, restart=1, start=1, quarantine=0.5, pair=1, passes=24),
    "wrapping": dict(send=1, tell=34, tick=18, carry=0.5, cut=5, restart=0.2, start=1, quarantine=0.1, passes=30),
    "sleeping": dict(send=8, tell=6, watch=3, tick=22, carry=4, dial=3, cut=4, restart=2, start=1, quarantine=1, pair=2, passes=20),
}

# How far the moment goes on at a tick, in ms: around the resend, the redial, the detector, the patience with an answer, the announcement
# of tables, the sleep and the patience with a peer.
MOMENTS = {
    "delivery": [0, 500, 999, 1000, 1000, 20000],
    "cuts": [999, 1000, 1000, 2000],
    "restarts": [1000, 1000, 1000, 20000],
    "watches": [1000, 1000, 1000, 5000, 11000, 60000],
    "names": [1000, 60000, 60000, 60000, 300000],
    "wrapping": [1000, 60000, 60000, 60000],
    "sleeping": [1000, 1000, 60000, 299999, 300000, 300000, 21600000],
}
ANY_MOMENTS = [0, 1, 999, 1000, 1000, 1000, 11000, 20000, 60000, 300000, 21600000]

WORDS = ["x", "-", "T"]
RARE_WORDS = ["%40at", "%2d", "a%25b", "%0a", "a%20b", "--", "a@b"]
OTHER_BYTES = ["%ff%00", "%80"]


def run(binary, words, text):
    """What the program writes, and its status."""
    done = subprocess.run([binary, *words], input=text.encode("latin-1"), stdout=subprocess.PIPE, timeout=300)
    return done.stdout.decode("latin-1").splitlines(), done.returncode


class Network:
    """A script that grows, and who lives by now."""

    def __init__(self, binary, kind, number):
        self.binary, self.kind = binary, kind
        self.draw = random.Random(f"{kind} {number}")
        self.lines = []
        self.played = 0         # so many lines were played, and none was refused
        self.connections = []   # UID of the dialer, dial, bytes written, bytes delivered
        self.addresses = [self.address(k) for k in range(self.draw.choice([2, 2, 3, 3, 4, 5]))]
        self.live = {}          # address -> UID
        self.moments = {}       # UID -> moment
        self.clock = 0
        self.names = [f"/user/x{k}" for k in range(self.draw.choice([1, 3, 8]))]

    def address(self, k):
        letter, draw = "ABCDE"[k], self.draw
        if draw.random() < 0.8:
            return f"akka://{letter}@h{k + 1}:25520"
        protocol = draw.choice(["akka", "a", "x-1_y.z", "tcp" * 5])
        system = draw.choice([letter, f"Sys-{k}", letter * 40])
        host = draw.choice([f"h{k + 1}", f"10.0.0.{k}", f"host_{k}.example"])
        return f"{protocol}://{system}@{host}:{draw.choice([1, 80, 127, 128, 25520 + k, 65535])}"

    def text(self):
        return "".join(line + "\n" for line in self.lines)

    def add(self, line):
        self.lines.append(line)

    def settle(self):
        """Leaves out what is refused, and learns of the connections."""
        while self.played < len(self.lines):
            told, status = run(self.binary, ["replay"], self.text())
            if status == 0:
                self.played = len(self.lines)
                self.connections = [tuple(map(int, line.split()[1:])) for line in told if line.startswith("bytes ")]
            elif status in (5, 6) and told and told[-1].startswith("fault line "):
                del self.lines[int(told[-1].split()[2]) - 1]
            else:
                sys.exit(f"status {status} of replay on:\n{self.text()}")

    # ---- who

    def someone(self):
        """An address that lives, and its UID."""
        return self.draw.choice(sorted(self.live.items()))

    def other(self, address):
        return self.draw.choice([a for a in self.addresses if a != address])

    def start_at(self, address):
        uid = len(self.moments) + 1
        if self.draw.random() < 0.05:
            uid = self.draw.choice([0, 1 << 32, (1 << 64) - uid])
        if uid in self.moments:
            uid = max((u for u in self.moments if u < 1 << 31), default=0) + 1
        self.live[address] = uid
        self.moments[uid] = 0
        self.add(f"start {address} {uid}")
        if self.kind in ("watches", "mixed", "quarantines") and self.draw.random() < 0.6:
            self.add(f"at {uid} spawn {self.draw.choice(self.names)}")

    # ---- steps

    def start(self):
        free = [a for a in self.addresses if a not in self.live]
        if free:
            self.start_at(self.draw.choice(free))

    def restart(self):
        address, uid = self.someone()
        if len(self.live) > 1 or self.draw.random() < 0.2:
            self.add(f"stop {uid}")
            del self.live[address]
            if self.draw.random() < 0.85:
                self.start_at(address)

    def passes(self):
        self.add(f"pass {self.draw.choice([1, 1, 1, 2, 3, 9])}")

    def pair(self):
        address, uid = self.someone()
        self.add(f"at {uid} pair {self.other(address)}")

    def quarantine(self):
        address, uid = self.someone()
        self.add(f"at {uid} quarantine {self.other(address)}")

    def word(self, more=()):
        return self.draw.choice(WORDS if self.draw.random() < 0.7 else RARE_WORDS + list(more))

    def payload(self, most=6):
        return self.draw.randbytes(self.draw.randrange(most)).hex() or "-"

    def send(self):
        address, uid = self.someone()
        serializer = self.draw.choice([5, 5, 5, 0, -1, 17, 9001, (1 << 31) - 1, -(1 << 31)])
        payload = self.payload(200 if self.draw.random() < 0.05 else 6)
        if self.draw.random() < 0.002:
            payload = "ab" * self.draw.choice([70000, 131072])
        self.add(f"at {uid} send {self.other(address)} {serializer} {self.word(OTHER_BYTES)} {payload}")

    def name(self, address):
        chance = self.draw.random()
        if chance < 0.1:
            return self.word()
        if chance < 0.13:
            return address + "/" + "n" * self.draw.choice([200, 256, 300, 4000])
        return address + self.draw.choice(self.names)

    def tell(self):
        address, uid = self.someone()
        other = self.other(address)
        sender = self.name(address) if self.draw.random() < 0.6 else "-"
        manifest = self.draw.choice(["T", "T", "-", f"U{self.draw.randrange(6)}"]) if self.kind == "names" else self.word()
        serializer = self.draw.choice([4, 4, 4, 0, -7, 9002])
        self.add(f"at {uid} tell {other} {sender} {self.name(other)} {serializer} {manifest} {self.payload()}")

    def watch(self):
        address, uid = self.someone()
        watchee = self.other(address) + self.draw.choice(self.names)
        chance = self.draw.random()
        if chance < 0.55:
            word = "watch" if chance < 0.35 else "unwatch"
            self.add(f"at {uid} {word} {self.draw.choice(['/user/w', '/user/w2'])} {watchee}")
        else:
            self.add(f"at {uid} {'spawn' if chance < 0.8 else 'kill'} {self.draw.choice(self.names)}")

    def tick_to(self, uid):
        self.moments[uid] = max(self.moments[uid], self.clock)
        self.add(f"tick {uid} {self.moments[uid]}")

    def tick(self):
        self.clock += self.draw.choice(MOMENTS.get(self.kind, ANY_MOMENTS))
        if self.draw.random() < 0.6:
            for uid in sorted(self.live.values()):
                self.tick_to(uid)
        else:
            self.tick_to(self.someone()[1])

    def carry(self):
        """Some of the bytes on their way are delivered, cut anywhere."""
        self.settle()
        under_way = [c for c in self.connections if c[2] > c[3]]
        if not under_way:
            return self.dial()
        uid, dial, written, delivered = self.draw.choice(under_way)
        most = written - delivered
        count = self.draw.choice([1, 2, 3, 4, 5, most, most, most // 2 + 1, self.draw.randrange(most) + 1])
        self.add(f"carry {uid} {dial} {min(count, most)}")

    def dial(self):
        """A dial is answered or fails; dials without a connection that were not seen yet are guessed."""
        self.settle()
        _, uid = self.someone()
        seen = {dial for near, dial, _, _ in self.connections if near == uid}
        guessed = [dial for dial in range(1, max(seen, default=0) + 4) if dial not in seen]
        self.add(f"{'fail' if self.draw.random() < 0.15 else 'answer'} {uid} {self.draw.choice(guessed[-4:])}")

    def cut(self):
        if self.draw.random() < 0.4:
            uid = self.draw.choice(sorted(self.moments))
            for word in ["cut", "end"] if self.draw.random() < 0.6 else [self.draw.choice(["cut", "end"])]:
                self.add(f"{word} {uid} all")
            return
        self.settle()
        if self.connections:
            uid, dial, _, _ = self.draw.choice(self.connections[-8:])
            self.add(f"{self.draw.choice(['cut', 'end'])} {uid} {dial}")

    def step(self):
        if not self.live:
            return self.start()
        steps = STEPS[self.kind]
        getattr(self, self.draw.choices(list(steps), list(steps.values()))[0])()

    # ---- whole scripts

    def wrap(self):
        """More tables are announced than a version can count: each round has a new name, and a minute goes by."""
        first, second = self.addresses[0], self.addresses[1]
        pairs = [(first, second)] + ([(second, first)] if self.draw.random() < 0.3 else [])
        for turn in range(self.draw.choice([120, 124, 126, 127, 128, 140])):
            for near, far in pairs:
                manifest = "T" if self.draw.random() < 0.5 else f"M{turn}"
                self.add(f"at {self.live[near]} tell {far} - {far}/v{turn} 4 {manifest} 00")
            self.add(f"pass {self.draw.choice([1, 4]) if turn else 9}")
            self.clock += 60000
            for uid in sorted(self.live.values()):
                self.tick_to(uid)
            self.add("pass 3")
        self.names = [f"/user/u{k}" for k in range(40)]

    def refused(self):
        """A line that is refused, or nearly."""
        uid = self.draw.choice([*sorted(self.moments), 999999])
        first = self.addresses[0]
        self.add(self.draw.choice([
            f"start {first} {uid}", f"start {first} 777777", "stop 999999", f"at {uid} pair {first}", f"at {uid} watch /w {first}/x",
            f"tick {uid} 0", f"answer {uid} 99", f"fail {uid} 1", f"carry {uid} 1 100000", f"carry {uid} 77 1", f"cut {uid} 1",
            f"cut {uid} 0", f"end {uid} 1", "cut 999999 all", "end 999999 all",
        ]))

    def whole(self):
        for k, address in enumerate(self.addresses):
            if k < 2 or self.draw.random() < 0.9:
                self.start_at(address)
        if self.draw.random() < 0.5:
            self.pair()
            self.add(f"pass {self.draw.choice([1, 2, 9])}")
        if self.kind == "wrapping":
            self.wrap()
        for _ in range(self.draw.choice([20, 50, 100, 200])):
            self.step()
            if self.kind in ("names", "wrapping") and self.draw.random() < 0.05:
                self.names = [*self.names[1:], f"/user/z{len(self.lines)}"]
        if self.draw.random() < 0.5:
            self.add("pass 9")
        self.settle()
        if self.draw.random() < 0.15:
            self.refused()
        return self.text()


def is_journal(line):
    return not line.startswith(("bytes ", "fault "))


def judged(job):
    """None and what the journal tells, by its words, or what is wrong."""
    binary, kind, number = job
    script = Network(binary, kind, number).whole()
    counts = collections.Counter()
    for words in (["replay"], ["replay", "--moments"]):
        told, status = run(binary, words, script)
        if status not in (0, 5):
            return f"{kind} {number}: status {status} of {' '.join(words)}", counts
        journal = [line for line in told if is_journal(line)]
        verdict, status = run(binary, ["check", "journal"], "".join(line + "\n" for line in journal))
        if verdict != ["lawful"] or status != 0:
            return f"{kind} {number}: {' '.join(words)} is judged {' '.join(verdict)} ({status})", counts
        counts["lawful"] += 1
        if len(words) == 1:
            counts.update(line.split(" ")[1] for line in journal)
    return None, counts


def judge(binary, first, count, kinds):
    wrong = 0
    with concurrent.futures.ProcessPoolExecutor() as pool:
        for kind in kinds:
            totals = collections.Counter()
            for fault, counts in pool.map(judged, [(binary, kind, number) for number in range(first, first + count)]):
                totals += counts
                if fault:
                    wrong += 1
                    print(fault)
            lawful = totals.pop("lawful", 0)
            told = ", ".join(f"{n} {word}" for word, n in totals.most_common())
            print(f"{kind}: {count} networks, {lawful} lawful journals of {2 * count}; they tell {told}", flush=True)
    return 1 if wrong else 0


def main(words):
    match words:
        case ["judge", binary, first, count, *kinds]:
            sys.exit(judge(os.path.abspath(binary), int(first), int(count), kinds or list(STEPS)))
        case ["script", binary, kind, number]:
            sys.stdout.write(Network(os.path.abspath(binary), kind, number).whole())
        case _:
            sys.exit(__doc__)


if __name__ == "__main__":
    main(sys.argv[1:])
