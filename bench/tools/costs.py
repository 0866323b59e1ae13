#!/usr/bin/env python3
"""Outside the proof. Runs a command, such as `rt ci --anew`, and prints how long its checks take: a table of crates with their lines, the processor time and
memory of the proof, the processor time of mutants and of builds, and whether a crate is on the longest chain of crates that wait for each other.

    bench/tools/costs.py [--out FILE] COMMAND..

Twice a second it looks at the prover's processes that the command started, and changes nothing. A process that ends counts as it was last seen, so the
sum is a little low. What `rt ci` reused from an earlier run takes no time, and is not in the table."""
import collections
import os
import subprocess
import sys
import time

ROOT = os.path.dirname(os.path.dirname(os.path.dirname(os.path.realpath(__file__))))
TICK = os.sysconf("SC_CLK_TCK")
PAUSE = 0.5


class Check:
    """A process of the prover: the crate, what it does, and what it has used."""

    def __init__(self, crate, work):
        self.crate, self.work, self.seconds, self.megabytes = crate, work, 0.0, 0


def is_below(number, top):
    """Returns whether a process was started by the process `top`, or by one that it started."""
    while number > 1:
        if number == top:
            return True
        try:
            number = int(open(f"/proc/{number}/stat").read().rsplit(")", 1)[1].split()[1])
        except (OSError, IndexError):
            return False
    return False


def look(checks, top):
    """Updates the checks by the processes of the command that run now."""
    for number in filter(str.isdigit, os.listdir("/proc")):
        try:
            words = open(f"/proc/{number}/cmdline", "rb").read().decode(errors="replace").split("\0")
            if os.path.basename(words[0]) != "rattle" or "--crate-name" not in words or not is_below(int(number), top):
                continue
            fields = open(f"/proc/{number}/stat").read().rsplit(")", 1)[1].split()
            peak = [line for line in open(f"/proc/{number}/status") if line.startswith("VmHWM")]
        except (OSError, IndexError):
            continue
        key = number, fields[19]
        if key not in checks:
            # The proof of a library ends with a build; a mutant of a library is only checked.
            is_proof = words[1] == "build" or "src/main.rt" in words
            checks[key] = Check(words[words.index("--crate-name") + 1], "proof" if is_proof else "mutants")
        checks[key].seconds = (int(fields[11]) + int(fields[12])) / TICK
        checks[key].megabytes = max([checks[key].megabytes] + [int(line.split()[1]) // 1024 for line in peak])


def crates_below():
    """Returns the crates that each crate of crates.txt uses."""
    needs = {}
    for line in open(f"{ROOT}/crates.txt"):
        if line.strip() and not line.startswith("#"):
            crate, _, uses = line.partition(":")
            needs[crate.split()[0]] = uses.split()
    return {crate: [it for it in uses if it in needs] for crate, uses in needs.items()}


def longest_chain(needs, seconds):
    """Returns the crates, each of which waits for the one before, whose proofs take the most seconds in all."""
    best = {}

    def chain(crate):
        if crate not in best:
            longest = max((chain(it) for it in needs[crate]), key=lambda it: it[0], default=(0, []))
            best[crate] = longest[0] + seconds.get(crate, 0), longest[1] + [crate]
        return best[crate]

    return set(max((chain(crate) for crate in needs), key=lambda it: it[0])[1])


def lines_of(crate):
    count = 0
    for folder, _, names in os.walk(f"{ROOT}/crates/{crate}"):
        for name in names:
            if name.endswith((".rt", ".antt")) and f"{os.sep}out" not in folder:
                count += sum(1 for _ in open(f"{folder}/{name}", "rb"))
    return count


def table(checks):
    sums, memory = collections.Counter(), collections.Counter()
    for check in checks.values():
        sums[check.crate, check.work] += check.seconds
        memory[check.crate] = max(memory[check.crate], check.megabytes)
    needs = crates_below()
    proofs = {crate: sums[crate, "proof"] for crate in needs}
    chain = longest_chain(needs, proofs)
    rows = ["| Crate | Lines | Proof, s | Mutants, s | Memory, MB | Longest chain |", "|---|---:|---:|---:|---:|---|"]
    for crate in sorted(memory, key=lambda it: -sums[it, "proof"] - sums[it, "mutants"]):
        on_chain = "yes" if crate in chain else ""
        rows.append(f"| {crate} | {lines_of(crate)} | {sums[crate, 'proof']:.0f} | {sums[crate, 'mutants']:.0f} | {memory[crate]} | {on_chain} |")
    proof, mutants = (sum(taken for (_, work), taken in sums.items() if work == it) for it in ("proof", "mutants"))
    rows.append("")
    rows.append(f"{proof / 60:.0f} processor minutes of proofs, {mutants / 60:.0f} of mutants; {sum(proofs[it] for it in chain) / 60:.0f} on the longest chain")
    return "\n".join(rows)


def main(words):
    out = None
    if words[:1] == ["--out"]:
        out, words = words[1], words[2:]
    if not words or words[0] == "--help":
        sys.exit(__doc__)
    checks, ran = {}, subprocess.Popen(words)
    while ran.poll() is None:
        look(checks, ran.pid)
        time.sleep(PAUSE)
    text = table(checks)
    print(text)
    if out:
        with open(out, "w") as file:
            file.write(text + "\n")
    return ran.returncode


if __name__ == "__main__":
    sys.exit(main(sys.argv[1:]))
