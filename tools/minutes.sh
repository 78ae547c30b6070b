#!/bin/sh
# Runs the gate from nothing and tells where its processor minutes went, a line for each crate: its own proof, and that of its tests;
# its wrong bodies, with the checks that these rest on; its programs: what compiles, links and runs them. After these stand the
# crate's dearest functions, with seconds of processor time. At the end stand the sums, the minutes by the clock, and the machine.
#
# It looks at the processes that `rt` started twice a second, so the last half second of each is not its crate's but in the line of
# the rest, with `rt` itself. A function's part of a check's time is read from the times at which the checker writes its modules,
# which are there only while it runs: the first module waits for what is below to be loaded ("load"). A check that was given several
# processors works on several functions at once, and then tells these parts badly.
#
# What `rt` prints goes to the standard error, the table to the standard output. It ends with the status of `rt`.
# usage: tools/minutes.sh [WORDS OF rt..]    (without words: ci --anew)
set -eu
cd "$(dirname "$0")/.."
exec python3 - "$@" <<'END'
import collections
import glob
import os
import re
import subprocess
import sys
import tempfile
import time

TICK = os.sysconf("SC_CLK_TCK")
BOOT = time.time() - float(open("/proc/uptime").read().split()[0])
PROOF, WRONG, PROGRAMS = "proof", "wrong", "programs"
Process = collections.namedtuple("Process", "parent start seconds words folder")


def process_of(pid):
    """What the system says of a process, or None where it is gone."""
    try:
        with open(f"/proc/{pid}/stat") as file:
            fields = file.read().rsplit(")", 1)[1].split()
        with open(f"/proc/{pid}/cmdline", "rb") as file:
            words = file.read().decode(errors="replace").split("\0")
        folder = os.readlink(f"/proc/{pid}/cwd")
    except OSError:
        return None
    return Process(int(fields[1]), BOOT + int(fields[19]) / TICK, (int(fields[11]) + int(fields[12])) / TICK, words, folder)


def work_of(process, above):
    """The crate and the kind of work of a process, by its words and folder, or else by what its parent does."""
    name = os.path.basename(process.words[0])
    if "--crate-name" in process.words:
        crate = process.words[process.words.index("--crate-name") + 1]
        if os.path.basename(process.folder).startswith("rt-edit"):
            return crate, WRONG
        return crate, PROGRAMS if "--crate-checked" in process.words else PROOF
    if above:
        # The checker starts a compiler, and where it has several processors perhaps itself.
        return above if name == "rattle" else (above[0], PROGRAMS if above[1] == PROOF else above[1])
    run = re.search(r"/rt-run-[^/]*/bin/(\w+)", " ".join(process.words))
    if run:
        return run[1].removesuffix("_tests"), PROGRAMS
    crate = re.search(r"/crates/(\w+)$", process.folder)
    return (crate[1], PROGRAMS) if crate and name == "rattle-link" else None


class Gate:
    """What was seen of a run so far."""

    def __init__(self):
        self.work, self.seconds, self.seen, self.modules = {}, {}, {}, collections.defaultdict(set)

    def look(self, root):
        """Notes the processor time of each process that the run started, and the modules that the checker wrote."""
        found = {int(it): process_of(it) for it in os.listdir("/proc") if it.isdigit()}
        found = {pid: it for pid, it in found.items() if it}
        for pid, process in found.items():
            chain = [pid]
            while chain[-1] != root and chain[-1] in found:
                chain.append(found[chain[-1]].parent)
            if chain[-1] != root or pid == root:
                continue
            work = None
            for it in reversed(chain[:-1]):
                work = work_of(found[it], work)
            if work:
                key = pid, process.start
                self.work[key], self.seconds[key], self.seen[key] = work, process.seconds, time.time()
                if work[1] == PROOF:
                    self.read_modules(key)

    def read_modules(self, key):
        for folder in glob.glob(f"{tempfile.gettempdir()}/rattle-logic-built-*-{key[0]}-*"):
            try:
                for entry in os.scandir(folder):
                    if ".tmp." not in entry.name and entry.is_file():
                        self.modules[key].add((entry.stat().st_mtime, entry.name))
            except OSError:
                # (a module, or the folder, is gone again)
                pass

    def functions(self):
        """The seconds of each crate's functions: of each check, the gaps between its modules, as a part of its processor time."""
        told = collections.defaultdict(collections.Counter)
        for key, modules in self.modules.items():
            (crate, _), before, is_first = self.work[key], key[1], True
            share = self.seconds[key] / max(1, self.seen[key] - before)
            for at, module in sorted(modules):
                name = re.sub(r"^Rattle-\w+-(proofs|specs)\.(contracts\.)?", "", module.removesuffix(".oantt"))
                # (a function's modules are named by it and one or two capitalised words)
                name = "load" if is_first else re.sub(r"(\.Code)?\.[A-Z]\w*$", "", name)
                told[crate][name] += share * (at - before)
                told["sum"][f"{crate}::{name}"] += share * (at - before)
                before, is_first = at, False
        return told

    def table(self):
        """Prints a line for each crate, the costliest first, and the sums."""
        sums = collections.defaultdict(collections.Counter)
        for key, (crate, kind) in self.work.items():
            sums[crate][kind] += self.seconds[key]
        functions, kinds = self.functions(), (PROOF, WRONG, PROGRAMS)
        print(f"{'minutes of':20}{'all':>8}{'proof':>8}{'wrong':>8}{'programs':>10}  dearest functions (s)")
        rows = sorted(sums.items(), key=lambda it: -it[1].total())
        for crate, row in [*rows, ("sum", sum((row for _, row in rows), collections.Counter()))]:
            dearest = ", ".join(f"{name} {seconds:.0f}" for name, seconds in functions[crate].most_common(5) if seconds >= 2)
            parts = "".join(f"{row[kind] / 60:{width}.1f}" for kind, width in zip(kinds, (8, 8, 10)))
            print(f"{crate:20}{row.total() / 60:8.1f}{parts}  {dearest}".rstrip())
        return sum(row.total() for _, row in rows)


def main():
    command = ["rt", *(sys.argv[1:] or ["ci", "--anew"])]
    begun, gate = time.time(), Gate()
    run = subprocess.Popen(command, stdin=subprocess.DEVNULL, stdout=sys.stderr)
    try:
        while run.poll() is None:
            gate.look(run.pid)
            time.sleep(0.5)
    except KeyboardInterrupt:
        # (the same key ends `rt`; what was seen so far is told)
        run.wait()
    told, spent = gate.table(), sum(os.times()[2:4])
    print(f"{'rt, and the rest':20}{(spent - told) / 60:8.1f}")
    with open("/proc/cpuinfo") as file:
        model = re.search(r"model name\s*: (.*)|$", file.read())[1] or "a processor of unknown model"
    machine = f"{os.cpu_count()} processors of {os.uname().nodename}, {model}"
    print(f"{spent / 60:.1f} processor minutes, {(time.time() - begun) / 60:.1f} by the clock, on {machine}")
    print(f"{' '.join(command)} ended with status {run.returncode}")
    return run.returncode


sys.exit(main())
END
