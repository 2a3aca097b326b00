#!/usr/bin/env python3
"""Proves and builds the program qbec with the Rattle toolchain's compiler, and does nothing that only the gate needs (rt ci: it also looks for contracts that no call can meet, tries
wrong bodies, and builds each program by two compilers).

Each library is proved and built by `rattle build`, over the statements of those that it stands on. What is proved is kept in crates/NAME/out/rlib/statements, by a sum of all that it
was made of: so a build that was stopped goes on, and an edit has those crates proved again that stand on it.
"""

import fcntl
import hashlib
import os
import pathlib
import shutil
import signal
import subprocess
import sys
import time

ROOT = pathlib.Path(__file__).resolve().parent
NAME = "qbec_program"
OUT = ROOT / "crates" / NAME / "out"
PROGRAM = OUT / NAME

# What the program was built of: the folders, one a line. It is as old as the begin of the build, so that a later edit is newer.
STAMP = OUT / "stamp"

# How long a check takes goes with the lines of code, and definitions and proofs add next to nothing. Reading the libraries takes as long as 400 lines, and compiling the whole program
# as long as 2,000.
READING, COMPILING = 400, 2000

# More jobs than this don't make a check faster.
JOBS = 4

# The memory that a check may take, of those of the program.
GIGABYTES = 4

# The crate in whose processor time that of a build is told too, so that builds on two machines can be compared.
YARDSTICK = "bits"


def say(*words):
    print("qbec:", *words, file=sys.stderr, flush=True)


def fail(why):
    say(why)
    sys.exit(126)


class Kit:
    """The toolchain's folder, in which the page is that `rt doc` names."""

    def __init__(self):
        if not shutil.which("rt"):
            fail("the program has to be built by the Rattle toolchain, whose command rt is not on the PATH")
        page = subprocess.run(["rt", "doc"], check=True, stdout=subprocess.PIPE, text=True).stdout.strip()
        self.folder = pathlib.Path(page).parent
        self.rattle = self.folder / "bin" / "rattle"
        self.library = self.folder / "rlibs"
        self.named = (self.folder / "WHAT").read_bytes()
        self.logic = ["--antt-project", self.folder / "rattle/logic/antt-project.json", "--logic-built", self.folder / "logic_built"]

    def linked(self, program):
        """The words that link the object file of a program."""
        libraries = [self.folder / "c" / name for name in ("libos_c.a", "liblibc_c.a")]
        return [self.folder / "bin/rattle-link", "--target", "x86_64-unknown-linux-gnu", "--toolchain", self.folder / "toolchain", "-o", program, f"{program}.o", *libraries]


class Crate:
    """A crate of this repository, with the crates and the libraries of the kit that it stands on."""

    def __init__(self, name, words, known):
        self.name, self.folder = name, ROOT / "crates" / name
        self.on = [known[word] for word in words if word in known]
        self.of_kit = ["std", *(word for word in words if word not in known)]
        self.is_program = (self.folder / "src/main.rt").is_file()
        self.kept = self.folder / "out/rlib/statements"
        self.made = self.kept / (name if self.is_program else f"{name}.rlib")
        self.sum_file, self.log = self.kept / "sum", self.kept / "log"
        lines = sum(path.read_bytes().count(b"\n") for path in (self.folder / "src").rglob("*.rt"))
        self.weight = lines + READING + COMPILING * self.is_program

    def folders(self):
        return [folder for part in ("src", "specs", "proofs") if (folder := self.folder / part).is_dir()]

    def below(self):
        """All that the crate stands on, lowest first."""
        found = []
        for crate in self.on:
            found += [it for it in [*crate.below(), crate] if it not in found]
        return found

    def sum(self, kit):
        """A sum of all that the crate is made of."""
        made = hashlib.sha256(kit.named)
        made.update(repr([self.of_kit, [crate.sum_now for crate in self.on]]).encode())
        for path in sorted(path for folder in self.folders() for path in folder.rglob("*") if path.is_file()):
            made.update(repr((str(path.relative_to(self.folder)), path.read_bytes())).encode())
        return made.hexdigest()

    def is_kept(self):
        return self.made.exists() and self.sum_file.is_file() and self.sum_file.read_text() == self.sum_now

    def words(self, kit, jobs):
        """The words that prove and build the crate, in its folder."""
        words = [kit.rattle, "build", "--crate-name", self.name, "src/main.rt" if self.is_program else "src/lib.rt", *kit.logic, "--jobs", str(jobs), "--links", f"{self.name}="]
        for name in self.of_kit:
            words += ["--extern", f"{name}={kit.library / name}.rlib"]
        for crate in self.on:
            words += ["--extern", f"{crate.name}={crate.made}"]
        for folder in [kit.library, *(crate.kept for crate in self.below())]:
            words += ["-L", f"dependency={folder}"]
        if self.is_program:
            return [*words, "--toolchain", kit.folder / "toolchain", "--backend", "llvm", "-o", f"{self.made}.o"]
        return [*words, "--statements", "-o", self.made]

    def make_room(self):
        """Takes away what an earlier build kept of the crate."""
        shutil.rmtree(self.kept, ignore_errors=True)
        self.kept.mkdir(parents=True)


def read_crates():
    """The program's crate and all that it stands on, lowest first, by crates.txt."""
    lines = [line.partition(":") for line in (ROOT / "crates.txt").read_text().splitlines() if not line.startswith("#")]
    rest = {name: words.split() for name, colon, words in lines if colon}
    known = {}

    def read(name):
        if name not in known:
            for word in rest[name]:
                if word in rest:
                    read(word)
            known[name] = Crate(name, rest[name], known)
        return known[name]

    program = read(NAME)
    return [*program.below(), program]


class Build:
    """The crates of a build: those that are proved, and the checks that run, with the jobs and the begin of each."""

    def __init__(self, kit, crates, lanes):
        self.kit, self.lanes = kit, lanes
        for crate in crates:
            crate.sum_now = crate.sum(kit)
        self.proved = [crate for crate in crates if crate.is_kept()]
        self.left = [crate for crate in crates if not crate.is_kept()]
        self.count, self.running = len(crates), {}
        # Those that were killed, which get one job.
        self.single = set()
        self.chain = {}
        for crate in reversed(crates):
            self.chain[crate] = crate.weight + max((self.chain[it] for it in crates if crate in it.on), default=0)
        # Of the checks that have ended: seconds, weights, and for each crate the processor time.
        self.seconds, self.weight, self.spent = 0, 0, {}

    def start(self, crate, jobs):
        crate.make_room()
        with open(crate.log, "wb") as log:
            process = subprocess.Popen(crate.words(self.kit, jobs), cwd=crate.folder, stdin=subprocess.DEVNULL, stdout=log, stderr=subprocess.STDOUT, start_new_session=True)
        self.running[process] = crate, jobs, time.monotonic()

    def start_ready(self):
        """Starts checks of crates of which all below is proved, those with the longest chain above them first; where fewer are ready than there are processors for, with more jobs."""
        ready = [crate for crate in self.left if all(it in self.proved for it in crate.on)]
        ready.sort(key=lambda crate: -self.chain[crate])
        for at, crate in enumerate(ready):
            idle = self.lanes - sum(jobs for _, jobs, _ in self.running.values())
            if idle <= 0:
                return
            self.left.remove(crate)
            self.start(crate, 1 if crate in self.single else min(JOBS, max(1, idle // (len(ready) - at))))

    def minutes_left(self):
        """The minutes that the build still takes, by how long the checks took that have ended: those of all that is left, or of its longest chain. None where too little has ended."""
        under_way = {crate: begun for crate, _, begun in self.running.values()}
        left = [*self.left, *under_way]
        if self.weight < sum(crate.weight for crate in left) / 10:
            return None
        pace = self.seconds / self.weight
        done = {crate: min(0.9 * crate.weight, (time.monotonic() - begun) / pace) for crate, begun in under_way.items()}
        whole = sum(crate.weight - done.get(crate, 0) for crate in left) / self.lanes
        return round(pace * max(whole, max(self.chain[crate] - done.get(crate, 0) for crate in left)) / 60)

    def take(self, process, status, spent):
        """Takes the crate of a check that has ended for proved. One that was killed, most likely for memory, is tried once more, with one job, or with fewer checks side by side."""
        crate, jobs, begun = self.running.pop(process)
        self.spent[crate.name] = self.spent.get(crate.name, 0) + spent
        if status == -signal.SIGKILL and (jobs > 1 or self.lanes > 1):
            say(f"the check of {crate.name} was killed, most likely for memory: once more")
            self.lanes -= jobs == 1
            self.left.append(crate)
            self.single.add(crate)
            return
        if status == 0 and crate.is_program:
            with open(crate.log, "ab") as log:
                status = subprocess.run(self.kit.linked(crate.made), stdin=subprocess.DEVNULL, stdout=log, stderr=subprocess.STDOUT).returncode
        if status:
            sys.stderr.write("".join(crate.log.read_text(errors="replace").splitlines(keepends=True)[-30:]))
            fail(f"{crate.name} is not proved: {crate.log} has all that its check said")
        if crate.sum(self.kit) != crate.sum_now:
            fail(f"{crate.name} was changed while it was proved: start again")
        crate.sum_file.write_text(crate.sum_now)
        self.proved.append(crate)
        self.seconds, self.weight = self.seconds + time.monotonic() - begun, self.weight + crate.weight
        self.tell(crate)

    def tell(self, crate):
        if not self.left and not self.running:
            return
        minutes = self.minutes_left()
        rest = "" if minutes is None else ", less than a minute left" if minutes == 0 else f", about {minutes} min left"
        say(f"{len(self.proved)} of {self.count}: {crate.name} is proved{rest}")

    def run(self):
        """Proves and builds all that is left."""
        if self.left:
            say(f"proving {len(self.left)} of {self.count} crates, the program's among them, {self.lanes} side by side")
        begun = time.monotonic()
        try:
            while self.left or self.running:
                self.start_ready()
                time.sleep(0.1)
                for process in [*self.running]:
                    ended, status, usage = os.wait4(process.pid, os.WNOHANG)
                    if ended:
                        process.returncode = os.waitstatus_to_exitcode(status)
                        self.take(process, process.returncode, usage.ru_utime + usage.ru_stime)
        finally:
            self.stop()
        if self.spent:
            self.tell_times(time.monotonic() - begun)

    def tell_times(self, seconds):
        """Says how long the build took by the clock and in processor time, of a whole one also in times of the yardstick."""
        spent = sum(self.spent.values())
        unit = f", {spent / self.spent[YARDSTICK]:.0f} times that of {YARDSTICK}" if len(self.spent) == self.count and YARDSTICK in self.spent else ""
        say(f"built in {seconds / 60:.1f} min by the clock, with {spent / 60:.1f} min of processor time{unit}")

    def stop(self):
        """Ends all checks, and what they started."""
        for process in self.running:
            try:
                os.killpg(process.pid, signal.SIGKILL)
                process.wait()
            except ProcessLookupError:
                pass


def build():
    kit = Kit()
    lanes = int(subprocess.run([ROOT / ".ci" / "lanes", str(GIGABYTES)], check=True, stdout=subprocess.PIPE, text=True).stdout)
    begun = time.time()
    crates = read_crates()
    Build(kit, crates, lanes).run()
    shutil.copy2(crates[-1].made, f"{PROGRAM}.new")
    os.replace(f"{PROGRAM}.new", PROGRAM)
    used = [folder for crate in crates for folder in crate.folders()]
    STAMP.write_text("".join(f"{path.relative_to(ROOT)}\n" for path in [ROOT / "crates.txt", *used]))
    os.utime(STAMP, (begun, begun))


def main():
    for kind in (signal.SIGTERM, signal.SIGHUP):
        signal.signal(kind, signal.default_int_handler)
    OUT.mkdir(exist_ok=True)
    before = STAMP.stat().st_mtime if STAMP.exists() else 0
    try:
        with open(OUT / "lock", "w") as lock:
            try:
                fcntl.flock(lock, fcntl.LOCK_EX | fcntl.LOCK_NB)
            except BlockingIOError:
                say("another start is building the program; this one waits for it")
                fcntl.flock(lock, fcntl.LOCK_EX)
                if STAMP.exists() and STAMP.stat().st_mtime > before:
                    return
            build()
    except KeyboardInterrupt:
        say("stopped; the next start goes on from what is proved")
        sys.exit(130)


main()
