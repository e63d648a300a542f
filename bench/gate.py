#!/usr/bin/env python3
"""bench/gate.py run LOG [CMD ..]   runs the gate (`rt ci --anew`, or CMD) and writes to LOG what each of
                                 its processes took. An older kit, as rattle-kit-13b, has no --anew and
                                 proves all in each run: there CMD is `rt ci`
bench/gate.py watch PID LOG      the same of a gate that runs already: of the process PID, until it ends
bench/gate.py table LOG ..       prints the seconds of each crate, as a table for docs/
bench/gate.py above CRATE LOG ..  prints what a change of this crate's proofs has proved again: crates,
                                 minutes of a processor, those of the longest chain of jobs in a row,
                                 and those on the clock, if each job takes one of four processors
bench/gate.py page LOG ..        writes both tables of docs/gate.md anew, and its sentence of sums
bench/gate.py functions CRATE    after `rm -rf out/incremental; rt check` in the crate: the seconds that
                                 the check took for each function, dearest first

The gate prints no times. So each second the processes below it are read from /proc: the processor
time of each prover with the copies of itself that it forked, and the most memory that one of them
held. What a process did after its last sample, up to a second, isn't counted. The time of clang is
in that of the process which runs it, and is told once more. Give the name of the machine and the
commit beside the table."""
import os
import re
import subprocess
import sys
import time

TICK = os.sysconf("SC_CLK_TCK")
TOOLS = ("rattle", "rattle-link", "rattle-test", "clang", "ld", "lld", "ld.lld")
KINDS = ("proof", "compiled", "tests", "seed", "edits", "other")


def processes():
    """Of each process: its parent, name, when it began, its time and that of its ended children."""
    found = {}
    for pid in filter(str.isdigit, os.listdir("/proc")):
        try:
            text = open(f"/proc/{pid}/stat", encoding="utf-8", errors="replace").read()
        except OSError:
            continue
        name, rest = text[text.index("(") + 1 : text.rindex(")")], text[text.rindex(")") + 2 :].split()
        took = sum(map(int, rest[11:15])) / TICK
        found[int(pid)] = (int(rest[1]), name, int(rest[19]), took)
    return found


def peak_of(pid):
    """The most memory that a process held, in MB."""
    try:
        found = re.search(r"VmHWM:\s+(\d+)", open(f"/proc/{pid}/status", encoding="utf-8").read())
        return int(found[1]) // 1024 if found else 0
    except OSError:
        return 0


def task_of(pid, name):
    """The crate that a process works for, and what it does."""
    try:
        words = open(f"/proc/{pid}/cmdline", encoding="utf-8", errors="replace").read().split("\0")
        where = os.readlink(f"/proc/{pid}/cwd")
    except OSError:
        return None
    if name != "rattle":
        crate = re.search(r"crates/([\w-]+)/out/", " ".join(words))
        return (crate[1] if crate else "-", "other")
    if "--crate-name" not in words:
        return ("-", "other")
    crate = words[words.index("--crate-name") + 1]
    seed = next((it for it in words if "rt-edits-" in it), "")
    if "/rt-edit-" in where:
        return (crate, "seed" if seed.endswith("/seed") else "edits")
    if "--crate-checked" in words:
        return (crate, "compiled")
    return (crate, "tests" if "--test" in words else "proof")


def sample(top, tasks):
    """Reads the processes below `top`, and adds what they took to their tasks."""
    all_of = processes()
    children = {}
    for pid, (parent, *_) in all_of.items():
        children.setdefault(parent, []).append(pid)

    def whole(pid):
        """The time of a process, of its ended children and of those that still run; the peak of one."""
        time_of, peak = all_of[pid][3], peak_of(pid)
        for it in children.get(pid, []):
            took, held = whole(it)
            time_of, peak = time_of + took, max(peak, held)
        return time_of, peak

    def note(key, task, pid):
        """Adds what a process took to its task."""
        took, peak = whole(pid)
        old = tasks.setdefault(key, [*task, time.time(), 0, 0, 0])
        tasks[key] = [*old[:3], time.time(), max(old[4], took), max(old[5], peak)]

    def walk(pid):
        for it in children.get(pid, []):
            _, name, began, _ = all_of[it]
            if name in TOOLS:
                key = (it, began)
                if key not in tasks:
                    task = task_of(it, name)
                    if task is None:
                        continue
                    tasks[key] = [*task, time.time(), 0, 0, 0]
                note(key, tasks[key][:2], it)
                for below in children.get(it, []):
                    if all_of[below][1] == "clang":
                        note((below, all_of[below][2]), (tasks[key][0], "clang"), below)
            else:
                walk(it)

    walk(top)


def follow(top, name, log, is_over):
    """Samples what runs below the process `top` until `is_over` says so, and writes a line for each
    process: crate, kind, begin, end, seconds, MB."""
    began, tasks = time.time(), {}

    def write(status):
        with open(log, "w", encoding="utf-8") as out:
            out.write(f"# {name}: {time.time() - began:.0f} s, {status}\n")
            for crate, kind, begin, end, took, peak in tasks.values():
                out.write(f"{crate} {kind} {begin - began:.0f} {end - began:.0f} {took:.1f} {peak}\n")

    last = began
    while is_over() is None:
        sample(top, tasks)
        if time.time() > last + 30:
            last = time.time()
            write("not ended")
        time.sleep(1)
    write(f"status {is_over()}")


def run(log, words):
    """Runs the gate, and follows it."""
    with subprocess.Popen(words) as gate:
        follow(gate.pid, " ".join(words), log, gate.poll)
    return gate.returncode


def watch(pid, log):
    """Follows a gate that runs already. Its status isn't seen."""
    began = processes()[pid][2]

    def is_over():
        """Whether the process has ended: no other one has its number and its beginning."""
        now = processes().get(pid)
        return None if now and now[2] == began else "not seen"

    follow(pid, f"process {pid}", log, is_over)


def rows_of(logs):
    """What each crate took, by what was done: how many processes and their seconds, and the peak. Of
    several logs the last counts that tells it."""
    rows = {}
    for log in logs:
        found = {}
        for line in open(log, encoding="utf-8").read().split("\n"):
            if not line or line.startswith("#"):
                continue
            crate, kind, _, _, took, peak = line.split()
            number, seconds, most = found.get((crate, kind), (0, 0.0, 0))
            found[crate, kind] = number + 1, seconds + float(took), max(most, int(peak))
        for (crate, kind), told in found.items():
            rows.setdefault(crate, {it: (0, 0.0, 0) for it in (*KINDS, "clang")})[kind] = told
    return rows


def listed():
    """The crates of crates.txt, each with those that it uses."""
    root = os.path.dirname(os.path.dirname(os.path.abspath(__file__)))
    lines = [it.split(":") for it in open(f"{root}/crates.txt") if re.match(r"\w", it)]
    return {names.split()[0]: below.split() for names, below in lines}


def seconds_of(row):
    """All that a crate took."""
    return sum(row[it][1] for it in KINDS)


def table_of(rows):
    """The seconds of a processor of each crate, by what was done, as lines of a table."""
    heads = ("proof", "compiled", "tests", "of it clang", "proof again")
    lines = [f"| crate | {', s | '.join(heads)}, s | edits, s (n) | all, s | GB |"]
    lines.append("|---|---:|---:|---:|---:|---:|---:|---:|---:|")
    show = lambda it: f"{it:.0f}" if it >= 0.5 else "-"
    crates = listed()
    names = [it for it in rows if it in crates]
    for crate in sorted(names, key=lambda it: -seconds_of(rows[it])):
        row = rows[crate]
        edits = f"{show(row['edits'][1])} ({row['edits'][0]})" if row["edits"][0] else "-"
        cells = [show(row[it][1]) for it in ("proof", "compiled", "tests", "clang", "seed")]
        peak = max(it[2] for it in row.values()) / 1024
        lines.append(f"| {crate} | {' | '.join(cells)} | {edits} | {seconds_of(row):.0f} | {peak:.1f} |")
    sums = sums_of(rows)
    cells = [show(sums[it]) for it in ("proof", "compiled", "tests", "clang", "seed", "edits")]
    lines.append(f"| all | {' | '.join(cells)} | {sum(sums[it] for it in KINDS):.0f} | |")
    return lines


def sums_of(rows):
    """The seconds of all crates, by what was done."""
    names = [it for it in rows if it in listed()]
    return {kind: sum(rows[it][kind][1] for it in names) for kind in (*KINDS, "clang")}


def above(crate):
    """The crates that stand on this one, with itself."""
    crates, found = listed(), [crate]
    for it in found:
        found += [name for name, below in crates.items() if it in below and name not in found]
    return found


def jobs_of(names, rows):
    """What the gate does for these crates: of each job its seconds, and the jobs that it waits for."""
    crates, jobs = listed(), {}
    for it in names:
        took = {kind: rows[it][kind][1] for kind in KINDS} if it in rows else dict.fromkeys(KINDS, 0)
        jobs[it, "proof"] = took["proof"], [(low, "proof") for low in crates[it] if low in names]
        for kind in ("compiled", "tests"):
            jobs[it, kind] = took[kind], [(it, "proof")]
        jobs[it, "edits"] = took["seed"] + took["edits"], [(it, "proof")]
    return {job: told for job, told in jobs.items() if told[0] or job[1] == "proof"}


def tails_of(jobs):
    """Of each job, the seconds of the longest chain of jobs that begins with it."""
    tails = {}

    def tail(job):
        """That of one job."""
        if job not in tails:
            later = [it for it, (_, below) in jobs.items() if job in below]
            tails[job] = jobs[job][0] + max(map(tail, later), default=0)
        return tails[job]

    for job in jobs:
        tail(job)
    return tails


def clock_of(jobs, processors=4):
    """The seconds on the clock, if of the jobs that can begin that with the longest chain does."""
    tails, now, running, ended = tails_of(jobs), 0.0, [], set()
    waiting = sorted(jobs, key=lambda it: -tails[it])
    while waiting or running:
        ready = [it for it in waiting if ended.issuperset(jobs[it][1])]
        for job in ready[: processors - len(running)]:
            waiting.remove(job)
            running.append((now + jobs[job][0], job))
        now = min(running)[0]
        ended |= {job for end, job in running if end <= now}
        running = [(end, job) for end, job in running if end > now]
    return now


def change(crate, rows):
    """Of a change in a crate: how many crates are proved again, the minutes of a processor, those of
    the longest chain, and those on the clock of four processors."""
    jobs = jobs_of(above(crate), rows)
    took = sum(it[0] for it in jobs.values())
    count = sum(kind == "proof" for _, kind in jobs)
    return count, took / 60, max(tails_of(jobs).values()) / 60, clock_of(jobs) / 60


def put_table(text, head, lines):
    """The text with these lines in place of the table whose first line begins like this."""
    first = text.index(f"\n{head}") + 1
    return text[:first] + "\n".join(lines) + text[text.index("\n\n", first) :]


def sentence_of(rows):
    """What the gate takes from nothing, in minutes."""
    sums = {kind: took / 60 for kind, took in sums_of(rows).items()}
    edits = sums["seed"] + sums["edits"]
    return (
        f"From nothing the gate takes some {sum(sums[it] for it in KINDS):.0f} minutes of a processor: "
        f"{sums['proof']:.0f} for proofs of crates,\n{sums['compiled']:.0f} for the two compilers of each "
        f"program, {sums['tests']:.0f} for test crates with their tests, and\n{edits:.0f} for the must-fail "
        "edits, with the further proofs that they begin with."
    )


def page(logs):
    """Writes the tables of docs/gate.md and its sentence of sums."""
    name = os.path.join(os.path.dirname(os.path.dirname(os.path.abspath(__file__))), "docs/gate.md")
    rows, text = rows_of(logs), open(name, encoding="utf-8").read()
    text = put_table(text, "| crate | proof", table_of(rows))
    found = re.search(r"\n\| a change in .*\n.*\n((?:\|.*\n)+)", text)
    crates = [line.split("|")[1].strip() for line in found[1].strip().split("\n")]
    lines = [f"| {it} | {{}} | {{:.0f}} | {{:.0f}} | {{:.0f}} |".format(*change(it, rows)) for it in crates]
    text = text[: found.start(1)] + "\n".join(lines) + "\n" + text[found.end(1) :]
    first = text.index("From nothing the gate takes")
    text = text[:first] + sentence_of(rows) + text[text.index("\n\n", first) :]
    open(name, "w", encoding="utf-8").write(text)


def functions(crate):
    """Prints the seconds of each function, by the times at which the check kept its modules."""
    top = os.path.join(os.path.dirname(os.path.dirname(os.path.abspath(__file__))), "crates", crate, "out/incremental")
    kept = sorted((os.stat(os.path.join(at, it)).st_mtime, it) for at, _, all in os.walk(top) for it in all)
    if not kept:
        sys.exit(f"nothing is kept in {top}")
    took = {}
    for (before, _), (now, it) in zip(kept, kept[1:]):
        found = re.match(r"Rattle-\w+-proofs\.(.+)\.\w+\.oantt$", it.replace(".decls", ""))
        name = found[1] if found else "the rest"
        took[name] = took.get(name, 0) + now - before
    for name, seconds in sorted(took.items(), key=lambda it: -it[1]):
        print(f"{seconds:7.1f} {name}")


if __name__ == "__main__":
    if len(sys.argv) >= 3 and sys.argv[1] == "run":
        sys.exit(run(sys.argv[2], sys.argv[3:] or ["rt", "ci", "--anew"]))
    if len(sys.argv) == 4 and sys.argv[1] == "watch":
        sys.exit(watch(int(sys.argv[2]), sys.argv[3]))
    if len(sys.argv) >= 3 and sys.argv[1] == "table":
        sys.exit(print("\n".join(table_of(rows_of(sys.argv[2:])))))
    if len(sys.argv) >= 4 and sys.argv[1] == "above":
        count, took, chain, clock = change(sys.argv[2], rows_of(sys.argv[3:]))
        told = f"{count} crates, {took:.1f} minutes of a processor, {chain:.1f} of the longest chain"
        sys.exit(print(f"{sys.argv[2]}: {told}, {clock:.1f} on four processors"))
    if len(sys.argv) == 3 and sys.argv[1] == "functions":
        sys.exit(functions(sys.argv[2]))
    if len(sys.argv) >= 3 and sys.argv[1] == "page":
        sys.exit(page(sys.argv[2:]))
    sys.exit(__doc__)
