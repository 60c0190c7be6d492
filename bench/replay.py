#!/usr/bin/env python3
"""Times `jobd replay` on the streams of stream.py and prints a table.

    replay.py [PROGRAM [ROUNDS]]

PROGRAM is build/jobd where none is given. Each stream is replayed ROUNDS times (3), and the best time counts; the lines
that load the jobs are in it. Where valgrind is there, the instructions of an event line are counted, on two short
streams whose difference leaves the start and the loads out. MB is the most memory that the program held (on Linux). With
BASELINE=PROGRAM in the environment, a second program that reads the same lines from standard input takes turns with it,
and what the two write is compared. STREAMS in the environment, as `ticks,interval`, leaves the other kinds of streams out.
"""
import os
import shlex
import shutil
import subprocess
import sys
import tempfile
import time

HERE = os.path.dirname(os.path.abspath(__file__))
STREAMS = [
    ("ticks", 1, 100_000),
    ("ticks", 100, 50_000),
    ("ticks", 1000, 10_000),
    ("starts", 10, 50_000),
    ("interval", 1000, 20_000),
    ("looks", 50, 50_000),
    ("loads", 100, 20_000),
    ("fresh", 1, 40_000),
    ("jump", 100, 400),
    ("keys", 1, 18_000),
]

# Streams of one dear line: a longer one has no more lines, so their instructions are not counted.
ONE_LINE = ("jump", "keys")


def write_stream(path, kind, jobs, lines):
    with open(path, "w") as out:
        subprocess.run([sys.executable, os.path.join(HERE, "stream.py"), kind, str(jobs), str(lines)], stdout=out, check=True)
    with open(path) as stream:
        return sum(1 for _ in stream) - 1


def seconds(command, path, written):
    with open(path) as given, open(written, "w") as out:
        begun = time.monotonic()
        subprocess.run(command, stdin=given, stdout=out, check=True)
        return time.monotonic() - begun


def high_water(command, path):
    """The most memory that the program held, in megabytes, as /proc told it last before the program ended."""
    most = 0
    with open(path) as given:
        running = subprocess.Popen(command, stdin=given, stdout=subprocess.DEVNULL)
        while running.poll() is None:
            try:
                with open(f"/proc/{running.pid}/status") as status:
                    for line in status:
                        if line.startswith("VmHWM"):
                            most = max(most, int(line.split()[1]))
            except OSError:
                break
            time.sleep(0.002)
        running.wait()
    return f"{most / 1024:.1f}" if most else "-"


def instructions(command, path, folder):
    wrapped = ["valgrind", "--tool=callgrind", f"--callgrind-out-file={folder}/counted", *command]
    with open(path) as given:
        done = subprocess.run(wrapped, stdin=given, stdout=subprocess.DEVNULL, stderr=subprocess.PIPE, text=True)
    for line in done.stderr.splitlines():
        if "Collected" in line:
            return int(line.split(":")[1])
    return None


def per_line(command, kind, jobs, folder, lengths=(200, 1200)):
    """The instructions of a line, as text; `-` where they were not counted."""
    counts = []
    for lines in lengths:
        path = os.path.join(folder, "short")
        counts.append((write_stream(path, kind, jobs, lines), instructions(command, path, folder)))
    (few, less), (many, more) = counts
    return "-" if less is None or more is None else f"{(more - less) / (many - few):,.0f}"


def row(programs, kind, jobs, lines, rounds, folder):
    path = os.path.join(folder, "stream")
    count = write_stream(path, kind, jobs, lines)
    best = {name: None for name in programs}
    for _ in range(rounds):
        for name, command in programs.items():
            took = seconds(command, path, os.path.join(folder, name))
            best[name] = took if best[name] is None else min(best[name], took)
    written = {name: open(os.path.join(folder, name), "rb").read() for name in programs}
    for name, command in programs.items():
        same = written[name] == written["jobd"]
        counted = per_line(command, kind, jobs, folder) if shutil.which("valgrind") and kind not in ONE_LINE else "-"
        print(f"| {kind} | {jobs} | {count} | {name} | {best[name]:.3f} | {count / best[name]:,.0f} | {counted} | {high_water(command, path)} |"
              + ("" if same else " OUTCOMES DIFFER"), flush=True)
    return all(text == written["jobd"] for text in written.values())


def main():
    program = sys.argv[1] if len(sys.argv) > 1 else os.path.join(HERE, "..", "build", "jobd")
    rounds = int(sys.argv[2]) if len(sys.argv) > 2 else 3
    programs = {"jobd": [program, "replay"]}
    if os.environ.get("BASELINE"):
        programs["baseline"] = shlex.split(os.environ["BASELINE"])
    wanted = os.environ.get("STREAMS", "").split(",") if os.environ.get("STREAMS") else [stream[0] for stream in STREAMS]
    print("| stream | jobs | lines | program | seconds | lines a second | instructions a line | MB |")
    print("|---|---|---|---|---|---|---|---|")
    with tempfile.TemporaryDirectory() as folder:
        alike = [row(programs, *stream, rounds, folder) for stream in STREAMS if stream[0] in wanted]
    sys.exit(0 if all(alike) else 1)


if __name__ == "__main__":
    main()
