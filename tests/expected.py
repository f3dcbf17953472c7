#!/usr/bin/env python3
"""What the example programs and the driver of the C library are given and must print, made anew and compared with what stands beside them:

  tests/expected.py                     compares; the exit status is 1 where something differs
  tests/expected.py --write             writes it instead, after a case or the session's size was changed
  tests/expected.py --without-driver    compares, and leaves out what the independent model says, which cargo builds

crates/bench, crates/gate_files and crates/trace_files are run on a sample each. The lines of tests/host/session.calls, which the driver makes, come from the model.
"""

import pathlib
import subprocess
import sys

ROOT = pathlib.Path(__file__).resolve().parent.parent
MODEL = ROOT / "tests" / "model"
CALLS = str(MODEL / "target" / "release" / "session_calls")

# Each file, and the script with its words that makes it, or the sample that it is.
SCRIPTS = {
    "crates/listing_runs/stdin": ("listing_cases.py", "stdin"),
    "crates/listing_runs/stdout": ("listing_cases.py", "stdout"),
    "crates/packet_runs/stdin": ("packet_cases.py", "stdin"),
    "crates/packet_runs/stdout": ("packet_cases.py", "stdout"),
    "crates/modes_runs/stdout": ("mode_steps.py",),
    "crates/train_runs/stdout": ("train_tables.py",),
    "crates/trace_files/stdout": ("trace_lines.py", str(ROOT / "samples" / "traces" / "day.trace")),
    "tests/host/session.calls": ("session_cases.py", "stdin"),
    "tests/host/session.lines": ("session_cases.py", "stdout", CALLS),
}
SAMPLES = {
    "crates/bench/stdin": "every-answer.rec",
    "crates/bench/stdout": "every-answer.lst",
    "crates/gate_files/stdin": "gates/station.old",
    "crates/gate_files/stdout": "gates/station.new",
    "crates/trace_files/stdin": "traces/day.trace",
}


def made(name):
    """The bytes of a file, made anew."""
    if name in SAMPLES:
        return (ROOT / "samples" / SAMPLES[name]).read_bytes()
    script, *words = SCRIPTS[name]
    return subprocess.run([sys.executable, str(ROOT / "tests" / script), *words], stdout=subprocess.PIPE, check=True).stdout


def names(without_model):
    """The files to make; the model is built where one of them needs it."""
    wanted = sorted(SCRIPTS | SAMPLES)
    if without_model:
        return [name for name in wanted if CALLS not in SCRIPTS.get(name, ())]
    subprocess.run(["cargo", "build", "--release", "--offline", "--quiet"], cwd=MODEL, check=True)
    return wanted


def main(words):
    if words not in ([], ["--write"], ["--without-driver"]):
        sys.exit(__doc__)
    differing = 0
    files = names(words == ["--without-driver"])
    for name in files:
        target, bytes_ = ROOT / name, made(name)
        if words == ["--write"]:
            target.write_bytes(bytes_)
        elif not target.is_file() or target.read_bytes() != bytes_:
            print(f"{name} is not what tests/expected.py makes; see which of the two is right, and write it by --write")
            differing += 1
    for target in sorted(ROOT.glob("crates/*/std*")):
        if str(target.relative_to(ROOT)) not in SCRIPTS | SAMPLES:
            print(f"{target.relative_to(ROOT)} is made by no script")
            differing += 1
    print(f"{len(files)} files that programs read or must print, {differing} differences")
    return 1 if differing else 0


if __name__ == "__main__":
    sys.exit(main(sys.argv[1:]))
