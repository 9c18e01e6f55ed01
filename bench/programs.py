"""The two programs that are compared."""

import os
import shutil
import subprocess
import sys

BENCH = os.path.dirname(os.path.abspath(__file__))
TOP = os.path.dirname(BENCH)


def stop(why):
    print(f"{os.path.basename(sys.argv[0])}: {why}", file=sys.stderr)
    sys.exit(2)


def iamsim():
    """The path of iamsim: $IAMSIM, or the one that a build left."""
    found = os.environ.get("IAMSIM") or os.path.join(TOP, "iamsim")
    if not os.path.exists(found):
        stop("there is no iamsim: 'make build' makes it, and $IAMSIM may name another")
    return os.path.abspath(found)


def plain():
    """The path of the ordinary program, built by cargo, or by rustc alone."""
    folder = os.path.join(BENCH, "plain")
    built = os.path.join(folder, "target", "release", "plain")
    if shutil.which("cargo"):
        words = ["cargo", "build", "--release", "--offline", "--quiet"]
    elif shutil.which("rustc"):
        os.makedirs(os.path.dirname(built), exist_ok=True)
        words = [
            "rustc",
            "--edition=2021",
            "-Copt-level=3",
            "-Clto=fat",
            "-Ccodegen-units=1",
            "-Cpanic=abort",
            "-o",
            built,
            "src/main.rs",
        ]
    else:
        stop("left out: there is no cargo or rustc to build bench/plain with (Rust 1.82 or later)")
    if subprocess.run(words, cwd=folder).returncode != 0:
        stop("bench/plain was not built")
    return built


if __name__ == "__main__":
    plain()
