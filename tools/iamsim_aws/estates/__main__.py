"""The job of one world of an estate: FOLDER WORKERS N."""

import os
import signal
import sys
import threading

from ..faults import Fault, tell
from .loading import load


def end_with(watched: int) -> None:
    """Ends this job and what it has started where the run has ended that holds the other end of a pipe."""
    try:
        os.read(watched, 1)
    except OSError:
        return
    os.killpg(0, signal.SIGKILL)


def main() -> int:
    folder, workers, n = sys.argv[1:]
    watched = os.environ.get("IAMSIM_AWS_WATCHED")
    if watched:
        threading.Thread(target=end_with, args=(int(watched),), daemon=True).start()
    try:
        load(folder, int(n), int(workers))
        return 0
    except (Fault, OSError, MemoryError) as fault:
        tell(f"{folder}: {fault or 'out of memory'}")
    except KeyboardInterrupt:
        tell("stopped")
    return 1


if __name__ == "__main__":
    sys.exit(main())
