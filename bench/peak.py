"""The least time of three runs of a command, in milliseconds, and its peak memory, in MiB: peak.py COMMAND.."""

import os
import subprocess
import sys
import time

least, peak = None, 0
for _ in range(3):
    begun = time.monotonic()
    child = subprocess.Popen(sys.argv[1:], stdout=subprocess.DEVNULL)
    _, status, usage = os.wait4(child.pid, 0)
    took = time.monotonic() - begun
    if status:
        sys.exit(f"{sys.argv[1:]}: status {os.waitstatus_to_exitcode(status)}")
    least = took if least is None else min(least, took)
    peak = max(peak, usage.ru_maxrss)
print(f"{least * 1000:.0f} ms, {peak / 1024:.0f} MiB  {' '.join(sys.argv[2:])}")
