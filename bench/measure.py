"""Runs `PROGRAM walk FILE 1000` and prints one row: words, bytes, bytes of output, seconds, peak memory, instructions."""
import os
import re
import resource
import shutil
import subprocess
import sys
import time

program, source, words = sys.argv[1:]
command = [program, "walk", source, "1000"]
start = time.monotonic()
done = subprocess.run(command, stdout=subprocess.PIPE, check=True)
seconds = time.monotonic() - start
peak = resource.getrusage(resource.RUSAGE_CHILDREN).ru_maxrss

instructions = "no valgrind"
if shutil.which("valgrind"):
    counted = subprocess.run(
        ["valgrind", "--tool=callgrind", "--callgrind-out-file=/dev/null", *command],
        stdout=subprocess.DEVNULL, stderr=subprocess.PIPE, text=True)
    found = re.search(r"Collected : (\d+)", counted.stderr)
    instructions = found.group(1) if found else "not counted"

print(f"{words:>8} {os.path.getsize(source):>10} {len(done.stdout):>10} {seconds:>10.2f} {peak:>12} {instructions:>16}")
