"""Runs a command three times, or RUNS times, and prints its last line, the least of its processor seconds and the most of its memory."""
import os
import subprocess
import sys

seconds, most = [], 0
for _ in range(int(os.environ.get("RUNS", "3"))):
    run = subprocess.Popen(sys.argv[1:], stdout=subprocess.PIPE, stderr=subprocess.STDOUT)
    text = run.stdout.read()
    _, _, used = os.wait4(run.pid, 0)
    seconds.append(used.ru_utime + used.ru_stime)
    most = max(most, used.ru_maxrss // 1024)
lines = text.decode(errors="replace").splitlines()
print(f"{lines[-1][:60] if lines else '':60} {min(seconds):8.3f} s {most:6} MB")
