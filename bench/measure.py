"""Runs `verify` once, and prints its seconds, peak memory and last line."""
import resource
import subprocess
import sys
import time

label, program, source, proofs = sys.argv[1:]
start = time.monotonic()
done = subprocess.run([program, "verify", source, "--proofs", proofs], capture_output=True, check=False)
seconds = time.monotonic() - start
peak = resource.getrusage(resource.RUSAGE_CHILDREN).ru_maxrss / 1024
last = done.stdout.decode().splitlines()[-1:] or [""]
print(f"{label}: status {done.returncode}, {seconds:.2f} s, {peak:.0f} MB, {last[0]}")
