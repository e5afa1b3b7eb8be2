#!/usr/bin/env bash
# Prints the peak memory and the time of runs whose joined log has 10^7 lines: two beacons, of which one sends 5 million
# frames. Usage: docs/peak_memory.sh [PROGRAM]; from the project's root. It wants python3.
set -u
program=$(readlink -f "${1:-crates/cosim_prog/out/cosim_prog}")
folder=$(mktemp -d)
trap 'rm -rf "$folder"' EXIT
cat >"$folder/beacons.toml" <<'TOML'
end = 5000010000
[[component]]
name = "a"
kind = "beacon"
first = 1000
period = 1000
count = 5000000
from = "02:00:00:00:00:01"
[[component]]
name = "b"
kind = "beacon"
count = 0
from = "02:00:00:00:00:02"
[[link]]
a = "a"
b = "b"
latency = 500
TOML
cd "$folder" || exit 1
for words in "model beacons.toml" "serial beacons.toml" "run beacons.toml --workers 1" "run beacons.toml --workers 2"; do
  python3 - "$program" $words <<'PYTHON'
import os, subprocess, sys, time
began = time.time()
with open("out", "wb") as out:
    run = subprocess.Popen(sys.argv[1:], stdout=out)
    _, status, used = os.wait4(run.pid, 0)
lines = sum(block.count(b"\n") for block in iter(lambda f=open("out", "rb"): f.read(1 << 20), b""))
print(f"{' '.join(sys.argv[2:])}: status {os.waitstatus_to_exitcode(status)}, {lines} lines, "
      f"{used.ru_maxrss // 1024} MB at most, {used.ru_utime + used.ru_stime:.1f} s of processor, {time.time() - began:.1f} s")
PYTHON
done
