#!/usr/bin/env bash
# Measures `cosim run` beside `cosim model`: eight busy hosts, whose adapters are joined in pairs, at a latency of 100,000
# and of 1,000 instructions of each link, and the system of `load`; and `serial` on links by proxy beside links by queue.
# Each time is the fastest of three runs of the whole program, in turns. Another number of stations may be given.
set -eu
top=$(cd "$(dirname "${BASH_SOURCE[0]}")/.." && pwd)
cosim=$top/crates/cosim_prog/out/cosim_prog
stations=${1:-30}
folder=$(mktemp -d)
trap 'rm -rf "$folder"' EXIT

component() { # name, kind, keys
  printf '[[component]]\nname = "%s"\nkind = "%s"\n%s\n' "$1" "$2" "$3"
}

link() { # end, port, other end, its port, latency
  printf '[[link]]\na = "%s"\na_port = %d\nb = "%s"\nb_port = %d\nlatency = %d\n' "$1" "$2" "$3" "$4" "$5"
}

hosts() { # latency, end
  echo "end = $2"
  for number in {0..7}; do
    component "h$number" host "$(printf 'ram = 65536\ncycle = 1000\npcie = 1\nhart = %d\nimage = "%s"' "$number" "$folder/busy.bin")"
  done
  for number in {0..7}; do component "n$number" nic "mac = \"02:00:00:00:00:0$number\""; done
  for number in {0..7}; do link "h$number" 0 "n$number" 0 "$1"; done
  for number in 0 2 4 6; do link "n$number" 1 "n$((number + 1))" 1 "$1"; done
}

seconds() { # words
  local began
  began=$(date +%s%N)
  "$cosim" "$@" >"$folder/out"
  echo $(($(date +%s%N) - began)) | awk '{ printf "%.3f", $1 / 1e9 }'
}

lesser() {
  if [ -z "$1" ]; then echo "$2"; else printf '%s\n%s\n' "$1" "$2" | sort -g | head -n 1; fi
}

beside() { # what is run, its topology
  local model= serial= one= two= four=
  for _ in 1 2 3; do
    model=$(lesser "$model" "$(seconds model "$2")")
    serial=$(lesser "$serial" "$(seconds serial "$2")")
    one=$(lesser "$one" "$(seconds run "$2" --workers 1)")
    two=$(lesser "$two" "$(seconds run "$2" --workers 2)")
    four=$(lesser "$four" "$(seconds run "$2" --workers 4)")
  done
  printf '%-44s %8s %8s %8s %8s %8s\n' "$1" "$model" "$serial" "$one" "$two" "$four"
}

printf 'start: addi t0, t0, 1\n add t1, t1, t0\n xor t2, t2, t1\n j start\n' >"$folder/busy.s"
"$cosim" asm "$folder/busy.s" >"$folder/busy.bin"
hosts 100000000 20000000000 >"$folder/far.toml"
hosts 1000000 2000000000 >"$folder/near.toml"
sed -n '/^const PING/,/^";/p' "$top/crates/load_gen/src/program.rt" | sed '1d;$d' >"$folder/ping.s"
(
  cd "$folder"
  "$cosim" asm ping.s >ping.bin
  "$cosim" load "$stations" --text >load.toml
  "$cosim" load 2 --text >queues.toml
  sed 's/^via = "queue"/via = "proxy"/' queues.toml >proxies.toml
)
cd "$folder"
printf '%-44s %8s %8s %8s %8s %8s\n' seconds model serial 'run 1' 'run 2' 'run 4'
beside '8 busy hosts, latency 100,000 instructions' far.toml
beside '8 busy hosts, latency 1,000 instructions' near.toml
beside "load $stations" load.toml
printf '%-44s %8s\n' 'serial on load 2, links by queue' "$(seconds serial queues.toml)"
printf '%-44s %8s\n' 'serial on load 2, links by proxy' "$(seconds serial proxies.toml)"
