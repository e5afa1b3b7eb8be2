#!/usr/bin/env bash
# Measures the program: `cosim model` on two stations that send to each other, over a cable and through a switch, and
# `cosim asm` on long sources; and `cosim model` beside the plain C++ event loop of peer/events.cpp, whose output it is
# compared with. Each line is the fastest of three runs of the whole program. A ratio above 1: cosim is faster.
set -eu
top=$(cd "$(dirname "${BASH_SOURCE[0]}")/.." && pwd)
cosim=$top/crates/cosim_prog/out/cosim_prog
folder=$(mktemp -d)
trap 'rm -rf "$folder"' EXIT

stations() { # frames of each station
  cat <<TOML
end = 1000000000000000
[[component]]
name = "a"
kind = "beacon"
period = 1000
count = $1
to = "02:00:00:00:00:02"
from = "02:00:00:00:00:01"
[[component]]
name = "b"
kind = "beacon"
first = 500
period = 1000
count = $1
to = "02:00:00:00:00:01"
from = "02:00:00:00:00:02"
TOML
}

cable() {
  cat <<TOML
[[link]]
a = "a"
b = "b"
latency = 100000
TOML
}

switch() {
  cat <<TOML
[[component]]
name = "s"
kind = "switch"
ports = 2
[[link]]
a = "s"
b = "a"
latency = 100000
[[link]]
a = "s"
a_port = 1
b = "b"
latency = 100000
TOML
}

program() { # statements
  echo "start:"
  for ((line = 0; line < $1 / 4; line++)); do
    printf '        addi t0, t0, 1      # %d\nl%d:     lw t1, 8(sp)\n        beq t0, t1, l%d\n        li a0, 0x12345678\n' \
      "$line" "$line" "$line"
  done
}

fastest() { # what is counted, how many, the command's words
  local counted=$1 many=$2 best= began took
  shift 2
  for _ in 1 2 3; do
    began=$(date +%s%N)
    "$cosim" "$@" > "$folder/out"
    took=$(($(date +%s%N) - began))
    if [ -z "$best" ] || [ "$took" -lt "$best" ]; then best=$took; fi
  done
  awk -v many="$many" -v counted="$counted" -v best="$best" \
    'BEGIN { printf "%8d %-26s %8.3f s %10.0f a second\n", many, counted, best / 1e9, many * 1e9 / best }'
}

# This proves and builds the program where it is missing or older than its sources. What is measured is the program
# itself, since the script takes some hundredths of a second to look at all sources.
{ stations 1; cable; } > "$folder/cable.toml"
"$top/cosim" check "$folder/cable.toml" > "$folder/out"

# A frame sent and a frame taken are an event each.
for events in 1000 10000 100000 1000000; do
  { stations $((events / 4)); cable; } > "$folder/cable.toml"
  fastest "events over a cable" "$events" model "$folder/cable.toml"
  [ "$(wc -l < "$folder/out")" = "$events" ]
done
for events in 10000 100000 1000000; do
  { stations $((events / 6)); switch; } > "$folder/switch.toml"
  fastest "events through a switch" "$((events / 6 * 6))" model "$folder/switch.toml"
done
for statements in 1000 10000 100000 1000000; do
  program "$statements" > "$folder/program.s"
  fastest "statements assembled" "$statements" asm "$folder/program.s"
done

# BESIDE C++

meshed() { # stations, frames of each, latency, whether there is a switch
  echo "end = 1000000000000000"
  for ((i = 0; i < $1; i++)); do
    printf '[[component]]\nname = "c%d"\nkind = "beacon"\nfirst = %d\nperiod = 1000\ncount = %d\n' "$i" $((1000 + 7 * i)) "$2"
    printf 'to = "02:00:00:00:00:%02x"\nfrom = "02:00:00:00:00:%02x"\n' $(((i ^ 1) + 1)) $((i + 1))
  done
  if [ "$4" = switch ]; then
    printf '[[component]]\nname = "s"\nkind = "switch"\nports = 2\n'
    printf '[[link]]\na = "c0"\nb = "s"\nlatency = %d\n[[link]]\na = "c1"\nb = "s"\nb_port = 1\nlatency = %d\n' "$3" "$3"
  else
    for ((i = 0; i < $1; i += 2)); do
      printf '[[link]]\na = "c%d"\nb = "c%d"\nlatency = %d\n' "$i" $((i + 1)) "$3"
    done
  fi
}

quickest() { # the output's file, and the words of a command: nanoseconds
  local out=$1 best= began took
  shift
  for _ in 1 2 3; do
    began=$(date +%s%N)
    "$@" > "$out"
    took=$(($(date +%s%N) - began))
    if [ -z "$best" ] || [ "$took" -lt "$best" ]; then best=$took; fi
  done
  echo "$best"
}

beside() { # what is compared, how many events, the peer's words
  local what=$1 events=$2 peer own
  shift 2
  peer=$(quickest "$folder/peer.out" "$folder/events" "$@")
  own=$(quickest "$folder/own.out" "$cosim" model "$folder/mesh.toml")
  cmp "$folder/peer.out" "$folder/own.out"
  awk -v what="$what" -v events="$events" -v peer="$peer" -v own="$own" \
    'BEGIN { printf "%-14s C++ %6.1f ns, cosim %6.1f ns an event: ratio %.2f\n", what, peer / events, own / events, peer / own }'
}

g++ -std=c++17 -O2 -o "$folder/events" "$top/docs/peer/events.cpp"
for stations in 2 8 32 64; do
  frames=$((500000 / stations))
  latency=$([ "$stations" = 2 ] && echo 500 || echo 100000)
  meshed "$stations" "$frames" "$latency" cable > "$folder/mesh.toml"
  beside "$stations components" $((2 * frames * stations)) cable "$frames" "$stations" "$latency"
done
meshed 2 200000 500 switch > "$folder/mesh.toml"
beside "a switch" 1200000 switch 200000 2 500

# The kernels by lanes, over 64 MiB in calls of each length: their own program, and a plain loop in C that the compiler
# makes vectors of, where there is one.
bench=$top/crates/lane_bench
[ -x "$bench/out/lane_bench" ] || (cd "$bench" && rt run > "$folder/build.log" 2>&1)
"$bench/out/lane_bench" 64 1514 1048576
if cc=$(command -v clang || command -v gcc); then
  cat > "$folder/sum.c" <<'C'
#include <stdint.h>
#include <stdio.h>
#include <string.h>
#include <time.h>
static uint8_t bytes[1 << 20];
__attribute__((noinline)) static uint32_t sum(const uint8_t *at, size_t length) {
  uint64_t total = 0;
  for (size_t place = 0; place + 1 < length; place += 2) total += (uint32_t)at[place] << 8 | at[place + 1];
  return total ? 1 + (total - 1) % 65535 : 0;
}
static uint64_t now(void) {
  struct timespec t;
  clock_gettime(CLOCK_MONOTONIC, &t);
  return t.tv_sec * 1000000000ull + t.tv_nsec;
}
int main(void) {
  uint64_t best = UINT64_MAX, answers = 0;
  memset(bytes, 0x5a, sizeof bytes);
  for (int round = 0; round < 5; round++) {
    uint64_t began = now();
    for (int call = 0; call < 64; call++) bytes[0] = call, answers += sum(bytes, sizeof bytes);
    uint64_t took = now() - began;
    if (took < best) best = took;
  }
  printf("a plain sum in C length 1048576 calls 64 %llu ns (answers %llu)\n", (unsigned long long)best, (unsigned long long)answers);
}
C
  "$cc" -O3 -march=x86-64-v2 -o "$folder/sum" "$folder/sum.c" && "$folder/sum"
fi

# 10^7 null messages through a slot queue of 64 slots and through the ring of rtrb, on one thread and between two; and the
# same queue in plain C++, with each order of its stores and each layout of its words.
queues=$top/crates/queue_bench
[ -x "$queues/out/queue_bench" ] || (cd "$queues" && rt run > "$folder/queues.log" 2>&1)
"$queues/out/queue_bench" 10000000
g++ -std=c++17 -O2 -pthread -o "$folder/slots" "$top/docs/peer/slots.cpp"
"$folder/slots" 10000000

# 10^7 ticks of a device alone: one event at a time, events in a row, and by the global run.
runners=$top/crates/runner_bench
[ -x "$runners/out/runner_bench" ] || (cd "$runners" && rt run > "$folder/runners.log" 2>&1)
"$runners/out/runner_bench" 10000000

# Streams of frames of 16 MiB through a deframer, in pieces of three lengths.
frames=$top/crates/frame_bench
[ -x "$frames/out/frame_bench" ] || (cd "$frames" && rt run > "$folder/frames.log" 2>&1)
"$frames/out/frame_bench" 64 1500 65536
