#!/usr/bin/env bash
# Takes a whole partition of a pack in the current folder out through its bad-sector table, or puts one back, in pieces of 16 MiB.
#
#   partition.sh take U KIND PART > FILE
#   partition.sh put U KIND PART < FILE
#
# A put writes the whole of its input, which may be shorter than the partition, but not longer. HPSIM_PROGRAM names the program, if it is
# not the `hpsim` of this repository. The trace of the last piece is left in hp.trace.
set -e
program="${HPSIM_PROGRAM:-$(cd "$(dirname "$0")/.." && pwd)/hpsim}"
piece=$((16 * 1024 * 1024))

usage() {
  echo "usage: partition.sh take U KIND PART > FILE, or put U KIND PART < FILE; KIND is rp06, rm03 or rm05, PART a to g" >&2
  exit 2
}

# How many blocks a partition has (docs/behaviour.md, "Partitions").
blocks() {
  case "$1 $2" in
    "rp06 a" | "rp06 d" | "rm03 a" | "rm03 d" | "rm05 a") echo 15884 ;;
    "rp06 b" | "rm03 b" | "rm05 b") echo 33440 ;;
    "rp06 c") echo 340522 ;;
    "rp06 e" | "rm03 e") echo 55936 ;;
    "rp06 f") echo 219296 ;;
    "rp06 g") echo 291192 ;;
    "rm03 c") echo 131522 ;;
    "rm03 f") echo 10080 ;;
    "rm03 g") echo 82080 ;;
    "rm05 c") echo 500226 ;;
    "rm05 g") echo 450370 ;;
    *) usage ;;
  esac
}

take() {
  local count size at=0
  count="$(blocks "$2" "$3")"
  size=$((512 * count))
  while [ "$at" -lt "$size" ]; do
    "$program" raw read "$1" "$2" "$3" "$at" $((size - at < piece ? size - at : piece))
    at=$((at + piece))
  done
}

# Each piece goes through a file, so that the end of the input is known.
put() {
  local at=0 room
  blocks "$2" "$3" >/dev/null
  room="$(mktemp)"
  trap 'rm -f "$room"' EXIT
  while head -c "$piece" >"$room" && [ -s "$room" ]; do
    "$program" raw write "$1" "$2" "$3" "$at" <"$room"
    at=$((at + piece))
  done
}

[ $# -eq 4 ] || usage
case "$1" in
  take | put) "$@" ;;
  *) usage ;;
esac
