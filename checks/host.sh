#!/usr/bin/env bash
# How the built program meets real files and a full device. .ci/run runs it behind the gate; it needs the program built.
set -u
top=$(cd "$(dirname "$0")/.." && pwd)
data=$top/crates/ghes/data
folder=$(mktemp -d)
trap 'rm -rf "$folder"' EXIT
failures=0
# expect NAME STATUS LINE WORDS..: the program ends with the status, and its first line is this.
expect() {
  local name=$1 status=$2 line=$3
  shift 3
  local out got
  out=$("$top/ghes" "$@" 2>/dev/null)
  got=$?
  if [ "$got" -ne "$status" ] || [ "$(printf '%s\n' "$out" | head -n 1)" != "$line" ]; then
    echo "FAILED $name: status $got, first line: $(printf '%s\n' "$out" | head -n 1)"
    failures=$((failures + 1))
  else
    echo "ok $name"
  fi
}
expect "the stored example" 0 "inject 0x00000008: source 9 block 1" replay "$data/server.bin" "$data/einj.bin" "$data/server.script"
expect "a block on one source" 0 "nmi 1: queued 1" replay "$data/hest.bin" - "$data/script"
expect "a listing" 0 "hest: 1 sources" check "$data/hest.bin" -
expect "a listing of a server" 0 "hest: 7 sources" check "$data/server.bin" -
expect "a listing with an injection table" 0 "hest: 1 sources" check "$data/hest.bin" "$data/einj.bin"
expect "a table of another kind" 3 "ghes: einj: 1 table: 2 signature" check "$data/hest.bin" "$data/hest.bin"
expect "a missing injection table" 5 "ghes: read $folder/none: 1 failed" check "$data/hest.bin" "$folder/none"
expect "a block" 0 "block of 164 bytes" decode "$data/block.bin"
expect "bytes that are no block" 0 "malformed 1 too short" decode /dev/null
tables=/sys/firmware/acpi/tables
if [ -r "$tables/HEST" ]; then
  # The count of its structures stands at offset 36, the lowest byte first.
  count=$((0x$(od -An -tx1 -j36 -N4 "$tables/HEST" | awk '{print $4 $3 $2 $1}')))
  expect "the table of this machine" 0 "hest: $count sources" check "$tables/HEST" -
  [ -r "$tables/EINJ" ] &&
    expect "both tables of this machine" 0 "hest: $count sources" check "$tables/HEST" "$tables/EINJ"
else
  echo "skipped the tables of this machine: there are none that this user may read"
fi
expect "a missing file" 5 "ghes: read $folder/none: 1 failed" replay "$folder/none" - "$data/script"
expect "a missing script" 5 "ghes: read $folder/none: 1 failed" replay "$data/server.bin" "$data/einj.bin" "$folder/none"
expect "an injection without its table" 4 "ghes: script: line 2: 10 no injection" replay "$data/server.bin" - "$data/server.script"
expect "a folder" 5 "ghes: read $folder: 1 failed" replay "$folder" - "$data/script"
expect "a file of the kernel, whose size says nothing" 3 "ghes: hest: 1 table: 2 signature" replay /proc/version - "$data/script"
expect "words that are no text" 2 "ghes: usage: replay HEST EINJ SCRIPT | check HEST EINJ | decode BLOCK | load N" check $'\xff' -
expect "no words" 2 "ghes: usage: replay HEST EINJ SCRIPT | check HEST EINJ | decode BLOCK | load N"
cp "$data/hest.bin" "$folder/secret" && chmod 000 "$folder/secret"
if [ -r "$folder/secret" ]; then
  echo "skipped an unreadable file: this user reads all files"
else
  expect "an unreadable file" 5 "ghes: read $folder/secret: 1 failed" replay "$folder/secret" - "$data/script"
fi
if [ -c /dev/full ]; then
  "$top/ghes" replay "$data/hest.bin" - "$data/script" >/dev/full 2>/dev/null
  if [ $? -eq 6 ]; then echo "ok a full device"; else echo "FAILED a full device"; failures=$((failures + 1)); fi
else
  echo "skipped a full device: there is no /dev/full"
fi
head -c 1048577 /dev/zero >"$folder/long"
expect "a table one byte past its limit" 5 "ghes: read $folder/long: 2 too long" replay "$folder/long" - "$data/script"
exit "$((failures > 0))"
