#!/usr/bin/env bash
# Holds the readers of tables against ACPICA, whose compiler iasl comes with the package acpica-tools. .ci/run runs it
# behind the gate; it needs the program built, and is skipped where iasl is missing.
set -u
top=$(cd "$(dirname "$0")/.." && pwd)
data=$top/crates/ghes/data
if ! command -v iasl >/dev/null; then
  echo "skipped: there is no iasl here"
  exit 0
fi
folder=$(mktemp -d)
trap 'rm -rf "$folder"' EXIT
cd "$folder" || exit 1
failures=0
# same NAME WANTED GOT: the two texts are one.
same() {
  if [ "$2" = "$3" ]; then
    echo "ok $1"
  else
    echo "FAILED $1: ACPICA says"
    printf '%s\n' "$2"
    echo "and the program"
    printf '%s\n' "$3"
    failures=$((failures + 1))
  fi
}
# structures LISTING: id and offset of each structure, as iasl disassembles a table of error sources.
structures() {
  local line at=
  while IFS= read -r line; do
    case $line in
      *'Subtable Type'*) at=$((10#${line:6:4})) ;;
      *'Source Id'*)
        [ -n "$at" ] && echo "$((16#${line##* })) at $at"
        at=
        ;;
    esac
  done <"$1"
}
# listed: id and offset of each structure, as the program lists it.
listed() {
  sed -n 's/^\([0-9]* at [0-9]*\): .*/\1/p'
}

iasl -T EINJ -p einj >/dev/null 2>&1
iasl -T HEST -p hest >/dev/null 2>&1
# The template has ids twice and says that it has four structures: each gets an id of its own, and the count is mended.
count=$(grep -c 'Subtable Type' hest.asl)
awk -v count="$count" '/Error Source Count/ { sub(/: .*/, sprintf(": %08X", count)) }
  /Source Id/ && !/Related/ { sub(/: .*/, sprintf(": %04X", ++id)) } { print }' hest.asl >ids.asl
iasl -p hest ids.asl >/dev/null 2>&1
# The template of injection says that it has ten entries: this count is mended too.
count=$(grep -c ' Action :' einj.asl)
awk -v count="$count" '/Injection Entry Count/ { sub(/: .*/, sprintf(": %08X", count)) } { print }' einj.asl >counted.asl
iasl -p einj counted.asl >/dev/null 2>&1
for table in hest einj; do mv "$table.aml" "$table.dat" && iasl -d "$table.dat" >/dev/null 2>&1; done
listing=$("$top/ghes" check hest.dat einj.dat)
same "the structures of the template of error sources" "$(structures hest.dsl)" "$(listed <<<"$listing")"
same "the entries of the template of injection" "einj: $(grep -c 'Action : 0[0-8]' einj.asl) entries" "$(tail -n 1 <<<"$listing")"

for table in hest server einj; do
  cp "$data/$table.bin" "$table.dat"
  iasl -d "$table.dat" >said 2>&1
  same "the sample $table.bin has the right checksum" "" "$(grep -i 'checksum\|error\|warning' said)"
done
listing=$("$top/ghes" check "$data/server.bin" "$data/einj.bin")
same "the structures of the sample server.bin" "$(structures server.dsl)" "$(listed <<<"$listing")"
same "the entries of the sample einj.bin" "einj: $(grep -c 'Action : 0[0-8]' einj.dsl) entries" "$(tail -n 1 <<<"$listing")"
exit "$((failures > 0))"
