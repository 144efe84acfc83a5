#!/usr/bin/env bash
# Times mkfs, mkdir and logplay on a log of 8 MiB: 16,382 directories, read from the page cache. python3 writes the
# image.
#
# A logplay makes 137 reads. Where the disk still writes the image that was just copied, times are up to 0.2 s longer.
# bench/table.sh counts instructions instead.
set -eu
top=$(cd "$(dirname "${BASH_SOURCE[0]}")/.." && pwd)
"$top/famfs" logplay "$top/crates/famfs/data/img" >/dev/null
famfs=$top/crates/famfs/out/famfs
work=$(mktemp -d)
trap 'rm -rf "$work"' EXIT
python3 "$top/bench/image.py" 8388608 16777216 "$work/img"
# The copies are made first and written out, so that the disk's work for them isn't timed.
for n in 1 2 3 4 5; do
    cp "$work/img" "$work/full$n"
    truncate -s 16777216 "$work/new$n"
done
sync
sleep 1
for n in 1 2 3 4 5; do
    TIMEFORMAT="mkfs: %R s"
    time "$famfs" mkfs "$work/new$n" -u 4K >"$work/out"
    TIMEFORMAT="mkdir: %R s"
    time "$famfs" mkdir "$work/full$n" last >"$work/out"
    TIMEFORMAT="logplay: %R s"
    time "$famfs" logplay "$work/full$n" >"$work/out"
done
head -1 "$work/out"
