#!/usr/bin/env bash
# Prints a table of what large commands cost: instructions (by valgrind's callgrind), system calls (by strace, where it is
# there), processor time of user and system together (the least of five runs) and peak memory, and a second one of what
# commands of mounted hosts cost. Instructions don't depend on what else the machine does; times do. It takes some minutes.
#
# Callgrind counts an instruction that repeats itself once for each byte that it copies or clears, where a processor counts
# it once. So while instructions are counted the C library is told to use none of these.
set -eu
top=$(cd "$(dirname "${BASH_SOURCE[0]}")/.." && pwd)
"$top/famfs" logplay "$top/crates/famfs/data/img" >/dev/null
work=$(mktemp -d)
trap 'rm -rf "$work"' EXIT
cd "$work"
python3 "$top/bench/image.py" 8388608 16777216 "$work/log"
python3 "$top/bench/image.py" 67108864 134217728 "$work/large"
python3 "$top/bench/image.py" 16777216 33554432 "$work/second" 1 2
python3 "$top/bench/image.py" 67108864 134217728 "$work/seconds" 1 2
python3 "$top/bench/image.py" 8454144 16777216 "$work/some" 128
python3 "$top/bench/image.py" 67108864 134217728 "$work/many" 128
python3 - <<'PY'
lines = ["host m 00000000-0000-0000-0000-000000000001", "mkfs m 11111111-1111-4111-8111-111111111111 unit=4K log=1M"]
lines += ["run m mkdir directory-%05d" % i for i in range(2000)]
open("mkdirs", "w").write("\n".join(lines) + "\n")
open("listings", "w").write("\n".join(lines[:2] + [each + "\nrun m logplay" for each in lines[2:]]) + "\n")
PY
python3 - "$top/crates/famfs/out/famfs" <<'PY'
import os, re, resource, shutil, subprocess, sys
famfs = sys.argv[1]

def blank(size):
    with open("image", "wb") as image:
        image.truncate(size)

LIMITS = ":".join("glibc.cpu.x86_rep_%s_threshold=0x40000000" % each for each in ("movsb", "stosb"))
COUNTED = {**os.environ, "GLIBC_TUNABLES": LIMITS}

def instructions(words):
    run = subprocess.run(["valgrind", "--tool=callgrind", "--callgrind-out-file=/dev/null", famfs] + words, stdout=subprocess.DEVNULL, stderr=subprocess.PIPE, text=True, env=COUNTED)
    return int(re.search(r"Collected : (\d+)", run.stderr)[1])

def calls(words):
    if not shutil.which("strace"):
        return None
    run = subprocess.run(["strace", "-f", "-c", "-o", "calls", famfs] + words, stdout=subprocess.DEVNULL)
    return int(re.search(r"\s(\d+)\s+(?:\d+\s+)?total", open("calls").read())[1])

def used(words):
    child = subprocess.Popen([famfs] + words, stdout=subprocess.DEVNULL)
    return os.wait4(child.pid, 0)[2]

# What a program is given at its start counts as its own, so a small one starts it, where that is there.
def memory(words):
    if not os.access("/usr/bin/time", os.X_OK):
        return used(words).ru_maxrss
    run = subprocess.run(["/usr/bin/time", "-q", "-f", "%M", famfs] + words, stdout=subprocess.DEVNULL, stderr=subprocess.PIPE, text=True)
    return int(run.stderr.split()[-1])

def row(what, make, words):
    make()
    count = instructions(words)
    make()
    told = calls(words)
    runs = []
    for _ in range(5):
        make()
        runs.append(used(words))
    make()
    most = memory(words)
    least = min(it.ru_utime + it.ru_stime for it in runs)
    print("| %s | %s M | %s | %.0f ms | %.1f MiB |" % (what, format(count / 1e6, ",.1f"), "-" if told is None else format(told, ","), 1000 * least, most / 1024))

def log():
    shutil.copyfile("log", "image")

def large():
    shutil.copyfile("large", "image")

def second():
    shutil.copyfile("second", "image")

def seconds():
    shutil.copyfile("seconds", "image")

def file():
    blank(128 << 20)
    subprocess.run([famfs, "mkfs", "image", "-u", "2M", "-l", "2M"], stdout=subprocess.DEVNULL)

def filled():
    file()
    subprocess.run([famfs, "creat", "image", "f", "-s", "64M", "-S", "1"], stdout=subprocess.DEVNULL)

def dup():
    filled()
    os.replace("image", "filled")
    blank(128 << 20)

HOSTS = ["host m 00000000-0000-0000-0000-000000000001", "host c 00000000-0000-0000-0000-000000000002"]

def cost(make, lines):
    with open("events", "w") as events:
        events.write("\n".join(HOSTS + lines) + "\n")
    make()
    return instructions(["script", "events", "image"])

def mounted(what, make):
    start = ["run c mount", "run m mount", "run m creat first 64"]
    before = cost(make, start)
    mkdirs = [["run m mkdir more-%02d" % i] for i in range(100)]
    few = cost(make, start + sum(mkdirs[:4], []))
    verify = cost(make, start + ["run c verify first"] * 4) - before
    listed = cost(make, start + sum([each + ["run c logplay"] for each in mkdirs[:4]], [])) - few
    again = cost(make, start + ["run c logplay"] * 5) - cost(make, start + ["run c logplay"])
    many = cost(make, start + sum(mkdirs, [])) - before
    means = [(few - before) // 4, verify // 4, (listed - again) // 4, many]
    print("| %s | %s |" % (what, " | ".join(format(each, ",") for each in means)))

print("| Command | Instructions | System calls | Processor time | Peak memory |")
print("|---|---|---|---|---|")
row("logplay of 16,382 directories", log, ["logplay", "image"])
row("mkdir behind them", log, ["mkdir", "image", "last"])
row("fsck of them", log, ["fsck", "image"])
row("creat of 64 MiB of a seed's bytes", file, ["creat", "image", "f", "-s", "64M", "-S", "1"])
row("verify of it", filled, ["verify", "image", "f", "-S", "1"])
row("dup of 64 MiB", dup, ["dup", "filled", "image"])
row("script of 2,000 mkdirs, log of 1 MiB", lambda: blank(16 << 20), ["script", "mkdirs", "image"])
row("the same, each followed by a logplay", lambda: blank(16 << 20), ["script", "listings", "image"])
row("`storm 7 20000`", lambda: blank(4 << 20), ["storm", "7", "20000", "image"])
row("`storm 7 100000`", lambda: blank(4 << 20), ["storm", "7", "100000", "image"])
row("logplay of 131,070 directories", large, ["logplay", "image"])
row("format 2: logplay of 16,382 directories", second, ["logplay", "image"])
row("format 2: mkdir behind them", second, ["mkdir", "image", "last"])
row("format 2: fsck of them", second, ["fsck", "image"])
row("format 2: logplay of 65,534 directories", seconds, ["logplay", "image"])
print()
print("| Of mounted hosts, instructions | mkdir, mean of the first four | verify of one new slot | logplay of one new slot, beside one with none | 100 mkdirs |")
print("|---|---|---|---|---|")
mounted("behind 16,383 kept entries", lambda: shutil.copyfile("some", "image"))
mounted("behind 130,943 kept entries", lambda: shutil.copyfile("many", "image"))
PY
