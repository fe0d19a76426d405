#!/bin/sh
# The machine on loops of ints, calls, fields and casts, alone and beside 1,000 classes, and `java -Xint` on the same
# class files where there is a JDK, in one go. Times are processor times of whole runs, less those of runs of one turn;
# of three rounds the best counts.
here=$(cd "$(dirname "$0")/.." && pwd)
program=$here/crates/bench_machine/out/bench_machine
[ -x "$program" ] || (cd "$here/crates/bench_machine" && rt run -- ints 3 10 >/dev/null 2>&1)
[ -x "$program" ] || { echo "crates/bench_machine isn't built" >&2; exit 1; }
folder=$(mktemp -d) && cd "$folder" || exit 1
mkdir classes
if command -v javac >/dev/null; then
    echo 'public class Io { public static void print(int n) { System.out.print(n); } }' > Io.java
    echo 'class Start { public static void main(String[] words) { Main.main(); System.out.flush(); } }' > Start.java
    "$program" ints 0 1 classes >/dev/null 2>&1
    javac -d classes -cp classes Io.java Start.java || exit 1
fi
python3 - "$program" <<'P'
import os, shutil, subprocess, sys

program = sys.argv[1]
# How many instructions, calls of methods, and other look-ups a turn has.
loops = {
    "ints": (10, 0),
    "static_calls": (12, 1),
    "virtual_calls": (12, 1),
    "fields": (13, 0),
    "casts": (9, 0),
}
turns = 3_000_000
java = ["java", "-Xint", "-Xshare:auto", "-XX:+UseSerialGC", "-cp", "classes", "Start"]

def cpu(words):
    with open("out", "wb") as out:
        child = subprocess.Popen(words, stdout=out, stderr=subprocess.DEVNULL)
        _, status, used = os.wait4(child.pid, 0)
    assert status == 0, words
    return used.ru_utime + used.ru_stime, open("out").read()

def best(words):
    runs = [cpu(words) for _ in range(3)]
    return min(time for time, _ in runs), runs[0][1]

def measured(kind, others, runs_java):
    few = best([program, kind, str(others), "1", "classes"])[0]
    java_few = best(java)[0] if runs_java else 0
    many, printed = best([program, kind, str(others), str(turns), "classes"])
    if not runs_java:
        return many - few, None
    java_many, java_printed = best(java)
    assert java_printed == printed, (kind, printed, java_printed)
    return many - few, java_many - java_few

has_java = shutil.which("javac") is not None
print(f"{'loop':14} {'classes':>7} {'million instructions a second':>30} {'million calls a second':>23} {'times java -Xint':>17}")
for kind, (instructions, calls) in loops.items():
    for others in (0, 1000):
        ours, theirs = measured(kind, others, has_java)
        rate = turns * instructions / ours / 1e6
        called = f"{turns * calls / ours / 1e6:.1f}" if calls else "-"
        ratio = f"{ours / theirs:.1f}" if theirs else "skipped"
        print(f"{kind:14} {others + 3:7} {rate:30.1f} {called:>23} {ratio:>17}")
P
status=$?
rm -rf "$folder"
exit $status
