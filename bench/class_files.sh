#!/bin/sh
# A class file of about 1 MB, read and written by our reader and writer, and listed by a JDK's javap where there is
# one, in one go: the medians of 51 rounds, and of 51 and 11 whole runs.
here=$(cd "$(dirname "$0")/.." && pwd)
program=$here/crates/bench_classes/out/bench_classes
[ -x "$program" ] || (cd "$here/crates/bench_classes" && rt run -- data/one_class 1 >/dev/null 2>&1)
[ -x "$program" ] || { echo "crates/bench_classes isn't built" >&2; exit 1; }
folder=$(mktemp -d) && cd "$folder" || exit 1
python3 - "$program" <<'P'
import shutil, statistics, struct, subprocess, sys, time

def u2(n): return struct.pack(">H", n)
def u4(n): return struct.pack(">I", n)
def text(s): return b"\x01" + u2(len(s)) + s.encode()

pool = [text("Big"), b"\x07" + u2(1), text("java/lang/Object"), b"\x07" + u2(3), text("Code"), text("()V")]
methods = []
for i in range(8500):
    name = len(pool) + 1
    pool += [text(f"method_with_number_{i}"), b"\x0c" + u2(name) + u2(6), b"\x0a" + u2(2) + u2(name + 1), b"\x03" + u4(i)]
    code = b"\x11" + u2(i) + b"\x57" + b"\x04\x57" * 24 + b"\xb8" + u2(name + 2) + b"\xb1"
    body = u2(1) + u2(0) + u4(len(code)) + code + u2(0) + u2(0)
    methods.append(u2(9) + u2(name) + u2(6) + u2(1) + u2(5) + u4(len(body)) + body)
file = u4(0xCAFEBABE) + u2(0) + u2(48) + u2(len(pool) + 1) + b"".join(pool) + u2(0x21) + u2(2) + u2(4) + u2(0) + u2(0)
file += u2(len(methods)) + b"".join(methods) + u2(0)
open("Big.class", "wb").write(file)

program, rounds = sys.argv[1], 51
run = subprocess.run([program, "Big.class", str(rounds)], capture_output=True, text=True, check=True)
assert run.stdout == f"{len(file)} bytes\n" * rounds, "written otherwise"
times = [[int(n) / 1000 for n in line.split()] for line in run.stderr.splitlines()]
print(f"{len(file)} bytes, {len(pool)} constants, {len(methods)} methods")
print(f"read         {statistics.median(t[0] for t in times):7.2f} ms")
print(f"write        {statistics.median(t[1] for t in times):7.2f} ms")

def whole(words, count):
    taken = []
    for _ in range(count):
        start = time.perf_counter()
        subprocess.run(words, stdout=subprocess.DEVNULL, stderr=subprocess.DEVNULL, check=True)
        taken.append(time.perf_counter() - start)
    return statistics.median(taken) * 1000

print(f"whole run    {whole([program, 'Big.class', '1'], 51):7.2f} ms")
if shutil.which("javap"):
    print(f"javap        {whole(['javap', '-p', 'Big.class'], 11):7.2f} ms")
else:
    print("javap        skipped, since it isn't here")
P
status=$?
rm -rf "$folder"
exit $status
