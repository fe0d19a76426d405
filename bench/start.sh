#!/bin/sh
# Whole runs, start to end, beside /bin/true, in one go: the median of 201 runs each.
here=$(cd "$(dirname "$0")/.." && pwd)
folder=$(mktemp -d) && cd "$folder" || exit 1
cp "$here/examples/one.jp" .
{ printf 'class Main { static void main() {'; for i in $(seq 200); do printf ' Io.print(%d);' $((i * 10000019)); done; printf ' } }\n'; } > many.jp
"$here/jpred" go Main one.jp >/dev/null || exit 1
python3 - "$here/crates/jpred/out/jpred" <<'P'
import statistics, subprocess, sys, time
program = sys.argv[1]
runs = {
    "/bin/true": ["/bin/true"],
    "2 prints": [program, "go", "Main", "one.jp"],
    "200 prints": [program, "go", "Main", "many.jp"],
}
times = {name: [] for name in runs}
for _ in range(201):
    for name, words in runs.items():
        start = time.perf_counter()
        subprocess.run(words, stdout=subprocess.DEVNULL, check=True)
        times[name].append(time.perf_counter() - start)
base = statistics.median(times["/bin/true"])
for name in runs:
    t = statistics.median(times[name])
    print(f"{name:12} {t * 1000:6.2f} ms  {t / base:4.1f} x /bin/true")
P
rm -rf "$folder"
