#!/bin/sh
# A unit of 4 MiB of small classes, which is Java too, read by `jpred go` (which then says that it can't run it) and
# compiled by a JDK's javac where there is one, in one go: the median of 11 whole runs, and one run.
here=$(cd "$(dirname "$0")/.." && pwd)
program=$here/crates/jpred/out/jpred
[ -x "$program" ] || (cd "$here/examples" && "$here/jpred" go Main one.jp >/dev/null) || exit 1
folder=$(mktemp -d) && cd "$folder" || exit 1
python3 - "$program" <<'P'
import shutil, statistics, subprocess, sys, time

def class_text(i):
    return f"""class Item{i} {{
    int count; // of what was added
    Item{i} next;
    Item{i}(int count, Item{i} next) {{ this.count = count; this.next = next; }}
    int sum(int limit) {{
        int total = 0;
        for (int i = 0; i < limit && i <= this.count; i++) {{
            if (i % 3 == 0 || (i & 7) == 5) {{ total += i * (count - 1); }} else {{ total = total ^ (i << 2); }}
        }}
        return next == null ? total : total + next.sum(limit - 1);
    }}
    static int twice(int number) {{ return number + number; }}
}}
"""

parts, size = [], 0
while size < 4 << 20:
    parts.append(class_text(len(parts)))
    size += len(parts[-1])
with open("Many.jp", "w") as file: file.write("".join(parts))
with open("Many.java", "w") as file: file.write("".join(parts))

def whole(words, count, status):
    taken = []
    for _ in range(count):
        start = time.perf_counter()
        run = subprocess.run(words, capture_output=True, text=True)
        taken.append(time.perf_counter() - start)
        assert run.returncode == status, run.stderr
    return statistics.median(taken), run.stderr

print(f"{size} bytes, {len(parts)} classes")
ours, said = whole([sys.argv[1], "go", "Main", "Many.jp"], 11, 3)
assert said.endswith("NotYet\n"), said
print(f"jpred  {ours:6.2f} s")
if shutil.which("javac"):
    javac, _ = whole(["javac", "-proc:none", "Many.java"], 1, 0)
    print(f"javac  {javac:6.2f} s, {javac / ours:.1f} times as long, with typing and class files")
else:
    print("javac  skipped, since it isn't here")
P
status=$?
rm -rf "$folder"
exit $status
