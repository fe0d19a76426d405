#!/bin/sh
# Deep texts, each of two million signs or words, read by the built program under a stack of 1 MiB: each has its answer,
# and that is looked at. Nesting that makes no node may go on for ever; everything else ends at depth 200.
here=$(cd "$(dirname "$0")/.." && pwd)
program=$here/crates/jpred/out/jpred
[ -x "$program" ] || (cd "$here/examples" && "$here/jpred" go Main one.jp >/dev/null) || exit 1
folder=$(mktemp -d) && cd "$folder" || exit 1
python3 - "$program" <<'P'
import resource, subprocess, sys

TIMES, STACK = 2_000_000, 1 << 20
BODY = "class Main { static void main() { "
GUARD = "class Main { int f() when "

# The text in front, what is repeated, and the fault: its kind, and how many repetitions and bytes stand before it.
texts = {
    "( in expressions": (BODY + "return ", "(", "Unexpected", TIMES, 0),
    "( in guards": (GUARD, "(", "Unexpected", TIMES, 0),
    "{": (BODY, "{", "TooDeep", 200, 0),
    "! in expressions": (BODY + "return ", "!", "TooDeep", 199, 0),
    "! in guards": (GUARD, "!", "TooDeep", 199, 0),
    "- without spaces": (BODY + "return ", "-", "Unexpected", 0, 0),
    "- with spaces": (BODY + "return ", "- ", "TooDeep", 199, 0),
    "if(1)": (BODY, "if(1)", "TooDeep", 199, 0),
    "else": (BODY, "if(1);else ", "TooDeep", 199, 0),
    "while(1)": (BODY, "while(1)", "TooDeep", 199, 0),
    "a.": (BODY + "return ", "a.", "TooDeep", 199, 1),
    "a[": (BODY + "return ", "a[", "TooDeep", 199, 1),
    "f(": (BODY + "return ", "f(", "TooDeep", 200, 0),
    "(a)": (BODY + "return ", "(a)", "TooDeep", 200, 0),
    "a+": (BODY + "return ", "a+", "TooDeep", 199, 1),
    "a?": (BODY + "return ", "a?", "TooDeep", 199, 1),
}

def small_stack():
    resource.setrlimit(resource.RLIMIT_STACK, (STACK, STACK))

wrong = 0
for name, (front, part, kind, count, more) in texts.items():
    with open("Deep.jp", "w") as file:
        file.write(front + part * TIMES)
    run = subprocess.run([sys.argv[1], "go", "Main", "Deep.jp"], preexec_fn=small_stack, capture_output=True, text=True)
    column = len(front) + len(part) * count + more + 1
    line = f"Deep.jp:1:{column}: {kind}\n"
    right = (run.returncode, run.stdout, run.stderr) == (3, "", line)
    wrong += not right
    print(f"{name:18} {'as expected' if right else f'WRONG: status {run.returncode}, {run.stderr.strip()!r} for {line.strip()!r}'}")
sys.exit(wrong > 0)
P
status=$?
rm -rf "$folder"
exit $status
