#!/bin/sh
# Lets a JDK read the class file that the first path writes, where there is one.
here=$(cd "$(dirname "$0")/.." && pwd)
command -v javap >/dev/null || { echo "no javap here: skipped"; exit 0; }
folder=$(mktemp -d) && cd "$folder" && cp "$here/examples/one.jp" . && "$here/jpred" go Main one.jp >/dev/null && javap -c -p Main.class
status=$?
rm -rf "$folder"
exit $status
