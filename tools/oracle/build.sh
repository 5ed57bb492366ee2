#!/bin/sh
# Builds the programs to compare with from the sources of rav1e 0.8.1.
#
#   tools/oracle/build.sh RAV1E_DIR [OUT_DIR]
#
# RAV1E_DIR is the folder of the crate (it has src/rate.rs). OUT_DIR, by default
# target/oracle of this repository, gets nine programs. Three read the same lines
# as our qindex, three those of our lessons, and three those of our replay:
#
#   *-oracle    the original with its lost bits caught: 'overflow' there
#   *-debug     the original as a debug build has it: 'panic: ..' there
#   *-release   the original as a release build has it: figures wrap
#
# It needs Python 3 and rustc, and neither cargo nor another crate.
set -eu

if [ $# -lt 1 ] || [ $# -gt 2 ]; then
    echo "use: tools/oracle/build.sh RAV1E_DIR [OUT_DIR]" >&2
    exit 2
fi
here=$(cd "$(dirname "$0")" && pwd)
out=${2:-$here/../../target/oracle}

mkdir -p "$out"
python3 -B "$here/assemble.py" "$1" "$out"

compile() {
    rustc --edition 2021 -O "$@"
}
checks='-C overflow-checks=on -C debug-assertions=on'
three() {
    compile $checks -o "$out/$1-oracle" "$2/checked/main.rs"
    compile $checks --cfg plain -o "$out/$1-debug" "$2/plain/main.rs"
    compile --cfg plain -o "$out/$1-release" "$2/plain/main.rs"
}
three qindex "$out"
three lessons "$out/lessons"
three replay "$out/replay"
echo "$(cd "$out" && pwd)"
