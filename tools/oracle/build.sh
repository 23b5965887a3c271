#!/bin/sh
# Builds the oracle.
#
#   build.sh FOLDER [BUILD]
#
# FOLDER is the folder with the original's two files. BUILD is where to build;
# it is target/oracle in the repository if not given. The programs are then
# BUILD/answers and BUILD/answers-checked.
set -eu

if [ $# -lt 1 ] || [ $# -gt 2 ]; then
    echo "usage: build.sh FOLDER [BUILD]" >&2
    exit 2
fi

here=$(cd "$(dirname "$0")" && pwd)
folder=$1
build=${2:-$here/../../target/oracle}

# The two files have either their plain names or flattened ones.
if [ -f "$folder/armv7.rs" ]; then
    armv7=$folder/armv7.rs
    display=$folder/armv7/display.rs
else
    armv7=$folder/src--src--armv7.rs.txt
    display=$folder/src--src--armv7--display.rs.txt
fi

# The build folder holds copies of the original's files: git shall not see them.
mkdir -p "$build/work"
build=$(cd "$build" && pwd)
echo '*' > "$build/.gitignore"
work=$build/work
cp -Rp "$here/Cargo.toml" "$here/yaxpeax_arch" "$here/original" "$here/answers" "$here/compare" "$work"

# Puts the file $1 at $2, unless it is there already.
place() {
    cmp -s "$1" "$2" || cp -f "$1" "$2"
    cmp "$1" "$2"
}
place "$armv7" "$work/original/src/armv7.rs"
place "$display" "$work/original/src/armv7/display.rs"

cd "$work"
cargo build --offline --quiet --release -p answers
cargo build --offline --quiet --profile checked -p answers
cp target/release/answers "$build/answers"
cp target/checked/answers "$build/answers-checked"
echo "built $build/answers and $build/answers-checked"
