#!/bin/sh
# Holds the printer against the original, and measures both.
#
#   compare.sh FOLDER held [SEED PARTS]   every line and every mark of the static library, in parts of a million instructions,
#                                         the first of them made from SEED; without the two, ten parts from seed 1
#   compare.sh FOLDER speed               instructions a line by valgrind, of the original and of each way of crates/speed;
#                                         instructions a call of a page as it grows; and times
#
# FOLDER is the folder with the original's two files.
set -eu

usage() {
    echo "usage: compare.sh FOLDER held [SEED PARTS] | speed" >&2
    exit 2
}
[ $# -ge 2 ] || usage

root=$(cd "$(dirname "$0")/.." && pwd)
folder=$1
what=$2
build=$root/target/oracle
words=$root/tools/oracle/words.txt
release=$build/work/target/release
speed=$root/crates/speed/out/speed

build_held() {
    "$root/tools/oracle/build.sh" "$folder" "$build"
    (cd "$root/crates/vectors" && rt run < stdin && cd ../ffi && rt lib) > "$build/compare.log"
    (cd "$build/work" && cargo rustc --offline --quiet --release -p compare --bin held -- \
        -L "native=$root/crates/ffi/out" -l static=ffi)
}

build_speed() {
    "$root/tools/oracle/build.sh" "$folder" "$build"
    (cd "$root/crates/speed" && rt run -- none 0 < stdin) > "$build/compare.log"
    (cd "$build/work" && cargo build --offline --quiet --release -p compare --bin speed)
}

# The instructions that a command takes.
count() {
    valgrind --tool=callgrind --callgrind-out-file=/dev/null "$@" 2>&1 > /dev/null | awk '/Collected/ { print $NF }'
}

# The instructions that ten rounds of a command take, whose last word is how many it makes.
ten_rounds() {
    few=$(count "$@" 1 < "$record")
    many=$(count "$@" 11 < "$record")
    echo $((many - few))
}

# The instructions a line over a mix.
count_lines() {
    record=$build/$1.record
    "$release/speed" record "$words" "$1" > "$record"
    awk -v mix="$1" -v lines="$(wc -l < "$record")" \
        -v original="$(ten_rounds "$release/speed" original "$words" "$1")" \
        -v sink="$(ten_rounds "$speed" sink)" \
        -v buffer="$(ten_rounds "$speed" buffer)" \
        -v page="$(ten_rounds "$speed" page)" \
        -v none="$(ten_rounds "$speed" none)" '
        function tell(name, count) {
            printf "%s, %s: %.1f instructions a line, %.2f times the original\n", mix, name, count / (10 * lines), count / original
        }
        BEGIN {
            printf "%s, original: %.1f instructions a line\n", mix, original / (10 * lines)
            tell("sink", sink)
            tell("buffer", buffer)
            tell("page", page - none)
        }'
}

# The instructions a call of one page with so many calls, which all print the first ADD of typical code.
count_calls() {
    record=$build/one.record
    grep -m 1 "opcode: ADD" "$build/code.record" > "$record"
    bytes=$("$speed" page "$1" < "$record" | sed 's/.*: //')
    page=$(count "$speed" page "$1" < "$record")
    none=$(count "$speed" none "$1" < "$record")
    awk -v calls="$1" -v bytes="$bytes" -v count=$((page - none)) \
        'BEGIN { printf "a page of %s calls, %s: %.1f instructions a call\n", calls, bytes, count / calls }'
}

case $what in
held)
    build_held
    seed=${3:-1}
    end=$((seed + ${4:-10}))
    while [ "$seed" -lt "$end" ]; do
        "$release/held" "$seed" 1000000 "$root/crates/vectors/out/vectors"
        seed=$((seed + 1))
    done
    ;;
speed)
    build_speed
    for mix in code longest; do
        count_lines "$mix"
    done
    for calls in 1 10 100 1000 10000 100000 1000000; do
        count_calls "$calls"
    done
    "$release/speed" times "$words" "$speed"
    ;;
*) usage ;;
esac
