#!/usr/bin/env bash
# Shows that a print or gap on a closed page and a write past an open one are refused, and the right use of a page is not. It needs no
# proof, since the compiler refuses both before any, and says nothing where all is as it should be.
set -euo pipefail
cd "$(dirname "$0")/../.."
work=$(mktemp -d)
trap 'rm -rf "$work"' EXIT

# a copy of the libraries, with a program of which one line is replaced
mkdir -p "$work/crates/misuse/src"
below="opcode armv7 kind sink visitor text writer measurer lines display blocks measure page"
for name in $below; do
  mkdir "$work/crates/$name"
  cp -r "crates/$name/src" "$work/crates/$name/src"
  for folder in specs proofs; do
    [ ! -d "crates/$name/$folder" ] || cp -r "crates/$name/$folder" "$work/crates/$name/$folder"
  done
  grep "^$name:" crates.txt >>"$work/crates.txt"
done
echo "misuse: $below" >>"$work/crates.txt"

tried() { # NAME OLD NEW
  sed "s|$2|$3|" tools/misuse/main.rt.txt >"$work/crates/misuse/src/main.rt"
  (cd "$work/crates/misuse" && rt try) >"$work/$1.log" 2>&1
}

refused() { # NAME OLD NEW ERROR
  if tried "$1" "$2" "$3" || ! grep -q "error\[$4\]" "$work/$1.log"; then
    echo "misuse $1 was not refused as it must be:"
    cat "$work/$1.log"
    exit 1
  fi
}

if ! tried right_use 'page' 'page' || ! grep -qx 7 "$work/right_use.log"; then
  echo "the right use of a page was refused:"
  cat "$work/right_use.log"
  exit 1
fi
refused gap_on_a_closed_page 'let closed = page.close();' 'let mut closed = page.close(); let _ = closed.gap();' unknown-method
refused print_on_a_closed_page 'let closed = page.close();' 'let mut closed = page.close(); let nop = armv7::Instruction::plain(armv7::Opcode::NOP, [armv7::Operand::Nothing; 4]); let _ = closed.print(\&nop);' unknown-method
refused sink_in_a_page 'let _ = page.gap();' 'let _ = sink.write(b"pan 8");' borrow-e0382
