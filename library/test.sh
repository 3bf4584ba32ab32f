#!/bin/bash
# Builds the examples in C and in Rust with the static library and runs them: each checks the library by itself, and they say the same.
set -euo pipefail
cd "$(dirname "$0")/.."
built=target/library
library=crates/exports/out
mkdir -p "$built"
(cd crates/exports && rt lib) > "$built/lib.log" 2>&1 || { cat "$built/lib.log" >&2; exit 1; }
cc -std=c11 -O2 -Wall -Wextra -Werror -o "$built/example_c" library/example.c "$library/libexports.a"
rustc --edition 2021 -O --crate-type rlib -D warnings -L "$library" --out-dir "$built" library/rust/mezgaudre.rs
rustc --edition 2021 -O -D warnings --extern mezgaudre="$built/libmezgaudre.rlib" -o "$built/example_rust" library/rust/example.rs
"$built/example_c" > "$built/example_c.out" || { cat "$built/example_c.out" >&2; exit 1; }
"$built/example_rust" > "$built/example_rust.out" || { cat "$built/example_rust.out" >&2; exit 1; }
cmp "$built/example_c.out" "$built/example_rust.out"
echo "library: $(wc -l < "$built/example_c.out") checks in C and in Rust"
