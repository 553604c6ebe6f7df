#!/usr/bin/env bash
# The outside tests: the static library and the program, from C, from Rust and through the script for people, against an independent reading of
# documents 01 and 02. What is proved already is not proved again. `tests/run.sh --long N` does N times the comparisons.
set -euo pipefail
cd "$(dirname "$0")/.."
mkdir -p target/log
unset JUDGE_PROGRAM DRAFT_PROGRAM MISS_CHANCE_LIB_DIR # the proved programs and library, and no others
build() { # quiet unless it fails
    "$@" >target/log/outside.out 2>&1 || { cat target/log/outside.out; exit 1; }
}
build tools/build.sh

echo "== no branch in the methods of a bound and of a zone"
for methods in 'impl Bound' 'impl Zone'; do # by their source: document 02, card 2
    body=$(sed -n "/^$methods {/,/^}/p" crates/zone/src/{bounds,zones,reading,parts}.rt | sed 's,//.*,,')
    [[ $body = *fn* ]] || { echo "$methods: not found"; exit 1; }
    ! grep -wnE 'if|match|while|loop' <<<"$body" || { echo "$methods has a branch"; exit 1; }
done
echo '== the Rust package'
cargo test --release --quiet --locked --offline --manifest-path bindings/rust/Cargo.toml
declare -A wanted=( # these examples say the same in Rust and in C
    [board]=$'ACCEPTED 2 10 3\nACCEPTED 1 10 3\nREFUSED 56 0\nRANKED 9 4'
    [draft]=$'DRAFTED 16\nACCEPTED 1000000 1000000 3\nDRAFTED 16\nACCEPTED 100000 1000000 3\nREFUSED 60 0'
)
for name in "${!wanted[@]}"; do
    said=$(cargo run --release --quiet --locked --offline --manifest-path bindings/rust/Cargo.toml --example "$name")
    [[ $said = "${wanted[$name]}" ]] || { echo "the Rust example $name said: $said"; exit 1; }
done
tests/rust_package.sh
echo '== C and C++'
wanted[example]=$'ACCEPTED 1 10 3\nREFUSED 19 4'
for compiler in 'gcc -std=c99' 'g++ -std=c++11'; do # g++ takes a .c file as C++
    for name in "${!wanted[@]}"; do
        $compiler -Wall -Wextra -pedantic -Werror -Ibindings/c "bindings/c/$name.c" target/staticlib/libmiss_chance.a -o target/c_example
        said=$(target/c_example)
        [[ $said = "${wanted[$name]}" ]] || { echo "bindings/c/$name.c, by $compiler, said: $said"; exit 1; }
    done
done
echo '== ./judge'
tests/judge_script.sh
echo '== the judge compared with the reading, beside what follows: it takes one core'
cargo build --release --quiet --locked --offline --manifest-path tests/Cargo.toml --bins
cargo run --release --quiet --locked --offline --manifest-path tests/Cargo.toml --bin compare -- "$@" >target/log/compare.out 2>&1 &
comparing=$!
trap 'kill "$comparing" 2>/dev/null || true' EXIT
echo "== the reading's tests, the self-check, the cases' parser, standard input"
cargo test --release --quiet --locked --offline --manifest-path tests/Cargo.toml
echo '== the cases'
cargo run --release --quiet --locked --offline --manifest-path tests/Cargo.toml --bin cases
echo '== what the comparison found'
wait "$comparing" || { cat target/log/compare.out; exit 1; }
trap - EXIT
cat target/log/compare.out
