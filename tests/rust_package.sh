#!/usr/bin/env bash
# Tests how the Rust package finds the library, by a program outside the repository that depends on a copy of the package: where the library
# is missing cargo must say so plainly, and where it is there, in the usual folder or in the one that MISS_CHANCE_LIB_DIR names, the program
# must print its answers. Needs target/staticlib/libmiss_chance.a.
set -euo pipefail
cd "$(dirname "$0")/.."
unset MISS_CHANCE_LIB_DIR
work=$(realpath "$(mktemp -d)")
trap 'rm -rf "$work"' EXIT
copy="$work/some folder" # a name with a space on the way
mkdir -p "$copy/bindings/rust" "$copy/target/staticlib" "$work/caller/src"
cp -r bindings/rust/{Cargo.toml,build.rs,src} "$copy/bindings/rust"
cp bindings/rust/examples/worked.rs "$work/caller/src/main.rs"
cat >"$work/caller/Cargo.toml" <<END
[package]
name = "caller"
version = "0.1.0"
edition = "2021"
[dependencies]
miss_chance = { path = "$copy/bindings/rust" }
END

call() { # the program, or why it is not built
    env "$@" cargo run --quiet --offline --manifest-path "$work/caller/Cargo.toml" --target-dir "$work/target" 2>&1
}

# missing PATH SETTING..: with the setting, the library is looked for at that path in vain.
missing() {
    local path=$1 said part
    shift
    if said=$(call "$@"); then
        echo "FAILED: built without $path"
        exit 1
    fi
    for part in "$path is not there" "\`tools/build.sh miss_chance\`" "set MISS_CHANCE_LIB_DIR"; do
        [[ $said = *"$part"* ]] || { printf 'FAILED: no "%s" in what cargo says without the library:\n%s\n' "$part" "$said"; exit 1; }
    done
    [[ $said != *panicked* ]] || { printf 'FAILED: a panic in place of a message:\n%s\n' "$said"; exit 1; }
}

# answers SETTING..: with the setting, the program is built and prints both its lines.
answers() {
    local said wanted=$'misses at most 1 in 10\nrefused with 19 at place 4: the weighted sum is too large for the node\'s value'
    said=$(call "$@") || true # a build that fails says something else
    [[ $said = "$wanted" ]] || { printf 'FAILED: with %s the program said:\n%s\n' "${*:-no setting}" "$said"; exit 1; }
}

missing "$copy/target/staticlib/libmiss_chance.a"
missing "$work/nothing/libmiss_chance.a" MISS_CHANCE_LIB_DIR="$work/nothing"
answers MISS_CHANCE_LIB_DIR="$PWD/target/staticlib"
missing "$work/nothing/libmiss_chance.a" MISS_CHANCE_LIB_DIR="$work/nothing" # the setting has changed since
cp target/staticlib/libmiss_chance.a "$copy/target/staticlib"
answers
echo 'the library is found where it should be, and missed plainly where it is not'
