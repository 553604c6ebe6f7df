#!/usr/bin/env bash
# Proves and builds what it is asked for, or all three without names: judge_cli and draft_cli, the programs, to target/bin, and miss_chance, the static
# library for C and Rust, to target/staticlib/libmiss_chance.a. Needs rt, the Rattle toolchain, on the path.
set -euo pipefail
cd "$(dirname "${BASH_SOURCE[0]}")/.."

# put FOLDER FILE NAME: what was built, to target/FOLDER/NAME, dated when its building began, so that a source that is newer shows.
put() {
    [[ -f $2 ]] || { echo "rt made no $2" >&2; exit 1; }
    mkdir -p "target/$1"
    cp -f "$2" "target/$1/$3"
    touch -r "target/$name.begun" "target/$1/$3"
}

(($#)) || set -- judge_cli draft_cli miss_chance
mkdir -p target
for name in "$@"; do
    touch "target/$name.begun"
    case $name in
    miss_chance)
        (cd crates/miss_chance_c && rt lib)
        put staticlib crates/miss_chance_c/out/libmiss_chance_c.a libmiss_chance.a
        ;;
    judge_cli | draft_cli)
        (cd "crates/$name" && rt run </dev/null) # builds it, and runs it on no input, which has an answer too
        put bin "crates/$name/out/$name" "$name"
        ;;
    *)
        echo "$0: $name: not judge_cli, draft_cli or miss_chance" >&2
        exit 2
        ;;
    esac
done
