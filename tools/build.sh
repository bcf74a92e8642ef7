#!/usr/bin/env bash
# bash tools/build.sh CRATE ..: proves these and all below them; the programs among them go to target/bin/, the archive to
# target/staticlib/. A line for each crate that had to be proved, on standard error; where something fails, all that rt said.
set -euo pipefail
cd "$(dirname "$0")/.."
mkdir -p target/bin target/staticlib
for name in "$@"; do
    log=$PWD/target/build-$name.log
    if [ -f "crates/$name/src/main.rt" ]; then
        # rt links a program and then runs it, here on no input; what it answers is no matter of the build.
        (cd "crates/$name" && rt run < /dev/null > "$log" 2>&1) || true
        built=crates/$name/out/$name at=target/bin/$name
        grep -q '^rt: running out/' "$log" || built=
    else
        built=crates/$name/out/lib$name.a at=target/staticlib/lib$name.a
        (cd "crates/$name" && rt lib > "$log" 2>&1) || built=
    fi
    if [ -z "$built" ] || [ ! -e "$built" ]; then
        cat "$log" >&2
        exit 1
    fi
    echo "$name is proved" >&2
    cmp -s "$built" "$at" || cp "$built" "$at"
done
