#!/usr/bin/env bash
# Times the archive against Rust and prints the tables: run.sh [write]. With `write` they also replace all of
# docs/PERFORMANCE.md below its line '<!-- bench/run.sh .. -->'. Makes the archive where it is missing or older than the
# code. Takes some 70 seconds.
set -euo pipefail
cd "$(dirname "$0")/.."
PATH="$PATH:${HOME:-}/.cargo/bin"

archive=target/staticlib/libcapi.a
page=docs/PERFORMANCE.md
out=$(mktemp -d)
trap 'rm -r "$out"' EXIT

if [ ! -f "$archive" ] || [ -n "$(find crates/*/src -name '*.rt' -newer "$archive")" ]; then
    echo "Making the archive." >&2
    bash build.sh >&2
fi
echo "Building the benchmark, then timing it." >&2
bash tests/comparison/build.sh "$archive" "$out/bench" bench/src/main.rs
{
    processor=$(sed -n '/^model name/{s/^[^:]*: *//p;q}' /proc/cpuinfo)
    printf '\nMeasured on %s, Linux %s, with %s.\n\n' "$processor" "$(uname -m)" "$(rustc --version)"
    "$out/bench"
} | tee "$out/tables.md"
if [ "${1:-}" = write ]; then
    sed '/^<!-- bench\/run.sh/q' "$page" | cat - "$out/tables.md" >"$out/page.md"
    cp "$out/page.md" "$page"
fi
