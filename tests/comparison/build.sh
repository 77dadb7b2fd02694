#!/usr/bin/env bash
# Builds a Rust program with an archive: build.sh ARCHIVE [PROGRAM [SOURCE]]
# The program's default place is next to the archive; the default source is the comparison's.
set -euo pipefail
archive=$(realpath "$1")
folder=$(dirname "$archive")
name=$(basename "$archive" .a)
here=$(cd "$(dirname "$0")" && pwd)
PATH="$PATH:${HOME:-}/.cargo/bin"
rustc -C opt-level=3 -C codegen-units=1 --edition 2021 -D warnings -L "native=$folder" -l "static=${name#lib}" \
    -o "${2:-$folder/comparison}" "${3:-$here/src/main.rs}"
