#!/usr/bin/env bash
# Makes target/staticlib/libcapi.a, the archive that include/zilqodur.h describes. What is not proved yet is proved first.
set -eu
cd "$(dirname "$0")"
(cd crates/capi && rt lib)
mkdir -p target/staticlib
cp crates/capi/out/libcapi.a target/staticlib
