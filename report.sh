#!/usr/bin/env bash
# Prints the report on a job: report.sh [JOB], by default the sample job. The program is proved and made first, as
# target/bin/report, where that is not done yet.
set -eu
job=$(realpath "${1:-$(dirname "$0")/crates/report/stdin}")
cd "$(dirname "$0")"
echo "Proving and making the report program, where that is not done yet." >&2
log=$(mktemp)
trap 'rm "$log"' EXIT
(cd crates/report && rt run <stdin) >"$log" 2>&1 || { cat "$log" >&2; exit 1; }
mkdir -p target/bin
cp crates/report/out/report target/bin
target/bin/report <"$job"
