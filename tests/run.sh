#!/usr/bin/env bash
# The tests beside rt ci, in groups: run.sh [GROUP..], where the groups named are the caller's own in python3.
# The report program runs on jobs; the examples, the README's program, the tests of the header and of the stack, the
# comparison with an independent implementation and the benchmark, which only compares answers here, are built with the
# archive and run.
# A group whose tools are missing is left out; with CI set it counts as failed. The last line says how many groups ran
# and which were left out. Exit status: the number of groups that failed.
set -u
cd "$(dirname "$0")/.." || exit 1
PATH="$PATH:${HOME:-}/.cargo/bin"

archive=target/staticlib/libcapi.a
report=target/bin/report
report_test=tests/report_program.py
header_test=(tests/c/{header,expect,lists,levels,classes,steps,states,sample,jobs,jobs2}.c)
stack_test=tests/c/stack.c
sample_job=crates/report/stdin
build_rust=tests/comparison/build.sh
benchmark=bench/src/main.rs
least_rustc=1.82
warnings=(-Wall -Wextra -Wpedantic -Werror)

# A group is a function whose name has _ for each space in the group's.
in_c=(C_example program_in_the_README header_in_C stack)
in_cpp=(header_in_C++)
in_rust=(Rust_example comparison answers_of_the_benchmark)
linked=("${in_c[@]}" "${in_cpp[@]}" "${in_rust[@]}")

ran=0
failed=0
left=0
reasons=
out=$(mktemp -d)
trap 'rm -r "$out"' EXIT

# leave_out REASON GROUP..: counts the groups as left out.
leave_out() {
    left=$((left + $# - 1))
    printf -v names '%s, ' "${@:2}"
    names=${names//_/ }
    reasons+="; $1: ${names%, }"
}

# run_group GROUP: its status says whether it passed.
run_group() {
    ran=$((ran + 1))
    if "$1"; then
        echo "outside: ${1//_/ } passed"
    else
        echo "outside: ${1//_/ } failed"
        failed=$((failed + 1))
        return 1
    fi
}

# groups LACK GROUP..: runs the groups; where LACK says what is missing, leaves them out, which fails them with CI set.
groups() {
    if [ -n "$1" ]; then
        leave_out "$@"
        [ -n "${CI:-}" ] || return 0
        echo "outside: $1, which with CI set is a failure"
        failed=$((failed + $# - 1))
        return
    fi
    for group in "${@:2}"; do
        run_group "$group"
    done
}

# lack COMMAND..: says the first of them that the machine lacks.
lack() {
    for command in "$@"; do
        command -v "$command" >/dev/null || { echo "no $command"; return; }
    done
}

# Says what the programs in Rust lack. rustc links with cc.
lack_for_rust() {
    lack rustc cc | grep . && return
    printf '%s\n' $least_rustc "$(rustc --version | cut -d ' ' -f 2)" | sort -V -C ||
        echo "rustc is older than $least_rustc"
}

# quietly COMMAND..: shows what the command prints only where it fails.
quietly() {
    "$@" >"$out/printed.txt" 2>&1 || { cat "$out/printed.txt"; return 1; }
}

# prints_expected PROGRAM: it prints what examples/expected.txt holds.
prints_expected() {
    "$1" >"$1.txt" && diff examples/expected.txt "$1.txt"
}

# The report program, proved and made where that is not done yet.
report_program() {
    quietly bash report.sh && python3 $report_test $report
}

# The archive, proved where that is not done yet, and made.
build_of_the_archive() {
    quietly bash build.sh
}

# The example in C.
C_example() {
    gcc -std=c99 "${warnings[@]}" -Iinclude examples/example.c $archive -o "$out/c" && prints_expected "$out/c"
}

# The README's program compiles as it stands, and prints the shares of the by-arc split.
program_in_the_README() {
    sed -n '/^    #include <stdio.h>/,/^    }$/s/^    //p' README.md >"$out/readme.c"
    gcc -std=c99 "${warnings[@]}" -Iinclude "$out/readme.c" $archive -o "$out/readme" && "$out/readme" >"$out/readme.txt" &&
        printf 'member %s pays %s\n' 0 4 1 8 2 4 | diff - "$out/readme.txt"
}

# The test of the header as C.
header_in_C() {
    gcc -std=c99 "${warnings[@]}" -Iinclude "${header_test[@]}" $archive -o "$out/header_c" && "$out/header_c" $sample_job
}

# The stack that the header asks for. Symbols are looked up before the program starts, so that the loader takes nothing
# of the stack during a call.
stack() {
    gcc -std=gnu99 "${warnings[@]}" -Wl,-z,now -Iinclude $stack_test $archive -o "$out/stack" && "$out/stack"
}

# The test of the header as C++.
header_in_C++() {
    g++ -std=c++11 "${warnings[@]}" -Iinclude -x c++ "${header_test[@]}" -x none $archive -o "$out/header_cpp" &&
        "$out/header_cpp" $sample_job
}

# The example in Rust.
Rust_example() {
    rustc --edition 2021 -D warnings -L "$(dirname $archive)" examples/example.rs -o "$out/rust" &&
        prints_expected "$out/rust"
}

# The archive against an independent implementation.
comparison() {
    bash $build_rust $archive "$out/comparison" && "$out/comparison"
}

# The archive against the benchmark's algorithms.
answers_of_the_benchmark() {
    bash $build_rust $archive "$out/bench" $benchmark && "$out/bench" quick
}

lacked=$(lack python3)
if [ -n "$lacked" ]; then
    groups "$lacked" "$@" report_program
else
    ran=$#
    run_group report_program
fi

if [ "$(uname -sm)" != "Linux x86_64" ]; then
    leave_out "the archive is for x86-64 Linux" build_of_the_archive "${linked[@]}"
elif run_group build_of_the_archive; then
    groups "$(lack gcc)" "${in_c[@]}"
    groups "$(lack g++)" "${in_cpp[@]}"
    groups "$(lack_for_rust)" "${in_rust[@]}"
else
    groups "no archive" "${linked[@]}"
fi

echo "outside tests: $ran groups ran, $left left out${reasons:+ (${reasons#; })}"
exit $failed
