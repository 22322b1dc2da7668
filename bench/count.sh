#!/usr/bin/env bash
# The instructions of each call on each kind of sheet, counted by valgrind: a line for each, CALL KIND COUNT. Calls that begin with rust_
# are the same methods in Rust. Library functions are bound at the start, so that no call counts the search for one.
# usage: bench/count.sh, after rt lib in crates/sievemarl and in crates/testface
set -eu
cd "$(dirname "$0")/.."
mkdir -p target
rustc --edition 2021 -O -L crates/sievemarl/out -L crates/testface/out -o target/count bench/count.rs
for call in fill judge read write refused_line report chain set_assignment set_permission flows label class_name compare greatest effect chosen_row new_tally rehearse rehearse_records rust_fill rust_judge rust_read rust_write rust_report; do
    name=testface_$call
    case $call in fill) name=sievemarl_fill_flow ;; judge) name=sievemarl_judge ;; rust_*) name=$call ;; esac
    for kind in 0 1 2 3 4 5; do
        count=$(LD_BIND_NOW=1 valgrind --tool=callgrind --toggle-collect="$name" --callgrind-out-file=/dev/null target/count "$call" "$kind" 2>&1 | sed -n 's/.*Collected : //p')
        echo "$call $kind $count"
    done
done
