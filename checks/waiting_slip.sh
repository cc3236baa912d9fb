#!/usr/bin/env bash
# A step and a finish ordered on a waiting slip are refused by the compiler. The gate counts only what the prover
# refuses, so this stands beside it.
set -u
root=$(cd "$(dirname "$0")/.." && pwd)
dir=$(mktemp -d)
trap 'rm -rf "$dir"' EXIT
below='bounded terms record law journals participants bank runner'
mkdir -p "$dir/crates/misuse/src"
for crate in $below; do
    cp -r "$root/crates/$crate" "$dir/crates/"
    grep "^$crate:" "$root/crates.txt" >> "$dir/crates.txt"
done
echo "misuse: $below" >> "$dir/crates.txt"

order() {
    cat > "$dir/crates/misuse/src/lib.rt" <<CODE
//! A slip used as a ticket.
#![tactic(auto)]

use bank::bank::Bank;
use journals::traits::Journal;
use runner::$1;
use runner::runner::Runner;
use runner::ticket::Ticket;
use runner::waiting::Waiting;
use terms::Request;

pub fn order<J: Journal, B: Bank>(runner: &mut Runner<J, B>, slip: Waiting, request: Request) -> $2 {
    $3
}
CODE
    (cd "$dir/crates/misuse" && rt check) > "$dir/log" 2>&1
    grep -q 'mismatched-types\|expected.*Ticket' "$dir/log"
}

order fault::RunnerFault 'Result<Waiting, (Ticket, RunnerFault)>' 'runner.step(slip, 1, request)' || { echo 'a step on a slip is not refused as a wrong type'; exit 1; }
order declined::Declined 'Result<(), Declined<Ticket>>' 'runner.finish(slip)' || { echo 'a finish on a slip is not refused as a wrong type'; exit 1; }
echo 'refused by the compiler: a step and a finish on a waiting slip'
