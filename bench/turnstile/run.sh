#!/bin/sh
# Builds the benchmark in a scratch repository beside a copy of the turnstile, and runs it.
set -eu
here=$(cd "$(dirname "$0")" && pwd)
top=$(cd "$here/../.." && pwd)
scratch=$(mktemp -d)
trap 'rm -rf "$scratch"' EXIT
mkdir -p "$scratch/crates/turns/src" "$scratch/crates/turnstile"
cp "$top/HANDLES" "$scratch/HANDLES"
for part in src specs proofs; do
    cp -R "$top/crates/turnstile/$part" "$scratch/crates/turnstile/$part"
done
cp "$here/main.rt.txt" "$scratch/crates/turns/src/main.rt"
for loop in share_turns share_locks; do
    cycle="+fn-$loop-join+arg2+fn-$loop-join+arg3+$loop"
    mkdir -p "$scratch/crates/turns/proofs/$cycle"
    cat >"$scratch/crates/turns/proofs/$cycle/Invariants.antt" <<ANTT
use Rattle.turns.proofs.$cycle.Given as goal

abbrev pub decreases-$loop : goal.decreases-$loop
decreases-$loop g l = l.threads

abbrev pub decreases-join+arg2 : goal.decreases-join+arg2
decreases-join+arg2 g l = l.half

abbrev pub decreases-join+arg3 : goal.decreases-join+arg3
decreases-join+arg3 g l = l.rest
ANTT
done
mkdir -p "$scratch/crates/turns/proofs/take_turns"
cat >"$scratch/crates/turns/proofs/take_turns/Invariants.antt" <<'ANTT'
use Rattle.turnstile.specs.Passes.{IsOf}
use Rattle.turns.proofs.take_turns.Given as goal

abbrev pub invariant-loop : goal.invariant-loop
invariant-loop g l = IsOf l.count l.pass
ANTT
printf 'turnstile: atomic_table\nturns: turnstile\n' >"$scratch/crates.txt"
cd "$scratch/crates/turns"
rt run "$@"
