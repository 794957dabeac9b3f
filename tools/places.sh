#!/usr/bin/env bash
# places.sh [FOLDER]: lists the places in crates/*/src of this or another checkout at which the design pass looked,
# a heading for each point; tests are left out.
set -u
cd "${1:-$(dirname "$0")/..}"
mapfile -t files < <(git ls-files 'crates/*/src/*.rt' | grep -v '/tests.rt$')
point() { printf '\n## %s\n' "$1"; shift; grep -nE "$@" "${files[@]}"; }
point '1 enums' '^\s*(pub(\([a-z]+\))? )?enum '
point '1 flags in structs' '^\s*(pub )?[a-z_]+: bool,'
point '1 numbers of kinds and refusals' 'Fault(ed)? ?[({].*[0-9]|Refused(At)?.*[0-9]|number: ([0-9]|u8)|Faulted\(u8\)|Some\([89]\)|CLOSING|=> \[?[0-9]+,'
point '3 loops over numbers' '^\s*(for [a-z_]+ in .*\.\.|while |loop )'
point '3 counters' '^\s*[a-z_]+ \+= 1;'
point '4 equality by hand' 'fn (same|eq|equal|holds)'
point '4 conversions and texts by hand' 'fn (of_|[a-z_]*_(refusal|number|fields)\b|sides\b)'
point '5 conditions' '^\s*requires '
point '6 arrays with a length' '^\s*(pub )?(count|len|size|depth|waiting|at|place): '
point '7 boxes, closures, tables of functions' 'dyn |Box<|fn\(|impl Fn'
