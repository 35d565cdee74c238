#!/usr/bin/env bash
# Tries tests/edits.py over a small repository of two crates, one on the other: which changes have an edit of the upper
# crate tried again, and what is an error. The last line is 'N passed, M failed', and the status is 1 where a case
# failed.
set -u
cd "$(dirname "${BASH_SOURCE[0]}")/.." || exit 1
. tests/helpers/cases.sh

small=$folder/small
low=$small/crates/low
high=$small/crates/high
lock=$small/tests/edits.lock
mkdir -p "$small/tests/helpers" "$small/.git" "$low/src" "$low/proofs/sum" "$high/src" "$high/edits" &&
  cp -r launch HANDLES "$small" && cp tests/edits.py "$small/tests" &&
    cp tests/helpers/crate_files.py tests/helpers/trials.py "$small/tests/helpers" || exit 1
printf 'low:\nhigh: low\n' >"$small/crates.txt"

cat >"$low/src/lib.rt" <<'TEXT'
//! A crate below.
#![tactic(auto)]

ghost use Rattle.std.specs.Prelude.{◌≤◌};

mod steps;

use crate::steps::step;

/// A number of so many, at most a hundred.
pub fn sum(count: u8) -> u16
    ensures { result ≤ 25500 }
{
    let mut sum: u16 = 0;
    let mut left = count.min(100);
    while left > 0 {
        sum = sum.saturating_add(step());
        left -= 1;
    }
    sum.min(25500)
}

/// The lesser of two numbers.
pub fn lesser(a: u32, b: u32) -> u32
    ensures left { result ≤ a }
    ensures right { result ≤ b }
{
    if a < b { a } else { b }
}
TEXT
cat >"$low/src/steps.rt" <<'TEXT'
//! What no other crate sees.

ghost use Rattle.std.specs.Prelude.{◌≤◌};

/// What is added for each.
pub(crate) fn step() -> u16
    ensures { result ≤ 255 }
{
    255
}
TEXT
cat >"$low/proofs/sum/Invariants.antt" <<'TEXT'
use Rattle.std.proofs.Common.{◌≤◌}
use Rattle.low.proofs.sum.Given as goal

abbrev pub invariant-loop-left : goal.invariant-loop-left
invariant-loop-left l = l.left ≤ 255

abbrev pub decreases-loop-left : goal.decreases-loop-left
decreases-loop-left l = l.left
TEXT
cat >"$high/src/lib.rt" <<'TEXT'
//! A crate above.
#![tactic(auto)]

ghost use Rattle.std.specs.Prelude.{◌≤◌};

use low::lesser;

/// A number of at most ten.
pub fn at_most_ten(a: u32) -> u32
    ensures { result ≤ 10 }
{
    lesser(a, 10)
}

const TIMES: u32 = 2;

/// Twice a number of at most ten.
pub fn at_most_twenty(a: u32) -> u32
    ensures { result ≤ 20 }
{
    at_most_ten(a) * TIMES
}
TEXT
edit=$high/edits/eleven.edit
printf 'file: src/lib.rt\nold: lesser(a, 10)\nnew: lesser(a, 11)\n' >"$edit"

# proves: the small repository is proved as it stands, and its libraries are built anew, as tests/run has them built.
proves() {
  rm -rf "$low/out/rlib"
  (cd "$small" && rt ci) >"$folder/ci" 2>&1 || { cat "$folder/ci" && return 1; }
}

# says STATUS LINE.. -- ARGUMENT..: edits.py ends with this status, and among what it says are these lines.
says() {
  local status=$1 lines=() line found
  shift
  while [ "$1" != -- ]; do lines+=("$1") && shift; done
  shift
  "$small/tests/edits.py" "$@" >"$folder/said" 2>&1 </dev/null
  found=$?
  for line in "${lines[@]}"; do grep -qxF -- "$line" "$folder/said" || found="no line '$line'"; done
  [ "$found" = "$status" ] || { echo "$found, in:" && cat "$folder/said" && return 1; }
}

tried='1 edits are refused; 0 stand by tests/edits.lock'
stands='0 edits are refused; 1 stand by tests/edits.lock'
is_missing='FAILED tests/edits.lock:1: the line of high is missing'

touch "$lock"
check 'a library that is not built' says 1 \
  'edits.py: crates/low/out/rlib/low.rlib is missing: run rt ci, or rt lib in crates/low' -- --all
check 'the small repository' proves
check 'a line that is missing: its edits are tried, and it fails' says 1 "$tried" "$is_missing" '1 passed, 1 failed' --
check 'the first lock' says 0 "$tried" '1 passed, 0 failed' -- --update
check 'nothing changed' says 0 "$stands" '1 passed, 0 failed' --
check 'nothing changed, and all' says 0 "$tried" '1 passed, 0 failed' -- --all
check 'a name' says 0 "$tried" '1 passed, 0 failed' -- high
check 'a crate without edits' says 2 'edits.py: error: low is no crate with edits' -- low
cp "$lock" "$folder/lock"

# is_wrong LINE TEXT: a lock of this text has this fault.
is_wrong() { printf '%s' "$2" >"$lock" && says 1 "FAILED tests/edits.lock:$1" --; }
of_high=$(<"$folder/lock")
check 'a lock with an unknown crate' is_wrong '2: other is no crate with edits' "$of_high"$'\nother 1 0\n'
check 'a lock with a crate twice' is_wrong '2: high has a line above' "$of_high"$'\n'"$of_high"$'\n'
check 'a lock with an empty line' is_wrong '1: an empty line is no crate with edits' $'\n'"$of_high"$'\n'
check 'a lock with a sum that is none' is_wrong '1: high has no count and sum' $'high 1 12ab\n'
check 'a lock with a count that is none' is_wrong '1: high has no count and sum' "${of_high/high 1/high one}"$'\n'

cp "$folder/lock" "$lock"
cp "$edit" "$folder/edit"

# misplaced LINE TEXT..: the edit of these lines can't be applied.
misplaced() {
  local line=$1
  shift
  printf '%s\n' "$@" >"$edit" && says 1 "FAILED crates/high/edits/eleven.edit:$line" --
}
check 'an edit whose place is gone' misplaced '3: what it replaces is 0 times in src/lib.rt, not once: lesser(b' \
  'file: src/lib.rt' 'old: lesser(b' 'new: lesser(a'
check 'an edit with two places' misplaced '3: what it replaces is 2 times in src/lib.rt, not once: lesser' \
  'file: src/lib.rt' 'old: lesser' 'new: least'
check 'an edit of no file' misplaced '1: there is no file src/other.rt' 'file: src/other.rt' 'old: a' 'new: b'
check 'an edit that names nothing' misplaced '1: it names no file' 'lesser'
cp "$folder/edit" "$edit"

# beside NAME TEXT: an edit that puts this text into the upper function, beside that of the lower.
beside() { printf 'file: src/lib.rt\nold: at_most_ten(a) * TIMES\nnew: %s\n' "$2" >"$high/edits/$1.edit"; }
beside thrice 'at_most_ten(a) * 3'
check 'edits of two functions, in one check' says 0 'high: 2 are refused, in 1 checks' '2 passed, 0 failed' -- high
beside fourfold 'at_most_ten(a) * 4'
check 'two edits of one function, in two' says 0 'high: 3 are refused, in 2 checks' '3 passed, 0 failed' -- high
check 'each by itself' says 0 'high: 3 are refused, in 3 checks' '3 passed, 0 failed' -- high --singly
rm "$high/edits/thrice.edit"
beside fourfold 'at_most_ten(a) * 1'
check 'one that is not refused beside one that is' says 1 'high/fourfold.edit is still proved' \
  'FAILED crates/high/edits/fourfold.edit was not refused' 'high: 1 are refused, in 2 checks' -- high
beside fourfold 'at_most_ten(b) * 2'
check 'one that is not read beside one that is refused' says 1 \
  'FAILED crates/high/edits/fourfold.edit was not refused' 'high: 1 are refused, in 3 checks' -- high
rm "$high/edits/fourfold.edit"
printf 'file: src/lib.rt\nold: u32 = 2;\nnew: u32 = 3;\n' >"$high/edits/thrice.edit"
check 'one outside functions is tried alone' says 0 'high: 2 are refused, in 2 checks' '2 passed, 0 failed' -- high
rm "$high/edits/thrice.edit"

# A body, a contract in a private file and a proof below are others, in the same public contracts: the edit stands by
# the lock, and is refused.
sed -i 's/{ result ≤ 255 }/{ result ≤ 260 }/' "$low/src/steps.rt"
sed -i 's/if a < b { a } else { b }/if b < a { b } else { a }/' "$low/src/lib.rt"
sed -i 's/≤ 255$/≤ 300/' "$low/proofs/sum/Invariants.antt"
check 'a body and a proof below' proves
check 'a body and a proof below: the edit is not tried' says 0 "$stands" '1 passed, 0 failed' --
check 'a body and a proof below: the edit is refused' says 0 "$tried" '1 passed, 0 failed' -- --all

# A comment of the crate itself is another, and then a text of it.
sed -i 's/^\/\/\/ A number of at most ten/\/\/\/ At most ten/' "$high/src/lib.rt"
check 'a comment of the crate' says 0 "$stands" '1 passed, 0 failed' --
sed -i 's/u32 = 2;/u32 = 1 + 1;/' "$high/src/lib.rt"
check 'a text of the crate' says 0 "$tried" 'tests/edits.lock has other sums: tests/edits.py --update writes it' --
sed -i 's/u32 = 1 + 1;/u32 = 2;/' "$high/src/lib.rt"

# A contract below is another, by which the edit does no harm.
sed -i 's/{ result ≤ b }/{ result ≤ 9 }/; s/^    if b < a .*/    a.min(b).min(9)/' "$low/src/lib.rt"
check 'a contract below' proves
check 'a contract below: the edit is tried, and not refused' says 1 \
  'FAILED crates/high/edits/eleven.edit was not refused' '0 passed, 1 failed' --
check 'an edit that is not refused is not locked' says 1 \
  'FAILED crates/high/edits/eleven.edit was not refused' -- --update
check 'the lock is as it was' cmp -s "$lock" "$folder/lock"

finish
