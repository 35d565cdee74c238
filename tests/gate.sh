#!/usr/bin/env bash
# Tries tests/run over steps that are made here, which pass, fail, say nothing or can't be started:
# each counts, and those behind it are run. The last line is 'N passed, M failed', and the status is
# 1 where a case failed.
set -u
cd "$(dirname "${BASH_SOURCE[0]}")/.." || exit 1
. tests/helpers/cases.sh

small=$folder/small
kit=$folder/kit
python=$(python3 -c 'import sys; print(sys.executable)')
mkdir -p "$small"/{tests,launch} "$kit" && cp tests/run "$small/tests" &&
  cp launch/crates.py "$small/launch" && : >"$small/crates.txt" && ln -s "$python" "$kit/python3" ||
  exit 1
# names_of LIST: the scripts that a list of tests/run names.
names_of() { sed -n "/^$1 = \"\"\"/,/^\"\"\"/p" tests/run | grep -oE '[a-z_]+\.(py|sh)'; }
mapfile -t scripts < <(names_of SCRIPTS)
mapfile -t quick < <(names_of QUICK)

# made FILE STATUS LINE: a script that says this line.
made() { printf '#!/bin/sh\necho "%s"\nexit %s\n' "$3" "$2" >"$1" && chmod +x "$1"; }
# all_pass: one case of each step passes.
all_pass() {
  local it
  for it in "$kit/rt" "$small/launch/build.py" "${scripts[@]/#/$small/tests/}"; do
    made "$it" 0 '1 passed, 0 failed' || return
  done
}

# counts PASSED FAILED [WORD]: a run ends with so many cases, and with a status that says whether
# one failed.
counts() {
  PATH=$kit "$small/tests/run" "${@:3}" >"$folder/said" 2>&1
  [ "$?" = "$(($2 > 0))" ] && [ "$(tail -n 1 "$folder/said")" = "$1 passed, $2 failed" ] &&
    ! grep -q Traceback "$folder/said"
}
# says LINE: it has said so, as a pattern of a whole line.
says() { grep -qxE "$1" "$folder/said"; }
# judges NAME PASSED FAILED: the line of this step.
judges() { says "$1: $2 passed, $3 failed; [0-9.]+ minutes(, [0-9.]+ of the processors)?"; }

# with_step STATUS LINE PASSED FAILED: one step ends so, and all others pass.
with_step() {
  all_pass && made "$small/tests/rows.py" "$1" "$2" && counts "$((${#scripts[@]} + $3))" "$4" &&
    judges rows.py "$3" "$4"
}
# not_started WHY COMMAND..: a step that the command changes can't be started, whole and quick.
not_started() {
  local line="tests/pages.py could not be started: $1"
  all_pass && "${@:2}" "$small/tests/pages.py" && counts "${#scripts[@]}" 1 &&
    judges pages.py 0 1 && says "$line" && counts "$((${#quick[@]} - 1))" 1 --quick &&
    judges pages.py 0 1 && says "$line"
}
of_no_program() { echo '#!/no/such/program' >"$1"; }
all_do() { all_pass && counts "$((${#scripts[@]} + 1))" 0 && counts "${#quick[@]}" 0 --quick; }
# tells_quick: a quick step is told so, and the path of the program, which is built first.
tells_quick() {
  # shellcheck disable=SC2016
  all_pass && made "$small/launch/build.py" 0 'what $1 builds' &&
    made "$small/tests/rows.py" 0 '1 passed, 0 failed' && made "$small/tests/pages.py" 0 \
    '$RTNL_QUICK of ${RTNL_PROGRAM#what path builds}${RTNL_PROVE-} passed
$RTNL_QUICK passed, 0 failed' && RTNL_PROVE=1 counts "${#quick[@]}" 0 --quick &&
    grep -qx '1 of  passed' "$small/out/tests/pages.py.log"
}
# Without its proofs, or without what they are over, nothing else is run.
runs_none() { counts "$@" && ! says '.*rows.py.*'; }
proves_nothing() { all_pass && made "$kit/rt" 1 '2 passed, 1 failed' && runs_none 2 1; }
has_no_kit() {
  all_pass && rm "$kit/rt" && runs_none 0 1 &&
    says 'rt could not be started: No such file or directory'
}
builds_nothing() { all_pass && made "$small/launch/build.py" 3 why && runs_none 0 1 --quick; }
starts_no_build() {
  all_pass && chmod -x "$small/launch/build.py" && counts 0 1 --quick &&
    says 'launch/build.py could not be started: Permission denied'
}

check 'all steps pass' all_do
check 'a step that fails by a case' with_step 1 '2 passed, 3 failed' 2 3
check 'a step that fails otherwise' with_step 1 '2 passed, 0 failed' 2 1
check 'a step that says nothing' with_step 0 '' 0 1
check 'a step that may not be executed' not_started 'Permission denied' chmod -x
check 'a step that is not there' not_started 'No such file or directory' rm
check 'a step of a program that is not there' not_started 'No such file or directory' of_no_program
check 'what a quick step is told' tells_quick
check 'a proof that fails' proves_nothing
check 'proofs that can not be started' has_no_kit
check 'a build that fails' builds_nothing
check 'a build that may not be executed' starts_no_build

finish
