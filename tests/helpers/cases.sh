# What the scripts of cases share, which read it in: a folder that goes with the script, the count
# of cases, and what many cases ask.
folder=$(mktemp -d) || exit 1
trap 'rm -rf "$folder"' EXIT
passed=0
failed=0

# check NAME COMMAND..: a case that passes where the command does.
check() {
  local name=$1
  shift
  if "$@"; then
    passed=$((passed + 1))
  else
    failed=$((failed + 1))
    echo "failed: $name"
  fi
}

# makes_library FOLDER: the library for C, a proved one; for tests/run --quick also one that isn't.
makes_library() {
  [ -n "${RTNL_PROGRAM-}" ] || export RTNL_PROVE=1
  c/build.sh "$1" && tests/helpers/proved.py --take "$1/librtnlc.a"
}

# has COMMAND WHAT: the command is here, or a line says that this is skipped.
has() { command -v "$1" >/dev/null || ! echo "skipped: $2, since $1 is not here"; }

# whole WHAT: all is tried, as the gate does; tests/run --quick leaves this out, and a line says so.
whole() { [ -z "${RTNL_QUICK-}" ] || ! echo "left out: $1"; }

# ends STATUS OUTPUT ERRORS COMMAND..: the command ends with this status and writes exactly this.
ends() {
  local status=$1 output=$2 errors=$3 found
  shift 3
  "$@" >"$folder/output" 2>"$folder/errors"
  found=$?
  [ "$found" = "$status" ] && [ "$(<"$folder/output")" = "$output" ] &&
    [ "$(<"$folder/errors")" = "$errors" ]
}

# soon COMMAND..: it succeeds within ten seconds.
soon() {
  for _ in $(seq 100); do
    "$@" && return
    sleep 0.1
  done
  return 1
}

# The last line of a script, and its status.
finish() {
  echo "$passed passed, $failed failed"
  [ "$failed" = 0 ]
}
