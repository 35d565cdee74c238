#!/usr/bin/env bash
# Runs rtnl-record. Its arguments; the traces in tests/rtnl_record/, which strace wrote of small programs, where the
# expected lines are cut from the bytes that it printed; captures of a live kernel in examples/, and what tools make
# of them; captures that are made by hand, and changed at random; its completions, in shells at a terminal; and the
# kernel itself, in a network namespace of its own, where the machine allows one, with what `ip` makes there, and what
# examples/rich/ does. A part that can't run says so and isn't counted. The last line is 'N passed, M failed', and the
# status is 1 where a case failed.
set -u
cd "$(dirname "${BASH_SOURCE[0]}")/.." || exit 1

program=$(tests/helpers/proved.py) || exit 1

# All runs in the namespace, if there can be one.
if [ "${1-}" != inside ]; then
  tests/helpers/install_packages.sh ip iproute2 strace strace xxd xxd hexdump bsdextrautils tshark tshark tcpdump tcpdump \
    zsh zsh fish fish
  for way in -n -rn; do
    unshare "$way" ip link set lo up 2>/dev/null && exec unshare "$way" tests/rtnl_record.sh inside
  done
fi

. tests/helpers/cases.sh
# What a case that failed left running ends with this script.
trap 'kill $(jobs -p) 2>/dev/null; rm -rf "$folder"' EXIT

# ends STATUS OUTPUT ERRORS COMMAND..: the command ends with this status and writes this output and these
# errors; where these end in '..', one line that begins so.
ends() {
  local status=$1 output=$2 errors=$3 found reported
  shift 3
  "$@" >"$folder/output" 2>"$folder/errors"
  found=$?
  reported=$(<"$folder/errors")
  [ "$found" = "$status" ] && [ "$(<"$folder/output")" = "$output" ] || return 1
  case $errors in
    *..) [[ $reported == "${errors%..}"* && $reported != *$'\n'* ]] ;;
    *) [ "$reported" = "$errors" ] ;;
  esac
}

record() { timeout 30 ./rtnl-record "$@"; }
into_full_device() { "$@" >/dev/full; }

# counts COMMAND..: the cases of a script that counts its own.
counts() {
  local line
  "$@" >"$folder/counted" 2>&1
  sed '$d' "$folder/counted"
  line=$(tail -n 1 "$folder/counted")
  if [[ $line =~ ^([0-9]+)\ passed,\ ([0-9]+)\ failed$ ]]; then
    passed=$((passed + BASH_REMATCH[1]))
    failed=$((failed + BASH_REMATCH[2]))
  else
    check "$*" false
  fi
}

. tests/rtnl_record/arguments.sh
. tests/rtnl_record/traces.sh
. tests/rtnl_record/captures.sh
. tests/rtnl_record/rich.sh
counts tests/rtnl_record/made.py
counts tests/rtnl_record/answers.py
counts tests/rtnl_record/requests.py
counts tests/rtnl_record/drops.py
counts tests/rtnl_record/asked.py
counts tests/rtnl_record/slow.py
counts tests/rtnl_record/fuzz.py
counts tests/rtnl_record/completions.py
if [ "${1-}" = inside ]; then
  . tests/rtnl_record/live.sh
  check 'the rich machine' records_machine
  counts unshare -n tests/rtnl_record/asked_live.py
  counts unshare -n tests/rtnl_record/kinds_live.py
else
  echo 'skipped: the live way, since no network namespace can be made here'
fi

finish
