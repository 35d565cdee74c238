#!/usr/bin/env bash
# Builds datagrams by the builder of the library for C, and holds them against others. A hundred
# thousand random ones are read again by the library, by libmnl, by pyroute2 and by the second
# reading, and hold what was put. A million changed sequences of calls, and every room for a
# datagram, go beside a model that says what is refused and by which name; so do builders of which
# C changed what it keeps. A hundred requests have the very bytes that ip sends for them, by the
# builder and by the call of each, and 350 go to the kernel, in a network namespace, of which ip
# then says what was asked. The calls for requests go beside the builder in every room, and no two
# fields of one can be exchanged. RTNLC names another librtnlc.a to be tested. What can't run says
# so and isn't counted. The last line is 'N passed, M failed'; the status is 1 where a case failed.
set -u
cd "$(dirname "${BASH_SOURCE[0]}")/.." || exit 1
. tests/helpers/cases.sh

tests/helpers/install_packages.sh cc gcc ip iproute2 strace strace valgrind valgrind \
  /usr/include/libmnl/libmnl.h libmnl-dev /usr/lib/python3/dist-packages/pyroute2 python3-pyroute2
archive=${RTNLC:-$folder/library/librtnlc.a}
if [ -z "${RTNLC:-}" ]; then
  makes_library "$folder/library" || exit 1
fi
tests/helpers/proved.py --take "$archive" || exit 1

# How many random datagrams, changed sequences and changed builders.
trees=100000
sequences=1000000
builders=300000
whole '49 of 50 random datagrams, and of what is changed' ||
  trees=2000 sequences=20000 builders=6000
warnings=(-std=c99 -D_GNU_SOURCE -Iinclude -O2 -g -Wall -Wextra -Werror -pedantic)
sanitizers=(-fsanitize=address,undefined -fno-sanitize-recover=all)

# built NAME TO WORD..: a program of the folder, with further words for the compiler.
built() {
  cc "${warnings[@]}" "tests/building/$1.c" "${@:3}" "$archive" -o "$folder/$2"
}

# adds COMMAND..: counts the cases that a script counts in its last line, and shows the others.
adds() {
  local counts='^([0-9]+) passed, ([0-9]+) failed$' last
  "$@" >"$folder/said"
  last=$(tail -n 1 "$folder/said")
  sed '$d' "$folder/said"
  if [[ $last =~ $counts ]]; then
    passed=$((passed + BASH_REMATCH[1]))
    failed=$((failed + BASH_REMATCH[2]))
  else
    failed=$((failed + 1))
    echo "failed: $*: $last"
  fi
}

# says COMMAND..: it ends well, and its last line is shown.
says() { "$@" >"$folder/line" && tail -n 1 "$folder/line"; }

# reads_all PROGRAM COUNT ORDER READER..: what a reader of reads.py finds is what was meant.
reads_all() {
  "$folder/$1" 7 "$2" "$3" 1048576 2>"$folder/trees.said" |
    "$python" tests/building/reads.py "${@:4}" >"$folder/reads.said"
  tail -n 1 "$folder/reads.said" | grep -qx "$2 passed, 0 failed" ||
    ! head -c 2000 "$folder/reads.said"
}

# notices CHANGE CALL: a library in which this call is changed is not passed.
notices() {
  local name program
  for name in mutated trees; do
    program="$name.changed"
    built "$name" "$program" "-DCHANGE=$1" tests/building/changed.c "-Wl,--wrap=rtnlc_builder_$2" \
      "${libmnl[@]}" || return 1
  done
  ! { "$folder/mutated.changed" 1 20000 && "$folder/trees.changed" 1 2000 little; } \
    >"$folder/changed.said" 2>&1 && grep -q '^failed: ' "$folder/changed.said"
}

# notices_exchanged: a library in which any two fields of a request are exchanged is not passed.
notices_exchanged() {
  local pair count=0
  "$folder/requests" pairs >"$folder/pairs" || return 1
  EXCHANGED='none 0 0' says "$folder/requests.exchanged" 1 20 >/dev/null || return 1
  while read -r pair; do
    ! EXCHANGED=$pair "$folder/requests.exchanged" 1 20 >"$folder/exchanged.said" 2>&1 &&
      grep -q '^failed: the ' "$folder/exchanged.said" || ! echo "not noticed: $pair" || return 1
    count=$((count + 1))
  done <"$folder/pairs"
  [ "$count" -ge 100 ] && echo "$count exchanged fields"
}

check 'mutated.c' built mutated mutated
check 'changed sequences' says "$folder/mutated" 1 "$sequences"
check 'rooms.c' built rooms rooms
check 'every room' says "$folder/rooms"
check 'kept.c' built kept kept
check 'changed builders' says "$folder/kept" 1 "$builders"
if whole 'the builder with sanitizers'; then
  check 'mutated.c with sanitizers' built mutated mutated.sanitized "${sanitizers[@]}"
  check 'changed sequences with sanitizers' says "$folder/mutated.sanitized" 2 $((sequences / 20))
  check 'rooms.c with sanitizers' built rooms rooms.sanitized "${sanitizers[@]}"
  check 'every room with sanitizers' says "$folder/rooms.sanitized"
  check 'kept.c with sanitizers' built kept kept.sanitized "${sanitizers[@]}"
  check 'changed builders with sanitizers' says "$folder/kept.sanitized" 2 100000
fi
requests_wrapped=-Wl
for call in link addr route neigh rule; do
  requests_wrapped+=,--wrap=rtnlc_request_$call
done
check 'requests.c' built requests requests
check 'requests beside the builder' says "$folder/requests" 1 $((sequences / 500))
if whole 'requests with sanitizers'; then
  check 'requests.c with sanitizers' built requests requests.sanitized "${sanitizers[@]}"
  check 'requests with sanitizers' says "$folder/requests.sanitized" 2 200
fi
check 'requests.c, exchanged' built requests requests.exchanged tests/building/exchanged.c \
  "$requests_wrapped"
check 'exchanged fields are noticed' notices_exchanged
if whole 'the builder under valgrind' && has valgrind 'the builder under valgrind'; then
  check 'changed sequences under valgrind' \
    says valgrind -q --error-exitcode=9 "$folder/mutated" 3 10000
  check 'requests under valgrind' says valgrind -q --error-exitcode=9 "$folder/requests" 3 3
fi

libmnl=(-lmnl)
python=python3
if [ -e /usr/include/libmnl/libmnl.h ]; then
  check 'trees.c' built trees trees "${libmnl[@]}"
  for order in little big; do
    check "random datagrams, $order" "$folder/trees" 1 "$trees" "$order"
    check "random datagrams by the second reading, $order" \
      reads_all trees $((trees / 10)) "$order" second "$order"
  done
  # Debian's package is of its own Python.
  python=/usr/bin/python3
  if "$python" -c 'import pyroute2' 2>/dev/null; then
    check 'random datagrams by pyroute2' reads_all trees "$trees" little pyroute2
  else
    echo 'skipped: random datagrams by pyroute2, since that is not here'
  fi
  calls=(put_u32 put_text open_hop put_be32 end close put open finish)
  whole 'libraries that are changed in eight more ways' || calls=(put_u32)
  change=0
  for call in "${calls[@]}"; do
    change=$((change + 1))
    check "a changed library is noticed: $call" notices "$change" "$call"
  done
else
  echo 'skipped: random datagrams, since libmnl is not here'
fi

check 'put.c' built put put
adds tests/building/as_ip.py "$folder/put"
check 'put_request.c' built put_request put_request
adds tests/building/requests_as_ip.py "$folder/put_request"
if has ip 'requests to the kernel'; then
  adds tests/building/sent.py "$folder/put"
  if has strace 'what ip sends'; then
    adds tests/building/ip_sends.py
  fi
fi

finish
