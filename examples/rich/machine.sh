#!/usr/bin/env bash
# Makes as many kinds of links, routes, rules and the like as this kernel has, in a network namespace of its own, and
# runs a command there. What the kernel or iproute2 refuses is named on standard error, and the rest goes on.
#
#   examples/rich/machine.sh COMMAND ..
#
# It needs root or user namespaces, and ip, bridge and tc. Nothing is changed outside, but the kernel may load modules.
set -u

here=$(dirname "$(realpath "${BASH_SOURCE[0]}")")
if [ "${1-}" != --inside ]; then
  if [ $# = 0 ]; then
    sed -n '2,/^set/s/^# \?//p' "$0" >&2
    exit 2
  fi
  for way in -n -rn; do
    unshare "$way" true 2>/dev/null && exec unshare "$way" "$here/machine.sh" --inside "$@"
  done
  echo 'machine.sh: no network namespace can be made here' >&2
  exit 3
fi
shift

# made COMMAND ..: a step, which may be refused.
made() {
  local said
  said=$("$@" 2>&1 </dev/null) || echo "refused: $*: $(head -n 1 <<<"$said")" >&2
}

# steps FILE: its lines, each a command, but those that begin with #. OTHER is a process in another namespace, in which
# the far ends of some pairs are.
steps() {
  local words
  while read -ra words; do
    case ${words[0]-} in
      '' | '#'*) ;;
      *) made "${words[@]//OTHER/$other}" ;;
    esac
  done <"$1"
}

# What doesn't load its module with the first step that needs it.
for module in 8021q mpls_router mpls_iptunnel; do modprobe -q "$module" 2>/dev/null; done
unshare -n sleep 3600 &
other=$!
trap 'kill "$other" 2>/dev/null' EXIT
while [ "$(readlink "/proc/$other/ns/net")" = "$(readlink /proc/$$/ns/net)" ]; do sleep 0.1; done
for file in links addresses routes tc; do steps "$here/$file.steps"; done
"$@"
