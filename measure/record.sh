#!/usr/bin/env bash
# Records dumps of a live kernel for measure.py, one NAME.hex a kind: of 223 links, some 6,000 routes and
# 1,700 neighbours, which it makes in a network namespace of its own. It needs `ip`, unshare, python3 and the right to
# make a namespace. The kernel's datagrams are of a page, as for a reader with small buffers.
# usage: measure/record.sh FOLDER
set -eu
top=$(cd "$(dirname "${BASH_SOURCE[0]}")/.." && pwd)

if [ "${2-}" != inside ]; then
  mkdir -p "$1"
  exec unshare -n "$0" "$1" inside
fi

# What `ip` is asked to make.
links() {
  echo 'link set lo up'
  echo 'link add bridge0 type bridge'
  seq 100 | sed 's/.*/link add left& type veth peer name right&/'
  seq 20 | sed 's/.*/link set left& master bridge0/'
  seq 21 | sed 's/.*/link add tunnel& type vxlan id & dstport 4789 dev left&/'
  echo 'link set bridge0 up'
  seq 100 | sed 's/.*/link set left& up/; p; s/left/right/'
}

addresses() {
  seq 100 | sed 's/.*/addr add 10.0.&.1\/24 dev right&/'
}

routes() {
  for first in $(seq 20); do
    seq 250 | sed "s/.*/route add 10.1$first.&.0\/24 via 10.0.$first.2 dev right$first proto static metric 100/"
  done
}

neighbours() {
  for link in $(seq 12); do
    seq 3 102 | sed "s/.*/neigh add 10.0.$link.& lladdr 02:00:00:00:00:01 dev right$link nud permanent/"
  done
}

# dump KIND NAME: what the kernel answers.
dump() {
  "$top/rtnl-record" dump "$1" --buffer 4096 >"$2"
}

{ links; addresses; routes; neighbours; } | ip -batch -
cd "$1"
dump link links.hex
dump addr addresses.hex
dump route routes.hex
dump neigh neighbours.hex
