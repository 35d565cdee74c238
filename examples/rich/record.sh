#!/usr/bin/env bash
# Records a dump of each kind of the machine that machine.sh makes, or of this one.
#
#   examples/rich/machine.sh examples/rich/record.sh FOLDER [DEVICE]
#
# FOLDER gets a recording of each, with the name of its kind; classes and filters are those of the device, or of lo.
# What the kernel refuses is named on standard error, and the status is 1 then.
set -u

if [ $# = 0 ] || ! mkdir -p "$1"; then
  sed -n '2,/^set/s/^# \?//p' "$0" >&2
  exit 2
fi
record=$(dirname "$(realpath "${BASH_SOURCE[0]}")")/../../rtnl-record
status=0

# kept FILE ARGUMENT..: a dump by these arguments, in this file.
kept() {
  local file=$1
  shift
  "$record" dump "$@" >"$file" && return
  echo "refused: dump $*" >&2
  rm "$file"
  status=1
}

for kind in link addr route neigh rule nexthop qdisc netconf neightbl mdb vlan nsid addrlabel fdb; do
  kept "$1/$kind.hex" "$kind"
done
kept "$1/proxy.hex" neigh --proxy
# A kernel without labels would list all routes.
[ ! -e /proc/sys/net/mpls ] || kept "$1/mpls.hex" route --family mpls
kept "$1/ports.hex" link --family bridge --ext-mask brvlan,mrp,cfm,mst
kept "$1/masked.hex" link --ext-mask vf,skip-stats
for kind in class filter; do kept "$1/$kind.hex" "$kind" --dev "${2-lo}"; done
exit "$status"
