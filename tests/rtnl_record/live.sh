# The whole way in a new network namespace: dumps and notifications of the kernel.

# What `ip` makes; the neighbour is one of IPv6, since one of IPv4 on the loopback link is 0.0.0.0.
neighbour='attr 1 DST - ipv6 2001:0db8:0000:0000:0000:0000:0000:0007'
is_made() {
  ip link set lo up && ip addr add 192.0.2.1/24 dev lo && ip route add 198.51.100.0/24 dev lo &&
    ip rule add from 192.0.2.1 table 100 priority 1000 &&
    ip -6 neigh add 2001:db8::7 lladdr 02:00:00:00:00:01 dev lo
}

# tabled FILE KIND: the table of a recorded dump, which is complete.
tabled() {
  "$program" table --kind "$2" --seq 1 --port "$(sed -nE "1s/^# seq 1 port ([0-9]+) kind $2\$/\1/p" "$1")" "$1" \
    >"$folder/table" &&
    [ "$(tail -1 "$folder/table")" = 'complete yes' ]
}

# has_entry KIND TEXT [OPTION..]: the recorded dump is complete and one of its entries has this line.
has_entry() {
  record dump "$1" "${@:3}" >"$folder/recording" 2>"$folder/errors" && [ ! -s "$folder/errors" ] &&
    tabled "$folder/recording" "$1" && grep -q "^ *$2\$" "$folder/table"
}

# has_as_many KIND COMMAND..: the recorded dump has as many entries as the command prints lines.
has_as_many() {
  local kind=$1
  shift
  has_entry "$kind" 'attr .*' && [ "$(grep -c '^entry ' "$folder/table")" = "$("$@" | wc -l)" ]
}

# asks_as KIND FAMILY: it sends the request that rtnl prints.
asks_as() {
  strace -o "$folder/trace" -e trace=network -e write=all ./rtnl-record dump "$1" --family "$2" >/dev/null &&
    record strace "$folder/trace" 2>&1 | grep -qx "$("$program" request --kind "$1" --family "$2" --seq 1)"
}

# More neighbours than a datagram of the kernel's usual size holds, in buffers of many sizes.
makes_neighbours() {
  seq 1000 | sed 's/.*/neigh add 2001:db8::1:& lladdr 02:00:00:00:00:01 dev lo/' | ip -batch -
}
has_many_neighbours() {
  has_entry neigh "$neighbour" --buffer "$1" && grep -q '^entries 1001 ' "$folder/table" &&
    [ "$(grep -vc '^#' "$folder/recording")" -gt 2 ]
}

# A buffer that is too small cuts each datagram but the last, and that is said; it ends all the same.
is_cut() {
  timeout 10 ./rtnl-record dump neigh --buffer "$1" >"$folder/recording" 2>"$folder/errors"
  [ $? = 1 ] && grep -q "^# cut: $1 of [0-9]* bytes\$" "$folder/recording" &&
    ! grep -vx "rtnl-record: the datagram was cut: $1 of [0-9]* bytes are recorded" "$folder/errors" &&
    ! grep -v '^#' "$folder/recording" | grep -qE ".{$(($1 * 2 + 1))}"
}

# While the dump waits for its reader, since the pipe is full, an address more makes the kernel say that it was
# interrupted.
is_interrupted() {
  local status first second
  seq 3000 | sed 's/.*/addr add 2001:db8:1::&\/128 dev lo nodad/' | ip -batch - || return
  {
    ./rtnl-record dump addr --buffer 4096 2>"$folder/errors"
    echo "$?" >"$folder/status"
  } | {
    read -r first && read -r second && ip addr add 2001:db8:2::1/128 dev lo &&
      { printf '%s\n' "$first" "$second" && cat; } >"$folder/recording"
  }
  status=$(<"$folder/status")
  ip -6 addr flush dev lo scope global
  [ "$status" = 1 ] && "$program" show "$folder/recording" | grep ' MULTI,DUMP_INTR ' >/dev/null &&
    [ "$(<"$folder/errors")" = \
      'rtnl-record: the kernel interrupted the dump: entries may be missing, or not agree' ]
}

# in_another NAME: a dump of another namespace, which has one link that is down.
in_another() {
  has_entry link 'attr 3 IFNAME - text lo' --netns "$1" &&
    ! grep -q '^ *link .*UP' "$folder/table" && ./rtnl-record dump link | "$program" show | grep UP >/dev/null
}
makes_namespace() { ip netns add "$1" 2>/dev/null; }

# lines_come FILE COUNT: the file has so many lines soon.
lines_come() { soon has_lines "$1" "$2"; }
has_lines() { [ "$(wc -l <"$1")" -ge "$2" ]; }

# begins_monitor ARGUMENT..: a monitor runs and its socket is open.
begins_monitor() {
  rm -f "$folder/recording" && : >"$folder/recording"
  ./rtnl-record monitor "$@" >"$folder/recording" 2>"$folder/errors" &
  monitor=$!
  lines_come "$folder/recording" 1
}

# ends_monitor SIGNAL: it ends with status 0 at this signal.
ends_monitor() {
  kill "-$1" "$monitor"
  wait "$monitor"
}

# A datagram that another process sends to the socket is none of the kernel's.
send_another() {
  python3 -c 'import socket, sys
link = socket.socket(socket.AF_NETLINK, socket.SOCK_RAW, socket.NETLINK_ROUTE)
link.sendto(bytes(16), (int(sys.argv[1]), 0))' "$(sed -n 's/^# groups neigh port //p' "$folder/recording")"
}

is_monitored() {
  begins_monitor neigh && send_another && ip -6 neigh add 2001:db8::8 lladdr 02:00:00:00:00:02 dev lo &&
    lines_come "$folder/recording" 2 && ends_monitor "$1" && [ ! -s "$folder/errors" ] &&
    ip -6 neigh del 2001:db8::8 dev lo && "$program" show "$folder/recording" >"$folder/shown" &&
    grep -q '^datagram 1 ' "$folder/shown" && grep -q '^message 28 newneigh ' "$folder/shown" &&
    grep -q 'attr 1 DST - ipv6 2001:0db8:0000:0000:0000:0000:0000:0008$' "$folder/shown"
}

# reads_both: of a recording of the monitor's dumps the program reads the first, and another by its number.
reads_both() {
  begins_monitor --dump link --dump addr link && soon has_dump 2 addr && has_dump 1 link && ends_monitor INT &&
    [ ! -s "$folder/errors" ] && has_dump 2 addr && grep -q '^ *attr 2 LOCAL - ipv4 192.0.2.1$' "$folder/table" &&
    "$program" table "$folder/recording" >"$folder/table" && [ "$(tail -1 "$folder/table")" = 'complete yes' ] &&
    grep -q '^ *attr 3 IFNAME - text lo$' "$folder/table"
}
has_dump() {
  "$program" table --seq "$1" --kind "$2" --port "$(sed -n 's/^# groups link port //p' "$folder/recording")" \
    "$folder/recording" >"$folder/table" && [ "$(tail -1 "$folder/table")" = 'complete yes' ]
}

# notifies TYPES ARGUMENT..: of an address that comes and goes, with its routes, this is what is heard.
notifies() {
  local types=$1
  shift
  begins_monitor "$@" && ip addr add 192.0.2.77/24 dev lo && ip addr del 192.0.2.77/24 dev lo || return
  [ -n "$types" ] || sleep 0.5
  soon has_types "$types" && ends_monitor TERM && has_types "$types"
}
has_types() {
  [ "$("$program" show "$folder/recording" | sed -n 's/^message \([0-9]*\) .*/\1/p' | sort -u | xargs)" = "$1" ]
}

# Each datagram stands behind its time, which is that of the clock.
is_timed() {
  local before after
  before=$(date -u +%FT%T.%6N)
  notifies '20 21' --time address && [ ! -s "$folder/errors" ] &&
    [ "$(sed -E '1d; s/^# 2.*Z received$/time/; s/^[0-9a-f]+$/datagram/' "$folder/recording" | xargs)" = \
      'time datagram time datagram' ] || return
  after=$(date -u +%FT%T.%6N)
  printf '%s\n' "$before" $(sed -n 's/^# \(.*\)Z received$/\1/p' "$folder/recording") "$after" | sort -c
}

# A group above 32 is joined, too: that of multicast addresses, which newer kernels have.
hears_new_group() {
  begins_monitor ipv4_mcaddr && join_multicast && lines_come "$folder/recording" 2 && ends_monitor INT
}
join_multicast() {
  python3 -c 'import socket
link = socket.socket(socket.AF_INET, socket.SOCK_DGRAM)
link.setsockopt(socket.IPPROTO_IP, socket.IP_ADD_MEMBERSHIP,
                socket.inet_aton("239.1.2.3") + socket.inet_aton("192.0.2.1"))'
}

# Notifications that the kernel drops while nobody receives are said behind those that it has queued, and what comes
# later is recorded.
tells_lost_notifications() {
  begins_monitor neigh && kill -STOP "$monitor" &&
    seq 9000 | sed 's/.*/neigh replace 2001:db8::2:& lladdr 02:00:00:00:00:01 dev lo/' | ip -batch - &&
    kill -CONT "$monitor" && lines_come "$folder/errors" 1 && soon hears_again || return
  ends_monitor INT
  [ $? = 1 ] && is_at_its_place && [ "$(<"$folder/errors")" = \
    'rtnl-record: the kernel dropped messages, since they were not received soon enough' ]
}
is_at_its_place() {
  local loss='# dropped: the kernel had no room for messages here'
  sed "/^$loss\$/,\$d" "$folder/recording" | "$program" show | grep -o 'ipv6 2001:0db8.*' >"$folder/before" &&
    sed "1,/^$loss\$/d" "$folder/recording" | "$program" show | grep -o 'ipv6 2001:0db8.*' >"$folder/behind" &&
    [ "$(grep -cx "$loss" "$folder/recording")" = 1 ] && ! grep -q ':0002:' "$folder/behind" &&
    seq "$(wc -l <"$folder/before")" | sed 's/.*/000&/; s/.*\(....\)$/ipv6 2001:0db8:0000:0000:0000:0000:0002:\1/' |
    diff - "$folder/before"
}
hears_again() {
  ip -6 neigh replace 2001:db8::9 lladdr 02:00:00:00:00:02 dev lo &&
    ip -6 neigh del 2001:db8::9 dev lo &&
    tail -n 1 "$folder/recording" | "$program" show | grep -q '2001:0db8:0000:0000:0000:0000:0000:0009$'
}

# A reader that goes away ends a monitor with the next notification.
monitor_leaves_quietly() {
  : >"$folder/output"
  ./rtnl-record monitor neigh 2>"$folder/errors" > >(head -n 1 >"$folder/output") &
  monitor=$!
  lines_come "$folder/output" 1 && ip -6 neigh replace 2001:db8::8 lladdr 02:00:00:00:00:02 dev lo &&
    soon has_ended && [ ! -s "$folder/errors" ] || return
  wait "$monitor"
  [ $? = 141 ]
}
has_ended() { ! kill -0 "$monitor" 2>/dev/null || grep -q '^State:.Z' "/proc/$monitor/status"; }

# What strace prints of the bytes that rtnl-record receives are the lines that it writes.
is_traced() {
  strace -f -o "$folder/trace" -e trace=network -e read=all -e write=all \
    ./rtnl-record dump rule >"$folder/recording" &&
    record strace "$folder/trace" | grep -A 1 received | grep -v '^[#-]' | diff - <(grep -v '^#' "$folder/recording")
}

# What `ip` and `bridge` ask for is taken of a trace, though some requests have zero bytes behind them.
takes_requests() {
  strace -f -o "$folder/trace" -e trace=network -e read=all -e write=all "$@" >/dev/null &&
    record strace "$folder/trace" >"$folder/recording" 2>"$folder/errors" && [ ! -s "$folder/errors" ] &&
    grep -q '^# sent$' "$folder/recording" && "$program" check "$folder/recording" >"$folder/checked"
}

if is_made; then
  check 'links' has_entry link 'attr 3 IFNAME - text lo'
  check 'as many links' has_as_many link ip -o link
  check 'addresses' has_entry addr 'attr 2 LOCAL - ipv4 192.0.2.1'
  check 'as many addresses' has_as_many addr ip -o addr
  check 'addresses of IPv4' has_entry addr 'attr 2 LOCAL - ipv4 192.0.2.1' --family 2
  check 'no addresses of IPv6 among them' [ "$(grep -c ' ipv6 ' "$folder/table")" = 0 ]
  check 'routes' has_entry route 'attr 1 DST - ipv4 198.51.100.0'
  check 'neighbours' has_entry neigh "$neighbour"
  check 'rules' has_entry rule 'attr 2 SRC - ipv4 192.0.2.1'
  check 'many neighbours are made' makes_neighbours
  for size in 8192 32768 1048576; do check "a buffer of $size" has_many_neighbours "$size"; done
  for size in 1 15 16 100 1000; do check "a buffer of $size, which is too small" is_cut "$size"; done
  # 99 is no family with rules, EAFNOSUPPORT.
  check 'an unknown family' [ "$(record dump rule --family 99 2>&1 >/dev/null)" = \
    'rtnl-record: the kernel answered with error 97, Address family not supported by protocol' ]
  check 'an interrupted dump' is_interrupted
  check 'a namespace that is not there' ends 3 '' \
    'rtnl-record: network namespace no/such: No such file or directory' record dump link --netns no/such
  other=rtnl-record-$$
  if makes_namespace "$other"; then
    check 'another namespace' in_another "$other"
    ip netns del "$other"
  else
    echo 'skipped: another namespace, since none can be named here'
  fi
  check 'an interrupted monitor' is_monitored INT
  check 'a monitor that is told to end' is_monitored TERM
  check 'dumps of a monitor' reads_both
  check 'addresses come and go' notifies '20 21' ipv4_ifaddr
  check 'routes come and go' notifies '24 25' ipv4_route link
  check 'addresses and routes, by words for both families' notifies '20 21 24 25' address route
  check 'all groups' notifies '20 21 24 25'
  check 'all groups by their word' notifies '20 21 24 25' all
  check 'none of another group' notifies '' ipv6_ifaddr nexthop tunnel
  check 'times' is_timed
  if printf '%s\n' 6.15 "$(uname -r)" | sort -CV; then check 'a group above 32' hears_new_group; fi
  check 'lost notifications' tells_lost_notifications
  check 'a reader that goes away from a monitor' monitor_leaves_quietly
  check 'a full device for a dump' ends 3 '' "$full" into_full_device record dump link
  if strace -o /dev/null true 2>/dev/null; then
    check 'a trace of rtnl-record' is_traced
    for kind in link addr route neigh rule; do check "the request for $kind" asks_as "$kind" 10; done
    for kind in link addr route neigh rule; do check "a trace of ip $kind" takes_requests ip "$kind"; done
    check 'a trace of bridge fdb' takes_requests bridge fdb
  else
    echo 'skipped: a trace of rtnl-record, since strace is not here or may not trace'
  fi
else
  echo 'skipped: the live way, since `ip` cannot make an address, a route, a rule or a neighbour here'
fi
