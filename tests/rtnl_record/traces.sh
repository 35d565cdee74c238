# What rtnl-record makes of the traces beside this file.

traces=tests/rtnl_record

# rows FILE FROM TO: the bytes that strace printed in these lines, which are rows, as they were received.
rows() {
  echo '# received'
  sed -n "$2,$3p" "$traces/$1.strace" | grep '^ | ' | cut -c 11-58 | tr -d ' \n' && echo
}

# digits FILE LINE [WAY]: the bytes that strace wrote in quotes in this line.
digits() {
  echo "# ${3-received}"
  sed -n "$2p" "$traces/$1.strace" | grep -o '\\x..' | tr -d '\\x\n' && echo
}

# gives FILE TEXT [ERRORS]: the trace gives these lines, and from standard input too.
gives() {
  local errors=${3:+rtnl-record: NAME: $3}
  check "$1" ends 0 "$2" "${errors/NAME/$traces/$1.strace}" record strace "$traces/$1.strace"
  check "$1 on standard input" ends 0 "$2" "${errors/NAME/standard input}" record strace <"$traces/$1.strace"
}

# is_refused FILE OUTPUT ERROR: the trace is refused behind this output.
is_refused() {
  check "$1 is refused" ends 1 "$2" "rtnl-record: $traces/$1.strace: $3" record strace "$traces/$1.strace"
}

# without FILE LINES: the trace without these lines.
without() { sed "$2d" "$traces/$1.strace"; }

# Two processes, one of which waits while the other peeks, receives, and receives from another kind of socket. Of
# what they sent strace was not asked for the bytes.
silent='left out: 1 sent datagrams, of which strace printed no bytes; run it with -e write=all'
gives rows "$(rows rows 9 17; rows rows 23 28)" "$silent"
gives rows_on_errors "$(rows rows_on_errors 10 18; rows rows_on_errors 24 29)" "$silent"
gives quoted "$(digits quoted 4 sent; digits quoted 6; digits quoted 10)"
# The same calls broken off as strace does it at other moments.
check 'a socket that is opened in two lines' ends 0 \
  "$(digits quoted 4 sent; digits quoted 6; digits quoted 10)" '' record strace < <(
    sed -E '1s/\) += 3/ <unfinished ...>\n24565 <... socket resumed>) = 3/' "$traces/quoted.strace"
  )
check 'another process begins in a call' ends 0 "$(rows rows_on_errors 10 18; rows rows_on_errors 24 29)" \
  "rtnl-record: standard input: $silent" record strace < <(
    sed '3s/ <unf.*/strace: Process 24379 attached\n <unfinished ...>/' "$traces/rows_on_errors.strace"
  )
# Calls with their times, the first of which only peeks at a size.
gives peeked "$(rows peeked 6 14)" "$silent"
gives two_buffers "$(rows two_buffers 4 5)$(rows two_buffers 7 13 | tail -n 1)"

is_refused cut "$(digits cut 4 sent)" 'line 6: strace cut the bytes off; run it with -s 65536'
is_refused octal '' 'line 4: the bytes are not in hexadecimal; run strace with -xx'
is_refused fields '' 'line 1: strace printed no bytes; run it with -e read=all'
# The program has got the first 20 bytes of each, and of one strace says how many it had.
is_refused short_buffer "# received
# cut: 20 bytes of a longer one
$(rows short_buffer 3 4 | tail -n 1)" 'line 1: the datagram was cut: 20 bytes of a longer one are recorded'
is_refused short_argument "# received
# cut: 20 of 1468 bytes
$(rows short_argument 3 4 | tail -n 1 | cut -c 1-40)" \
  'line 2: the datagram was cut: 20 of 1468 bytes are recorded'
damaged='rtnl-record: standard input: line'
check 'a row is missing' ends 1 '' "$damaged 7: a row is missing before the one of place 00020" record strace < <(
  without peeked 7
)
check 'the last row is missing' ends 1 '' "$damaged 4: 132 bytes were received, and 128 of them are here" \
  record strace < <(without peeked 14)
check 'the beginning of a call is missing' ends 1 "$(digits quoted 4 sent; digits quoted 6)" \
  "$damaged 9: the beginning of this recvfrom isn't known" record strace < <(without quoted 2)
nothing='rtnl-record: standard input: no datagram of a socket for rtnetlink'
check 'nothing is received' ends 1 '' "$nothing" record strace \
  <<<'recvmsg(3, {msg_name={sa_family=AF_NETLINK}}, 0) = -1 EAGAIN (Some reason)'
check 'another protocol' ends 1 '' "$nothing" record strace < <(
  sed 's/NETLINK_ROUTE/NETLINK_GENERIC/' "$traces/quoted.strace"
)
check 'a full device for a trace' ends 3 '' "$full" into_full_device record strace "$traces/peeked.strace"
