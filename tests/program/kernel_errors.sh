# What `--explain` says on standard error of the errors that the kernel answers.

# little SIZE NUMBER: a number of so many bytes, the lowest first.
little() {
  local at
  for ((at = 0; at < $1; at++)); do printf '%02x' $(($2 >> 8 * at & 255)); done
}

# attribute NUMBER DIGITS: an attribute with this payload, and its padding.
attribute() {
  little 2 $((4 + ${#2} / 2))
  little 2 "$1"
  printf '%s' "$2"
  little $((-${#2} / 2 & 3)) 0
}

# said TEXT: the digits of a text and of a zero byte behind it, as the kernel's message has.
said() { printf '%s\0' "$1" | od -An -v -tx1 | tr -d ' \n'; }

# message TYPE FLAGS DIGITS: a message with this payload, sequence number 1 and port 12345.
message() {
  little 4 $((16 + ${#3} / 2))
  little 2 "$1"
  little 2 "$2"
  printf '0100000039300000%s' "$3"
}

# answer FLAGS CODE TYPE LENGTH DIGITS: an error that answers a request of this type and length, whose header
# comes back, and what is behind it.
answer() { message 2 "$1" "$(little 4 "$2")$(little 4 "$4")$(little 2 "$3")05060100000039300000$5"; }

# A request for a route of 29 bytes: its header, a struct rtmsg, and one byte. Three bytes of padding are behind it.
rest_of_request=02100000fe0300010000000008000000
gateway=$(attribute 1 "$(said 'Nexthop has invalid gateway')")
at_44=$(attribute 2 2c000000)
refused='rtnl: datagram 1: RTM_NEWROUTE refused: ENETUNREACH'

# told NAME ERRORS DIGITS..: a case of a recording with one datagram of these messages, which is accepted.
told() {
  local name=$1 errors=$2
  shift 2
  expect "$name" 0 'datagram 1 canonical' "$errors" check --explain < <(printf '%s' "$@" && echo)
}

# NLM_F_CAPPED is 0x100, and NLM_F_ACK_TLVS is 0x200. Without the first the request is there, as far as its length
# says, and what is behind it begins at a multiple of four.
told 'an error with its request' "$refused, Nexthop has invalid gateway, attribute at 44" \
  "$(answer 0x200 -101 24 29 "$rest_of_request$gateway$at_44")"
told 'an error with the header of its request' "$refused, Nexthop has invalid gateway, attribute at 44" \
  "$(answer 0x300 -101 24 29 "$gateway$at_44")"
told 'an error with the offset first' "$refused, Nexthop has invalid gateway, attribute at 44" \
  "$(answer 0x300 -101 24 29 "$at_44$gateway")"
told 'an error that says no more' "$refused" "$(answer 0 -101 24 29 "$rest_of_request")"
told 'an error that says no more, capped' "$refused" "$(answer 0x100 -101 24 29 '')"
told 'an error whose flags say no attributes' "$refused" "$(answer 0x100 -101 24 29 "$gateway$at_44")"
told 'an error whose attributes are of its request' "$refused" "$(answer 0x200 -101 24 $((16 + 44)) "$gateway$at_44")"
told 'an error whose request is cut' "$refused" "$(answer 0x200 -101 24 29 02100000)"
told 'an error whose request has no whole header' "$refused, Nexthop has invalid gateway" \
  "$(answer 0x200 -101 24 7 "$gateway")"
told 'an error with an offset alone' "$refused, attribute at 4294967295" \
  "$(answer 0x300 -101 24 29 "$(attribute 2 ffffffff)")"
told 'an error with a message alone' "$refused, Nexthop has invalid gateway" "$(answer 0x300 -101 24 29 "$gateway")"
told 'an error with other attributes' "$refused" "$(answer 0x300 -101 24 29 "$(attribute 5 01000000)")"
expect 'an error, attributes that are cut' 0 'datagram 1 accepted' "$refused" check --explain \
  < <(answer 0x300 -101 24 29 "${gateway}0800")
told 'an error, attributes that are too long' "$refused" "$(answer 0x300 -101 24 29 "${gateway}09000200 2c000000")"
told 'an error, an offset of two bytes' "$refused, Nexthop has invalid gateway" \
  "$(answer 0x300 -101 24 29 "$gateway$(attribute 2 2c00)")"
told 'an error, two offsets' "$refused, Nexthop has invalid gateway" \
  "$(answer 0x300 -101 24 29 "$gateway$at_44$at_44")"
told 'an error, two messages' "$refused, attribute at 44" "$(answer 0x300 -101 24 29 "$gateway$gateway$at_44")"
told 'an error, an empty message' "$refused, attribute at 44" "$(answer 0x300 -101 24 29 "$(attribute 1 00)$at_44")"
told 'an error, a message without a zero byte' "$refused, ab" "$(answer 0x300 -101 24 29 "$(attribute 1 6162)")"
told 'an error, a message that is no text' "$refused, \\x1b[31m\\n\\\"a\\\\\\x00\\xff\\u202eb é" \
  "$(answer 0x300 -101 24 29 "$(attribute 1 1b5b33316d0a22615c00ffe280ae6220c3a900)")"

told 'an error of another message type' 'rtnl: datagram 1: RTM_NEWQDISC refused: ENOENT' "$(answer 0x100 -2 36 20 '')"
told 'an error of the first name' 'rtnl: datagram 1: RTM_GETLINK refused: EPERM' "$(answer 0x100 -1 18 32 '')"
told 'an error of the last name' 'rtnl: datagram 1: RTM_GETLINK refused: EHWPOISON' "$(answer 0x100 -133 18 32 '')"
told 'an error behind the last name' 'rtnl: datagram 1: RTM_GETLINK refused: error -134' \
  "$(answer 0x100 -134 18 32 '')"
told 'an error between names' 'rtnl: datagram 1: RTM_GETLINK refused: error -41' "$(answer 0x100 -41 18 32 '')"
told 'an error without a name' 'rtnl: datagram 1: RTM_SETLINK refused: error -524, Not supported' \
  "$(answer 0x300 -524 19 32 "$(attribute 1 "$(said 'Not supported')")")"
told 'the least error' 'rtnl: datagram 1: RTM_SETLINK refused: error -2147483648' \
  "$(answer 0x100 -2147483648 19 32 '')"
told 'an error above 0' 'rtnl: datagram 1: RTM_SETLINK refused: error 1' "$(answer 0x100 1 19 32 '')"
told 'an error of a type without a name' 'rtnl: datagram 1: type 65535 refused: EOPNOTSUPP' \
  "$(answer 0x100 -95 65535 16 '')"
told 'an error of a type between names' 'rtnl: datagram 1: type 23 refused: EOPNOTSUPP' "$(answer 0x100 -95 23 16 '')"
told 'no error, an acknowledgement' '' "$(answer 0x100 0 24 29 '')"
# An acknowledgement has the header of its request alone, and may have a message.
told 'no error, an acknowledgement with a message' '' "$(answer 0x200 0 24 29 "$gateway")"

told 'a dump that failed' 'rtnl: datagram 1: dump failed: ENOBUFS' "$(message 3 2 "$(little 4 -105)")"
told 'a dump that failed, with a message' 'rtnl: datagram 1: dump failed: EINVAL, Unknown attribute type, attribute at 44' \
  "$(message 3 0x202 "$(little 4 -22)$(attribute 1 "$(said 'Unknown attribute type')")$at_44")"
told 'a dump that failed, whose flags say no attributes' 'rtnl: datagram 1: dump failed: EINVAL' \
  "$(message 3 2 "$(little 4 -22)$gateway")"
told 'a dump that has not failed' '' "$(message 3 0x202 "$(little 4 0)$gateway")"
told 'a dump whose status is above 0' '' "$(message 3 2 "$(little 4 5)")"
told 'a dump without a status' '' "$(message 3 2 '')"

told 'two errors' "$refused
rtnl: datagram 1: RTM_NEWADDR refused: EEXIST
rtnl: datagram 1: dump failed: ENOBUFS" "$(answer 0x100 -101 24 29 '')" "$(answer 0x100 -17 20 24 '')" \
  "$(message 3 2 "$(little 4 -105)")"
printf '%s\n' "$(answer 0x300 -101 24 29 "$gateway$at_44")" "$finish" "$(answer 0x100 -17 20 24 '')" >"$folder/answers"
expect 'errors of two datagrams, shown' 0 "$any" "$refused, Nexthop has invalid gateway, attribute at 44
rtnl: datagram 3: RTM_NEWADDR refused: EEXIST" show --explain "$folder/answers"
expect 'errors of two datagrams, in JSON' 0 "$any" "$refused, Nexthop has invalid gateway, attribute at 44
rtnl: datagram 3: RTM_NEWADDR refused: EEXIST" show --format json --explain "$folder/answers"
expect 'errors of two datagrams, in bytes' 0 "$any" "$refused, Nexthop has invalid gateway, attribute at 44
rtnl: datagram 3: RTM_NEWADDR refused: EEXIST" show --bytes --explain "$folder/answers"
expect 'errors of two datagrams, followed' 0 "$any" "$refused, Nexthop has invalid gateway, attribute at 44
rtnl: datagram 3: RTM_NEWADDR refused: EEXIST" follow --explain "$folder/answers"
expect 'errors that nobody asks for' 0 "$any" '' show "$folder/answers"
expect 'errors that are followed, which nobody asks for' 0 "$any" '' follow "$folder/answers"
expect 'an error in big order' 0 'datagram 1 canonical' "$refused, ab, attribute at 44" check --order big --explain \
  <<<'00000034 0002 0300 00000001 00003039 ffffff9b 0000001d 0018 0605 00000001 00003039 0006 0001 6162 0000 0008 0002 0000002c'
# Of a datagram that is refused it is said why, and nothing else.
expect 'an error in a refused datagram' 1 'datagram 1 refused cut at 36' "rtnl: datagram 1: cut at 36: a head is whole: \
message 2, 2 bytes left: 0000180005060100000039300000[12]00" check --explain \
  < <(answer 0x100 -101 24 29 '' && echo 1200)

# What follows a dump, as a table, reads nothing behind its end. A mirror reads all, and what else a line says to
# it than a datagram is no error once more.
ended='dump link seq 1 port 12345
end error -101
entries 0 missed 0 ignored 0 unfed'
expect 'an error that ends the dump of a table' 1 "$ended 2 damaged no interrupted no
received 76 visits 0
complete no" "$refused, Nexthop has invalid gateway, attribute at 44" \
  table --kind link --seq 1 --port 12345 --explain "$folder/answers"
expect 'an error that ends a dump that is followed' 1 "$ended 0 damaged no interrupted no
received 76 visits 0
complete no" "$refused, Nexthop has invalid gateway, attribute at 44" \
  follow --kind link --seq 1 --port 12345 --explain "$folder/answers"
expect 'errors of another dump than that of a table' 0 "$any" 'rtnl: datagram 1: RTM_NEWADDR refused: EEXIST' \
  table --kind link --seq 1 --port 12345 --explain \
  < <(answer 0x100 -17 20 24 '' | sed 's/01000000393/02000000393/' && printf '\n%s\n' "$finish")
expect 'errors, mirrored' 1 "$any" "$refused, Nexthop has invalid gateway, attribute at 44
rtnl: line 3: messages were dropped here
rtnl: datagram 3: RTM_NEWADDR refused: EEXIST" mirror --kind link --explain \
  < <(sed "1a # seq 1 port 12345 kind link\n# dropped\n\n# a comment" "$folder/answers")

# What a kernel said to `ip route add`.
expect 'an error of a recording' 0 $'datagram 1 canonical\ndatagram 2 canonical' \
  'rtnl: datagram 2: RTM_NEWROUTE refused: ENETUNREACH, Nexthop has invalid gateway' check --explain \
  < <(./rtnl-record strace examples/rich/6.1/refused.strace)
