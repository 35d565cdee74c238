# Cases of colours, in text and in bytes, read in by ../program.sh.

red=$'\e[1;31m'
bold=$'\e[1m'
dim=$'\e[2m'
cyan=$'\e[36m'
plain=$'\e[0m'

# without_colours TEXT: it without what begins and ends a colour.
without_colours() {
  local text=$1 colour
  for colour in "$red" "$bold" "$dim" "$cyan" "$plain"; do text=${text//"$colour"/}; done
  echo "$text"
}

# What runs a command on a terminal of its own, and ends with its status.
terminal='import os, pty, sys
sys.exit(os.waitstatus_to_exitcode(pty.spawn(sys.argv[1:])))'

# into_pipe VARIABLE ARGUMENT..: the program writes into a pipe; NO_COLOR is this variable, or
# isn't there.
into_pipe() {
  local variable=$1
  shift
  (set -o pipefail && env -u NO_COLOR ${variable:+"$variable"} "$program" "$@" | cat)
}

# onto_terminal VARIABLE ARGUMENT..: the same on a terminal, which makes two bytes of the end of
# each line. Standard input and standard error are what they are here.
onto_terminal() {
  local variable=$1
  shift
  # shellcheck disable=SC2016
  (set -o pipefail && env -u NO_COLOR ${variable:+"$variable"} python3 -c "$terminal" \
    sh -c 'exec "$0" "$@" 2>&3 <&4 3>&- 4<&-' "$program" "$@" 3>&2 4<&0 </dev/null | tr -d '\r')
}

# has_colours NAME STATUS TEXT ARGUMENT..: the text is in colours where they are wanted, and else
# without.
has_colours() {
  local name=$1 status=$2 coloured=$3 without
  without=$(without_colours "$3")
  shift 3
  in_pipe() {
    check "$name into a pipe$1" ends "$status" "$2" '' into_pipe "$3" "${@:4}"
  }
  in_pipe ', no colour' "$without" '' "$@"
  in_pipe ', --color auto' "$without" '' "$@" --color auto
  in_pipe ', --color never' "$without" '' "$@" --color never
  in_pipe ', --color always' "$coloured" '' "$@" --color=always
  in_pipe ', --color always and NO_COLOR' "$coloured" NO_COLOR=1 "$@" --color always
  seen() {
    check "$name on a terminal$1" ends "$status" "$2" '' onto_terminal "$3" "${@:4}"
  }
  seen '' "$coloured" '' "$@"
  seen ', --color auto' "$coloured" '' "$@" --color auto
  seen ', --color never' "$without" '' "$@" --color never
  seen ', NO_COLOR' "$without" NO_COLOR=1 "$@"
  seen ', NO_COLOR and --color auto' "$without" NO_COLOR=0 "$@" --color auto
  seen ', an empty NO_COLOR' "$coloured" NO_COLOR= "$@"
  seen ', --color always and NO_COLOR' "$coloured" NO_COLOR=1 "$@" --color always
}

# ---- bytes

# A link with a name and its padding, a length that is bad, and 17 bytes behind it.
echo "31000000 $zero_link 05000300 6c000000 03000100 000102030405060708090a0b0c0d0e0f10" \
  >"$folder/colours"
in_colour="datagram 1 bytes 61
$(rows_of_link 49 31)
   32  05 00                                                rta_len 5
   34  03 00                                                rta_type 3 IFLA_IFNAME
   36  6c                                                   IFLA_IFNAME text l
   37  00 00 00                                             ${dim}padding$plain
   40  03 00                                                $red!! rta_len 3: bad length at 40, 9 bytes left$plain
   42  01 00                                                rta_type 1 IFLA_ADDRESS
   44  00 01 02 03 04 05 06 07 08 09 0a 0b 0c 0d 0e 0f  ${dim}unread$plain
   60  10
refused bad length at 40"
has_colours 'bytes' 1 "$in_colour" show --bytes "$folder/colours"
has_colours 'bytes, followed,' 1 "$in_colour" follow --bytes "$folder/colours"
cut_object='{"datagram":1,"offset":0,"length":2,"bytes":"1200","level":0,'
cut_object+='"name":"nlmsghdr","value":null,"fault":"cut"}'
expect 'bytes in JSON, no colour' 1 "$cut_object" '' \
  show --bytes --format json --color always <<<1200

# ---- text

# A link whose name looks like the line of a message, with an attribute that has no name; a route
# with a next hop; the end of a dump; a message of an unknown type; a bad length; and a datagram
# that is too large.
{
  echo '34000000 1000 0200 01000000 39300000 00000403 01000000 49000100 00000000' \
    '1000 0300 6d6573736167652031207800 0400 ff3f'
  echo '38000000 1800 0200 01000000 39300000 02180000 fe030001 00000000 0800 0100 c6336400' \
    '1400 0900 1000 00 00 02000000 0800 0500 c0000201'
  echo "$finish"
  echo '14000000 ff00 0000 01000000 39300000 6d657373'
  echo "$short_attribute"
  zeros 65537
} >"$folder/text"
text_in_colour="datagram 1 bytes 52
message 16 ${bold}newlink$plain flags 0x0002 MULTI seq 1 port 12345
  link family 0 type 772 index 1 flags 0x00010049 UP,LOOPBACK,RUNNING,LOWER_UP change 0x00000000
    attr 3 ${cyan}IFNAME$plain - text message 1 x
    attr 16383 $cyan-$plain - hex -
datagram 2 bytes 56
message 24 ${bold}newroute$plain flags 0x0002 MULTI seq 1 port 12345
  route family 2 dst_len 24 src_len 0 tos 0 table 254 protocol 3 scope 0 type 1 flags 0x00000000
    attr 1 ${cyan}DST$plain - ipv4 198.51.100.0
    attr 9 ${cyan}MULTIPATH$plain - hops 1
      hop flags 0x00 - hops 0 index 2
        attr 5 ${cyan}GATEWAY$plain - ipv4 192.0.2.1
datagram 3 bytes 20
message 3 ${bold}done$plain flags 0x0002 MULTI seq 1 port 12345
  done status 0 tail -
datagram 4 bytes 20
message 255 ${bold}other$plain flags 0x0000 - seq 1 port 12345
  bytes 6d657373
datagram 5 bytes 52
${red}refused bad length at 32$plain
datagram 6 bytes 65537
${red}refused too large$plain"
has_colours 'text' 1 "$text_in_colour" show "$folder/text"
has_colours 'text, followed,' 1 "$text_in_colour" follow "$folder/text"
check 'text on a terminal, no arguments' ends 1 "$text_in_colour" '' \
  onto_terminal '' <"$folder/text"
check 'text into a pipe, no arguments' ends 1 "$(without_colours "$text_in_colour")" '' \
  into_pipe '' <"$folder/text"
expect 'text in colours, order big' 0 "datagram 1 bytes 48
message 16 ${bold}newlink$plain flags 0x0002 MULTI seq 1 port 12345
  link family 0 type 772 index 1 flags 0x00010049 UP,LOOPBACK,RUNNING,LOWER_UP change 0x00000000
    attr 3 ${cyan}IFNAME$plain - text lo
    attr 4 ${cyan}MTU$plain - u32 65536" '' show --order big --color always <<<"$loopback_big"
expect 'text in colours, explained' 1 "datagram 1 bytes 20
message 3 ${bold}done$plain flags 0x0002 MULTI seq 1 port 12345
  done status 0 tail -
datagram 2 bytes 2
${red}refused cut at 0$plain" \
  'rtnl: datagram 2: cut at 0: a head is whole: message 1, 2 bytes left: [12]00' \
  show --color always --explain < <(printf '%s\n' "$finish" 1200)
expect 'nothing in colours' 0 '' '' show --color always </dev/null
expect 'JSON, no colour' 0 "$finish_json" '' show --format json --color always <<<"$finish"
expect 'JSON, followed, no colour' 0 "$finish_json" '' \
  follow --format json --color always <<<"$finish"

# is_plain_below COMMAND RECORDING: the recording's text has colours, and without these it is what
# is printed without.
is_plain_below() {
  local status
  "$program" "$1" "$2" >"$folder/plain"
  status=$?
  "$program" "$1" --color always "$2" >"$folder/coloured"
  [ $? = "$status" ] && [ -s "$folder/plain" ] && ! cmp -s "$folder/coloured" "$folder/plain" &&
    sed 's/\x1b\[[0-9;]*m//g' "$folder/coloured" | cmp - "$folder/plain"
}
for file in examples/*.hex measure/*.hex; do
  for command in show follow; do
    check "colours of $file, $command" is_plain_below "$command" "$file"
  done
done

# ---- what fails

usage check --color always
usage table --kind link --seq 1 --port 1 --color never
usage show --color blue
usage show --color
usage show --bytes --color
expect 'a bad line in colours' 1 '' "$bad_first_line" show --color always <<<0g
check 'text in colours, a full device' ends 3 '' "$full_device" \
  into_full_device show --color always <<<"$finish"
check 'bytes in colour, a full device' ends 3 '' "$full_device" \
  into_full_device show --bytes --color always <<<"$short_attribute"
