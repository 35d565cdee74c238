#!/usr/bin/env bash
# Runs the built program over a table of cases: its arguments, what it reads, its exit status and what it
# writes. Expected values are worked by hand from docs/FORMAT.md, but where a recording's table is held against
# what `show` prints of it, and an example in the help against what it says. The last line is 'N passed, M failed',
# and the status is 1 where a case failed.
set -u
cd "$(dirname "${BASH_SOURCE[0]}")/.." || exit 1
program=$(tests/helpers/proved.py) || exit 1
. tests/helpers/cases.sh

# What stands for some text, whatever it is: the texts of clap are not ours.
any='(some text)'

# holds FILE TEXT: the file has exactly these lines, no byte for no text, some text for $any.
holds() {
  case $2 in
    "$any") [ -s "$1" ] ;;
    '') [ ! -s "$1" ] ;;
    *) echo "$2" | cmp -s - "$1" ;;
  esac
}

# ends STATUS OUTPUT ERRORS COMMAND..: the command ends with this status and writes these texts. Lines of JSON
# are kept for the schema.
ends() {
  local status=$1 output=$2 errors=$3 found
  shift 3
  "$@" >"$folder/output" 2>"$folder/errors"
  found=$?
  [[ $* != *--format[\ =]json* ]] || cat "$folder/output" >>"$folder/json"
  [ "$found" = "$status" ] && holds "$folder/output" "$output" && holds "$folder/errors" "$errors"
}

# expect NAME STATUS OUTPUT ERRORS [ARGUMENT..]: a case of the program with these arguments, over standard
# input.
expect() {
  local name=$1 status=$2 output=$3 errors=$4
  shift 4
  check "$name" ends "$status" "$output" "$errors" "$program" "$@"
}

into_full_device() { "$program" "$@" >/dev/full; }
into_closed_output() { "$program" "$@" >&-; }
from_closed_input() { "$program" "$@" <&-; }
with_full_errors() { "$program" "$@" 2>/dev/full; }

# usage ARGUMENT..: a case of the program with these arguments, which are a usage error.
usage() { expect "usage error: $*" 2 '' "$any" "$@" <<<"$finish"; }

# names_show LINE ARGUMENT..: these arguments are a usage error whose last line is this one, behind clap's text.
names_show() {
  local line=$1
  shift
  ends 2 '' "$any" "$program" "$@" <<<"$finish" && [ "$(wc -l <"$folder/errors")" -gt 1 ] &&
    [ "$(tail -n 1 "$folder/errors")" = "$line" ]
}

# names_nothing ARGUMENT..: these arguments are a usage error, which is no command's name.
names_nothing() { ends 2 '' "$any" "$program" "$@" <<<"$finish" && ! grep -q '^rtnl: ' "$folder/errors"; }

# The pipe that nobody reads is opened for both first, since else its opening would wait for a reader.
into_pipe_without_reader() {
  # shellcheck disable=SC2094
  (mkfifo "$folder/pipe" && exec 3<>"$folder/pipe" 4>"$folder/pipe" 3>&- && exec "$program" "$@" >&4)
}

# The limit, in 1,024 bytes, is no more than the longest input has, so no allocator holds that input and
# the program too.
in_little_memory() { (ulimit -v 16384 && exec "$program" "$@"); }

# zeros N: N zero bytes in hexadecimal.
zeros() { head -c "$((2 * $1))" /dev/zero | tr '\0' 0; }

# comment N: a comment of N bytes, of which the last ends its line.
comment() { head -c "$(($1 - 1))" /dev/zero | tr '\0' '#' && echo; }

# sizes_of FILE: the first line that is shown of each datagram, where the recording has no blanks.
sizes_of() { awk '!/^#/ && NF { printf "datagram %d bytes %d\n", ++count, length($0) / 2 }' "$1"; }

# is_shown FILE: each datagram of the recording is shown with its size, and none is refused.
is_shown() {
  ends 0 "$any" '' "$program" show "$1" && ! grep -q '^refused' "$folder/output" &&
    [ "$(grep '^datagram ' "$folder/output")" = "$(sizes_of "$1")" ]
}

# is_canonical FILE: each datagram of the recording is canonical.
is_canonical() {
  ends 0 "$(awk '!/^#/ && NF { printf "datagram %d canonical\n", ++count }' "$1")" '' "$program" check "$1"
}

# has_true_example COMMAND: the example in the help of this command prints what the help says.
has_true_example() {
  "$program" "$1" --help | sed '1,/^Example:$/d' >"$folder/example"
  sed '/^prints$/,$d' "$folder/example" >"$folder/commands"
  sed '1,/^prints$/d; s/^  //' "$folder/example" >"$folder/printed"
  [ -s "$folder/printed" ] && (PATH=$folder:$PATH && bash "$folder/commands") | cmp -s - "$folder/printed"
}

# examples_in_help: the commands that the help of the program shows.
examples_in_help() { "$program" --help | sed -n '/^Examples:$/,/^$/s/^  //p'; }

# commands_in_help: the commands that it lists, but for its own.
commands_in_help() { "$program" --help | sed -nE '/^Commands:$/,/^$/s/^  ([a-z]+) .*/\1/p' | grep -vx help; }

# has_each_command: the help has an example of each command.
has_each_command() {
  [ "$(commands_in_help | sort)" = "$(examples_in_help | cut -d ' ' -f 2 | sort)" ]
}

# runs_in_examples COMMAND: an example of the help, over the recordings in examples/, finds nothing wrong.
runs_in_examples() { (cd examples && PATH=$folder:$PATH && ends 0 "$any" '' bash -c "$1"); }

# ---- lines, and what is shown of them

# A DONE of status 0: length 20, type 3, flags 2, sequence number 1, port 12345 (0x3039).
finish='14000000 0300 0200 01000000 39300000 00000000'
finish_message='message 3 done flags 0x0002 MULTI seq 1 port 12345
  done status 0 tail -'
finish_text="datagram 1 bytes 20
$finish_message"

# The loopback link in both orders: a header, ifinfomsg, a name and an MTU.
loopback='30000000 1000 0200 01000000 39300000 00000403 01000000 49000100 00000000 07000300 6c6f0000 08000400 00000100'
loopback_big='00000030 0010 0002 00000001 00003039 00000304 00000001 00010049 00000000 00070003 6c6f0000 00080004 00010000'
loopback_text='datagram 1 bytes 48
message 16 newlink flags 0x0002 MULTI seq 1 port 12345
  link family 0 type 772 index 1 flags 0x00010049 UP,LOOPBACK,RUNNING,LOWER_UP change 0x00000000
    attr 3 IFNAME - text lo
    attr 4 MTU - u32 65536'
# In the other order the length 48 reads as 805,306,368.
loopback_refused='datagram 1 bytes 48
refused bad length at 0'

# A link whose only attribute says that it has 3 bytes, before a header that says that it has none.
short_attribute='24000000 1000 0200 01000000 39300000 00000000 00000000 00000000 00000000 03000100 00000000 0300 0200 01000000 39300000'
# A link with nine lists in one another, the heads 4 bytes apart from place 32 on; eight levels may open.
nine_lists='44000000 1000 0200 01000000 39300000 00000000 00000000 00000000 00000000 24000180 20000180 1c000180 18000180 14000180 10000180 0c000180 08000180 04000180'

# A GET for links of 17 bytes, without the padding that its writing has, and with it.
short_get='11000000 1200 0103 01000000 00000000 00'
whole_get="$short_get 000000"
# A name whose padding isn't zero.
padded_by_one='28000000 1000 0200 01000000 39300000 00000000 00000000 00000000 00000000 06000300 6c6f0100'
padded_by_zeros='28000000 1000 0200 01000000 39300000 00000000 00000000 00000000 00000000 06000300 6c6f0000'

# The fixed lines, and the reasons behind them.
missing='No such file or directory (os error 2)'
is_folder='Is a directory (os error 21)'
closed='Bad file descriptor (os error 9)'
full_device=$'rtnl: write fault\nrtnl: standard output: No space left on device (os error 28)'
closed_output=$'rtnl: write fault\nrtnl: standard output: Bad file descriptor (os error 9)'
no_reader=$'rtnl: write fault\nrtnl: standard output: Broken pipe (os error 32)'
bad_first_line='rtnl: line 1: bad line'

# unread NAME REASON: what is said of a recording that can't be read.
unread() { printf 'rtnl: read fault\nrtnl: %s: %s\n' "$@"; }

# too_long NAME
too_long() { unread "$1" 'longer than 16777216 bytes; a recording can be cut at any line'; }

# bad_line NUMBER FILE: what is said of a bad line of a file.
bad_line() { printf 'rtnl: line %d: bad line\nrtnl: %s: bad line\n' "$@"; }

# ---- the cases

. tests/program/show.sh
. tests/program/check.sh
. tests/program/table.sh
. tests/program/request.sh
. tests/program/json.sh
. tests/program/bytes.sh
. tests/program/colour.sh
. tests/program/follow.sh
. tests/program/mirror.sh
. tests/program/explain.sh
. tests/program/kernel_errors.sh
. tests/program/dropped.sh
. tests/program/names.sh
. tests/program/unwaited.sh
. tests/program/terminal.sh
. tests/program/interrupted.sh
check 'each line of JSON is one that the schema allows' tests/schema.py "$folder/json"

finish
