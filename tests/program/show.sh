# Cases of `show`, and of the program without a command, read in by ../program.sh.

# The first run also builds the program where it isn't built.
check 'the script without arguments' ends 0 "$finish_text" '' ./rtnl <<<"$finish"
expect 'no arguments' 0 "$finish_text" '' <<<"$finish"
expect 'show, standard input' 0 "$finish_text" '' show <<<"$finish"
echo "$loopback" >"$folder/link"
expect 'show FILE' 0 "$loopback_text" '' show "$folder/link" <<<"$finish"
expect 'show behind the end of options' 0 "$loopback_text" '' show -- "$folder/link" </dev/null
expect 'show -, which is standard input' 0 "$finish_text" '' show - <<<"$finish"
expect 'show ./-, which is a file' 3 '' "$(unread ./- "$missing")" show ./- <<<"$finish"
expect 'order little' 0 "$loopback_text" '' show --order little <<<"$loopback"
expect 'order big' 0 "$loopback_text" '' show --order big <<<"$loopback_big"
expect 'order big, FILE' 1 "$loopback_refused" '' show --order=big "$folder/link" </dev/null
expect 'order little over big numbers' 1 "$loopback_refused" '' show --order little <<<"$loopback_big"
expect 'a rule' 0 'datagram 1 bytes 28
message 32 newrule flags 0x0002 MULTI seq 1 port 12345
  rule family 2 dst_len 0 src_len 0 tos 0 table 254 action 1 flags 0x00000000' '' show \
  <<<'1c000000 2000 0200 01000000 39300000 02000000 fe000001 00000000'
expect 'a rule, order big' 0 'datagram 1 bytes 28
message 32 newrule flags 0x0002 MULTI seq 1 port 12345
  rule family 2 dst_len 0 src_len 0 tos 0 table 254 action 1 flags 0x00000000' '' show --order big \
  <<<'0000001c 0020 0002 00000001 00003039 02000000 fe000001 00000000'
expect 'a rule and a request of rules, cut' 1 'datagram 1 bytes 24
refused short body at 0
datagram 2 bytes 16
refused short body at 0' '' show \
  < <(printf '%s\n' '18000000 2000 0200 01000000 39300000 02000000 fe000001' '10000000 2200 0103 01000000 00000000')
for file in examples/*.hex; do
  check "recording $file" is_shown "$file"
  check "recording $file, checked" is_canonical "$file"
done

expect 'help' 0 "$any" '' --help <<<"$finish"
expect 'help of show' 0 "$any" '' show --help <<<"$finish"
expect 'help of request, as a command' 0 "$any" '' help request <<<"$finish"
check 'help, a full device' ends 3 '' "$full_device" into_full_device --help </dev/null
check 'help of table, standard output closed' ends 3 '' "$closed_output" into_closed_output table --help </dev/null
expect 'version' 0 'rtnl 0.3.0' '' --version <<<"$finish"
expect 'version, in short' 0 'rtnl 0.3.0' '' -V <<<"$finish"
check 'version, a full device' ends 3 '' "$full_device" into_full_device --version </dev/null
check 'version, standard output closed' ends 3 '' "$closed_output" into_closed_output -V </dev/null
ln -s "$program" "$folder/rtnl"
# The example of follow asks the kernel, and shows nothing.
for command in show check table request; do
  check "example in the help of $command" has_true_example "$command"
done
check 'an example of each command in the help' has_each_command
while IFS= read -r example; do
  check "in the help: $example" runs_in_examples "$example"
done < <(examples_in_help)
usage show --order middle
usage show --order
usage show --order little --order big
usage --depth 3
usage show --depth 3
usage --order big
usage reveal
usage show --version
usage show "$folder/link" "$folder/link"
usage show $'\xff'
# Control characters, backslashes and quotes in a name, and how they are shown; a letter beyond ASCII stays.
odd_name=$'a\n\r\t\x1b[31m\x01\x7f\xc2\x9b\\"\xc3\xa9 b'
shown_name='a\n\r\t\x1b[31m\x01\x7f\x9b\\\"é b'
# A file in the place of a command, be it there or not.
show_line='rtnl: to show a recording: rtnl show'
check 'a file without a command' names_show "$show_line $folder/link" "$folder/link"
check 'a missing file without a command' names_show "$show_line links.hex" links.hex
check 'a name like that of a command' names_show "$show_line shwo" shwo
check 'standard input without a command' names_show "$show_line -" -
check 'a file without a command, an option behind it' names_show "$show_line links.hex" links.hex --order big
check 'a file behind the end of options' names_show "$show_line -- -x.hex" -- -x.hex
check 'a file with a blank in its name' names_show "$show_line \"my links.hex\"" 'my links.hex'
check 'a file of an odd name without a command' names_show "$show_line \"$shown_name\"" "$odd_name"
check 'a file of an escape without a command' names_show "$show_line a\\x1b[m.hex" $'a\x1b[m.hex'
# shows_controls: standard error has a control character beside newlines.
shows_controls() { LC_ALL=C grep -q $'[\x01-\x09\x0b-\x1f\x7f]' "$folder/errors"; }
# is_shown_plainly ARGUMENT..: a usage error whose text has so many lines as it would have of a plain word, and no
# control character.
is_shown_plainly() {
  ends 2 '' "$any" "$program" "$@" </dev/null && ! shows_controls && ! grep -q '^forged' "$folder/errors"
}
forged=$'x\x1b[2J\nforged'
check 'an odd name in the text of clap' is_shown_plainly "$forged"
check 'an odd value in the text of clap' is_shown_plainly table --kind link --port 1 --seq "$forged"
check 'an odd option in the text of clap' is_shown_plainly show "--$forged"
check 'an odd argument in the text of clap' is_shown_plainly show x "$forged"
check 'no name of a file' names_show "$show_line \"\"" ''
check 'help of an unknown command' names_nothing help links.hex
check 'an unknown option' names_nothing --links.hex
check 'an unknown option of a command' names_nothing show --links.hex
# Arguments are looked at before FILE is opened.
usage show --order middle "$folder/missing"

expect 'a missing file' 3 '' "$(unread "$folder/missing" "$missing")" show "$folder/missing" <<<"$finish"
expect 'a folder as FILE' 3 '' "$(unread "$folder" "$is_folder")" show "$folder" <<<"$finish"
expect 'a folder as standard input' 3 '' "$(unread 'standard input' "$is_folder")" <"$folder"
check 'standard input closed' ends 3 '' "$(unread 'standard input' "$closed")" from_closed_input
check 'a full device' ends 3 '' "$full_device" into_full_device <<<"$finish"
check 'standard output closed' ends 3 '' "$closed_output" into_closed_output <<<"$finish"
check 'a pipe that nobody reads' ends 3 '' "$no_reader" into_pipe_without_reader <<<"$finish"
check 'a fault that cannot be printed' ends 3 '' '' with_full_errors show "$folder/missing" </dev/null
check 'nothing for a full device' ends 0 '' '' into_full_device </dev/null

# A file is named wherever it is what failed.
echo zz >"$folder/bad"
expect 'a bad line of a FILE' 1 '' "$(bad_line 1 "$folder/bad")" show "$folder/bad" <<<"$finish"
check 'a full device, FILE' ends 3 '' "$full_device" into_full_device show "$folder/link"

cp "$folder/bad" "$folder/$odd_name"
expect 'a bad line of a FILE of an odd name' 1 '' "$(bad_line 1 "$folder/$shown_name")" show "$folder/$odd_name"
expect 'the same, explained' 1 '' "rtnl: line 1: bad line
rtnl: $folder/$shown_name: line 1, column 1: byte 0x7a is no hexadecimal digit" show --explain "$folder/$odd_name"
expect 'a missing file of an odd name, explained' 3 '' "$(unread "x$shown_name" "$missing")" check --explain "x$odd_name"

expect 'an odd number of digits' 1 '' "$bad_first_line" < <(printf 'abc')
expect 'odd digits with blanks' 1 '' "$bad_first_line" <<<'14 00 0'
expect 'a byte that is no digit' 1 '' "$bad_first_line" <<<'0g'
expect 'a byte above ASCII' 1 '' "$bad_first_line" < <(printf '\xff\xff\n')
expect 'a zero byte' 1 '' "$bad_first_line" < <(printf '0\0\n')
expect 'a form feed is no blank' 1 '' "$bad_first_line" < <(printf '00\f\n')
expect 'a comment behind a blank' 1 '' "$bad_first_line" <<<' # note'
expect 'a comment behind digits' 1 '' "$bad_first_line" <<<"$finish # note"
expect 'lines are counted with comments and blank ones' 1 '' 'rtnl: line 6: bad line' \
  < <(printf '# note\n\n%s\n \t\r\n# zz\nzz\n%s\n' "$finish" "$finish")
expect 'the first bad line of two, behind a refused datagram' 1 '' 'rtnl: line 2: bad line' \
  < <(printf '%s\n123\nzz\n' "$short_attribute")

expect 'empty input' 0 '' '' </dev/null
expect 'comments and blank lines alone' 0 '' '' < <(printf '# note\n\n \t\r\n#\n')
expect 'upper-case digits' 0 "$loopback_text" '' <<<"${loopback^^}"
expect 'tabs and carriage returns' 0 "$finish_text" '' < <(printf '\t%s\r\n' "${finish// /$'\t'}")
expect 'no blanks' 0 "$finish_text" '' <<<"${finish// /}"
expect 'no newline at the end' 0 "$finish_text" '' < <(printf '# note\n%s' "$finish")

expect 'bad length of an attribute' 1 $'datagram 1 bytes 52\nrefused bad length at 32' '' <<<"$short_attribute"
expect 'cut' 1 $'datagram 1 bytes 15\nrefused cut at 0' '' < <(zeros 15)
expect 'short body' 1 $'datagram 1 bytes 16\nrefused short body at 0' '' <<<'10000000 0200 0000 01000000 39300000'
expect 'too deep' 1 $'datagram 1 bytes 68\nrefused too deep at 64' '' <<<"$nine_lists"
expect 'the largest datagram' 1 $'datagram 1 bytes 65536\nrefused bad length at 0' '' < <(zeros 65536)
expect 'a datagram too large' 1 $'datagram 1 bytes 65537\nrefused too large' '' < <(zeros 65537)
expect 'refused between two that are shown' 1 \
  "$finish_text"$'\ndatagram 2 bytes 52\nrefused bad length at 32\ndatagram 3 bytes 20\n'"$finish_message" '' \
  < <(printf '%s\n' "$finish" "$short_attribute" "$finish")

# The longest input has 2^24 bytes, here a comment and the 46 bytes of a DONE with its blanks and newline.
{ comment 16777170 && echo "$finish"; } >"$folder/longest"
{ comment 16777171 && echo "$finish"; } >"$folder/too_long"
expect 'the longest input' 0 "$finish_text" '' <"$folder/longest"
expect 'the longest input as FILE' 0 "$finish_text" '' show "$folder/longest" </dev/null
expect 'an input too long' 3 '' "$(too_long 'standard input')" <"$folder/too_long"
expect 'a FILE too long' 3 '' "$(too_long "$folder/too_long")" show "$folder/too_long" </dev/null
check 'out of memory' ends 4 '' 'rtnl: out of memory' in_little_memory <"$folder/longest"
