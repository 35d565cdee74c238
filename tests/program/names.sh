# Names that are no plain text, read in by ../program.sh.

# A file of a name with characters that are not seen: one that turns the text around, two without a width, a soft
# hyphen, a separator of lines, a byte order mark, and a tag beyond the first plane; letters stay.
unseen=$'a\u202eb\u200b\u200f\u00ad\u2028\ufeff\U000e0001é\u4e2d'
shown_unseen='a\u202eb\u200b\u200f\xad\u2028\ufeff\U000e0001é中'
expect 'a missing file of an unseen name' 3 '' "$(unread "$folder/$shown_unseen" "$missing")" \
  show "$folder/$unseen"
cp "$folder/bad" "$folder/$unseen"
expect 'a bad line of a file of an unseen name' 1 '' "$(bad_line 1 "$folder/$shown_unseen")" \
  show "$folder/$unseen"
# A separator of lines is a blank.
check 'an unseen name without a command' names_show "$show_line \"$shown_unseen\"" "$unseen"
check 'the text of clap has no unseen name' ends 2 '' "error: unrecognized subcommand '$shown_unseen'

Usage: rtnl [COMMAND]

For more information, try '--help'.
$show_line \"$shown_unseen\"" "$program" "$unseen"
check 'each character that Python knows' tests/program/characters.py "$program"

# What is no UTF-8: the kit opens no file of such a name, so the shell does.
no_text() { echo "rtnl: $1 is not UTF-8; a file of such a name is read by rtnl show <FILE"; }
cp "$folder/link" "$folder/"$'\xff'
expect 'a name that is no text' 2 '' "$(no_text '\xff')" show $'\xff' </dev/null
expect 'a name that is no text, by the shell' 0 "$loopback_text" '' show <"$folder/"$'\xff'
expect 'a name that is partly text' 2 '' "$(no_text 'a\n\xe2(\"é\xc3')" check $'a\n\xe2("\xc3\xa9\xc3' </dev/null
expect 'an option that is no text' 2 '' "$(no_text '--order=\xff')" show --order=$'\xff' </dev/null
expect 'a command that is no text' 2 '' "$(no_text '\x80')" $'\x80' x </dev/null
mkdir "$folder/"$'\xfe'
cp "$program" "$folder/"$'\xfe/rtnl'
check 'a program whose name is no text' ends 0 "$finish_text" '' "$folder/"$'\xfe/rtnl' show <<<"$finish"
check 'the usage of a program whose name is no text' ends 2 '' "$any" "$folder/"$'\xfe/rtnl' --order <<<"$finish"
without_name() { (exec -a '' "$program" show); }
check 'a program without a name' ends 0 "$finish_text" '' without_name <<<"$finish"

# Arguments of any length.
for length in 255 256 257 4096 100000; do
  long=$(comment "$length" | tr '#\n' 'ab')
  expect "a name of $length bytes" 3 '' "$(unread "$folder/missing/$long" "$([ "$length" -lt 4096 ] &&
    echo "$missing" || echo 'File name too long (os error 36)')")" show "$folder/missing/$long"
done
