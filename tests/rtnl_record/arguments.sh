# The arguments of rtnl-record, what it says of files, and how it ends.

commands=(dump monitor pcap rtmon strace xxd)
without_output() { record "$@" >&-; }
without_input() { record "$@" <&-; }

# usage ARGUMENT..: a usage error, reported in one line.
usage() { check "usage error: $*" ends 2 '' 'rtnl-record: ..' record "$@" </dev/null; }

# helps COMMAND: the help is printed, with its example and the exit statuses.
helps() {
  record "$1" --help >"$folder/output" 2>"$folder/errors" && [ ! -s "$folder/errors" ] &&
    grep -q '^Example:$' "$folder/output" && grep -q '^Exit status:$' "$folder/output"
}

# helps_all: the help has each command.
helps_all() {
  diff <(printf '%s\n' "${commands[@]}") \
    <(record --help | sed -n '/^Commands:$/,/^$/s/^  \([a-z]*\) .*/\1/p')
}

for arguments in '' '--unknown' 'other' 'dum link' 'dump' 'dump links' 'dump link addr' 'dump link --family' \
  'dump link --family -1' 'dump link --family 256' 'dump link --family +1' 'dump link --family 0x1' \
  'dump link --fam 2' 'dump link --buffer 0' 'dump link --buffer 1048577' 'dump link --buffer 1e3' \
  'dump link --family inet,inet6' 'dump link --family INET' 'dump link --family' 'dump link --family can' \
  'dump link --ext-mask' 'dump link --ext-mask=' 'dump link --ext-mask vf,' 'dump link --ext-mask vf,1' \
  'dump link --ext-mask 0x1' 'dump link --ext-mask -1' 'dump link --ext-mask 4294967296' 'dump link --proxy=1' \
  'dump class' 'dump filter' 'dump class --dev' 'dump qdisc --dev lo' 'dump link --dev lo' 'dump addr --proxy' \
  'dump addr --ext-mask vf' 'dump mdb --family inet' 'dump nexthops' \
  'dump link --netns' 'dump link --time' 'monitor links' 'monitor LINK' 'monitor none' 'monitor link --family 2' \
  'monitor --timeout 1' 'monitor --dump' 'monitor --dump links' 'monitor --dump=' 'monitor --dump link,' \
  'monitor --dump link,,addr' 'monitor --dump link --dump ,' 'monitor --dum link' 'monitor --again' \
  'monitor --aga none' 'monitor --dump class' 'monitor --dump link,filter' 'monitor --dev lo' \
  'monitor --dev lo --dump link' 'monitor --proxy' 'monitor --ext-mask vf' 'dump link --again none' 'pcap' \
  'pcap one two' 'rtmon' 'rtmon one two' 'strace one two' 'strace --unknown' \
  'xxd one two' 'xxd --cook' 'xxd --version' '--version=1' '--vers'; do
  # shellcheck disable=SC2086
  usage $arguments
done
usage dump $'a kind\nin two lines'
check 'help' helps_all
version=$("$program" --version)
check 'the version, that of the program' ends 0 "rtnl-record ${version#rtnl }" '' record --version
check 'the version in short' ends 0 "rtnl-record ${version#rtnl }" '' record -V
for command in "${commands[@]}"; do check "help of $command" helps "$command"; done

read_errors='No such file or directory'
for command in pcap rtmon strace xxd; do
  check "$command: no such file" ends 3 '' "rtnl-record: $folder/none: $read_errors" record "$command" "$folder/none"
  check "$command: a folder" ends 3 '' "rtnl-record: $folder: Is a directory" record "$command" "$folder"
  check "$command: closed input" ends 3 '' 'rtnl-record: standard input is closed' without_input "$command" -
  check "$command: closed output" ends 3 '' 'rtnl-record: standard output is closed' without_output "$command" -
done
check 'a class without its device' ends 2 '' 'rtnl-record: class needs --dev; see --help' record dump class
check 'an option of another kind' ends 2 '' 'rtnl-record: --proxy goes with neigh; see --help' record dump addr --proxy
check 'a family by no word' ends 2 '' "rtnl-record: argument --family: 'can' is no address family; there are inet, \
inet6, bridge, packet, mpls, ipmr, ip6mr; see --help" record dump addr --family can
check 'a bit by no word' ends 2 '' "rtnl-record: argument --ext-mask: 'vx' is no bit of the mask; there are vf, \
brvlan, brvlan-compressed, skip-stats, mrp, cfm, mst; see --help" record dump link --ext-mask vf,vx
none='there is none of this name or index'
for device in none 0 2147483647 4294967297 99999999999999999999 lolololololololo ''; do
  check "no such device: $device" ends 3 '' "rtnl-record: device $device: $none" record dump class --dev "$device"
done
check 'control characters in the name of a device' ends 3 '' "rtnl-record: device no\x1b[31m: $none" \
  record dump class --dev $'no\e[31m'
check 'no such device for a monitor' ends 3 '' "rtnl-record: device none: $none" \
  record monitor --dump link,filter --dev none
check 'no such pipe' ends 3 '' "rtnl-record: $folder/none: $read_errors" record monitor --again "$folder/none"
check 'a folder for a pipe' ends 3 '' "rtnl-record: $folder: Is a directory" record monitor --again "$folder"
check 'control characters in the name of a pipe' ends 3 '' "rtnl-record: no\\x1b[31m: $read_errors" \
  record monitor --again $'no\e[31m'
check 'control characters in a name' ends 3 '' 'rtnl-record: no\x1b[31m\nfile: '"$read_errors" \
  record pcap $'no\e[31m\nfile'
check 'a name that is damaged, with its capture' ends 1 '' \
  'rtnl-record: examples/c/stream.c: byte 0: neither pcap nor pcapng' record pcap examples/c/stream.c
full='rtnl-record: standard output: No space left on device'
check 'a full device' ends 3 '' "$full" into_full_device record pcap examples/links.pcap
check 'help, a full device' ends 3 '' "$full" into_full_device record --help
check 'version, a full device' ends 3 '' "$full" into_full_device record --version

# A reader that goes away ends it at once, without a word, by the signal that is for this.
leaves_quietly() {
  yes "$(<examples/rules.xxd)" | ./rtnl-record xxd 2>"$folder/errors" | head -n 3 >"$folder/output"
  [ "${PIPESTATUS[*]}" = '141 141 0' ] && [ ! -s "$folder/errors" ] && [ "$(wc -l <"$folder/output")" = 3 ]
}
check 'a reader that goes away' leaves_quietly

# Each datagram is printed before the next one is there.
prints_at_once() {
  local line
  mkfifo "$folder/pipe" && exec {out}< <(./rtnl-record "$1" - <"$folder/pipe") || return
  exec {into}>"$folder/pipe"
  cat "$2" >&"$into"
  read -r -t 10 line <&"$out"
  local found=$?
  exec {into}>&- {out}<&-
  rm "$folder/pipe"
  [ "$found" = 0 ] && [ -n "$line" ]
}
check 'pcap as it comes' prints_at_once pcap examples/links.pcap
check 'rtmon as it comes' prints_at_once rtmon examples/links.rtmon

# takes_own_folder PROGRAM: where it is installed it takes its own folder alone, whatever else lies beside it.
takes_own_folder() {
  local prefix=$folder/prefix line='raise SystemExit("another module")' module
  mkdir -p "$prefix/bin/record" "$prefix/share/rtnl-record" && cp rtnl-record "$prefix/bin" &&
    cp record/*.py "$prefix/share/rtnl-record" && ln -s prefix/bin/rtnl-record "$folder/linked" || return
  for module in argparse commands signal typing; do
    echo "$line" | tee "$prefix/bin/$module.py" >"$prefix/bin/record/$module.py"
  done
  [ "$("$1" xxd examples/rules.xxd)" = "$(record xxd examples/rules.xxd)" ]
}
check 'its own folder' takes_own_folder "$folder/prefix/bin/rtnl-record"
rm -rf "$folder/prefix" "$folder/linked"
check 'its own folder, through a link' takes_own_folder "$folder/linked"
rm -rf "$folder/prefix/share"
check 'its folder is missing' ends 3 '' 'rtnl-record: its modules are missing' "$folder/prefix/bin/rtnl-record" --help

# All modules are of Python 3.8.
is_of_old_python() {
  python3 -B - rtnl-record record/*.py tests/rtnl_record/*.py <<'PY'
import ast, sys
for name in sys.argv[1:]:
    ast.parse(open(name, encoding="utf-8").read(), name, feature_version=(3, 8))
PY
}
check 'the language of the modules' is_of_old_python
