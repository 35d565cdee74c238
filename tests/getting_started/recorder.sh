# The manual page of rtnl-record and its completions, by its help, as pages.sh, manual.sh and completions.sh have it
# of rtnl.

# as_recorder COMMAND..: with the recorder for the program that these scripts compare.
as_recorder() {
  local of=rtnl-record page=share/man/man1/rtnl-record.1 manual=$prefix/share/man/man1/rtnl-record.1
  local commands_of=(dump monitor pcap rtmon strace xxd)
  local sections='NAME SYNOPSIS DESCRIPTION OPTIONS EXIT STATUS DIAGNOSTICS FILES STANDARDS HISTORY EXAMPLES SEE ALSO'
  "$@"
}

# words_of OPTION COMMAND: the words that the help of a command names behind an argument.
groups_in_help() {
  "$user/rtnl-record" monitor --help | sed -n '/^  GROUP /,/^$/p' | tr '\n' ' ' |
    sed 's/.*: //' | tr -d ' ' | tr ',' '\n' | sort
}

mapfile -t files_of_recorder < <(
  printf '%s\n' "${things[@]}" | grep rtnl-record | sed 's|\(share/rtnl-record\)/.*|\1|' | sort -u
)
as_recorder compares_page
check 'the version of the recorder' ends 0 "rtnl-record $version" '' "$user/rtnl-record" --version
as_recorder is_formed "${files_of_recorder[@]}"
run_page 'the page of rtnl-record' < <(page_as_text "$prefix/share/man/man1/rtnl-record.1")
check 'commands of the page of rtnl-record' runs_all "$prefix/share/man/man1/rtnl-record.1"

# All kinds that the help of dump names.
kinds='addr addrlabel class fdb filter link mdb neigh neightbl netconf nexthop nsid qdisc route rule vlan'
# Those that take an address family.
takers='addr link neigh neightbl netconf nexthop route rule'

# in_help COMMAND BEFORE: the words with commas between them that its help has behind this text.
in_help() {
  "$user/rtnl-record" "$1" --help | xargs -d '\n' | tr -s ' ' |
    sed -nE "s/.*$2 (([a-z0-9-]+, )*[a-z0-9-]+)( .*)?\$/\1/p" | tr -d ' ' | tr ',' '\n' | sort
}

# on_page FROM: the words of its manual page in bold, from the line FROM up to the next option.
on_page() {
  sed -n "/^$1\$/,/^\.It Fl/p" share/man/man1/rtnl-record.1 | sed -n 's/^\.\(It \)\?\(Cm\|Ic\) //p' |
    tr -d ' .' | tr ',' '\n' | grep . | sort
}

# kinds_on_page: the kinds that the manual page describes.
kinds_on_page() { sed -n 's/^\.It Ic //p' share/man/man1/rtnl-record.1 | tr -d ' ' | tr ',' '\n' | sort; }

# has_same COMMAND1 COMMAND2: both print the same lines, and some.
has_same() {
  [ -n "$(eval "$1")" ] && diff <(eval "$1") <(eval "$2")
}
check 'kinds of the help' [ "$(in_help dump 'what is asked for:' | xargs)" = "$kinds" ]
check 'kinds of the page' has_same "in_help dump 'what is asked for:'" kinds_on_page
check 'families of the page' has_same "{ in_help dump '0 to 255 or one of'; xargs -n 1 <<<'$takers'; } | sort" \
  "on_page '\.It Fl -family Ar FAMILY'"
check 'bits of the page' has_same "in_help dump 'a number or words:'" \
  "on_page '\.It Fl -ext-mask Ar MASK' | grep -vx link"

# options_of COMMAND: its options, in one line.
options_of() { as_recorder helped "$1" | grep -e '^--' | tr '\n' ' ' | sed 's/ $//'; }

# completed_recorder SHELL: the cases of a shell.
completed_recorder() {
  local shell=$1 command
  check "$shell: all commands of the recorder" completes "$shell" 'dump monitor pcap rtmon strace xxd' rtnl-record ''
  check "$shell: an option of the recorder" completes "$shell" --version rtnl-record --v
  check "$shell: kinds of a dump" completes "$shell" "$kinds" rtnl-record dump ''
  check "$shell: families" completes "$shell" 'bridge inet inet6 ip6mr ipmr mpls packet' rtnl-record dump --family ''
  check "$shell: families by a letter" completes "$shell" 'inet inet6 ip6mr ipmr' rtnl-record dump link --family i
  check "$shell: bits of the mask" completes "$shell" 'brvlan brvlan-compressed cfm mrp mst skip-stats vf' \
    rtnl-record dump link --ext-mask ''
  check "$shell: one more bit" completes "$shell" 'vf,mrp vf,mst' rtnl-record dump link --ext-mask vf,m
  check "$shell: a device" completes "$shell" lo rtnl-record dump class --dev lo
  check "$shell: groups" completes "$shell" "$(groups_in_help | xargs)" rtnl-record monitor ''
  check "$shell: another group" completes "$shell" 'neigh' rtnl-record monitor link nei
  check "$shell: kinds of the monitor's dumps" completes "$shell" "$kinds" \
    rtnl-record monitor --dump ''
  check "$shell: one more kind" completes "$shell" 'addr,route addr,rule' rtnl-record monitor --dump addr,r
  check "$shell: devices of the monitor" completes "$shell" lo rtnl-record monitor --dev lo
  check "$shell: no kind of a file" completes "$shell" '' rtnl-record monitor --again no-such
  check "$shell: no number of the recorder" completes "$shell" '' rtnl-record dump --buffer ''
  for command in dump monitor pcap rtmon strace xxd; do
    check "$shell: options of the recorder's $command" completes "$shell" "$(options_of "$command")" \
      rtnl-record "$command" --
  done
}

# has_words_of_recorder FILE: each command, group and option stands there.
has_words_of_recorder() {
  local word
  while read -r word; do
    grep -qE -e "(^|[^a-z0-9_-])$word([^a-z0-9_-]|\$)" "$1" || ! echo "$word is missing" || return
  done < <(as_recorder in_all_help; as_recorder commands_in_help; groups_in_help)
}
