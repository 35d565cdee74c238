# The options of the manual page and of the completions are those of the help; CHANGELOG.md has its version.

# The program, with its commands and its page.
of=rtnl
commands_of=(show follow check table mirror request)
page=share/man/man1/rtnl.1

# helped COMMAND: the options in the help of this command, or of the program.
helped() {
  "$user/$of" ${1:+"$1"} --help | sed -nE '/^Options:$/,/^$/s/^ +((-[A-Za-z], )?--[a-z-]+).*/\1/p' |
    tr -s ', ' '\n' | sort
}

# flags: the options in the text of a page.
flags() { grep -oE '\<Fl [^ ]+' | sed 's/^Fl /-/' | sort -u; }

# in_synopsis COMMAND: the options that the page's synopsis has for it.
in_synopsis() {
  sed -n '/^\.Sh SYNOPSIS$/,/^\.Sh DESCRIPTION$/p' "$page" |
    awk -v "command=.Cm $1" '/^\.Nm$/ { inside = 0 } $0 == command { inside = 1 } inside' | flags
}

# in_list: the options that the page describes.
in_list() { sed -n '/^\.Sh OPTIONS$/,/^\.Sh EXIT STATUS$/p' "$page" | grep '^\.It ' | flags; }

# in_all_help: the options of all help.
in_all_help() { for command in '' "${commands_of[@]}"; do helped "$command"; done | sort -u; }

# alike ONE OTHER: both commands print the same; same ONE OTHER: and it isn't nothing.
alike() { diff <("$1" "${@:3}") <("$2" "${@:3}"); }
same() { [ -n "$("$1")" ] && alike "$@"; }

without_help() { helped "$1" | grep -vxE -e '-h|--help'; }
in_page() { flags <"$page"; }
commands_in_help() { "$user/$of" --help | sed -nE '/^Commands:$/,/^$/s/^ +([a-z]+) .*/\1/p'; }
commands_on_page() { sed -n '/^\.Sh DESCRIPTION$/,/^\.Sh OPTIONS$/s/^\.It Cm //p' "$page"; }

# compares_page: what is said of the program on its page.
compares_page() {
  local command
  for command in "${commands_of[@]}"; do
    check "$of: the synopsis of $command" alike without_help in_synopsis "$command"
  done
  check "$of: the options that the page describes" same in_all_help in_list
  check "$of: the options that the page names" same in_all_help in_page
  check "$of: the commands of the page" same commands_in_help commands_on_page
}
compares_page

# The newest version in the headings of the changelog is the one that the program prints.
version=$(sed -n 's/^## \([0-9]\)/\1/p' CHANGELOG.md | head -n 1)
check 'the version is a number' grep -qxE '[0-9]+\.[0-9]+\.[0-9]+' <<<"$version"
check 'the version of the program' ends 0 "rtnl $version" "$version_note" "$user/rtnl" --version
check 'the version in short' ends 0 "rtnl $version" "$version_note" "$user/rtnl" -V
