# The manual page as it is installed: its form, its sections, and the commands that it shows.

manual=$prefix/share/man/man1/rtnl.1
sections='NAME SYNOPSIS DESCRIPTION OPTIONS EXIT STATUS DIAGNOSTICS ENVIRONMENT FILES STANDARDS HISTORY NOTES'
sections+=' EXAMPLES SEE ALSO'

# is_silent FILE: mandoc has no word on this page, but that another one is not here.
is_silent() {
  mandoc -T lint "$1" >"$folder/lint" 2>/dev/null
  ! grep -v ': referenced manual not found: ' "$folder/lint"
}

# finds_fault CHANGE: it has, where the page is changed so.
finds_fault() { sed "$1" "$manual" >"$folder/page.1" && ! is_silent "$folder/page.1" >/dev/null; }

# in_section NAME: the lines of a section.
in_section() { sed '/^\.Sh /s/\\&//' "$page" | sed -n "/^\\.Sh $1\$/,/^\\.Sh /{/^\\.Sh /!p}"; }

has_sections() { [ "$(sed -n '/^\.Sh /s/\\&//; s/^\.Sh //p' "$page" | xargs)" = "$sections" ]; }

# has_files THING..: what is installed of it, and folders of its own.
has_files() {
  in_section FILES | sed -n 's/^\.It Pa @PREFIX@.//p' | sort | diff - <(printf '%s\n' "$@" | sort)
}

is_of_version() { grep -qxF "This page is of version $version." "$manual"; }

# has_versions: the history has each version of the changelog.
has_versions() {
  in_section HISTORY | sed -n 's/^Version \([0-9.]*\) .*/\1/p' | sort |
    diff - <(sed -n 's/^## \([0-9]\)/\1/p' CHANGELOG.md | sort)
}

# It refers to others in the end, and to nothing else.
has_references() {
  in_section 'SEE ALSO' >"$folder/references"
  grep -q . "$folder/references" && ! grep -v '^\.Xr ' "$folder/references"
}

# is_formed THING..: the cases of a page whatever it says, with the files that it has.
is_formed() {
  check "$of: the sections of the page" has_sections
  check "$of: the files of the page" has_files "$@"
  check "$of: the version of the page" is_of_version
  check "$of: the references of the page" has_references
  check "$of: nothing of the page is still to be replaced" [ -z "$(grep '@' "$manual")" ]
  if has mandoc "the form of the page of $of"; then
    check "$of: the form of the page" is_silent "$manual"
    check "$of: the form of the page in the sources" is_silent "$page"
    check "$of: a section in another place is found" finds_fault 's/^\.Sh HIS\\&/.Sh HIS/'
    check "$of: a wrong order of references is found" finds_fault 's/^\.Xr strace 1 ,/.Xr zsh 1 ,/'
    check "$of: a long line is found" finds_fault '/^It /s/.*/& & & & & & & & & & & & & & & & & & & &/'
  fi
}

files_of_rtnl=(share/rtnl/rtnl.html)
mapfile -t -O 1 files_of_rtnl < <(printf '%s\n' "${things[@]}" | grep -vE 'rtnl-record|\.html$')
is_formed "${files_of_rtnl[@]}"
check 'the versions of the page' has_versions

run_page "the page of $of" < <(page_as_text "$manual")
check "commands of the page of $of" runs_all "$manual"
