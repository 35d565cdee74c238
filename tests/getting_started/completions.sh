# The completions that are installed under the prefix; then all is removed from there.

# completes SHELL FOUND WORD..: the shell makes these words, in any order, of the last one.
completes() {
  [ "$("in_$1" "${@:3}" 2>"$folder/errors" | sort | tr '\n' ' ')" = "$2${2:+ }" ] && [ ! -s "$folder/errors" ]
}

in_bash() { tests/getting_started/in_bash.sh "$prefix" "$@" | grep .; }

in_fish() {
  XDG_DATA_HOME=$folder/fish XDG_CONFIG_HOME=$folder/fish XDG_DATA_DIRS=$prefix/share:/usr/share \
    PATH=$prefix/bin:$PATH fish -c "complete -C '$*'" | cut -f 1
}

# completed SHELL: the cases of a shell.
completed() {
  local shell=$1 command
  check "$shell: a command" completes "$shell" show rtnl sh
  check "$shell: all commands" completes "$shell" 'check follow help mirror request show table' rtnl ''
  check "$shell: an option" completes "$shell" --kind rtnl table --k
  check "$shell: an option of the program" completes "$shell" --version rtnl --v
  check "$shell: byte orders" completes "$shell" 'big little' rtnl show --order ''
  check "$shell: colours" completes "$shell" 'always auto never' rtnl show --color ''
  check "$shell: colours of bytes" completes "$shell" 'always auto never' rtnl show --bytes --color ''
  check "$shell: kinds" completes "$shell" 'addr link neigh route rule' rtnl request --kind ''
  check "$shell: kinds by a letter" completes "$shell" 'route rule' rtnl table --kind r
  check "$shell: no number" completes "$shell" '' rtnl table --seq ''
  check "$shell: colours of what is followed" completes "$shell" 'always auto never' rtnl follow --color ''
  check "$shell: options of follow" completes "$shell" '--seq --strict' rtnl follow --s
  check "$shell: kinds that are followed" completes "$shell" 'addr link neigh route rule' rtnl follow --kind ''
  check "$shell: options of mirror" completes "$shell" '--changes' rtnl mirror --c
  check "$shell: no number that waits" completes "$shell" '' rtnl mirror --waiting ''
  check "$shell: no option of show" completes "$shell" '' rtnl show --s
  check "$shell: help of a command" completes "$shell" table rtnl help t
  for command in show follow check table mirror request; do
    check "$shell: options of $command" completes "$shell" \
      "$(helped "$command" | grep -e '^--' | tr '\n' ' ' | sed 's/ $//')" rtnl "$command" --
  done
}

# is_well_formed SHELL FILE
is_well_formed() { "$1" -n "$prefix/share/$2"; }

if [ -e /usr/share/bash-completion/bash_completion ]; then
  completed bash
  completed_recorder bash
  check 'bash: a value behind the sign' completes bash big rtnl show --order = b
else
  echo 'skipped: completion in bash, since bash-completion is not here'
fi
if has fish 'completion in fish'; then
  check 'fish: well formed' is_well_formed fish fish/vendor_completions.d/rtnl.fish
  completed fish
  check 'fish: well formed, of the recorder' is_well_formed fish fish/vendor_completions.d/rtnl-record.fish
  completed_recorder fish
  check 'fish: a value behind the sign' completes fish --order=big 'rtnl show --order=b'
fi
if has zsh 'completion in zsh'; then
  check 'zsh: well formed' is_well_formed zsh zsh/site-functions/_rtnl
  check 'zsh: well formed, of the recorder' is_well_formed zsh zsh/site-functions/_rtnl-record
  check 'zsh: all words of the recorder' has_words_of_recorder "$prefix/share/zsh/site-functions/_rtnl-record"
  check 'zsh: of the command' [ "$(head -n 1 "$prefix/share/zsh/site-functions/_rtnl")" = '#compdef rtnl' ]
fi

check 'a second installation' installs
check 'all is removed' removes
check 'a folder that is not there' takes_new_prefix
check 'the home folder' takes_home
check 'a file of another origin' is_blocked bin/rtnl cp "$prefix/bin/other"
check 'a link of another origin' is_blocked bin/rtnl ln -s other
check 'a changed file' leaves_changed
check 'help of the installation' ends 0 "$(sed -n '/^HELP = """/,/^"""$/p' install | sed '1d;$d')" '' \
  "$user/install" --help
if [ -c /dev/full ]; then
  into_full() { "$@" >/dev/full; }
  full='install: standard output could not be written'
  check 'help of the installation that cannot be written' ends 3 '' "$full" into_full "$user/install" --help
  check 'an installation that cannot be said' \
    ends 3 '' "${install_note:+$install_note$'\n'}$full" into_full "$user/install" "$folder/unsaid"
  check 'it is there' [ -x "$folder/unsaid/bin/rtnl" ]
fi
check 'two prefixes' ends 2 '' 'install: more than one PREFIX; see --help' "$user/install" "$prefix" "$prefix"
check 'an unknown option' ends 2 '' "install: unknown option '--unknown'; see --help" "$user/install" --unknown
check 'no home folder' ends 2 '' 'install: HOME is not set; name a PREFIX' env -u HOME "$user/install"
check 'an empty prefix' ends 2 '' 'install: PREFIX is empty; see --help' "$user/install" ''
check 'a prefix that cannot be made' ends 3 '' \
  "install: $prefix/bin/other/share/rtnl could not be made: Not a directory; name another PREFIX" \
  "$user/install" "$prefix/bin/other"
check 'the prefix is as it was' diff "$folder/before" <(listed "$prefix")
