# ./install under a prefix of its own, which is then left as it was.

prefix=$folder/prefix
things=(bin/rtnl share/man/man1/rtnl.1 share/bash-completion/completions/rtnl share/zsh/site-functions/_rtnl
  share/fish/vendor_completions.d/rtnl.fish share/rtnl/rtnl.jq share/rtnl/rtnl.schema.json bin/rtnl-record
  share/man/man1/rtnl-record.1 share/bash-completion/completions/rtnl-record share/zsh/site-functions/_rtnl-record
  share/fish/vendor_completions.d/rtnl-record.fish)
for module in record/*.py; do things+=("share/rtnl-record/${module##*/}"); done
page_is_built=no
! packaging/page.py >/dev/null || page_is_built=yes things+=(share/rtnl/rtnl.html)
things+=(share/rtnl/installed)

# listed FOLDER: everything in it, with its kind, its mode and the sum of a file.
listed() { (cd "$1" && find . -printf '%p %y %m\n' -type f -exec sha256sum {} \; | sort); }

# each WORD: a line for each file that is put or removed.
each() { printf "$1 $prefix/%s\n" "${things[@]}"; }

# It is installed, and where the program is not proved one line and the record say so.
installs() {
  ends 0 "$(each installed)" "$install_note" "$user/install" "$prefix" &&
    [ "$(grep ^unproved "$prefix/share/rtnl/installed")" = "${install_note:+unproved bin/rtnl}" ]
}
removes() {
  ends 0 "$(each removed)" '' "$user/install" --remove "$prefix" && listed "$prefix" | diff "$folder/before" -
}

# A prefix that isn't there is made, and removed again.
takes_new_prefix() {
  local made="$folder/new prefix"
  "$user/install" "$made" >/dev/null 2>&1 && [ "$("$made/bin/rtnl" --version)" = "rtnl $version" ] &&
    "$user/install" --remove "$made" >/dev/null && [ ! -e "$made" ]
}

# The default is ~/.local, and a line says where the shell will not find the program.
takes_home() {
  local HOME=$folder/home
  export HOME
  mkdir "$HOME" && ends 0 "$(each installed | sed "s|$prefix|$HOME/.local|")" \
    "${install_note:+$install_note$'\n'}install: $HOME/.local/bin is not on the PATH" "$user/install" &&
    ends 0 "$(each removed | sed "s|$prefix|$HOME/.local|")" '' "$user/install" --remove && rmdir "$HOME"
}

# is_left NAME: this file stands in the way, and nothing is put beside it.
is_left() {
  ends 1 '' "install: $prefix/$1 is there and was not installed by this script; nothing was installed" \
    "$user/install" "$prefix" && listed "$prefix" | diff "$folder/blocked" -
}

# is_blocked NAME COMMAND..: what the command makes of this file stands in the way, and is left.
is_blocked() {
  local name=$1
  shift
  mkdir -p "$(dirname "$prefix/$name")" && "$@" "$prefix/$name" && listed "$prefix" >"$folder/blocked" &&
    is_left "$name" && rm "$prefix/$name"
}

# A file that was changed since is left, and all else is removed.
leaves_changed() {
  "$user/install" "$prefix" >/dev/null 2>&1 && echo '# mine' >>"$prefix/share/zsh/site-functions/_rtnl" &&
    ends 1 "$(each removed | grep -v '/_rtnl$')" \
      "install: $prefix/share/zsh/site-functions/_rtnl was changed since it was installed; it is left" \
      "$user/install" --remove "$prefix" && [ "$(tail -n 1 "$prefix/share/zsh/site-functions/_rtnl")" = '# mine' ] &&
    rm -r "$prefix/share/zsh" && listed "$prefix" | diff "$folder/before" -
}

# An own file, an empty folder and a link were there before.
mkdir -p "$prefix/bin" "$prefix/share/man" && echo mine >"$prefix/bin/other" || exit 1
ln -s other "$prefix/bin/link" || exit 1
listed "$prefix" >"$folder/before"
ln -s ../prefix/bin/rtnl "$user/installed"
finish_line=1400000003000200010000003930000000000000
finish_text=$'datagram 1 bytes 20\nmessage 3 done flags 0x0002 MULTI seq 1 port 12345\n  done status 0 tail -'

check 'nothing is removed where nothing was installed' ends 1 '' "install: nothing is installed under $prefix" \
  "$user/install" --remove "$prefix"
check 'an installation' installs
check 'the program that is installed' cmp "$(RTNL_PATH=1 ./rtnl)" "$prefix/bin/rtnl"
for file in pcap:links.pcap rtmon:links.rtmon strace:rules.strace xxd:rules.xxd; do
  check "the recorder that is installed: ${file#*:}" ends 0 "$(./rtnl-record "${file%:*}" "examples/${file#*:}")" '' \
    env -u PYTHONDONTWRITEBYTECODE "$prefix/bin/rtnl-record" "${file%:*}" "examples/${file#*:}"
done
check 'the program that is installed, through a link' ends 0 "$finish_text" '' "$user/installed" <<<"$finish_line"
