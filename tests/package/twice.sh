# A commit gives the same bytes twice: at another time, in another place, by another user's mask.

# same FOLDER: it has the files that were made first.
same() {
  local file
  for file in "$archive.tar.gz" "${debs[@]}"; do cmp "$made/$file" "$1/$file" || return; done
}
again() {
  sleep 1.1
  (umask 077 && env TZ=Asia/Tokyo LC_ALL=C SOURCE_DATE_EPOCH="$time" \
    ./package "${how[@]}" "$folder/again" >/dev/null) && same "$folder/again" &&
    [ "$(stat -c %a "$folder/again/$archive.tar.gz")" = 644 ]
}

# cloned: the commit in another place, with what is built here.
cloned() {
  local file
  git clone -q . "$folder/clone with blanks" || return
  for file in "${program#"$top/"}" out/{proved,unproved}/librtnl_c.{a,ll,bc} out/rtnl.html; do
    [ ! -e "$file" ] || install -D "$file" "$folder/clone with blanks/$file" || return
  done
}
elsewhere() { cd "$folder/clone with blanks" && ./package "${how[@]}" >/dev/null && same out; }

# differs: another time gives other bytes.
differs() {
  time=1000000000
  SOURCE_DATE_EPOCH=$time ./package "${how[@]}" "$folder/later" >/dev/null &&
    ! same "$folder/later" >/dev/null && is_tidy "$folder/later/${debs[0]}" &&
    is_tidy "$folder/later/$archive.tar.gz"
}

check 'the same bytes again' again
if whole 'packages that are made elsewhere, and at another time'; then
  if [ -z "$(git status --porcelain)" ]; then
    check 'a clone' cloned
    check 'the same bytes elsewhere' eval '(elsewhere)'
  else
    echo 'skipped: the same bytes elsewhere, since there are changes that are not committed'
  fi
  check 'other bytes of another time' eval '(differs)'
fi
