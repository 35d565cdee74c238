# The commands of README.md, of docs/TUTORIAL.md and of docs/TASKS.md, each with its whole output.

tutorial=docs/TUTORIAL.md
tasks=docs/TASKS.md

# finds_change PAGE SECTION CHANGE: with this change the commands of a section don't show what it
# says. Files that those before it made are there.
finds_change() {
  (
    failed=0
    run_page 'a changed section' < <(sed -n "/^## $2\$/,/^## /p" "$1" | sed "$3") >/dev/null
    [ "$failed" = 1 ]
  )
}

# sources: the commands of README's table of what one may have.
sources() { sed -n '/^| you have | run |$/,/^$/s/^.* | `\(rtnl-record [^`]*\)`.*/\1/p' README.md; }

# shows_source COMMAND: what it records is shown, or followed where it goes on until it is ended.
shows_source() {
  local reader=show
  [[ $1 != *' monitor' ]] || reader=follow
  (cd "$user" && PATH=$user:$PATH bash -c "set -o pipefail
    ${1/#rtnl-record monitor/timeout 1 rtnl-record monitor} | rtnl $reader") >"$folder/found" 2>&1
  case $?,$reader in
    124,follow) [ ! -s "$folder/found" ] ;;
    0,show) grep -q '^message ' "$folder/found" ;;
    *) return 1 ;;
  esac
}

for page in README.md "$tutorial" "$tasks"; do
  run_page "$page" <"$page"
  check "commands of $page" runs_all "$page"
done
check 'a changed refusal is found' finds_change README.md 'See it' \
  's/^datagram 1 refused bad length at 40$/datagram 1 refused bad length at 44/'
check 'a missing line is found' finds_change "$tutorial" 'When it is refused' \
  '/^datagram 1 accepted$/d'
# finds_answer CHANGE: with this change the first tasks don't have the answers that the page says.
finds_answer() {
  (
    failed=0
    run_page 'a changed answer' < <(sed "/# 3 =/,\$d; $1" "$tasks" && echo '```') >/dev/null
    [ "$failed" = 1 ]
  )
}

# verdicts: how many tasks have each verdict, by the commands and by what the page says of them.
verdicts() { grep -oE '# [0-9]+ [-+=]' "$tasks" | sort -u | cut -d' ' -f3 | sort | uniq -c | tr -s ' \n' ' '; }
check 'the tasks of the page' [ "$(verdicts)" = ' 7 + 3 - 24 = ' ]
check 'a changed answer is found' finds_answer 's/^\[42,"192.0.2.42"\]$/[43,"192.0.2.42"]/'
check 'all sources of README.md' [ "$(sources | wc -l)" = 6 ]
while IFS= read -r command; do
  if [[ $command != *@(dump|monitor)* ]] || has_namespace "$command"; then
    check "README.md: $command" shows_source "$command"
  fi
done < <(sources)
if has_namespace 'a changed live block'; then
  check 'a change in a live block is found' finds_change "$tutorial" 'Is the dump complete' \
    's/^complete yes$/complete no/;/ links.hex /,$d'
  check 'a change of a word that is compared is found' finds_change "$tutorial" \
    'Is the dump complete' 's/ missed 0 / missed 1 /'
fi
