# The commands that a page shows behind `$ `, and what is shown behind them. A block is live
# where it asks the kernel of this machine; of its output the words behind `bytes`, `seq`, `port`,
# `entries`, `received` and `visits`, and the times in an address's CACHEINFO, are not compared.

# masked FILE: what is compared of it.
masked() {
  local numbers=''
  [ "$live" = no ] || numbers='s/\<(bytes|seq|port|entries|received|visits|CACHEINFO - hex) [0-9a-f]+/\1 N/g'
  sed -E "/^($notes)\$/d; $numbers" "$1"
}

# What isn't compared: what is said of a program that is proved or not, which the other scripts
# here compare, and what tshark says to root.
notes='rtnl: this program is (not )?proved on this machine|Running as user .*'
notes+='|install: the program is not proved on this machine;.*'

# shows COMMAND: it prints what is expected, on standard output and standard error together.
shows() {
  (cd "$user" && PATH=$user:$PATH bash -c "$1") >"$folder/found" 2>&1 </dev/null
  diff <(masked "$folder/expected") <(masked "$folder/found")
}

# tools: the commands of a block, without those that the recorder reads captures by.
tools() { sed -E 's/rtnl-record (pcap|rtmon|strace|xxd) //g' <<<"${commands[*]-}"; }

# is_possible BLOCK: its commands can run here, or a line says that it is skipped.
is_possible() {
  local tool used
  used=$(tools)
  [ "$live" = no ] || has_namespace "$1" || return
  for tool in rtmon xxd jq tshark; do
    [[ $used != *"$tool "* ]] || has "$tool" "$1" || return
  done
  [[ " $used" != *" strace "* ]] || can_trace "$1"
}

# is_left COMMAND: it is a script measure/NAME.sh, which takes long; a block that begins with it is
# left to tests/NAME.sh, where that runs it.
is_left() {
  [[ $1 =~ ^measure/([a-z_]+\.sh) ]] && grep -qs "${BASH_REMATCH[0]}" "tests/${BASH_REMATCH[1]}"
}

# run_block PAGE: the commands of one block, in turn. An empty line in front of the next command is no output.
run_block() {
  local page=$1 number command live=no
  count=$((count + ${#commands[@]}))
  [[ " $(tools)" == *@(rtnl-record |rtmon | strace )* ]] && live=yes
  ! is_left "${commands[0]-}" || return 0
  [ "${#commands[@]}" = 0 ] || is_possible "line ${lines[0]} of $page" || return 0
  for number in "${!commands[@]}"; do
    printf '%s' "${texts[number]}" | sed '${/^$/d}' >"$folder/expected"
    command=${commands[number]}
    check "line ${lines[number]} of $page: $command" shows "$command"
  done
}

# is_open COMMAND: its next line is a part of it: behind a backslash or a pipe, in a quotation, or in
# a here-document that ends with END.
is_open() {
  local quotes=${1//[!\']/}
  if [[ $1 == *"<<'END'"* ]]; then
    [[ $1 != *$'\nEND' ]]
  else
    [[ $1 == *[\\\|] ]] || ((${#quotes} % 2))
  fi
}

# run_page NAME <TEXT: each block of the text, which stands between lines that begin with ```.
run_page() {
  local line number=0 within=no last
  local commands=() texts=() lines=()
  count=0
  while IFS= read -r line; do
    number=$((number + 1))
    last=$((${#commands[@]} - 1))
    case $within,$line in
      no,'```'*) within=yes commands=() texts=() lines=() ;;
      yes,'```'*) within=no && run_block "$1" ;;
      yes,'$ '*) commands+=("${line#$ }") texts+=('') lines+=("$number") ;;
      yes,*)
        if [ "$last" -lt 0 ]; then
          :
        elif is_open "${commands[last]}" && [ -z "${texts[last]}" ]; then
          commands[last]+=$'\n'$line
        else
          texts[last]+=$line$'\n'
        fi
        ;;
    esac
  done
}

# page_as_text PAGE: a manual page with its displays as such blocks.
page_as_text() { sed -e 's/^\.Bd .*/```/; s/^\.Ed$/```/; s/\\e/\\/g; s/\\&//g; s/\\-/-/g' "$1"; }

# runs_all FILE: all its lines that look like a command were taken for one.
runs_all() { [ "$count" -gt 0 ] && [ "$count" = "$(grep -c '^\$ ' "$1")" ]; }
