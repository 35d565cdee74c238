# Completion of the command rtnl-record in bash.

# _rtnl_record_names WORD SIGN: those of its lines that begin with this word, quoted as it is: names
# of devices, or of network namespaces, where a number may stand behind. Without the sign in front
# of the word a name that begins with - would be an option.
_rtnl_record_names() {
  local word=$1 sign=$2 name quoted
  while IFS= read -r name; do
    [[ $name =~ ^(.*)' (id: '[0-9]+')'$ ]] && name=${BASH_REMATCH[1]}
    [[ $name != -* || -n $sign ]] || continue
    case $word in
      \'*) quoted=\'${name//\'/\'\\\'\'} ;;
      \"* | \$\'*) return ;;
      *) printf -v quoted %q "$name" ;;
    esac
    # Bash keeps the quote that was typed.
    [[ $quoted != "$word"* && $name != "$word"* ]] || COMPREPLY+=("${quoted#\'}")
  done
}

# _rtnl_record_listed WORD WORDS: one of the words, or one more behind a comma.
_rtnl_record_listed() {
  mapfile -t COMPREPLY < <(compgen -P "${1%"${1##*,}"}" -W "$2" -- "${1##*,}")
}

_rtnl_record() {
  local commands='dump monitor pcap rtmon strace xxd'
  local kinds='link addr route neigh rule nexthop qdisc class filter netconf neightbl mdb vlan nsid
    addrlabel fdb'
  local families='inet inet6 bridge packet mpls ipmr ip6mr'
  local masks='vf brvlan brvlan-compressed skip-stats mrp cfm mst'
  local groups='all address route rule netconf qdisc class filter vlan fdb link notify neigh tc
    ipv4_ifaddr ipv4_mroute ipv4_route ipv4_rule
    ipv6_ifaddr ipv6_mroute ipv6_route ipv6_ifinfo decnet_ifaddr nop2 decnet_route decnet_rule
    nop4 ipv6_prefix ipv6_rule nd_useropt phonet_ifaddr phonet_route dcb ipv4_netconf ipv6_netconf
    mdb mpls_route nsid mpls_netconf ipv4_mroute_r ipv6_mroute_r nexthop brvlan mctp_ifaddr tunnel
    stats ipv4_mcaddr ipv6_mcaddr ipv6_acaddr'
  local word=${COMP_WORDS[COMP_CWORD]} before=${COMP_WORDS[COMP_CWORD - 1]}
  local command=${COMP_WORDS[1]} words='' sign=''
  # Bash splits an option and its value at the sign between them.
  [ "$before" = '=' ] && before=${COMP_WORDS[COMP_CWORD - 2]} sign='='
  [ "$word" = '=' ] && word='' sign='='
  COMPREPLY=()
  case $COMP_CWORD,$command,$before,$word in
    1,*,*,-*) words='--help --version' ;;
    1,*) words=$commands ;;
    *,*,--netns,*)
      _rtnl_record_names "$word" "$sign" < <(ip netns list 2>/dev/null)
      return
      ;;
    *,*,--dev,*)
      _rtnl_record_names "$word" "$sign" < <(sed -n 's/^ *\([^:]*\):.*/\1/p' /proc/net/dev)
      return
      ;;
    *,*,--dump,*)
      _rtnl_record_listed "$word" "$kinds"
      return
      ;;
    *,*,--ext-mask,*)
      _rtnl_record_listed "$word" "$masks"
      return
      ;;
    *,*,--again,*) compopt -o default 2>/dev/null ;;
    *,*,--family,*) words=$families ;;
    *,*,--buffer,*) ;;
    *,dump,*,-*) words='--family --ext-mask --proxy --buffer --dev --netns --help' ;;
    *,monitor,*,-*) words='--time --dump --again --dev --netns --help' ;;
    *,xxd,*,-*) words='--cooked --help' ;;
    *,*,*,-*) words=--help ;;
    *,dump,*) words=$kinds ;;
    *,monitor,*) words=$groups ;;
    # The file's name, as bash completes it.
    *) compopt -o default 2>/dev/null ;;
  esac
  mapfile -t COMPREPLY < <(compgen -W "$words" -- "$word")
}

complete -F _rtnl_record rtnl-record
