# Completion of the command rtnl-record in fish.

# The names among the arguments. Behind a blank a name that begins with - would be an option. Fish
# takes what is behind a tab for a description, and ~ for a home folder.
function __rtnl_record_names
    set -l names $argv
    string match -q -- '--*=*' (commandline -ct); or set names (string match -v -- '-*' $names)
    string match -rv -- '^~|\t' $names
end

function __rtnl_record_namespaces
    __rtnl_record_names (ip netns list 2>/dev/null | string replace -r ' \(id: \d+\)$' '')
end

function __rtnl_record_devices
    __rtnl_record_names (sed -n 's/^ *\([^:]*\):.*/\1/p' /proc/net/dev)
end

# The arguments, each behind those that are typed with commas between them.
function __rtnl_record_listed
    set -l typed (commandline -ct | string replace -r '^(--[a-z-]+=)?(.*,)?.*' '$2')
    printf '%s\n' "$typed"$argv
end

set -l commands dump monitor pcap rtmon strace xxd
set -l kinds link addr route neigh rule nexthop qdisc class filter netconf neightbl mdb vlan nsid \
    addrlabel fdb
set -l families inet inet6 bridge packet mpls ipmr ip6mr
set -l masks vf brvlan brvlan-compressed skip-stats mrp cfm mst
set -l groups all address route rule netconf qdisc class filter vlan fdb link notify neigh tc \
    ipv4_ifaddr ipv4_mroute ipv4_route ipv4_rule \
    ipv6_ifaddr ipv6_mroute ipv6_route ipv6_ifinfo decnet_ifaddr nop2 decnet_route decnet_rule \
    nop4 ipv6_prefix ipv6_rule nd_useropt phonet_ifaddr phonet_route dcb ipv4_netconf \
    ipv6_netconf mdb mpls_route nsid mpls_netconf ipv4_mroute_r ipv6_mroute_r nexthop brvlan \
    mctp_ifaddr tunnel stats ipv4_mcaddr ipv6_mcaddr ipv6_acaddr
set -l asking '__fish_seen_subcommand_from dump monitor'
set -l dump '__fish_seen_subcommand_from dump'
set -l monitor '__fish_seen_subcommand_from monitor'
set -l dumped '__fish_seen_subcommand_from xxd'
set -l read '__fish_seen_subcommand_from pcap rtmon strace xxd'
set -l first "not __fish_seen_subcommand_from $commands"

complete -c rtnl-record -f
complete -c rtnl-record -n $first -a dump -d 'Ask the kernel for links and the like'
complete -c rtnl-record -n $first -a monitor -d 'Record what the kernel notifies of'
complete -c rtnl-record -n $first -a pcap -d 'Read a capture of tcpdump or tshark'
complete -c rtnl-record -n $first -a rtmon -d 'Read what rtmon wrote'
complete -c rtnl-record -n $first -a strace -d 'Read what strace wrote of another program'
complete -c rtnl-record -n $first -a xxd -d 'Read a dump in hexadecimal'
complete -c rtnl-record -s h -l help -d 'Print help'
complete -c rtnl-record -n $first -s V -l version -d 'Print version'

complete -c rtnl-record -n $read -F
complete -c rtnl-record -n $dump -a "$kinds"
complete -c rtnl-record -n $dump -l family -x -a "$families" -d 'Address family of the request'
complete -c rtnl-record -n $dump -l ext-mask -x -a "(__rtnl_record_listed $masks)" \
    -d 'What else is asked of links'
complete -c rtnl-record -n $dump -l proxy -d 'Ask for the neighbours that the kernel answers for'
complete -c rtnl-record -n $dump -l buffer -x -d 'Size of the buffer for a datagram'
complete -c rtnl-record -n $asking -l dev -x -a '(__rtnl_record_devices)' \
    -d 'Device of a class or a filter'
complete -c rtnl-record -n $asking -l netns -x -a '(__rtnl_record_namespaces)' \
    -d 'Network namespace'
complete -c rtnl-record -n $monitor -a "$groups"
complete -c rtnl-record -n $monitor -l time -d 'Print the time before each datagram'
complete -c rtnl-record -n $monitor -l dump -x -a "(__rtnl_record_listed $kinds)" \
    -d 'Ask for dumps of these kinds first'
complete -c rtnl-record -n $monitor -l again -r -F -d 'Read kinds here, and ask for them again'
complete -c rtnl-record -n $dumped -l cooked -d 'The dumps are of packets of an nlmon device'
