# What ip calls the values of links, addresses and routes, by the module of jq.
include "rtnl";
($links | names) as $names
| def shorter: if type == "string" then short elif type == "object" then map_values(shorter) else . end;
(links | ["links", {
    ifname: attr("IFNAME"), ifindex: .index, mtu: attr("MTU"), min_mtu: attr("MIN_MTU"),
    max_mtu: attr("MAX_MTU"), operstate: attr("OPERSTATE"), txqlen: attr("TXQLEN"),
    num_tx_queues: attr("NUM_TX_QUEUES"), gso_max_size: attr("GSO_MAX_SIZE"),
    tso_max_segs: attr("TSO_MAX_SEGS"), link_netnsid: attr("LINK_NETNSID"),
    promiscuity: attr("PROMISCUITY"), kind: attr("LINKINFO.KIND"),
    data: (attr("LINKINFO.DATA") | data
      | if type == "object" then .ACTIVE_SLAVE |= dev($names) | .LINK |= dev($names) else {} end | shorter),
    slave: (attr("LINKINFO.SLAVE_DATA") | data | shorter) }]),
(addrs | ["addrs", {
    dev: (.index | dev($names)), local: (attr("LOCAL") // attr("ADDRESS") | short),
    prefixlen: .prefix, scope: scope }]),
(routes | ["routes", {
    dst: (if attr("ENCAP") then null elif .family == 28 then null elif .dst_len == 0 then "default"
      else prefix | sub("/(32|128)$"; "") end), gateway: (attr("GATEWAY") | short), dev: (attr("OIF") | dev($names)), table: table,
    protocol: protocol, scope: scope, metric: attr("PRIORITY"), encap: attr("ENCAP_TYPE"),
    nhid: attr("NH_ID"), prefsrc: (attr("PREFSRC") | short), metrics: (attr("METRICS") | data) }])
