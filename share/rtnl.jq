# What is asked most of the lines of JSON that rtnl prints with --format json, for jq 1.6 or later.
# Where this file lies in the folder DIR:
#
#   rtnl show --format json links.hex |
#     jq -L DIR -c 'include "rtnl"; links | [attr("IFNAME"), attr("LINKINFO.DATA.ID")]'
#
# rtnl.schema.json beside it has the fields of the lines.

# bodies(TYPE): takes a line, and gives the body of each message of this type, as "dellink", or of
# this kind, as "NEWNEXTHOP". Only lines of show have messages; others give nothing.
def bodies($type):
  .messages[]? | select(.type == $type or .kind == $type)
  | .link // .addr // .route // .neigh // .rule // .get // .error // .done // .data // .bytes;

# links, addrs, routes, neighs, rules: take a line, and give the bodies of what is there: those of
# newlink and its like in a line of show, that of an entry in a line of table or mirror. A deletion
# gives none, and an entry that is gone, since what it names is no more; bodies("dellink") has those
# of links, of which one of family 7 has only left its bridge.
def _entry: select(.change != "-");
def links: bodies("newlink"), (_entry | .link // empty);
def addrs: bodies("newaddr"), (_entry | .addr // empty);
def routes: bodies("newroute"), (_entry | .route // empty);
def neighs: bodies("newneigh"), (_entry | .neigh // empty);
def rules: bodies("newrule"), (_entry | .rule // empty);

# What each attribute, or the field, of this name or number holds that lies in something: what it
# means, else its list or its value.
def _held: if has("data") then .data elif has("items") then .items else .value end;
def _values($name):
  ($name | tonumber? // -1) as $number
  | if type == "array" then .[] elif type != "object" then empty
    else .attrs[]?, { $name, data: .[$name] } end
  | select(type == "object" and (.name == $name or .number == $number)) | _held | values;

# The words of a path, where it is asked of something that has attributes.
def _names($path):
  if type == "array" or . == null or (type == "object" and has("attrs")) then
    "\($path)" | split(".")
  else error("\($path) is asked of what has no attributes") end;

# attr(PATH): takes a body, a next hop, a list of attributes or null, and gives what the first
# attribute of this name means, or its value where that says it, or null where there is none. Of one
# that holds others it gives the list, which attr takes again. A number stands for a name.
# A dot goes into a list or a struct, as in "LINKINFO.DATA.ID" and "CACHEINFO.ifa_valid": so a path
# is one word to read, however deep it goes, and no name has a dot.
def attr($path):
  reduce _names($path)[] as $name (.; first(_values($name)) // null);

# attrs(PATH): as attr, but gives each one there, where a name stands more than once.
def attrs($path):
  def within($names): if $names == [] then . else _values($names[0]) | within($names[1:]) end;
  within(_names($path));

# data: takes a body, a list of attributes, or anything else, and gives it with each list of
# attributes as an object by name: of names that stand more than once with a list of what they hold,
# of a number for a name where there is none. Attributes that all have no name are a list.
def data:
  def is_attr: type == "object" and has("number") and (has("data") or has("items") or has("value"));
  if type == "object" then map_values(data) elif type != "array" then .
  elif length == 0 or (all(is_attr) | not) then map(data)
  elif all(.name == null) then map(_held | data)
  else reduce .[] as $it ({}; .[$it.name // "\($it.number)"] += [$it | _held | data])
    | map_values(if length == 1 then .[0] else . end) end;

# hops: takes a route, and gives its next hops, which have an index and take attr, as
# hops | [.index, attr("GATEWAY")]. Where there are many, attr("GATEWAY") of the route is null, for
# each lies in MULTIPATH with its own; where there is one, it has the attributes of the route.
def hops:
  attr("MULTIPATH") as $many
  | if $many then $many[]
    else select(attr("OIF") // attr("GATEWAY")) | { index: attr("OIF"), attrs } end;

# stats: takes a link, and gives its counters of 64 bits by name.
def stats: attr("STATS64") // empty;

# why: takes the body of an error, and gives what the kernel says of it; nothing of a mere answer.
def _errors: {
  "1": "EPERM", "2": "ENOENT", "3": "ESRCH", "4": "EINTR", "5": "EIO", "6": "ENXIO", "7": "E2BIG",
  "8": "ENOEXEC", "9": "EBADF", "10": "ECHILD", "11": "EAGAIN", "12": "ENOMEM", "13": "EACCES",
  "14": "EFAULT", "15": "ENOTBLK", "16": "EBUSY", "17": "EEXIST", "18": "EXDEV", "19": "ENODEV",
  "20": "ENOTDIR", "21": "EISDIR", "22": "EINVAL", "23": "ENFILE", "24": "EMFILE", "25": "ENOTTY",
  "26": "ETXTBSY", "27": "EFBIG", "28": "ENOSPC", "29": "ESPIPE", "30": "EROFS", "31": "EMLINK",
  "32": "EPIPE", "33": "EDOM", "34": "ERANGE", "35": "EDEADLK", "36": "ENAMETOOLONG",
  "37": "ENOLCK", "38": "ENOSYS", "39": "ENOTEMPTY", "40": "ELOOP", "42": "ENOMSG", "43": "EIDRM",
  "44": "ECHRNG", "45": "EL2NSYNC", "46": "EL3HLT", "47": "EL3RST", "48": "ELNRNG",
  "49": "EUNATCH", "50": "ENOCSI", "51": "EL2HLT", "52": "EBADE", "53": "EBADR", "54": "EXFULL",
  "55": "ENOANO", "56": "EBADRQC", "57": "EBADSLT", "59": "EBFONT", "60": "ENOSTR",
  "61": "ENODATA", "62": "ETIME", "63": "ENOSR", "64": "ENONET", "65": "ENOPKG", "66": "EREMOTE",
  "67": "ENOLINK", "68": "EADV", "69": "ESRMNT", "70": "ECOMM", "71": "EPROTO", "72": "EMULTIHOP",
  "73": "EDOTDOT", "74": "EBADMSG", "75": "EOVERFLOW", "76": "ENOTUNIQ", "77": "EBADFD",
  "78": "EREMCHG", "79": "ELIBACC", "80": "ELIBBAD", "81": "ELIBSCN", "82": "ELIBMAX",
  "83": "ELIBEXEC", "84": "EILSEQ", "85": "ERESTART", "86": "ESTRPIPE", "87": "EUSERS",
  "88": "ENOTSOCK", "89": "EDESTADDRREQ", "90": "EMSGSIZE", "91": "EPROTOTYPE",
  "92": "ENOPROTOOPT", "93": "EPROTONOSUPPORT", "94": "ESOCKTNOSUPPORT", "95": "EOPNOTSUPP",
  "96": "EPFNOSUPPORT", "97": "EAFNOSUPPORT", "98": "EADDRINUSE", "99": "EADDRNOTAVAIL",
  "100": "ENETDOWN", "101": "ENETUNREACH", "102": "ENETRESET", "103": "ECONNABORTED",
  "104": "ECONNRESET", "105": "ENOBUFS", "106": "EISCONN", "107": "ENOTCONN", "108": "ESHUTDOWN",
  "109": "ETOOMANYREFS", "110": "ETIMEDOUT", "111": "ECONNREFUSED", "112": "EHOSTDOWN",
  "113": "EHOSTUNREACH", "114": "EALREADY", "115": "EINPROGRESS", "116": "ESTALE",
  "117": "EUCLEAN", "118": "ENOTNAM", "119": "ENAVAIL", "120": "EISNAM", "121": "EREMOTEIO",
  "122": "EDQUOT", "123": "ENOMEDIUM", "124": "EMEDIUMTYPE", "125": "ECANCELED", "126": "ENOKEY",
  "127": "EKEYEXPIRED", "128": "EKEYREVOKED", "129": "EKEYREJECTED", "130": "EOWNERDEAD",
  "131": "ENOTRECOVERABLE", "132": "ERFKILL", "133": "EHWPOISON" };
def why:
  select(.code < 0)
  | { code, name: (.name // _errors["\(-.code)"]) }
    + (.data | { message: attr("MSG"), offset: attr("OFFS") });

# names: takes an array of lines, as of jq -s, and gives the names of their links by index.
# dev(NAMES): takes an index, and gives the name of that link.
def names: reduce (.[] | links) as $link ({}; .["\($link.index)"] = ($link | attr("IFNAME")));
def dev($names): if . == null then null else $names["\(.)"] // "if\(.)" end;

# The numbers of an address: 4 of 8 bits, or 8 of 16.
def _hex:
  reduce (ascii_downcase | explode[]) as $c (0; . * 16 + $c - (if $c > 57 then 87 else 48 end));
def _parts:
  if contains(":") then
    (split("::") | map(split(":"))) as $ends
    | [$ends[0][], (range(8 - ($ends | map(length) | add)) | "0"), $ends[1][]?] | map(_hex)
  else split(".") | map(tonumber) end;

# short: takes an address, and gives it as ip writes it: of IPv6 without the longest row of zeros.
# address: takes its digits, where no meaning is known, and gives the same. mpls: takes a label, or
# the DST that has one, and gives its number.
def short:
  if . == null or (split(":") | length != 8) then . else
    split(":") | map(sub("^0{1,3}"; "")) | join(":")
    | first((range(8; 1; -1) as $n | "(^|:)0(:0){\($n - 1)}(:|$)" as $zeros
        | select(test($zeros)) | sub($zeros; "::")), .) end;
def address:
  if length == 8 then [range(0; 8; 2) as $at | .[$at:$at + 2] | _hex | tostring] | join(".")
  else [range(0; length; 4) as $at | .[$at:$at + 4]] | join(":") | short end;
def mpls: .entry? // (_parts | reduce .[] as $part (0; . * 256 + $part)) | . / 4096 | floor;

# prefix: takes an address or a route, and gives its prefix, as "10.0.0.0/8"; of MPLS its label.
def prefix:
  (attr("LOCAL") // attr("ADDRESS") // attr("DST") // if .family == 2 then "0.0.0.0" else "::" end)
  as $address | if $address | type == "object" then "\($address | mpls)"
    else "\($address | short)/\(.prefix // .dst_len)" end;

# covers(PREFIX; ADDRESS): whether a prefix has an address. longest(ADDRESS): takes an array of
# routes, and gives the one by which they lead there, or null.
def covers($prefix; $address):
  ($prefix | split("/")) as [$net, $length] | ($length // "128" | tonumber) as $length
  | ($net | _parts) as $a | ($address | _parts) as $b | ($a | length * 2) as $size
  | ($a | length) == ($b | length) and all(range($a | length);
      pow(2; [[$size * (. + 1) - $length, 0] | max, $size] | min) as $unit
      | ($a[.] / $unit | floor) == ($b[.] / $unit | floor));
def longest($address):
  map(select(covers(prefix; $address))) | max_by([.dst_len, -(attr("PRIORITY") // 0)]);

# table, protocol, scope: take a route, a rule or an address, and give a name, or the number that
# has none.
def _word($words): $words["\(.)"] // .;
def table:
  attr("TABLE") // .table | .number? // .
  | _word({ "253": "default", "254": "main", "255": "local" });
def scope:
  .scope | _word({ "0": "global", "200": "site", "253": "link", "254": "host", "255": "nowhere" });
def protocol: .protocol | _word({
  "0": "unspec", "1": "redirect", "2": "kernel", "3": "boot", "4": "static", "9": "ra",
  "11": "zebra", "12": "bird", "16": "dhcp", "18": "keepalived", "42": "babel", "186": "bgp",
  "187": "isis", "188": "ospf", "189": "rip", "192": "eigrp" });

# changes(A; B): takes nothing; A and B are arrays of lines. Gives what is new in B, other or gone,
# as lines of mirror --changes, by the keys of docs/FORMAT.md. Ages and counters don't count.
# differs: takes such a line, and gives each value that is other, before and now, by its path;
# nothing of what is new or gone.
def _body: .link // .addr // .route // .neigh // .rule;
def _key:
  keys[0] as $kind | _body
  | [$kind, .index, if $kind == "link" then empty else
      .family, .prefix, .dst_len, .src_len, .tos, .table, .type, .action,
      attr("TABLE", "DST", "SRC", "ADDRESS", "LOCAL", "PRIORITY", "OIF", "GATEWAY", "GOTO", "FWMARK",
        "FWMASK", "IIFNAME", "OIFNAME"),
      ([.flag_names[]? | select(IN("SELF", "MASTER", "PROXY"))]),
      if .family == 7 then attr("LLADDR", "VLAN", "VNI") else null end end] | tojson;
def _lasting:
  ["CACHEINFO", "STATS", "STATS64", "ICMP6STATS", "XSTATS"] as $ages
  | data | walk(if type != "object" then . else
      with_entries(select(.key | endswith("_TIMER") or IN($ages[]) | not)) end);
def _entries:
  reduce (.[] | (links | { link: . }), (addrs | { addr: . }), (routes | { route: . }),
    (neighs | { neigh: . }), (rules | { rule: . })) as $it ({}; .[$it | _key] = $it);
def changes($a; $b):
  ($a | _entries) as $old | ($b | _entries) as $new
  | ($new | to_entries[] | $old[.key] as $was | .value
    | if $was == null then { change: "+" } + .
      elif (_body | _lasting) == ($was | _body | _lasting) then empty
      else { change: "~" } + . + { before: ($was | _body) } end),
    ($old | to_entries[] | select($new[.key] == null) | { change: "-" } + .value);
def differs:
  select(.before) | (.before | _lasting) as $was | (_body | _lasting) as $now
  | reduce ($was, $now | paths(type != "object" and type != "array")) as $path ({};
      [($was, $now) | try getpath($path) catch null] as $both
      | if $both[0] == $both[1] then . else .[$path | join(".")] = $both end);
