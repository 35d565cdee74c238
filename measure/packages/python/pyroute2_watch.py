"""Prints a line for each notification of links, addresses, routes and neighbours, by pyroute2."""
from pyroute2_dump import messages
from source import Source, say

for it in messages(Source()):
    event, get = it["event"], it.get_attr
    what = event[4:7].lower()
    if event in ("RTM_NEWLINK", "RTM_DELLINK"):
        say(what, "link", get("IFLA_IFNAME"), get("IFLA_OPERSTATE"), flush=True)
    elif event in ("RTM_NEWADDR", "RTM_DELADDR"):
        say(what, "addr", f"{get('IFA_ADDRESS')}/{it['prefixlen']}", it["index"], flush=True)
    elif event in ("RTM_NEWROUTE", "RTM_DELROUTE"):
        length, via = it["dst_len"], get("RTA_VIA")
        to = f"{get('RTA_DST')}/{length}" if length else "default"
        gateway = get("RTA_GATEWAY") or (via["addr"] if via else None)
        say(what, "route", to, gateway, get("RTA_OIF"), flush=True)
    elif event in ("RTM_NEWNEIGH", "RTM_DELNEIGH"):
        say(what, "neigh", get("NDA_DST"), get("NDA_LLADDR"), it["ifindex"], flush=True)
