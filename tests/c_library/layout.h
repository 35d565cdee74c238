/*
 * The sizes and the places of the fields that each struct has where a pointer has eight bytes. A
 * line that is not so doesn't compile.
 */
#ifndef LAYOUT_H
#define LAYOUT_H

#include "rtnlc.h"

#define IS_SIZE(type, size) typedef char size_of_##type[sizeof(struct type) == (size) ? 1 : -1]
#define IS_AT(type, field, place)                                                                \
	typedef char place_in_##type##_##field[offsetof(struct type, field) == (place) ? 1 : -1]

IS_SIZE(rtnlc_options, 40);
IS_AT(rtnlc_options, total, 0);
IS_AT(rtnlc_options, datagram, 8);
IS_AT(rtnlc_options, entries, 12);
IS_AT(rtnlc_options, depth, 16);
IS_AT(rtnlc_options, big, 17);
IS_AT(rtnlc_options, seed, 18);

IS_SIZE(rtnlc_scanned, 16);
IS_AT(rtnlc_scanned, visits, 0);
IS_AT(rtnlc_scanned, place, 8);
IS_AT(rtnlc_scanned, code, 12);

IS_SIZE(rtnlc_broken_head, 20);
IS_AT(rtnlc_broken_head, place, 0);
IS_AT(rtnlc_broken_head, len, 4);
IS_AT(rtnlc_broken_head, left, 8);
IS_AT(rtnlc_broken_head, number, 12);
IS_AT(rtnlc_broken_head, level, 14);
IS_AT(rtnlc_broken_head, sort, 15);
IS_AT(rtnlc_broken_head, whole, 16);
IS_AT(rtnlc_broken_head, code, 17);

IS_SIZE(rtnlc_event, 16);
IS_AT(rtnlc_event, place, 0);
IS_AT(rtnlc_event, len, 4);
IS_AT(rtnlc_event, number, 8);
IS_AT(rtnlc_event, level, 10);
IS_AT(rtnlc_event, sort, 11);
IS_AT(rtnlc_event, nested, 12);
IS_AT(rtnlc_event, net, 13);

IS_SIZE(rtnlc_taped, 24);
IS_AT(rtnlc_taped, count, 0);
IS_AT(rtnlc_taped, visits, 8);
IS_AT(rtnlc_taped, place, 16);
IS_AT(rtnlc_taped, code, 20);

IS_SIZE(rtnlc_message, 28);
IS_AT(rtnlc_message, place, 0);
IS_AT(rtnlc_message, next, 4);
IS_AT(rtnlc_message, len, 8);
IS_AT(rtnlc_message, seq, 12);
IS_AT(rtnlc_message, port, 16);
IS_AT(rtnlc_message, kind, 20);
IS_AT(rtnlc_message, flags, 22);
IS_AT(rtnlc_message, code, 24);

IS_SIZE(rtnlc_attr, 20);
IS_AT(rtnlc_attr, place, 0);
IS_AT(rtnlc_attr, next, 4);
IS_AT(rtnlc_attr, len, 8);
IS_AT(rtnlc_attr, number, 12);
IS_AT(rtnlc_attr, nested, 14);
IS_AT(rtnlc_attr, net, 15);
IS_AT(rtnlc_attr, code, 16);

IS_SIZE(rtnlc_hop, 20);
IS_AT(rtnlc_hop, place, 0);
IS_AT(rtnlc_hop, next, 4);
IS_AT(rtnlc_hop, len, 8);
IS_AT(rtnlc_hop, ifindex, 12);
IS_AT(rtnlc_hop, flags, 16);
IS_AT(rtnlc_hop, hops, 17);
IS_AT(rtnlc_hop, code, 18);

IS_SIZE(rtnlc_family, 2);
IS_AT(rtnlc_family, head_size, 0);
IS_AT(rtnlc_family, context, 1);

IS_SIZE(rtnlc_holds, 2);
IS_AT(rtnlc_holds, sort, 0);
IS_AT(rtnlc_holds, context, 1);

IS_SIZE(rtnlc_checked, 8);
IS_AT(rtnlc_checked, place, 0);
IS_AT(rtnlc_checked, code, 4);
IS_AT(rtnlc_checked, canonical, 5);

IS_SIZE(rtnlc_shown, 16);
IS_AT(rtnlc_shown, len, 0);
IS_AT(rtnlc_shown, code, 8);

IS_SIZE(rtnlc_put, 16);
IS_AT(rtnlc_put, len, 0);
IS_AT(rtnlc_put, code, 8);

IS_SIZE(rtnlc_status, 48);
IS_AT(rtnlc_status, received, 0);
IS_AT(rtnlc_status, visits, 8);
IS_AT(rtnlc_status, ignored, 16);
IS_AT(rtnlc_status, seq, 24);
IS_AT(rtnlc_status, port, 28);
IS_AT(rtnlc_status, status, 32);
IS_AT(rtnlc_status, kind, 36);
IS_AT(rtnlc_status, family, 38);
IS_AT(rtnlc_status, state, 39);
IS_AT(rtnlc_status, damaged, 40);
IS_AT(rtnlc_status, interrupted, 41);
IS_AT(rtnlc_status, complete, 42);
IS_AT(rtnlc_status, code, 43);

IS_SIZE(rtnlc_fed, 24);
IS_AT(rtnlc_fed, events, 0);
IS_AT(rtnlc_fed, items, 8);
IS_AT(rtnlc_fed, ignored, 12);
IS_AT(rtnlc_fed, place, 16);
IS_AT(rtnlc_fed, ended, 20);
IS_AT(rtnlc_fed, code, 21);

IS_SIZE(rtnlc_session, 8);
IS_AT(rtnlc_session, at, 0);

IS_SIZE(rtnlc_table, 24);
IS_AT(rtnlc_table, missed, 0);
IS_AT(rtnlc_table, count, 8);
IS_AT(rtnlc_table, limit, 12);
IS_AT(rtnlc_table, code, 16);

IS_SIZE(rtnlc_found, 8);
IS_AT(rtnlc_found, index, 0);
IS_AT(rtnlc_found, code, 4);

IS_SIZE(rtnlc_mirror, 8);
IS_AT(rtnlc_mirror, at, 0);

IS_SIZE(rtnlc_change, 16);
IS_AT(rtnlc_change, before, 0);
IS_AT(rtnlc_change, before_len, 4);
IS_AT(rtnlc_change, index, 8);
IS_AT(rtnlc_change, kind, 12);
IS_AT(rtnlc_change, effect, 14);
IS_AT(rtnlc_change, code, 15);

IS_SIZE(rtnlc_heard, 32);
IS_AT(rtnlc_heard, visits, 0);
IS_AT(rtnlc_heard, changes, 8);
IS_AT(rtnlc_heard, before, 16);
IS_AT(rtnlc_heard, place, 24);
IS_AT(rtnlc_heard, code, 28);

IS_SIZE(rtnlc_mirrored, 24);
IS_AT(rtnlc_mirrored, missed, 0);
IS_AT(rtnlc_mirrored, count, 8);
IS_AT(rtnlc_mirrored, limit, 12);
IS_AT(rtnlc_mirrored, seq, 16);
IS_AT(rtnlc_mirrored, stale, 20);
IS_AT(rtnlc_mirrored, dumps, 21);
IS_AT(rtnlc_mirrored, code, 22);

IS_SIZE(rtnlc_stream, 64);
IS_AT(rtnlc_stream, total, 0);
IS_AT(rtnlc_stream, received, 8);
IS_AT(rtnlc_stream, visits, 16);
IS_AT(rtnlc_stream, ignored, 24);
IS_AT(rtnlc_stream, datagram, 32);
IS_AT(rtnlc_stream, entries, 36);
IS_AT(rtnlc_stream, seq, 40);
IS_AT(rtnlc_stream, port, 44);
IS_AT(rtnlc_stream, status, 48);
IS_AT(rtnlc_stream, kind, 52);
IS_AT(rtnlc_stream, family, 54);
IS_AT(rtnlc_stream, state, 55);
IS_AT(rtnlc_stream, depth, 56);
IS_AT(rtnlc_stream, big, 57);
IS_AT(rtnlc_stream, damaged, 58);
IS_AT(rtnlc_stream, interrupted, 59);

IS_SIZE(rtnlc_built, 192);
IS_AT(rtnlc_built, total, 0);
IS_AT(rtnlc_built, entries, 8);
IS_AT(rtnlc_built, datagram, 12);
IS_AT(rtnlc_built, len, 16);
IS_AT(rtnlc_built, starts, 20);
IS_AT(rtnlc_built, contents, 152);
IS_AT(rtnlc_built, count, 185);
IS_AT(rtnlc_built, depth, 186);
IS_AT(rtnlc_built, big, 187);
IS_AT(rtnlc_built, refusal, 188);

IS_SIZE(rtnlc_builder, 208);
IS_AT(rtnlc_builder, out, 0);
IS_AT(rtnlc_builder, room, 8);
IS_AT(rtnlc_builder, built, 16);

IS_SIZE(rtnlc_bytes, 16);
IS_AT(rtnlc_bytes, at, 0);
IS_AT(rtnlc_bytes, len, 8);

IS_SIZE(rtnlc_link_request, 88);
IS_AT(rtnlc_link_request, name, 0);
IS_AT(rtnlc_link_request, address, 16);
IS_AT(rtnlc_link_request, kind, 32);
IS_AT(rtnlc_link_request, data, 48);
IS_AT(rtnlc_link_request, index, 64);
IS_AT(rtnlc_link_request, mtu, 68);
IS_AT(rtnlc_link_request, master, 72);
IS_AT(rtnlc_link_request, link, 76);
IS_AT(rtnlc_link_request, has_mtu, 80);
IS_AT(rtnlc_link_request, has_master, 81);
IS_AT(rtnlc_link_request, has_link, 82);
IS_AT(rtnlc_link_request, has_up, 83);
IS_AT(rtnlc_link_request, up, 84);

IS_SIZE(rtnlc_addr_request, 88);
IS_AT(rtnlc_addr_request, local, 0);
IS_AT(rtnlc_addr_request, peer, 16);
IS_AT(rtnlc_addr_request, broadcast, 32);
IS_AT(rtnlc_addr_request, label, 48);
IS_AT(rtnlc_addr_request, index, 64);
IS_AT(rtnlc_addr_request, flags, 68);
IS_AT(rtnlc_addr_request, preferred, 72);
IS_AT(rtnlc_addr_request, valid, 76);
IS_AT(rtnlc_addr_request, has_lifetimes, 80);
IS_AT(rtnlc_addr_request, family, 81);
IS_AT(rtnlc_addr_request, prefix_length, 82);
IS_AT(rtnlc_addr_request, scope, 83);

IS_SIZE(rtnlc_metric, 8);
IS_AT(rtnlc_metric, number, 0);
IS_AT(rtnlc_metric, value, 4);

IS_SIZE(rtnlc_next_hop, 24);
IS_AT(rtnlc_next_hop, index, 0);
IS_AT(rtnlc_next_hop, flags, 4);
IS_AT(rtnlc_next_hop, hops, 5);
IS_AT(rtnlc_next_hop, gateway_len, 6);
IS_AT(rtnlc_next_hop, gateway, 7);

IS_SIZE(rtnlc_route_request, 128);
IS_AT(rtnlc_route_request, destination, 0);
IS_AT(rtnlc_route_request, source, 16);
IS_AT(rtnlc_route_request, gateway, 32);
IS_AT(rtnlc_route_request, preferred_source, 48);
IS_AT(rtnlc_route_request, metrics, 64);
IS_AT(rtnlc_route_request, metric_count, 72);
IS_AT(rtnlc_route_request, hops, 80);
IS_AT(rtnlc_route_request, hop_count, 88);
IS_AT(rtnlc_route_request, table, 96);
IS_AT(rtnlc_route_request, flags, 100);
IS_AT(rtnlc_route_request, priority, 104);
IS_AT(rtnlc_route_request, oif, 108);
IS_AT(rtnlc_route_request, has_priority, 112);
IS_AT(rtnlc_route_request, has_oif, 113);
IS_AT(rtnlc_route_request, family, 114);
IS_AT(rtnlc_route_request, destination_length, 115);
IS_AT(rtnlc_route_request, source_length, 116);
IS_AT(rtnlc_route_request, tos, 117);
IS_AT(rtnlc_route_request, protocol, 118);
IS_AT(rtnlc_route_request, scope, 119);
IS_AT(rtnlc_route_request, route_type, 120);

IS_SIZE(rtnlc_neigh_request, 48);
IS_AT(rtnlc_neigh_request, destination, 0);
IS_AT(rtnlc_neigh_request, link_address, 16);
IS_AT(rtnlc_neigh_request, index, 32);
IS_AT(rtnlc_neigh_request, state, 36);
IS_AT(rtnlc_neigh_request, vlan, 38);
IS_AT(rtnlc_neigh_request, has_vlan, 40);
IS_AT(rtnlc_neigh_request, family, 41);
IS_AT(rtnlc_neigh_request, flags, 42);

IS_SIZE(rtnlc_rule_request, 104);
IS_AT(rtnlc_rule_request, source, 0);
IS_AT(rtnlc_rule_request, destination, 16);
IS_AT(rtnlc_rule_request, iif, 32);
IS_AT(rtnlc_rule_request, oif, 48);
IS_AT(rtnlc_rule_request, table, 64);
IS_AT(rtnlc_rule_request, mark, 68);
IS_AT(rtnlc_rule_request, mask, 72);
IS_AT(rtnlc_rule_request, target, 76);
IS_AT(rtnlc_rule_request, suppress_prefix_length, 80);
IS_AT(rtnlc_rule_request, priority, 84);
IS_AT(rtnlc_rule_request, has_mark, 88);
IS_AT(rtnlc_rule_request, has_mask, 89);
IS_AT(rtnlc_rule_request, has_target, 90);
IS_AT(rtnlc_rule_request, has_suppress_prefix_length, 91);
IS_AT(rtnlc_rule_request, has_priority, 92);
IS_AT(rtnlc_rule_request, invert, 93);
IS_AT(rtnlc_rule_request, family, 94);
IS_AT(rtnlc_rule_request, source_length, 95);
IS_AT(rtnlc_rule_request, destination_length, 96);
IS_AT(rtnlc_rule_request, tos, 97);
IS_AT(rtnlc_rule_request, action, 98);

#endif
