# What `--explain` adds on standard error.

done_line=1400000003000200010000003930000000000000
link_head='1000 0200 01000000 39300000 00000100 02000000 01000000 00000000'
route_head='1800 0200 01000000 39300000 02000000 fe030001 00000000'
length_rule='a length counts its head, and is at most the bytes left'

expect 'nothing to explain' 0 'datagram 1 canonical' '' check --explain <<<"$done_line"
expect 'an explained order' 1 'datagram 1 bytes 20
refused bad length at 0' "rtnl: datagram 1: bad length at 0: $length_rule: \
message 1 of type 768 of length 335544320, 20 bytes left: [14]000000030002000100000039300000" \
  show --order big --explain <<<"$done_line"
expect 'an explained header, cut' 1 'datagram 1 refused cut at 16' "rtnl: datagram 1: cut at 16: a head is whole: \
message 2, 2 bytes left: 0000030002000100000039300000[12]00" check --explain <<<'10000000030002000100000039300000 1200'
expect 'an explained attribute' 1 'datagram 1 canonical
datagram 2 refused bad length at 32' "rtnl: datagram 2: bad length at 32: $length_rule: \
attribute 3 IFLA_IFNAME at level 0 of length 3, 4 bytes left, in message 1 RTM_NEWLINK at 0: 020000000100000000000000[03]000300" check --explain <<END
$done_line
24000000 $link_head 0300 0300
END
expect 'an explained attribute, nested, in big order' 1 'datagram 1 refused cut at 36' "rtnl: datagram 1: cut at 36: \
a head is whole: attribute at level 1, 2 bytes left, in message 1 RTM_NEWLINK at 0, attribute 18 IFLA_LINKINFO at 32: 0002000000000000000000068012[00]00" \
  check --order big --explain <<<'00000026 0010 0002 00000001 00003039 00000001 00000002 00000000 00000000 0006 8012 0000'
expect 'an explained next hop' 1 'datagram 1 refused bad length at 32' "rtnl: datagram 1: bad length at 32: \
$length_rule: next hop at level 1 of length 9, 8 bytes left, in message 1 RTM_NEWROUTE at 0, attribute 9 RTA_MULTIPATH at 28: 000000000c000900[09]00000002000000" \
  check --explain <<<'28000000 1800 0200 01000000 39300000 02000000 fe030001 00000000 0c00 0900 0900 0000 02000000'
expect 'an explained attribute of a next hop' 1 'datagram 1 canonical
datagram 2 refused bad length at 60' "rtnl: datagram 2: bad length at 60: $length_rule: attribute 5 RTA_GATEWAY at level 2 \
of length 2, 4 bytes left, in message 2 RTM_NEWROUTE at 20, attribute 9 RTA_MULTIPATH at 48, next hop at 52: \
100009000c00000002000000[02]000500" check --explain <<END
$done_line
$done_line 2c000000 18000000 01000000 00000000 02180000 fe030001 00000000 10000900 0c000000 02000000 02000500
END
expect 'an explained attribute without a name' 1 'datagram 1 refused cut at 36' "rtnl: datagram 1: cut at 36: a head is \
whole: attribute at level 1, 1 bytes left, in message 1 RTM_NEWLINK at 0, attribute 999 at 32: \
00000001000000000000000500e783[00]" check --explain <<<"25000000 $link_head 0500 e783 00"
# The path goes from the message down to the list or the next hop in which the head lies, and past those that are
# whole before it.
expect 'an explained attribute of a list' 1 'datagram 1 refused bad length at 36' "rtnl: datagram 1: bad length at 36: \
$length_rule: attribute 1 IFLA_INFO_KIND at level 1 of length 12, 8 bytes left, in message 1 RTM_NEWLINK at 0, \
attribute 18 IFLA_LINKINFO at 32: 000000000c001280[0c]00010061000000" \
  check --explain <<<"2c000000 $link_head 0c001280 0c000100 61000000"
expect 'an explained attribute of a second message' 1 'datagram 1 refused bad length at 52' "rtnl: datagram 1: bad \
length at 52: $length_rule: attribute 3 IFLA_IFNAME at level 0 of length 3, 4 bytes left, in message 2 RTM_NEWLINK at \
20: 020000000100000000000000[03]000300" check --explain <<<"$done_line 24000000 $link_head 03000300"
expect 'an explained attribute of a list in a list' 1 'datagram 1 refused bad length at 40' "rtnl: datagram 1: bad \
length at 40: $length_rule: attribute 7 at level 2 of length 2, 4 bytes left, in message 1 RTM_NEWLINK at 0, \
attribute 18 IFLA_LINKINFO at 32, attribute 2 IFLA_INFO_DATA at 36: 000000000c00128008000280[02]000700" \
  check --explain <<<"2c000000 $link_head 0c001280 08000280 02000700"
expect 'an explained attribute of a second list' 1 'datagram 1 refused bad length at 48' "rtnl: datagram 1: bad length \
at 48: $length_rule: attribute 53 at level 1 of length 3, 4 bytes left, in message 1 RTM_NEWLINK at 0, attribute 52 \
IFLA_PROP_LIST at 44: 080001006162000008003480[03]003500" \
  check --explain <<<"34000000 $link_head 0c001280 08000100 61620000 08003480 03003500"
expect 'an explained attribute of a list of a second next hop' 1 'datagram 1 refused bad length at 60' "rtnl: datagram \
1: bad length at 60: $length_rule: attribute 2 RTAX_MTU at level 3 of length 9, 8 bytes left, in message 1 RTM_NEWROUTE \
at 0, attribute 9 RTA_MULTIPATH at 28, next hop at 48, attribute 8 RTA_METRICS at 56: \
030000000c000800[09]000200dc050000" check --explain < <(printf '%s ' "44000000 $route_head 28000900" \
  '10000000 02000000 08000500 0a000001' '14000000 03000000 0c000800 09000200 dc050000')
expect 'an explained next hop, cut' 1 'datagram 1 refused cut at 32' "rtnl: datagram 1: cut at 32: a head is whole: \
next hop at level 1, 4 bytes left, in message 1 RTM_NEWROUTE at 0, attribute 9 RTA_MULTIPATH at 28: \
fe0300010000000008000900[08]000000" check --explain <<<"24000000 $route_head 08000900 08000000"
expect 'an explained attribute that has no name itself' 1 'datagram 1 refused bad length at 32' "rtnl: datagram 1: bad \
length at 32: $length_rule: attribute 999 at level 0 of length 3, 4 bytes left, in message 1 RTM_NEWLINK at 0: \
020000000100000000000000[03]00e783" check --explain <<<"24000000 $link_head 0300e783"
expect 'an explained body' 1 'datagram 1 refused short body at 0' "rtnl: datagram 1: short body at 0: \
a body begins with the whole head of its type: message 1 RTM_NEWLINK of length 20, 20 bytes left: [14]000000100002000100000039300000" \
  check --explain <<<'14000000 1000 0200 01000000 39300000 00000000'
expect 'an explained size' 1 'datagram 1 refused too large' \
  'rtnl: datagram 1: too large: 65537 bytes, and the limit is 65536' check --explain < <(zeros 65537)
expect 'an explained refusal in JSON' 1 '{"datagram":1,"refused":"cut","at":16}' "rtnl: datagram 1: cut at 16: \
a head is whole: message 2, 2 bytes left: 0000030002000100000039300000[12]00" \
  check --explain --format json <<<'10000000030002000100000039300000 1200'

# A table explains what it was fed: the first datagram breaks a rule, the third is left.
expect 'an explained table' 1 'dump link seq 1 port 12345
datagram 1 refused too deep at 32
end done 0
entries 0 missed 0 ignored 0 unfed 1 damaged yes interrupted no
received 56 visits 4
complete no' 'rtnl: datagram 1: too deep at 32: attributes are nested at most as deep as the limit: '\
'attribute 18 IFLA_LINKINFO at level 0 of length 4, 4 bytes left, in message 1 RTM_NEWLINK at 0: 020000000100000000000000[04]001280' \
  table --kind link --seq 1 --port 12345 --depth 0 --explain <<END
24000000 $link_head 0400 1280
$done_line
00
END

expect 'an explained byte' 1 '' 'rtnl: line 2: bad line
rtnl: standard input: line 2, column 5: byte 0x67 is no hexadecimal digit' show --explain < <(printf '# note\n14 0g')
expect 'explained digits' 1 '' 'rtnl: line 1: bad line
rtnl: standard input: line 1: 3 digits, an odd number' show --explain <<<140
expect 'explained digits, wrapped' 1 '' 'rtnl: line 1: bad line
rtnl: standard input: line 1: 5 digits, an odd number; the line looks wrapped' show --explain < <(printf '14000\n00003\n')
expect 'an explained file of bytes' 1 '' 'rtnl: line 1: bad line
rtnl: standard input: line 1, column 1: byte 0x7f is no hexadecimal digit; the file is binary: rtnl-record reads captures' \
  check --explain < <(printf '\177ELF')
expect 'an explained byte order mark' 1 '' 'rtnl: line 1: bad line
rtnl: standard input: line 1, column 1: byte 0xef is no hexadecimal digit; the file begins with a byte order mark' \
  show --explain < <(printf '\xef\xbb\xbf# note\n%s\n' "$done_line")
expect 'an explained byte order mark of UTF-16' 1 '' 'rtnl: line 1: bad line
rtnl: standard input: line 1, column 1: byte 0xff is no hexadecimal digit; the file begins with a byte order mark' \
  check --explain < <(printf '\xff\xfe1\0004\0')
expect 'an explained byte order mark of UTF-16, the highest byte first' 1 '' 'rtnl: line 1: bad line
rtnl: standard input: line 1, column 1: byte 0xfe is no hexadecimal digit; the file begins with a byte order mark' \
  check --explain < <(printf '\xfe\xff\0001')
expect 'an explained byte order mark on a later line' 1 '' 'rtnl: line 2: bad line
rtnl: standard input: line 2, column 1: byte 0xef is no hexadecimal digit; the file is binary: rtnl-record reads captures' \
  check --explain < <(printf '# note\n\xef\xbb\xbf00\n')
expect 'explained bytes that are no byte order mark' 1 '' 'rtnl: line 1: bad line
rtnl: standard input: line 1, column 1: byte 0xef is no hexadecimal digit; the file is binary: rtnl-record reads captures' \
  check --explain < <(printf '\xef\xbb00\n')
expect 'a missing file, explained' 3 '' "$(unread "$folder/missing" "$missing")" check --explain "$folder/missing"
expect 'a folder, explained' 3 '' "$(unread "$folder" "$is_folder")" show --explain "$folder"
expect 'an input that is too long, explained' 3 '' "$(too_long 'standard input')" show --explain < <(comment 16777217)
check 'a full device, explained' ends 3 '' "$full_device" into_full_device check --explain <<<"$done_line"
check 'errors that cannot be written, explained' ends 1 'datagram 1 refused cut at 0' '' \
  with_full_errors check --explain <<<00

# What is followed is explained as it comes, of a dump too.
expect 'followed, an explained attribute' 1 "$finish_text
datagram 2 bytes 36
refused bad length at 32
datagram 3 bytes 20
$finish_message" "rtnl: datagram 2: bad length at 32: $length_rule: \
attribute 3 IFLA_IFNAME at level 0 of length 3, 4 bytes left, in message 1 RTM_NEWLINK at 0: 020000000100000000000000[03]000300" \
  follow --explain <<END
$done_line
24000000 $link_head 0300 0300
$done_line
END
expect 'a dump that is followed, an explained attribute' 1 "dump link seq 1 port 12345
datagram 1 refused bad length at 32
end done 0
entries 0 missed 0 ignored 0 unfed 0 damaged yes interrupted no
received 56 visits 0
complete no" "rtnl: datagram 1: bad length at 32: $length_rule: \
attribute 3 IFLA_IFNAME at level 0 of length 3, 4 bytes left, in message 1 RTM_NEWLINK at 0: 020000000100000000000000[03]000300" \
  follow --kind link --seq 1 --port 12345 --explain <<END
24000000 $link_head 0300 0300
$done_line
END
