# Cases of `show --bytes`, read in by ../program.sh.

# ---- accepted datagrams

# rows_of_header LENGTH BYTE TYPE BYTE: the rows of a header; its length and its type are these bytes.
rows_of_header() {
  cat <<END
    0  $2 00 00 00                                      nlmsg_len $1
    4  $4 00                                            nlmsg_type $3
    6  02 00                                            nlmsg_flags 0x0002 MULTI
    8  01 00 00 00                                      nlmsg_seq 1
   12  39 30 00 00                                      nlmsg_pid 12345
END
}

loopback_bytes="datagram 1 bytes 48
$(rows_of_header 48 30 '16 RTM_NEWLINK' 10)
   16  00                                                 ifi_family 0
   17  00                                                 __ifi_pad
   18  04 03                                              ifi_type 772
   20  01 00 00 00                                        ifi_index 1
   24  49 00 01 00                                        ifi_flags 0x00010049 UP,LOOPBACK,RUNNING,LOWER_UP
   28  00 00 00 00                                        ifi_change 0x00000000
   32  07 00                                                rta_len 7
   34  03 00                                                rta_type 3 IFLA_IFNAME
   36  6c 6f 00                                             IFLA_IFNAME text lo
   39  00                                                   padding
   40  08 00                                                rta_len 8
   42  04 00                                                rta_type 4 IFLA_MTU
   44  00 00 01 00                                          IFLA_MTU u32 65536"
expect 'bytes of a link' 0 "$loopback_bytes" '' show --bytes <<<"$loopback"
expect 'bytes of a link, FILE' 0 "$loopback_bytes" '' show --bytes "$folder/link" </dev/null
expect 'bytes of a link, as text' 0 "$loopback_bytes" '' show --format text --bytes <<<"$loopback"
expect 'bytes of a link, order big' 0 'datagram 1 bytes 48
    0  00 00 00 30                                      nlmsg_len 48
    4  00 10                                            nlmsg_type 16 RTM_NEWLINK
    6  00 02                                            nlmsg_flags 0x0002 MULTI
    8  00 00 00 01                                      nlmsg_seq 1
   12  00 00 30 39                                      nlmsg_pid 12345
   16  00                                                 ifi_family 0
   17  00                                                 __ifi_pad
   18  03 04                                              ifi_type 772
   20  00 00 00 01                                        ifi_index 1
   24  00 01 00 49                                        ifi_flags 0x00010049 UP,LOOPBACK,RUNNING,LOWER_UP
   28  00 00 00 00                                        ifi_change 0x00000000
   32  00 07                                                rta_len 7
   34  00 03                                                rta_type 3 IFLA_IFNAME
   36  6c 6f 00                                             IFLA_IFNAME text lo
   39  00                                                   padding
   40  00 08                                                rta_len 8
   42  00 04                                                rta_type 4 IFLA_MTU
   44  00 01 00 00                                          IFLA_MTU u32 65536' \
  '' show --bytes --order big <<<"$loopback_big"
expect 'bytes of two datagrams' 0 "$loopback_bytes
datagram 2 bytes 16
    0  10 00 00 00                                      nlmsg_len 16
    4  01 00                                            nlmsg_type 1 NLMSG_NOOP
    6  00 00                                            nlmsg_flags 0x0000 -
    8  00 00 00 00                                      nlmsg_seq 0
   12  00 00 00 00                                      nlmsg_pid 0" \
  '' show --bytes < <(printf '%s\n' "$loopback" '10000000 0100 0000 00000000 00000000')
expect 'bytes of no datagram' 0 '' '' show --bytes <<<'# nothing'

# An ERROR with 4 bytes behind the header that it answers, a GET of 17 bytes, a DONE with 4 bytes
# behind its status, one of 2 bytes, and a message of a type without a name.
plain_bodies='28000000 0200 0001 01000000 39300000 ffffffff 20000000 1200 0103 01000000 00000000 aabbccdd
11000000 1200 0103 01000000 00000000 07 000000
18000000 0300 0200 01000000 39300000 fbffffff deadbeef
12000000 0300 0000 01000000 39300000 abcd 0000
14000000 0f00 0000 00000000 00000000 01020304'
expect 'bytes of messages without attributes' 0 'datagram 1 bytes 124
    0  28 00 00 00                                      nlmsg_len 40
    4  02 00                                            nlmsg_type 2 NLMSG_ERROR
    6  00 01                                            nlmsg_flags 0x0100 CAPPED
    8  01 00 00 00                                      nlmsg_seq 1
   12  39 30 00 00                                      nlmsg_pid 12345
   16  ff ff ff ff                                        error -1
   20  20 00 00 00                                        nlmsg_len 32
   24  12 00                                              nlmsg_type 18 RTM_GETLINK
   26  01 03                                              nlmsg_flags 0x0301 REQUEST,ROOT,MATCH
   28  01 00 00 00                                        nlmsg_seq 1
   32  00 00 00 00                                        nlmsg_pid 0
   36  aa bb cc dd                                        tail
   40  11 00 00 00                                      nlmsg_len 17
   44  12 00                                            nlmsg_type 18 RTM_GETLINK
   46  01 03                                            nlmsg_flags 0x0301 REQUEST,ROOT,MATCH
   48  01 00 00 00                                      nlmsg_seq 1
   52  00 00 00 00                                      nlmsg_pid 0
   56  07                                                 rtgen_family 7
   57  00 00 00                                           padding
   60  18 00 00 00                                      nlmsg_len 24
   64  03 00                                            nlmsg_type 3 NLMSG_DONE
   66  02 00                                            nlmsg_flags 0x0002 MULTI
   68  01 00 00 00                                      nlmsg_seq 1
   72  39 30 00 00                                      nlmsg_pid 12345
   76  fb ff ff ff                                        status -5
   80  de ad be ef                                        tail
   84  12 00 00 00                                      nlmsg_len 18
   88  03 00                                            nlmsg_type 3 NLMSG_DONE
   90  00 00                                            nlmsg_flags 0x0000 -
   92  01 00 00 00                                      nlmsg_seq 1
   96  39 30 00 00                                      nlmsg_pid 12345
  100  ab cd                                              tail
  102  00 00                                              padding
  104  14 00 00 00                                      nlmsg_len 20
  108  0f 00                                            nlmsg_type 15
  110  00 00                                            nlmsg_flags 0x0000 -
  112  00 00 00 00                                      nlmsg_seq 0
  116  00 00 00 00                                      nlmsg_pid 0
  120  01 02 03 04                                        payload' '' show --bytes <<<"${plain_bodies//$'\n'/ }"

# rows_of_link LENGTH BYTE: the rows of the header and the head of a link of zeros; its length is
# this byte.
rows_of_link() {
  rows_of_header "$1" "$2" '16 RTM_NEWLINK' 10
  cat <<END
   16  00                                                 ifi_family 0
   17  00                                                 __ifi_pad
   18  00 00                                              ifi_type 0
   20  00 00 00 00                                        ifi_index 0
   24  00 00 00 00                                        ifi_flags 0x00000000 -
   28  00 00 00 00                                        ifi_change 0x00000000
END
}
zero_link='1000 0200 01000000 39300000 00000000 00000000 00000000 00000000'

# rows_of_route LENGTH BYTE: the same of a route.
rows_of_route() {
  rows_of_header "$1" "$2" '24 RTM_NEWROUTE' 18
  cat <<END
   16  02                                                 rtm_family 2
   17  00                                                 rtm_dst_len 0
   18  00                                                 rtm_src_len 0
   19  00                                                 rtm_tos 0
   20  fe                                                 rtm_table 254
   21  03                                                 rtm_protocol 3
   22  00                                                 rtm_scope 0
   23  01                                                 rtm_type 1
   24  00 00 00 00                                        rtm_flags 0x00000000
END
}
some_route='1800 0200 01000000 39300000 02000000 fe030001 00000000'

expect 'bytes of next hops and metrics' 0 "datagram 1 bytes 68
$(rows_of_route 68 44)
   28  0c 00                                                rta_len 12
   30  08 00                                                rta_type 8 RTA_METRICS
   32  08 00                                                  rta_len 8
   34  02 00                                                  rta_type 2 RTAX_MTU
   36  dc 05 00 00                                            RTAX_MTU u32 1500
   40  1c 00                                                rta_len 28
   42  09 80                                                rta_type 9 RTA_MULTIPATH NESTED
   44  10 00                                                  rtnh_len 16
   46  41                                                     rtnh_flags 0x41 DEAD
   47  03                                                     rtnh_hops 3
   48  ff ff ff ff                                            rtnh_ifindex -1
   52  08 00                                                    rta_len 8
   54  05 00                                                    rta_type 5 RTA_GATEWAY
   56  0a 00 00 01                                              RTA_GATEWAY ipv4 10.0.0.1
   60  08 00                                                  rtnh_len 8
   62  00                                                     rtnh_flags 0x00 -
   63  00                                                     rtnh_hops 0
   64  02 00 00 00                                            rtnh_ifindex 2" '' show --bytes \
  <<<"44000000 $some_route 0c000800 08000200 dc050000 1c000980 10004103 ffffffff 08000500 0a000001 08000000 02000000"
expect 'bytes of attributes without a name, with flags' 0 "datagram 1 bytes 56
$(rows_of_link 56 38)
   32  08 00                                                rta_len 8
   34  e7 43                                                rta_type 999 NET_BYTEORDER
   36  61 62 63 64                                          payload
   40  0c 00                                                rta_len 12
   42  e7 83                                                rta_type 999 NESTED
   44  08 00                                                  rta_len 8
   46  03 00                                                  rta_type 3
   48  6c 6f 00 00                                            payload
   52  04 00                                                rta_len 4
   54  e7 c3                                                rta_type 999 NESTED NET_BYTEORDER" '' show --bytes \
  <<<"38000000 $zero_link 0800e743 61626364 0c00e783 08000300 6c6f0000 0400e7c3"
# A list whose last attribute ends with it, 41 bytes of text, and names that `show` leaves out.
expect 'bytes of paddings, of a long payload and of further names' 0 "datagram 1 bytes 104
$(rows_of_link 103 67)
   32  09 00                                                rta_len 9
   34  12 00                                                rta_type 18 IFLA_LINKINFO
   36  05 00                                                  rta_len 5
   38  01 00                                                  rta_type 1 IFLA_INFO_KIND
   40  61                                                     IFLA_INFO_KIND text a
   41  01 02 03                                               padding
   44  2d 00                                                rta_len 45
   46  14 00                                                rta_type 20 IFLA_IFALIAS
   48  61 61 61 61 61 61 61 61 61 61 61 61 61 61 61 61      IFLA_IFALIAS text aaaaaaaaaaaaaaaaaaaaaaaaaaaaaaaaaaaaaaaab
   64  61 61 61 61 61 61 61 61 61 61 61 61 61 61 61 61
   80  61 61 61 61 61 61 61 61 62
   89  00 00 00                                             padding
   92  04 00                                                rta_len 4
   94  34 80                                                rta_type 52 IFLA_PROP_LIST NESTED
   96  07 00                                                rta_len 7
   98  17 00                                                rta_type 23 IFLA_STATS64
  100  01 02 03                                             IFLA_STATS64
  103  00                                                   padding" '' show --bytes < <(
  printf '67000000 %s 09001200 05000100 61010203 2d001400 ' "$zero_link"
  for _ in {1..40}; do printf 61; done
  echo '62 000000 04003480 07001700 01020300'
)

# ---- refused datagrams: parts up to the head that breaks a rule, and the bytes behind it

bad_length_bytes="datagram 1 bytes 52
$(rows_of_link 36 24)
   32  03 00                                                !! rta_len 3: bad length at 32, 4 bytes left
   34  01 00                                                rta_type 1 IFLA_ADDRESS
   36  00 00 00 00 03 00 02 00 01 00 00 00 39 30 00 00  unread
refused bad length at 32"
expect 'bytes, bad length' 1 "$bad_length_bytes" '' show --bytes <<<"$short_attribute"
expect 'bytes, bad length of a header' 1 'datagram 1 bytes 20
    0  14 00 00 00                                      !! nlmsg_len 335544320: bad length at 0, 20 bytes left
    4  03 00                                            nlmsg_type 768
    6  02 00                                            nlmsg_flags 0x0200 -
    8  01 00 00 00                                      nlmsg_seq 16777216
   12  39 30 00 00                                      nlmsg_pid 959447040
   16  00 00 00 00                                      unread
refused bad length at 0' '' show --bytes --order big <<<"$finish"
expect 'bytes, bad length of a next hop' 1 "datagram 1 bytes 40
$(rows_of_route 40 28)
   28  0c 00                                                rta_len 12
   30  09 00                                                rta_type 9 RTA_MULTIPATH
   32  09 00                                                  !! rtnh_len 9: bad length at 32, 8 bytes left
   34  00                                                     rtnh_flags 0x00 -
   35  00                                                     rtnh_hops 0
   36  02 00 00 00                                            rtnh_ifindex 2
refused bad length at 32" '' show --bytes <<<"28000000 $some_route 0c000900 09000000 02000000"
expect 'bytes, short body' 1 'datagram 1 bytes 20
    0  14 00 00 00                                      !! nlmsg_len 20: short body at 0, 20 bytes left
    4  10 00                                            nlmsg_type 16 RTM_NEWLINK
    6  02 00                                            nlmsg_flags 0x0002 MULTI
    8  01 00 00 00                                      nlmsg_seq 1
   12  39 30 00 00                                      nlmsg_pid 12345
   16  00 00 00 00                                      unread
refused short body at 0' '' show --bytes <<<'14000000 1000 0200 01000000 39300000 00000000'
finish_rows='    0  14 00 00 00                                      nlmsg_len 20
    4  03 00                                            nlmsg_type 3 NLMSG_DONE
    6  02 00                                            nlmsg_flags 0x0002 MULTI
    8  01 00 00 00                                      nlmsg_seq 1
   12  39 30 00 00                                      nlmsg_pid 12345
   16  00 00 00 00                                        status 0'
cut_header_bytes="datagram 1 bytes 22
$finish_rows
   20  12 00                                            !! nlmsghdr: cut at 20, 2 bytes left
refused cut at 20"
expect 'bytes, a header that is cut' 1 "$cut_header_bytes" '' show --bytes <<<"$finish 1200"
expect 'bytes, an attribute that is cut' 1 "datagram 1 bytes 56
$(rows_of_link 34 22)
   32  08 00                                                !! rtattr: cut at 32, 2 bytes left
   34  03 00 14 00 00 00 03 00 02 00 01 00 00 00 39 30  unread
   50  00 00 00 00 00 00
refused cut at 32" '' show --bytes <<<"22000000 $zero_link 0800 0300 $finish"
expect 'bytes, an attribute of a list that is cut' 1 "datagram 1 bytes 48
$(rows_of_link 48 30)
   32  07 00                                                rta_len 7
   34  12 00                                                rta_type 18 IFLA_LINKINFO
   36  04 00 01                                               !! rtattr: cut at 36, 3 bytes left
   39  00 08 00 04 00 00 00 01 00                       unread
refused cut at 36" '' show --bytes <<<"30000000 $zero_link 07001200 04000100 08000400 00000100"
expect 'bytes, a next hop that is cut' 1 "datagram 1 bytes 36
$(rows_of_route 36 24)
   28  08 00                                                rta_len 8
   30  09 00                                                rta_type 9 RTA_MULTIPATH
   32  08 00 00 00                                            !! rtnexthop: cut at 32, 4 bytes left
refused cut at 32" '' show --bytes <<<"24000000 $some_route 08000900 08000000"
expect 'bytes, too deep' 1 "datagram 1 bytes 68
$(rows_of_link 68 44)
   32  24 00                                                rta_len 36
   34  01 80                                                rta_type 1 IFLA_ADDRESS NESTED
   36  20 00                                                  rta_len 32
   38  01 80                                                  rta_type 1 NESTED
   40  1c 00                                                    rta_len 28
   42  01 80                                                    rta_type 1 NESTED
   44  18 00                                                      rta_len 24
   46  01 80                                                      rta_type 1 NESTED
   48  14 00                                                        rta_len 20
   50  01 80                                                        rta_type 1 NESTED
   52  10 00                                                          rta_len 16
   54  01 80                                                          rta_type 1 NESTED
   56  0c 00                                                            rta_len 12
   58  01 80                                                            rta_type 1 NESTED
   60  08 00                                                              rta_len 8
   62  01 80                                                              rta_type 1 NESTED
   64  04 00                                                                !! rta_len 4: too deep at 64, 4 bytes left
   66  01 80                                                                rta_type 1 NESTED
refused too deep at 64" '' show --bytes <<<"$nine_lists"
# An attribute is too long from 65,533 bytes on, and no datagram has so many that is not too large.
zero_cells='00 00 00 00 00 00 00 00 00 00 00 00 00 00 00 00'
too_large_bytes=$(
  echo 'datagram 1 bytes 65540'
  echo "    0  $zero_cells  !! unread: too large"
  for ((place = 16; place < 65536; place += 16)); do printf '%5d  %s\n' "$place" "$zero_cells"; done
  echo '65536  00 00 00 00'
  echo 'refused too large'
)
expect 'bytes, too large' 1 "$too_large_bytes" '' show --bytes < <(zeros 65540)
expect 'bytes, a fault between two datagrams' 1 "datagram 1 bytes 20
$finish_rows
${bad_length_bytes/datagram 1/datagram 2}
datagram 3 bytes 20
$finish_rows" '' show --bytes < <(printf '%s\n' "$finish" "$short_attribute" "$finish")
expect 'bytes, explained' 1 "$cut_header_bytes" \
  'rtnl: datagram 1: cut at 20: a head is whole: message 2, 2 bytes left: 0200010000003930000000000000[12]00' \
  show --bytes --explain <<<"$finish 1200"

# ---- as JSON: 0x00010049 is 65,609

expect 'bytes in JSON' 0 '{"datagram":1,"offset":0,"length":4,"bytes":"30000000","level":0,"name":"nlmsg_len","value":48,"fault":null}
{"datagram":1,"offset":4,"length":2,"bytes":"1000","level":0,"name":"nlmsg_type","value":"RTM_NEWLINK","fault":null}
{"datagram":1,"offset":6,"length":2,"bytes":"0200","level":0,"name":"nlmsg_flags","value":2,"fault":null}
{"datagram":1,"offset":8,"length":4,"bytes":"01000000","level":0,"name":"nlmsg_seq","value":1,"fault":null}
{"datagram":1,"offset":12,"length":4,"bytes":"39300000","level":0,"name":"nlmsg_pid","value":12345,"fault":null}
{"datagram":1,"offset":16,"length":1,"bytes":"00","level":0,"name":"ifi_family","value":0,"fault":null}
{"datagram":1,"offset":17,"length":1,"bytes":"00","level":0,"name":"__ifi_pad","value":null,"fault":null}
{"datagram":1,"offset":18,"length":2,"bytes":"0403","level":0,"name":"ifi_type","value":772,"fault":null}
{"datagram":1,"offset":20,"length":4,"bytes":"01000000","level":0,"name":"ifi_index","value":1,"fault":null}
{"datagram":1,"offset":24,"length":4,"bytes":"49000100","level":0,"name":"ifi_flags","value":65609,"fault":null}
{"datagram":1,"offset":28,"length":4,"bytes":"00000000","level":0,"name":"ifi_change","value":0,"fault":null}
{"datagram":1,"offset":32,"length":2,"bytes":"0700","level":0,"name":"rta_len","value":7,"fault":null}
{"datagram":1,"offset":34,"length":2,"bytes":"0300","level":0,"name":"rta_type","value":"IFLA_IFNAME","fault":null}
{"datagram":1,"offset":36,"length":3,"bytes":"6c6f00","level":0,"name":"IFLA_IFNAME","value":"lo","fault":null}
{"datagram":1,"offset":39,"length":1,"bytes":"00","level":0,"name":"padding","value":null,"fault":null}
{"datagram":1,"offset":40,"length":2,"bytes":"0800","level":0,"name":"rta_len","value":8,"fault":null}
{"datagram":1,"offset":42,"length":2,"bytes":"0400","level":0,"name":"rta_type","value":"IFLA_MTU","fault":null}
{"datagram":1,"offset":44,"length":4,"bytes":"00000100","level":0,"name":"IFLA_MTU","value":65536,"fault":null}' \
  '' show --bytes --format json <<<"$loopback"

# The objects of the header and the head of a datagram whose message has this length, its first byte in
# hexadecimal; and of the second datagram.
objects_of_link() {
  cat <<END
{"datagram":$1,"offset":0,"length":4,"bytes":"${3}000000","level":0,"name":"nlmsg_len","value":$2,"fault":null}
{"datagram":$1,"offset":4,"length":2,"bytes":"1000","level":0,"name":"nlmsg_type","value":"RTM_NEWLINK","fault":null}
{"datagram":$1,"offset":6,"length":2,"bytes":"0200","level":0,"name":"nlmsg_flags","value":2,"fault":null}
{"datagram":$1,"offset":8,"length":4,"bytes":"01000000","level":0,"name":"nlmsg_seq","value":1,"fault":null}
{"datagram":$1,"offset":12,"length":4,"bytes":"39300000","level":0,"name":"nlmsg_pid","value":12345,"fault":null}
{"datagram":$1,"offset":16,"length":1,"bytes":"00","level":0,"name":"ifi_family","value":0,"fault":null}
{"datagram":$1,"offset":17,"length":1,"bytes":"00","level":0,"name":"__ifi_pad","value":null,"fault":null}
{"datagram":$1,"offset":18,"length":2,"bytes":"0000","level":0,"name":"ifi_type","value":0,"fault":null}
{"datagram":$1,"offset":20,"length":4,"bytes":"00000000","level":0,"name":"ifi_index","value":0,"fault":null}
{"datagram":$1,"offset":24,"length":4,"bytes":"00000000","level":0,"name":"ifi_flags","value":0,"fault":null}
{"datagram":$1,"offset":28,"length":4,"bytes":"00000000","level":0,"name":"ifi_change","value":0,"fault":null}
END
}
# A name of 17 characters, `a"\` in front; an attribute without a name; and in the second datagram a list.
expect 'bytes in JSON: characters, further rows, no name, levels, a fault' 1 \
  "$(objects_of_link 1 64 40)"'
{"datagram":1,"offset":32,"length":2,"bytes":"1500","level":0,"name":"rta_len","value":21,"fault":null}
{"datagram":1,"offset":34,"length":2,"bytes":"0300","level":0,"name":"rta_type","value":"IFLA_IFNAME","fault":null}
{"datagram":1,"offset":36,"length":16,"bytes":"61225c7a7a7a7a7a7a7a7a7a7a7a7a7a","level":0,"name":"IFLA_IFNAME","value":"a\"\\zzzzzzzzzzzzzz","fault":null}
{"datagram":1,"offset":52,"length":1,"bytes":"7a","level":0,"name":"IFLA_IFNAME","value":null,"fault":null}
{"datagram":1,"offset":53,"length":3,"bytes":"000000","level":0,"name":"padding","value":null,"fault":null}
{"datagram":1,"offset":56,"length":2,"bytes":"0800","level":0,"name":"rta_len","value":8,"fault":null}
{"datagram":1,"offset":58,"length":2,"bytes":"e743","level":0,"name":"rta_type","value":999,"fault":null}
{"datagram":1,"offset":60,"length":4,"bytes":"61626364","level":0,"name":"payload","value":null,"fault":null}
'"$(objects_of_link 2 41 29)"'
{"datagram":2,"offset":32,"length":2,"bytes":"0900","level":0,"name":"rta_len","value":9,"fault":null}
{"datagram":2,"offset":34,"length":2,"bytes":"1280","level":0,"name":"rta_type","value":"IFLA_LINKINFO","fault":null}
{"datagram":2,"offset":36,"length":2,"bytes":"0300","level":1,"name":"rta_len","value":3,"fault":"bad length"}
{"datagram":2,"offset":38,"length":2,"bytes":"0100","level":1,"name":"rta_type","value":"IFLA_INFO_KIND","fault":null}
{"datagram":2,"offset":40,"length":16,"bytes":"000102030405060708090a0b0c0d0e0f","level":0,"name":"unread","value":null,"fault":null}
{"datagram":2,"offset":56,"length":1,"bytes":"10","level":0,"name":"unread","value":null,"fault":null}' \
  '' show --bytes --format json < <(
  echo "40000000 $zero_link 15000300 61225c7a7a7a7a7a7a7a7a7a7a7a7a7a7a 000000 0800e743 61626364"
  echo "29000000 $zero_link 09001280 03000100 000102030405060708090a0b0c0d0e0f10"
)
# The code -1, and 0x0100 is 256.
expect 'bytes in JSON: an answered header, a type without a name' 0 \
  '{"datagram":1,"offset":0,"length":4,"bytes":"24000000","level":0,"name":"nlmsg_len","value":36,"fault":null}
{"datagram":1,"offset":4,"length":2,"bytes":"0200","level":0,"name":"nlmsg_type","value":"NLMSG_ERROR","fault":null}
{"datagram":1,"offset":6,"length":2,"bytes":"0001","level":0,"name":"nlmsg_flags","value":256,"fault":null}
{"datagram":1,"offset":8,"length":4,"bytes":"01000000","level":0,"name":"nlmsg_seq","value":1,"fault":null}
{"datagram":1,"offset":12,"length":4,"bytes":"39300000","level":0,"name":"nlmsg_pid","value":12345,"fault":null}
{"datagram":1,"offset":16,"length":4,"bytes":"ffffffff","level":0,"name":"error","value":-1,"fault":null}
{"datagram":1,"offset":20,"length":4,"bytes":"20000000","level":0,"name":"nlmsg_len","value":32,"fault":null}
{"datagram":1,"offset":24,"length":2,"bytes":"0f00","level":0,"name":"nlmsg_type","value":15,"fault":null}
{"datagram":1,"offset":26,"length":2,"bytes":"0500","level":0,"name":"nlmsg_flags","value":5,"fault":null}
{"datagram":1,"offset":28,"length":4,"bytes":"01000000","level":0,"name":"nlmsg_seq","value":1,"fault":null}
{"datagram":1,"offset":32,"length":4,"bytes":"00000000","level":0,"name":"nlmsg_pid","value":0,"fault":null}' \
  '' show --bytes --format json <<<'24000000 0200 0001 01000000 39300000 ffffffff 20000000 0f00 0500 01000000 00000000'
too_large_objects=$(
  printf '{"datagram":1,"offset":0,"length":16,"bytes":"%s","level":0,"name":"unread","value":null,"fault":"too large"}\n' \
    "$(zeros 16)"
  for ((place = 16; place < 65536; place += 16)); do
    printf '{"datagram":1,"offset":%d,"length":16,"bytes":"%s","level":0,"name":"unread","value":null,"fault":null}\n' \
      "$place" 00000000000000000000000000000000
  done
  echo '{"datagram":1,"offset":65536,"length":4,"bytes":"00000000","level":0,"name":"unread","value":null,"fault":null}'
)
expect 'bytes in JSON, too large' 1 "$too_large_objects" '' show --format=json --bytes < <(zeros 65540)

# ---- what fails

usage check --bytes
usage table --kind link --seq 1 --port 1 --bytes
usage request --kind link --seq 1 --bytes
usage --bytes
usage show --bytes --bytes
usage show --bytes=yes
usage show --bytes --format xml
expect 'bytes of a bad line' 1 '' "$bad_first_line" show --bytes <<<0g
expect 'bytes of a missing file' 3 '' "$(unread "$folder/missing" "$missing")" show --bytes "$folder/missing"
check 'bytes, a full device' ends 3 '' "$full_device" into_full_device show --bytes <<<"$finish"
check 'bytes in JSON, a full device' ends 3 '' "$full_device" \
  into_full_device show --bytes --format json <<<"$finish"
