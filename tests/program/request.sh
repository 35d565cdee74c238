# Cases of `request`, read in by ../program.sh.

# request NAME BYTES ARGUMENT..: a case of the request with these bytes.
request() {
  local name=$1 bytes=$2
  shift 2
  expect "request: $name" 0 "${bytes// /}" '' request "$@" <<<'zz'
}

request 'links' '20000000 1200 0103 01000000 00000000 00000000 00000000 00000000 00000000' --kind link --seq 1
request 'addresses' '18000000 1600 0103 01000000 00000000 00000000 00000000' --kind addr --seq 1
request 'routes of one family' '1c000000 1a00 0103 07000000 00000000 02000000 00000000 00000000' \
  --kind route --family 2 --seq 7
request 'neighbours, the greatest numbers' '1c000000 1e00 0103 ffffffff 00000000 ff000000 00000000 00000000' \
  --kind neigh --family=255 --seq=4294967295
request 'order little, the least numbers' '18000000 1600 0103 00000000 00000000 00000000 00000000' \
  --seq 0 --order little --family 0 --kind addr
request 'links, order big' '00000020 0012 0301 00000001 00000000 00000000 00000000 00000000 00000000' \
  --kind link --seq 1 --order big
request 'addresses, order big' '00000018 0016 0301 00000001 00000000 0a000000 00000000' \
  --kind addr --seq 1 --family 10 --order big
request 'routes of one family, order big' '0000001c 001a 0301 00000007 00000000 02000000 00000000 00000000' \
  --kind route --family 2 --seq 7 --order big
request 'neighbours, order big' '0000001c 001e 0301 00000102 00000000 07000000 00000000 00000000' \
  --kind neigh --seq 258 --family 7 --order big
request 'rules of one family' '1c000000 2200 0103 07000000 00000000 02000000 00000000 00000000' \
  --kind rule --family 2 --seq 7
request 'rules of one family, order big' '0000001c 0022 0301 00000007 00000000 02000000 00000000 00000000' \
  --kind rule --family 2 --seq 7 --order big
# What the kernel was asked by when examples/ was recorded.
request 'a recording of addresses' '18000000 1600 0103 ffffffff 00000000 00000000 00000000' --kind addr --seq 4294967295
request 'a recording of routes' '1c000000 1a00 0103 f3030000 00000000 02000000 00000000 00000000' \
  --kind route --family 2 --seq 1011
request 'a recording of rules' '1c000000 2200 0103 fd030000 00000000 00000000 00000000 00000000' \
  --kind rule --seq 1021
expect 'request, shown' 0 'datagram 1 bytes 32
message 18 getlink flags 0x0301 REQUEST,ROOT,MATCH seq 1 port 0
  get family 0 tail 000000000000000000000000000000' '' show < <("$program" request --kind link --seq 1)

link_request=(request --kind link --seq 1)
link_bytes=2000000012000103010000000000000000000000000000000000000000000000
check 'request: standard input closed' ends 0 "$link_bytes" '' from_closed_input "${link_request[@]}"
check 'request: a full device' ends 3 '' "$full_device" into_full_device "${link_request[@]}"
check 'request: standard output closed' ends 3 '' "$closed_output" into_closed_output "${link_request[@]}"

expect 'help of request' 0 "$any" '' request --help <<<"$finish"
usage request
usage request --seq 1
usage request --kind link
usage request --kind links --seq 1
for number in 4294967296 -1 0x1 1.0 '' one +1 -0; do usage request --kind link "--seq=$number"; done
for option in family=256 family=-1 family=+2 family=-0 order=middle port=1 depth=3 entries=3; do
  usage "${link_request[@]}" "--$option"
done
usage "${link_request[@]}" --seq 2
usage "${link_request[@]}" "$folder/link"
