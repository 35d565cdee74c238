# Cases of `check`, read in by ../program.sh.

expect 'check: canonical, accepted, refused' 1 \
  $'datagram 1 canonical\ndatagram 2 accepted\ndatagram 3 refused bad length at 32' '' \
  check < <(printf '%s\n' "$finish" "$short_get" "$short_attribute")
expect 'check: a rule whose head has bytes that are not kept' 0 $'datagram 1 canonical\ndatagram 2 accepted' '' \
  check < <(printf '%s\n' '1c000000 2000 0200 01000000 39300000 02000000 fe000001 00000000' \
    '1c000000 2000 0200 01000000 39300000 02000000 fe000101 00000000')
expect 'check FILE' 0 'datagram 1 canonical' '' check "$folder/link" </dev/null
expect 'check -' 0 'datagram 1 canonical' '' check - <<<"$finish"
expect 'check by order' 0 'datagram 1 canonical' '' check --order big <<<"$loopback_big"
expect 'check in the other order' 1 'datagram 1 refused bad length at 0' '' check <<<"$loopback_big"
expect 'check: padding whole, and of zeros' 0 $'datagram 1 canonical\ndatagram 2 accepted\ndatagram 3 canonical' '' \
  check < <(printf '%s\n' "$whole_get" "$padded_by_one" "$padded_by_zeros")
expect 'check: a datagram too large' 1 'datagram 1 refused too large' '' check < <(zeros 65540)
expect 'check: no datagram' 0 '' '' check </dev/null
expect 'check: a bad line' 1 '' "$bad_first_line" check <<<'0g'
expect 'check: a missing file' 3 '' "$(unread "$folder/missing" "$missing")" check "$folder/missing" <<<"$finish"
check 'check: a full device' ends 3 '' "$full_device" into_full_device check <<<"$finish"
expect 'help of check' 0 "$any" '' check --help <<<"$finish"
usage check "$folder/link" "$folder/link"
usage check --kind link
