# Completion of the command rtnl in fish.

set -l commands show follow check table mirror request
set -l all "__fish_seen_subcommand_from $commands"
set -l kinds '__fish_seen_subcommand_from follow table mirror request'
set -l dumps '__fish_seen_subcommand_from follow table request'
set -l asked '__fish_seen_subcommand_from table mirror request'
set -l show '__fish_seen_subcommand_from show follow'
set -l ported '__fish_seen_subcommand_from follow table'
set -l follow '__fish_seen_subcommand_from follow mirror'
set -l deep '__fish_seen_subcommand_from follow table mirror'
set -l table '__fish_seen_subcommand_from table mirror'
set -l mirror '__fish_seen_subcommand_from mirror'
set -l read '__fish_seen_subcommand_from show follow check table mirror'
set -l first "not __fish_seen_subcommand_from $commands help"
set -l helped "__fish_seen_subcommand_from help; and not $all"

complete -c rtnl -f
complete -c rtnl -n $first -a show -d 'Print each datagram of a recording'
complete -c rtnl -n $first -a follow -d 'Print each datagram when it comes'
complete -c rtnl -n $first -a check -d 'Print whether each datagram is canonical, accepted or refused'
complete -c rtnl -n $first -a table -d 'Read a recording as the answers to a dump'
complete -c rtnl -n $first -a mirror -d 'Keep tables current by dumps and notifications'
complete -c rtnl -n $first -a request -d 'Print the request that begins a dump'
complete -c rtnl -n $first -a help -d 'Print the help of a command'
complete -c rtnl -n $first -s V -l version -d 'Print version'
complete -c rtnl -n $helped -a "$commands"
complete -c rtnl -s h -l help -d 'Print help'

complete -c rtnl -n $read -F
complete -c rtnl -n $all -l order -x -a 'little big' -d 'Byte order of the numbers'
complete -c rtnl -n $read -l format -x -a 'text json' -d 'Lines of text or of JSON'
complete -c rtnl -n $show -l bytes -d 'Show the bytes beside what they are'
complete -c rtnl -n $show -l color -x -a 'auto always never' -d 'When to colour the text'
complete -c rtnl -n $read -l explain -d 'Say why something failed or was refused'
complete -c rtnl -n $kinds -l kind -x -a 'link addr route neigh rule' -d 'What the dump asks for'
complete -c rtnl -n $dumps -l seq -x -d 'Sequence number of the request and its answers'
complete -c rtnl -n $asked -l family -x -d 'Address family of the request'
complete -c rtnl -n $ported -l port -x -d 'Port id of the answers'
complete -c rtnl -n $deep -l depth -x -d 'Greatest depth of nested attributes'
complete -c rtnl -n $follow -l strict -d 'End at the first bad line'
complete -c rtnl -n $table -l entries -x -d 'Greatest number of entries in the table'
complete -c rtnl -n $mirror -l changes -d 'Print what changes when it comes'
complete -c rtnl -n $mirror -l waiting -x -d 'Greatest number of changes that wait while a dump runs'
