#!/bin/sh
# daemon_packets.sh [SECONDS [FOLDER]]: packets of ptp4l and ptpd, decoded by tshark and by our reader.
# daemon_packets.sh --captures SECONDS FOLDER: only the captures, for compare/traffic.
#
# Lets a master and a slave talk for so many seconds (15 if not said; at least 10, since ptpd begins late)
# over a virtual link between two network namespaces, for each daemon, delay mechanism and transport below,
# captures what the slave's end sees, with stamps in nanoseconds, and hands the captures to
# tools/tshark_packets.py. They are kept if a folder for them is named.
# TC is Ethernet with a third ptp4l between them, a transparent clock: what it corrects is not zero.
# Among ptp4l's packets are two kinds that are the host's: Management, since its command pmc asks
# something, and in unicast Signaling.
# Linux, as root; Debian's packages are linuxptp, ptpd, tcpdump, iproute2, util-linux and tshark. The
# daemons run without the right to set a clock, and are told not to.
set -u
tools=$(cd "$(dirname "$0")" && pwd -P) || exit 2
only=''
[ "${1:-}" != --captures ] || { only=yes && shift; }
seconds=${1:-15}
work=''
captures=''
spaces=''
started=''

fail() {
    printf 'daemon_packets: %s\n' "$*" >&2
    exit 2
}

# Ends what this script started, by its number, and waits for it.
halt() {
    for p in $started; do kill "$p" 2>/dev/null; done
    for p in $started; do wait "$p" 2>/dev/null; done
    started=''
}

# A namespace that goes takes its end of the link with it.
clear_link() {
    halt
    for s in $spaces; do ip netns del "$s" 2>/dev/null; done
    spaces=''
}

finish() {
    clear_link
    [ -z "$work" ] || rm -rf "$work"
}

space() { # ROLE
    ip netns add "ptp$$$1" || fail "no network namespace can be made here"
    spaces="$spaces ptp$$$1"
}

join() { # END ROLE END ROLE
    ip link add "$1" netns "ptp$$$2" type veth peer name "$3" netns "ptp$$$4" || fail "no virtual link can be made here"
}

make_link() { # TRANSPORT
    space m
    space s
    if [ "$1" = TC ]; then
        space t
        for role in m s; do
            join "v$$$role" $role "w$$$role" t
            ip -n "ptp$$t" link set "w$$$role" up
        done
    else
        join "v$$m" m "v$$s" s
    fi
    for role in m s; do
        host=1
        [ $role = m ] || host=2
        ip -n "ptp$$$role" addr add "10.77.15.$host/24" dev "v$$$role" &&
            ip -n "ptp$$$role" link set lo up &&
            ip -n "ptp$$$role" link set "v$$$role" up &&
            ip -n "ptp$$$role" route add default dev "v$$$role" || fail "the virtual link does not come up"
    done
}

ptp4l_settings() { # ROLE MECHANISM TRANSPORT
    cat <<END
[global]
time_stamping software
free_running 1
use_syslog 0
verbose 1
tx_timestamp_timeout 100
logAnnounceInterval -1
logSyncInterval -1
logMinDelayReqInterval -1
logMinPdelayReqInterval -1
delay_mechanism $2
uds_address $work/$1.uds
END
    # a second socket that later versions open
    ! grep -q uds_ro_address "$(command -v ptp4l)" || echo "uds_ro_address $work/$1.ro"
    case $1 in
    m) echo 'priority1 100' ;;
    s) echo 'slaveOnly 1' ;;
    t) echo "clock_type $2_TC" ;;
    esac
    case $3-$1 in
    TC-*) echo 'network_transport L2' ;;
    unicast-m) printf 'network_transport UDPv4\nunicast_listen 1\n' ;;
    unicast-s)
        printf 'network_transport UDPv4\n[unicast_master_table]\ntable_id 1\nlogQueryInterval 0\n'
        printf 'UDPv4 10.77.15.1\n[%s]\nunicast_master_table 1\n' "v$$s"
        ;;
    *) echo "network_transport $3" ;;
    esac
}

# The command stays a process of this shell's, so that it can be ended by its number.
within() { # ROLE COMMAND..
    role=$1
    shift
    setpriv --bounding-set=-sys_time ip netns exec "ptp$$$role" "$@" >>"$work/$role.log" 2>&1 &
    started="$started $!"
}

daemon() { # DAEMON ROLE MECHANISM TRANSPORT
    case $1 in
    ptp4l)
        ptp4l_settings "$2" "$3" "$4" >"$work/$2.cfg"
        ends="-i v$$$2"
        [ "$2" != t ] || ends="-i w$$m -i w$$s"
        within "$2" ptp4l -f "$work/$2.cfg" $ends -m
        ;;
    ptpd)
        side=--masteronly
        [ "$2" = m ] || side=--slaveonly
        within "$2" ptpd $side --foreground --ignore-lock --clock:no_adjust=y -i "v$$$2" \
            --ptpengine:delay_mechanism="$3" --ptpengine:log_announce_interval=0 \
            --ptpengine:log_sync_interval=-1 --ptpengine:log_delayreq_interval=-1 --ptpengine:log_peer_delayreq_interval=-1
        ;;
    esac
}

manage() { # TRANSPORT
    case $1 in
    L2 | TC) over=-2 ;;
    *) over=-4 ;;
    esac
    within s pmc $over -i "v$$s" 'GET CURRENT_DATA_SET'
}

take() { # DAEMON MECHANISM TRANSPORT
    capture=$1-$2-$3.pcap
    make_link "$3"
    within s tcpdump -i "v$$s" --time-stamp-precision=nano -U -w "$folder/$capture" 'ether proto 0x88f7 or udp port 319 or udp port 320'
    sleep 1
    [ "$3" != TC ] || daemon "$1" t "$2" "$3"
    daemon "$1" m "$2" "$3"
    daemon "$1" s "$2" "$3"
    sleep $((seconds - seconds / 2))
    [ "$1" = ptpd ] || manage "$3"
    sleep $((seconds / 2))
    clear_link
    [ -s "$folder/$capture" ] || {
        cat "$work"/*.log >&2
        fail "no capture $capture"
    }
    captures="$captures $capture"
}

[ -z "$only" ] || [ $# -eq 2 ] || fail "--captures wants seconds and a folder"
needed='ip setpriv tcpdump ptp4l pmc ptpd'
[ -n "$only" ] || needed="$needed tshark python3"
for c in $needed; do
    command -v "$c" >/dev/null || fail "$c is not on the path"
done
[ "$(id -u)" = 0 ] || fail "only root can make network namespaces"
trap finish EXIT
trap 'exit 130' INT TERM
work=$(mktemp -d) || exit 2
mkdir -p "${2:-$work}" && folder=$(cd "${2:-$work}" && pwd -P) || exit 2

for mechanism in E2E P2P; do
    take ptp4l $mechanism L2
    take ptp4l $mechanism UDPv4
    take ptp4l $mechanism TC
    take ptpd $mechanism UDPv4
done
take ptp4l E2E unicast
[ -n "$only" ] || { cd "$folder" && "$tools/tshark_packets.py" $captures; }
