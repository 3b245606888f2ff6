#!/usr/bin/env bash
# Records the sample shop.pcap: a shop application (10.77.0.1) asks a Redis server (10.77.0.3:6379) and a web server
# (10.77.0.2:80), three hosts of a private test network on this machine, seen by tcpdump at the application. It wants
# root and Debian's packages iproute2, ethtool, tcpdump, curl, python3 and redis-server.
set -euo pipefail
cd "$(dirname "$0")"
app=toxicap-app web=toxicap-web redis=toxicap-redis hub=toxicap-hub
folder=$(mktemp -d)
started=()
clean() {
    for job in "${started[@]}"; do kill "$job" 2> /dev/null || true; done
    for host in $app $web $redis $hub; do ip netns del $host 2> /dev/null || true; done
    rm -rf "$folder"
}
trap clean EXIT
ip netns add $hub
ip -n $hub link add bridge0 type bridge
ip -n $hub link set bridge0 up
number=0
for host in $app $web $redis; do
    number=$((number + 1))
    ip netns add $host
    ip link add eth0 netns $host type veth peer name port$number netns $hub
    # no offloads: the capture then has the segments as they are sent, at most 1,460 bytes of payload each
    ip netns exec $host ethtool -K eth0 gro off lro off gso off tso off > /dev/null 2>&1 || true
    ip -n $hub link set port$number master bridge0 up
    ip -n $host addr add 10.77.0.$number/24 dev eth0
    ip -n $host link set lo up
    ip -n $host link set eth0 up
done
# a price list of 6,000 bytes for the web server, and a basket of 3,000 bytes for Redis
for item in $(seq 1 200); do printf 'item %03d costs %04d.%02d crowns.\n' "$item" $((item * 7)) $((item % 100)); done > "$folder/prices.txt"
basket=$(head -c 3000 "$folder/prices.txt" | tr ' \n' '__')
ip netns exec $web python3 -m http.server 80 --bind 10.77.0.2 --directory "$folder" > /dev/null 2>&1 &
started+=($!)
ip netns exec $redis redis-server --bind 10.77.0.3 --protected-mode no --save '' --dir "$folder" > /dev/null 2>&1 &
started+=($!)
ip netns exec $app tcpdump -q -i eth0 -s 0 -U -w shop.pcap tcp 2> /dev/null &
dump=$!
sleep 2
# ask PAUSE COMMAND..: one connection to Redis, one inline command after another, each after its answer and a pause
ask() {
    ip netns exec $app bash -c '
        pause=$1; shift
        exec 3<> /dev/tcp/10.77.0.3/6379
        for command in "$@"; do
            sleep "$pause"
            printf "%s\r\n" "$command" >&3
            read -r answer <&3
            [[ $answer != \$* ]] || read -r answer <&3
        done' ask "$@"
}
ask 0.01 "SET basket:7 $basket" 'INCR visits' 'GET basket:7'
ip netns exec $app curl -s -S -o /dev/null http://10.77.0.2/prices.txt
ask 0 'GET basket:7'
ask 0 'PING'
sleep 1
kill -INT $dump
wait $dump || true
