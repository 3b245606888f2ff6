#!/usr/bin/env bash
# Records the sample http-get.pcap: one HTTP request by curl between two hosts of a private test network on this
# machine, seen by tcpdump at the client. It wants root and Debian's packages iproute2, tcpdump, curl and python3.
set -euo pipefail
cd "$(dirname "$0")"
client=toxicap-client server=toxicap-server
clean() { ip netns del $client 2>/dev/null || true; ip netns del $server 2>/dev/null || true; }
clean
trap clean EXIT
ip netns add $client
ip netns add $server
ip link add veth0 netns $client type veth peer name veth0 netns $server
ip -n $client addr add 10.77.0.1/24 dev veth0
ip -n $server addr add 10.77.0.2/24 dev veth0
for host in $client $server; do
    ip -n $host link set lo up
    ip -n $host link set veth0 up
done
folder=$(mktemp -d)
printf 'Hello from the sample server.\n' > "$folder/hello.txt"
ip netns exec $server python3 -m http.server 80 --bind 10.77.0.2 --directory "$folder" > /dev/null 2>&1 &
web=$!
ip netns exec $client tcpdump -q -i veth0 -w http-get.pcap -s 0 -U tcp port 80 2> /dev/null &
dump=$!
sleep 2
ip netns exec $client curl -s -S -o /dev/null http://10.77.0.2/hello.txt
sleep 1
kill -INT $dump
wait $dump || true
kill $web
rm -r "$folder"
