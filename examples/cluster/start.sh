#!/bin/sh
# Starts three nodes of etcd and three servers that share a history in them, all on the loopback: a script that is
# published to one server is published by all. The nodes keep the history in the folders `etcd-N` of the current folder,
# and go on from there when they are started again. It ends when the last server does, and all end when it is ended.
# Usage: start.sh PROFILE PACKAGES
set -e
started=
trap 'kill $started 2> /dev/null || true' EXIT
trap 'exit 130' INT
trap 'exit 143' TERM
nodes="etcd-1=http://127.0.0.1:2381,etcd-2=http://127.0.0.1:2382,etcd-3=http://127.0.0.1:2383"
history="etcd://127.0.0.1:2371,127.0.0.1:2372,127.0.0.1:2373/omaha"
for number in 1 2 3; do
    etcd --name "etcd-$number" --data-dir "etcd-$number" --initial-cluster "$nodes" --log-level error \
        --listen-client-urls "http://127.0.0.1:237$number" --advertise-client-urls "http://127.0.0.1:237$number" \
        --listen-peer-urls "http://127.0.0.1:238$number" --initial-advertise-peer-urls "http://127.0.0.1:238$number" \
        2> "etcd-$number.log" &
    started="$started $!"
done
until omaha history "$history" > /dev/null 2>&1; do sleep 0.2; done
servers=
for number in 1 2 3; do
    omaha serve --profile "$1" --history "$history" --packages "$2" --listen "127.0.0.1:808$number" \
        --operator "127.0.0.1:809$number" --workers 4 &
    servers="$servers $!"
    started="$started $!"
done
wait $servers
