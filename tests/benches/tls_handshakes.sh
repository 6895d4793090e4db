#!/usr/bin/env bash
# Measures TLS 1.3 handshakes with SLH-DSA certificates beside ECDSA (docs/BENCHMARKS.md): `openssl s_server` and
# `openssl s_time` over this machine's loopback, with new sessions and a verifying client, one connection after the
# other. For each key it prints the handshakes in a second, the processor time of server and client for one in ms, and
# the bytes of the certificate.
#
# usage: tests/benches/tls_handshakes.sh PREFIX [SECONDS]
#
# PREFIX has the provider, by bindings/openssl/build.sh. OPENSSL names the command (default: openssl-3.5). Other work
# on the machine makes fewer handshakes in a second, and changes the processor times less.
set -euo pipefail
prefix=$1 seconds=${2:-5} openssl=${OPENSSL:-openssl-3.5} port=24433
work=$(mktemp -d)
server=
trap '[ -z "$server" ] || kill $server; rm -rf "$work"' EXIT
cd "$work"
printf '[req]\ndistinguished_name = name\n[name]\n' >req.cnf

# The processor time of a process and its ended children, in ticks.
ticks() { awk '{ sub(/.*\) /, ""); print $12 + $13 + $14 + $15 }' "/proc/$1/stat"; }

measure() {
    local name=$1 workers=$2 before after user count
    shift 2
    sed "s/^# tls = draft/tls = draft/; s/workers = 1/workers = $workers/; s/workers=1/workers=$workers/" \
        "$prefix/etc/slh.cnf" >slh.cnf
    export OPENSSL_CONF=$work/slh.cnf
    "$openssl" req -config req.cnf -x509 -nodes -newkey "$@" -keyout key.pem -subj /CN=localhost -out cert.pem 2>log
    "$openssl" s_server -accept 127.0.0.1:$port -cert cert.pem -key key.pem -www >log 2>&1 &
    server=$!
    until (: <>/dev/tcp/127.0.0.1/$port) 2>/dev/null; do sleep 0.1; done
    before=$(ticks $server)
    "$openssl" s_time -connect 127.0.0.1:$port -new -time "$seconds" -CAfile cert.pem -verify 2 >said 2>&1
    after=$(ticks $server)
    kill $server && wait $server 2>/dev/null || server=
    # N connections in 1.23s; 45.6 connections/user sec, bytes read 0
    read -r count user < <(sed -n 's/^\([0-9]*\) connections in \([0-9.]*\)s;.*/\1 \2/p' said)
    awk -v name="$name" -v workers="$workers" -v count="$count" -v user="$user" -v ticks=$((after - before)) \
        -v hertz="$(getconf CLK_TCK)" -v seconds="$seconds" \
        -v bytes="$("$openssl" x509 -in cert.pem -outform DER | wc -c)" 'BEGIN {
            printf "| %s | %d | %.1f | %.2f | %.2f | %d |\n", name, workers, count / seconds,
                1000 * ticks / hertz / count, 1000 * user / count, bytes }'
}

echo "| key | workers | handshakes in a second | server, ms | client, ms | certificate, bytes |"
echo "|---|---|---|---|---|---|"
measure "ECDSA P-256" 1 EC -pkeyopt ec_paramgen_curve:P-256
measure 128f 1 SLH-DSA-SHA2-128f
measure 128f 4 SLH-DSA-SHA2-128f
measure 128s 1 SLH-DSA-SHA2-128s
measure 128s 4 SLH-DSA-SHA2-128s
