#!/usr/bin/env bash
# Cases of test_openssl_programs.py, which runs each in a new Debian 13. They are shell since they are commands, and
# that Debian has no pytest.
#
# usage: tests/openssl_programs.sh FUNCTION [WORD..]     calls one of the functions below, in the folder work/
#
# Servers listen at PORT and the ports above it. The status is that of the function.
set -u
here=$(cd "$(dirname "${BASH_SOURCE[0]}")/.." && pwd)
export LC_ALL=C.UTF-8

# ---- certificates ----

# The block of lines with a number under a heading of the page: HEADING NUMBER.
block_of() {
    awk -v heading="## $1" -v wanted="$2" '
        /^## / { is_here = $0 == heading; block = 0 }
        is_here && /^    / && !was_block { block++ }
        is_here && /^    / && block == wanted { print substr($0, 5) }
        { was_block = /^    / || (was_block && /^$/) }' "$here/docs/OPENSSL.md"
}

# The page's CA, with all that it issues, in the folder of this test. slh.cnf is as it is installed; tls.cnf has the
# word for TLS, open.cnf activates the provider and requires nothing, and by mute.cnf the provider signs nothing.
makes_certificates() {
    cp "$here/examples/ca.cnf" . && echo "Dear reader," >letter.txt && cp /etc/ssl/slh.cnf . &&
        sed 's/^# tls = draft/tls = draft/' slh.cnf >tls.cnf &&
        sed '/^slh_required = /d; /^config_diagnostics/d' tls.cnf >open.cnf &&
        sed 's/^workers = .*/workers = 0/' open.cnf >mute.cnf || return
    "$here/examples/ca.sh" && unchanged bash -e -c "$(block_of "A CA of two levels" 1)" &&
        cat www.pem issuing.pem >chain.pem && make_self_signed self && make_self_signed next &&
        openssl req -config ca.cnf -x509 -newkey EC -pkeyopt ec_paramgen_curve:P-256 -nodes -keyout ec.key \
            -subj /CN=ec -addext subjectAltName=DNS:localhost -out ec.pem && chmod 644 ./*.key ./*.pem
}

make_self_signed() {
    OPENSSL_CONF=slh.cnf openssl req -config ca.cnf -x509 -newkey SLH-DSA-SHA2-128f -nodes -keyout "$1.key" \
        -subj "/CN=$1" -addext subjectAltName=DNS:localhost -out "$1.pem"
}

# ---- the table ----

unchanged() (unset OPENSSL_CONF && "$@")

# What a program wrote is a signature of letter.txt that an unchanged OpenSSL takes: FILE.
is_signature() { unchanged openssl pkeyutl -verify -rawin -certin -inkey self.pem -in letter.txt -sigfile "$1"; }

by_openssl() { openssl "$1" -sign "${@:2}" -inkey self.key -in letter.txt -out made && is_signature made; }
by_dgst() { openssl dgst "$@" -sign self.key -out made letter.txt && is_signature made; }
by_dgst_of_more() {
    head -c $((2 ** 24 + 1)) /dev/zero >more && openssl dgst -sign self.key -out made more && [ -s made ]
}
by_cms() {
    openssl cms -sign -binary -nodetach "$@" -in letter.txt -signer self.pem -inkey self.key -outform DER -out made &&
        unchanged openssl cms -verify -binary -inform DER -in made -CAfile self.pem -out read && cmp read letter.txt
}
by_smime() { openssl smime -sign -md sha256 -in letter.txt -signer self.pem -inkey self.key -out made; }
by_pkcs12() {
    openssl pkcs12 -export -inkey self.key -in self.pem -passout pass:x -out made &&
        unchanged openssl pkcs12 -in made -passin pass:x -nodes -nocerts | openssl pkey | cmp - self.key
}
by_ca() {
    unchanged openssl verify -CAfile root.pem -untrusted issuing.pem -crl_check_all -CRLfile all.crl signer.pem
}
by_ocsp() { grep revoked status; }
by_ts() {
    sed 's/^signer_cert.*/signer_cert = stamp.pem/; s/^signer_key.*/signer_key = self.key/; /^certs/d' ca.cnf >ts.cnf &&
        openssl req -config ca.cnf -x509 -new -key self.key -subj /CN=ts \
            -addext extendedKeyUsage=critical,timeStamping -out stamp.pem &&
        openssl ts -reply -config ts.cnf -queryfile letter.tsq -out made &&
        unchanged openssl ts -verify -data letter.txt -in made -CAfile stamp.pem
}
by_php() {
    php -r '$key = openssl_pkey_get_private(file_get_contents("self.key"));
        if (!openssl_sign(file_get_contents("letter.txt"), $made, $key, $argv[1] ?: 0)) exit(1);
        file_put_contents("made", $made);' -- "$@" && is_signature made
}
by_ruby() {
    ruby -ropenssl -e 'key = OpenSSL::PKey.read(File.read("self.key"))
        File.binwrite("made", key.sign(nil, File.binread("letter.txt")))
        exit key.verify(nil, File.binread("made"), File.binread("letter.txt"))' && is_signature made
}
by_node() {
    node -e 'const {createPrivateKey, createPublicKey, sign, verify} = require("crypto"), fs = require("fs");
        const key = createPrivateKey(fs.readFileSync("self.key")), text = fs.readFileSync("letter.txt");
        fs.writeFileSync("made", sign(null, text, key));
        if (!verify(null, text, createPublicKey(key), fs.readFileSync("made"))) process.exit(1);' && is_signature made
}
# A message above max_message, and the words that Node has for it.
by_long_node() {
    node -e 'const {createPrivateKey, sign} = require("crypto"), fs = require("fs");
        sign(null, Buffer.alloc(2 ** 26 + 1), createPrivateKey(fs.readFileSync("self.key")))'
}
node_says_invalid_data() {
    OPENSSL_CONF=$PWD/slh.cnf by_long_node >said 2>&1
    cat said && grep -qi 'invalid data' said
}
by_cryptography() {
    python3 -c 'from cryptography.hazmat.primitives.serialization import load_pem_private_key
key = load_pem_private_key(open("self.key", "rb").read(), None)
open("made", "wb").write(key.sign(open("letter.txt", "rb").read()))'
}
by_sign_file() { /usr/lib/linux-kbuild-*/scripts/sign-file sha256 self.key self.pem letter.txt made; }
by_evmctl() {
    cp /usr/bin/true elf && evmctl ima_sign --key self.key --hashalgo sha256 --sigfile elf &&
        [ "$(stat -c %s elf.sig)" -gt 17088 ]
}
by_osslsigncode() { osslsigncode sign -certs self.pem -key self.key -in "$efi" -out made; }
by_sbsign() { sbsign --key self.key --cert self.pem --output made "$efi"; }
efi=/usr/lib/systemd/boot/efi/systemd-bootx64.efi

# A program signs under a configuration. It signs nothing if the provider signs nothing: so it is this provider that
# signs. Some commands take what the CA has made: CONFIGURATION COMMAND..
signs() {
    local config=$PWD/$1
    shift
    rm -f made
    OPENSSL_CONF=$config "$@" || return
    [[ " by_ca by_ocsp by_pkcs12 " != *" $1 "* ]] || return 0
    rm -f made
    ! OPENSSL_CONF=$PWD/mute.cnf "$@"
}

# The command fails, or the signature that it says it wrote is none. So it does over the default provider.
signs_not() {
    local config=$PWD/$1
    shift
    rm -f made
    ! OPENSSL_CONF=$config "$@" && ! unchanged "$@"
}

# ---- TLS ----

folder_of() { echo "$PWD/servers/$1"; }

# Sets `port` to the next one at which nothing listens.
next_port() {
    port=$((ports += 1))
    while listens; do port=$((ports += 1)); done
}
listens() { (: <>"/dev/tcp/127.0.0.1/$port") 2>/dev/null; }

# Each of these writes a server's configuration and starts it, in the background: NAME CERTIFICATE KEY.
write_nginx() {
    cat >"$folder/conf" <<ENDS
pid $folder/pid; error_log $folder/log; worker_processes 2;
events {}
http {
    access_log off;
    client_body_temp_path $folder/a; proxy_temp_path $folder/b; fastcgi_temp_path $folder/c;
    uwsgi_temp_path $folder/d; scgi_temp_path $folder/e;
    server {
        listen 127.0.0.1:$port ssl;
        ssl_certificate $2; ssl_certificate_key $3;
        ${4-}
        location / { return 200 "hello \$ssl_client_verify\n"; }
    }
}
ENDS
}
start_nginx() { write_nginx "$@" && nginx -c "$folder/conf"; }
start_apache() {
    cat >"$folder/conf" <<ENDS
ServerRoot $folder
ServerName localhost
PidFile $folder/pid
ErrorLog $folder/log
Listen 127.0.0.1:$port
LoadModule mpm_event_module /usr/lib/apache2/modules/mod_mpm_event.so
LoadModule ssl_module /usr/lib/apache2/modules/mod_ssl.so
LoadModule authz_core_module /usr/lib/apache2/modules/mod_authz_core.so
User www-data
Group www-data
DocumentRoot $PWD
<VirtualHost 127.0.0.1:$port>
SSLEngine on
SSLCertificateFile $2
SSLCertificateKeyFile $3
</VirtualHost>
ENDS
    apache2 -f "$folder/conf"
}
start_haproxy() {
    cat "$2" "$3" >"$folder/both.pem"
    printf '%s\n' "defaults" "mode http" "timeout client 9s" "timeout server 9s" "timeout connect 9s" "frontend it" \
        "bind 127.0.0.1:$port ssl crt $folder/both.pem" \
        'http-request return status 200 content-type text/plain string hello' >"$folder/conf"
    haproxy -D -f "$folder/conf" -p "$folder/pid"
}
start_lighttpd() {
    printf '%s\n' 'server.modules = ("mod_openssl")' "server.document-root = \"$PWD\"" "server.port = $port" \
        'server.bind = "127.0.0.1"' "server.pid-file = \"$folder/pid\"" 'ssl.engine = "enable"' "ssl.pemfile = \"$2\"" \
        "ssl.privkey = \"$3\"" >"$folder/conf"
    lighttpd -f "$folder/conf"
}
start_stunnel() {
    printf '%s\n' '#!/bin/sh' 'while read -r line && [ ${#line} -gt 1 ]; do :; done' \
        'printf "HTTP/1.0 200 OK\r\n\r\nhello\n"' >"$folder/run"
    chmod +x "$folder/run"
    printf '%s\n' "pid =" "foreground = yes" "output = $folder/log" "[it]" "accept = 127.0.0.1:$port" \
        "exec = $folder/run" "cert = $2" "key = $3" >"$folder/conf"
    stunnel4 "$folder/conf" </dev/null &
    echo $! >"$folder/pid"
}
start_python() {
    python3 -c 'import http.server, ssl, sys
context = ssl.SSLContext(ssl.PROTOCOL_TLS_SERVER)
context.load_cert_chain(*sys.argv[2:])
server = http.server.HTTPServer(("127.0.0.1", int(sys.argv[1])), http.server.SimpleHTTPRequestHandler)
server.socket = context.wrap_socket(server.socket, server_side=True)
server.serve_forever()' "$port" "$2" "$3" >"$folder/log" 2>&1 &
    echo $! >"$folder/pid"
}
start_node() {
    node -e 'const [port, cert, key] = process.argv.slice(1), {readFileSync} = require("fs");
        require("https").createServer({cert: readFileSync(cert), key: readFileSync(key)}, (asked, answer) =>
            answer.end("hello")).listen(+port, "127.0.0.1")' "$port" "$2" "$3" >"$folder/log" 2>&1 &
    echo $! >"$folder/pid"
}
start_s_server() {
    openssl s_server -accept "127.0.0.1:$port" -cert "$2" -cert_chain issuing.pem -key "$3" -www >"$folder/log" 2>&1 &
    echo $! >"$folder/pid"
}

# Starts a server by NAME with CERTIFICATE and KEY, at a port of its own, and waits until it listens.
start() {
    local turn
    folder=$(folder_of "$1")
    next_port
    rm -rf "$folder" && mkdir -p "$folder" && chmod 777 "$folder" && "start_$1" "$@" || return
    for turn in {1..100}; do
        ! listens || return 0
        [ ! -s "$folder/pid" ] || kill -0 "$(cat "$folder/pid")" || break
        sleep 0.1
    done
    cat "$folder/log"
    return 1
}

stop() {
    local turn
    [ ! -s "$folder/pid" ] || kill "$(cat "$folder/pid")" 2>/dev/null
    for turn in {1..50}; do listens || return 0; sleep 0.1; done
}

# Asks the server for its page, as NAME, trusting a CA; with a client certificate where one is given.
ask_curl() { curl -s --max-time 20 --cacert "$1" ${2:+--cert "$2" --key "$3"} "https://localhost:$port/letter.txt"; }
ask_wget() { wget -q -T 20 -O - --ca-certificate "$1" "https://localhost:$port/letter.txt"; }
ask_python() {
    python3 -c 'import ssl, sys, urllib.request
context = ssl.create_default_context(cafile=sys.argv[2])
if sys.argv[3:]: context.load_cert_chain(*sys.argv[3:])
print(urllib.request.urlopen(f"https://localhost:{sys.argv[1]}/letter.txt", context=context).read())' "$port" "$@"
}
ask_node() {
    node -e 'const [port, ca, cert, key] = process.argv.slice(1), {readFileSync} = require("fs");
        require("https").get({host: "localhost", port, path: "/letter.txt", ca: readFileSync(ca),
            ...(cert && {cert: readFileSync(cert), key: readFileSync(key)})},
            (answer) => answer.on("data", (it) => console.log("" + it)))
            .on("error", (it) => { console.log(it.message); process.exit(1) })' "$port" "$@"
}
ask_s_client() {
    printf 'GET /letter.txt HTTP/1.0\r\n\r\n' | timeout 20 openssl s_client -connect "localhost:$port" -CAfile "$1" \
        -verify_return_error -quiet ${2:+-cert "$2" -cert_chain issuing.pem -key "$3"}
}

# What is seen of a handshake by a client that knows the code points: TYPE of the server's signature, more words.
signature_is() {
    echo Q | OPENSSL_CONF=tls.cnf timeout 20 openssl s_client -connect "localhost:$port" -brief -verify_return_error \
        "${@:2}" >seen 2>&1
    grep -qx "Signature type: $1" seen && grep -q '^Verification: OK' seen || { cat seen && return 1; }
}

# A server has a chain of two certificates of the page's CA.
by_server() {
    start "$1" "$PWD/$([ "$1" = s_server ] && echo www.pem || echo chain.pem)" "$PWD/www.key" &&
        signature_is slhdsa_sha2_128f -CAfile root.pem && ask_curl root.pem >answer && [ -s answer ]
    local status=$?
    stop
    return $status
}

# A client asks nginx, with a certificate of its own, which nginx judges.
by_client() {
    local status
    OPENSSL_CONF=tls.cnf start nginx "$PWD/chain.pem" "$PWD/www.key" "ssl_client_certificate $PWD/root.pem;
        ssl_verify_client optional; ssl_verify_depth 3;" || return
    cat signer.pem issuing.pem >signer_chain.pem
    "ask_$1" root.pem signer_chain.pem signer.key >answer 2>&1
    status=$?
    stop
    cat answer
    [ $status = 0 ] && grep -q 'hello SUCCESS' answer
}

# The numbers of the six sets in what a client sends are those that Wireshark knows.
code_points_are_wiresharks() {
    local set number status=1
    tshark -G values 2>/dev/null >values
    OPENSSL_CONF=tls.cnf start nginx "$PWD/self.pem" "$PWD/self.key" || return
    for set in 128s 128f 192s 192f 256s 256f; do
        number=$(awk -v name=slhdsa_sha2_$set '$2 == "tls.handshake.sig_hash_alg" && $4 == name { print $3 }' values)
        echo | OPENSSL_CONF=tls.cnf openssl s_client -connect "localhost:$port" -msg -sigalgs slhdsa_sha2_$set 2>&1 |
            tr -d ' \n' | grep -qi "000d00040002$(printf '%04x' "$number")"
        status=$?
        [ $status = 0 ] || break
    done
    stop
    return $status
}

# nginx takes other certificates on reload, while it runs.
nginx_reloads() {
    local status turn name
    cp self.pem reload.pem && cp self.key reload.key &&
        OPENSSL_CONF=tls.cnf start nginx "$PWD/reload.pem" "$PWD/reload.key" || return
    for name in self next self next; do
        cp $name.pem reload.pem && cp $name.key reload.key && OPENSSL_CONF=tls.cnf nginx -c "$folder/conf" -s reload
        for turn in {1..50}; do ! signature_is slhdsa_sha2_128f -CAfile $name.pem || break; sleep 0.1; done
        status=$? && signature_is slhdsa_sha2_128f -CAfile $name.pem || { stop; return 1; }
    done
    stop
}

# With two certificates a client that lacks the code points is given the ECDSA one. By the page's lines SLH-DSA goes
# first for one that has them.
two_certificates() {
    local status
    OPENSSL_CONF=tls.cnf start nginx "$PWD/self.pem" "$PWD/self.key" "ssl_certificate $PWD/ec.pem;
        ssl_certificate_key $PWD/ec.key; $(block_of "TLS 1.3" 1 | tail -n 2)" &&
        signature_is slhdsa_sha2_128f -CAfile self.pem && signature_is ecdsa_secp256r1_sha256 -CAfile ec.pem \
            -sigalgs ECDSA+SHA256 && unchanged ask_curl ec.pem && ! unchanged ask_curl self.pem
    status=$?
    stop
    return $status
}

# A client without the provider gets an alert from a server that has nothing else, and the server goes on.
others_are_refused() {
    local status
    OPENSSL_CONF=tls.cnf start nginx "$PWD/self.pem" "$PWD/self.key" || return
    ! unchanged curl -sS --max-time 20 --cacert self.pem "https://localhost:$port/" 2>said && cat said &&
        grep -q 'handshake failure' said && signature_is slhdsa_sha2_128f -CAfile self.pem
    status=$?
    stop
    return $status
}

# Each set, as the page says which chains fit.
each_set_serves() {
    local set type status
    for set in 128s 128f 192s 192f 256s 256f; do
        OPENSSL_CONF=tls.cnf openssl req -config ca.cnf -x509 -newkey SLH-DSA-SHA2-$set -nodes -keyout set.key \
            -subj /CN=set -addext subjectAltName=DNS:localhost -out set.pem &&
            OPENSSL_CONF=tls.cnf start nginx "$PWD/set.pem" "$PWD/set.key" || return
        signature_is slhdsa_sha2_$set -CAfile set.pem && OPENSSL_CONF=tls.cnf ask_curl set.pem | grep hello
        status=$?
        stop
        [ $status = 0 ] || return
    done
}

# A chain of two certificates of 256f is within OpenSSL's limit for chains, and with the root it is not: the client says
# so.
chains_of_256f() (
    mkdir -p chains && cd chains && cp ../ca.cnf ../letter.txt ../tls.cnf . && export OPENSSL_CONF=$PWD/tls.cnf || exit
    bash -c "$(sed 's/SHA2-128[sf]/SHA2-256f/; s/-md sha256/-md sha512/' "$here/examples/ca.sh")" || exit
    for name in two three; do
        cat www.pem issuing.pem >$name.pem
        [ $name = two ] || cat root.pem >>$name.pem
        start nginx "$PWD/$name.pem" "$PWD/www.key" || exit
        signature_is slhdsa_sha2_256f -CAfile root.pem
        status=$?
        cat seen
        stop
        [ $name = three ] || [ $status = 0 ] || exit
    done
    [ $status != 0 ] && grep 'excessive message size' seen
)

# Both ends of a handshake under valgrind: no error, and nothing is lost.
valgrind_sees_nothing() {
    local under=(valgrind -q --error-exitcode=9 --leak-check=full --errors-for-leak-kinds=definite) server status turn
    OPENSSL_CONF=tls.cnf timeout 1200 "${under[@]}" openssl s_server -unix valgrind.socket -naccept 1 -www \
        -cert self.pem -key self.key -CAfile self.pem -Verify 2 >server.out 2>&1 &
    server=$!
    for turn in {1..1000}; do [ ! -S valgrind.socket ] || break; sleep 0.2; done
    printf 'GET / HTTP/1.0\r\n\r\n' | OPENSSL_CONF=tls.cnf timeout 600 "${under[@]}" openssl s_client \
        -unix valgrind.socket -CAfile self.pem -cert self.pem -key self.key -brief -ign_eof >client.out 2>&1
    status=$?
    grep -a ' ' client.out | grep -av '..:..:..:' | cat - server.out
    wait $server && [ $status = 0 ] && grep -aq '^Signature type: slhdsa_sha2_128f' client.out &&
        grep -aq '^Peer signature type: slhdsa_sha2_128f' client.out && ! grep -a '^==' server.out client.out
}

# ---- broken installations ----

module=/usr/lib/x86_64-linux-gnu/ossl-modules/slh.so library=/usr/lib/x86_64-linux-gnu/libslh.so.1

at_a_wrong_path() { sed -i "s|$module|/nowhere/slh.so|" broken-*.cnf; }
without_the_library() { mv $library $library.away; }
with_an_older_library() { mv $library $library.away && cp "$here/older/libslh.so.1" $library; }
with_a_lesser_library() { mv $library $library.away && cp "$here/lesser/libslh.so.1" $library; }
with_an_unreadable_module() { chmod 600 $module; }
with_lost_settings() { sed -i 's/^workers = 1/workres = 4/; s/^\(settings = .*\)workers=1/\1workers=4/' broken-*.cnf; }
restore() {
    [ ! -e $library.away ] || mv $library.away $library
    chmod 644 $module
}

# As a user without rights, since root may read everything.
as_user() { setpriv --reuid=65534 --regid=65534 --clear-groups "$@"; }

runs_nginx() {
    folder=$(folder_of broken)
    next_port
    rm -rf "$folder" && mkdir -p "$folder" && chmod 777 "$folder" || return
    write_nginx nginx "$PWD/ec.pem" "$PWD/ec.key"
    as_user nginx -c "$folder/conf" && { stop || true; }
}
runs_ca() {
    rm -rf user && mkdir user && cp ca.cnf root.pem root.key issuing.csr user/ && touch user/root.txt &&
        echo 01 >user/root.number && chmod -R a+rwX user &&
        (cd user && as_user openssl ca -config ca.cnf -name root -batch -notext -in issuing.csr -out issuing.pem) &&
        [ -s user/issuing.pem ]
}
runs_python() {
    as_user python3 -c 'import ssl, sys
ssl.SSLContext(ssl.PROTOCOL_TLS_SERVER).load_cert_chain(*sys.argv[1:])' ec.pem ec.key
}

# A server with an ECDSA certificate, and curl under the configuration of OPENSSL_CONF.
runs_server() {
    local status
    start "$1" "$PWD/ec.pem" "$PWD/ec.key" && unchanged ask_curl ec.pem >answer && [ -s answer ]
    status=$?
    stop
    return $status
}
runs_curl() {
    local status
    OPENSSL_CONF=/dev/null start nginx "$PWD/ec.pem" "$PWD/ec.key" || return
    ask_curl ec.pem | grep hello
    status=$?
    stop
    return $status
}

# One way to break it, for one command: it runs before. After it, it goes on under a configuration that only activates
# the provider, and stops under slh.cnf.
stops() {
    local way=$1 status
    shift
    under() { rm -f made && OPENSSL_CONF=$PWD/broken-$1.cnf "${@:2}"; }
    cp slh.cnf broken-closed.cnf && cp open.cnf broken-open.cnf && sed -i '/^tls = /d' broken-open.cnf &&
        under closed "$@" && under open "$@" || return
    "$way" && under open "$@" && ! under closed "$@"
    status=$?
    restore
    return $status
}

# By the page's line OpenSSL's own configuration needs the provider, for programs that are told of no other.
stops_by_openssl_cnf() {
    local status
    cp /etc/ssl/openssl.cnf kept.cnf && eval "$(block_of "Be sure that it signs" 1 | tail -n 1)" &&
        unchanged "runs_$1" && without_the_library && ! unchanged "runs_$1"
    status=$?
    restore
    cp kept.cnf /etc/ssl/openssl.cnf
    return $status
}

umask 022
mkdir -p "$here/work" && cd "$here/work" || exit
ports=$((${PORT:-8443} - 1))
"$@"
