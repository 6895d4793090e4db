#!/usr/bin/env bash
# Installs the tools that the tests run, from Debian. It installs no tool that is there: a second run takes a second. It
# prints the size of the download and the minutes before it begins. tools/test.sh calls it. It has to be root on Debian,
# and changes nothing on other systems.
#
# usage: tools/setup.sh [--few] [--missing]
#
#   --few       leaves out the tools that only tests of other machines run
#   --missing   installs nothing, and prints the missing packages in one line: with status 1 if there are some
#   --help      prints this
#
# All tests need compilers for C, C++, Rust and Go, Python, Node, CMake, OpenSSL, git, xxd, valgrind, lintian and
# others. Tests of other machines need compilers for ARM, RISC-V, s390x, Windows and boards, emulators, wine, and
# browsers. A command that another installer put on the path, for example rustup, replaces Debian's package.
#
# Debian 12 has no OpenSSL 3.5, no wasm2c 1.0.36, and no qemu that knows the SHA instructions of x86-64: these are
# unpacked from packages of Debian 13 into /usr/local/lib, with their libraries. On Debian 12 and 13 the commands are
# openssl-3.5, wasm2c-1.0.36 and qemu-x86_64-10 in /usr/local/bin.
set -euo pipefail
here=$(cd "$(dirname "${BASH_SOURCE[0]}")/.." && pwd)
folder=/usr/local/lib
few=no asked=install

usage() { sed -n '/^# usage:/,/^#   --help/s/^# \{0,1\}//p' "${BASH_SOURCE[0]}"; }

for word in "$@"; do
    case "$word" in
    --few) few=yes ;;
    --missing) asked=missing ;;
    --help | -h) usage && exit ;;
    *) { echo "tools/setup.sh: unknown word: $word" && usage; } >&2 && exit 2 ;;
    esac
done

# A command that the tests run, or - if there is none, and the Debian packages that have it.
of_all_tests="cc gcc libc6-dev
g++ g++
nm binutils
make make
pkg-config pkg-config
python3 python3
pytest python3-pytest python3-pytest-xdist
- python3-venv python3-setuptools python3-wheel python3-distributed python3-tqdm
- python3-prometheus-client python3-cbor2 e2fsprogs
- librust-rand-core-dev librust-sha2-dev librust-arrayvec-dev librust-thiserror-dev
- librust-getrandom-dev librust-zeroize-dev
git git
xxd xxd
openssl openssl
rustc rustc
cargo cargo
rustfmt rustfmt
cargo-clippy rust-clippy
go golang-go
node nodejs
cmake cmake
clang clang
valgrind valgrind
abidiff abigail-tools
- libc6-dbg
lintian lintian
man man-db
zsh zsh
rsvg-convert librsvg2-bin
unshare util-linux
age age
ssss-split ssss
strace strace
mypy mypy
esbuild esbuild
tsc node-typescript
meson meson
musl-gcc musl-tools
debootstrap debootstrap"
of_other_machines="aarch64-linux-gnu-gcc gcc-aarch64-linux-gnu
arm-linux-gnueabihf-gcc gcc-arm-linux-gnueabihf
riscv64-linux-gnu-gcc gcc-riscv64-linux-gnu
s390x-linux-gnu-gcc gcc-s390x-linux-gnu
x86_64-w64-mingw32-gcc gcc-mingw-w64-x86-64
arm-none-eabi-gcc gcc-arm-none-eabi
- libc6-dev-arm64-cross libc6-dev-armhf-cross libc6-dev-riscv64-cross libc6-dev-s390x-cross libnewlib-arm-none-eabi
qemu-aarch64 qemu-user
qemu-aarch64-static qemu-user-static
qemu-system-arm qemu-system-arm
wine wine
- wine64
ld.lld lld
llvm-nm llvm
chromium chromium
firefox-esr firefox-esr"

wanted() {
    echo "$of_all_tests"
    [ $few = yes ] || echo "$of_other_machines"
}

is_debian() { [ -f /etc/debian_version ] && command -v apt-get >/dev/null; }

# Prints those packages of standard input that are not installed.
not_installed() {
    local package
    while read -r package; do
        [ "$(dpkg-query -W -f '${db:Status-Status}' "$package" 2>/dev/null)" = installed ] || echo "$package"
    done
}

# Prints the missing packages; on other systems than Debian the missing commands. If a command is there, its packages
# are not missing.
missing_packages() {
    local command packages
    wanted | while read -r command packages; do
        ! command -v "$command" >/dev/null || continue
        if is_debian; then
            tr ' ' '\n' <<<"$packages" | not_installed
        elif [ "$command" != - ]; then
            echo "$command"
        fi
    done
}

# The name openssl-3.5 is ours: other systems have OpenSSL 3.5 as openssl, or not at all.
has_openssl() {
    local command=openssl-3.5 beside
    is_debian || command=openssl
    "$command" list -signature-algorithms 2>/dev/null | grep -q SLH-DSA-SHA2-128f || return
    beside=$(dirname "$(readlink -f "$(command -v "$command")")")
    [ -f "$beside/include/openssl/evp.h" ] || pkg-config --atleast-version=3.5 libcrypto
}

has_wasm2c() { [ $few = yes ] || wasm2c-1.0.36 --version >/dev/null 2>&1; }

has_qemu() { [ $few = yes ] || qemu-x86_64-10 --version >/dev/null 2>&1; }

missing() {
    missing_packages
    has_openssl || echo openssl-3.5
    has_wasm2c || echo wasm2c-1.0.36
    has_qemu || echo qemu-x86_64-10
}

# Whether Debian's package here is of this version or a later one.
has_version() {
    local version
    version=$(apt-cache policy "$1" | sed -n 's/^  Candidate: //p')
    dpkg --compare-versions "${version:-0}" ge "$2" && [ "$version" != "(none)" ]
}

# Debian 12 also has a newer compiler for Rust, under another name. Sets `packages` to those to install.
choose_packages() {
    mapfile -t packages < <(missing_packages)
    if has_version rustc-web 1.70; then
        packages=("${packages[@]/%rustc/rustc-web}")
        packages=("${packages[@]/%cargo/cargo-web}")
    fi
    if has_version librust-signature-dev 2; then packages+=(librust-signature-dev); fi
    if [ $few = no ] && has_version python3-unicorn 2; then packages+=(python3-unicorn); fi
    if ! has_openssl && has_version openssl 3.5; then packages+=(openssl libssl-dev); fi
    if ! has_wasm2c && has_version wabt 1.0.36; then packages+=(wabt); fi
}

# Prints the size of the download and on disk, and the minutes: some 4 MB are downloaded and installed in a second.
announce() {
    local said download disk megabytes
    said=$(LC_ALL=C apt-get install --assume-no --no-install-recommends "${packages[@]}" 2>/dev/null || true)
    download=$(sed -n 's/^Need to get \(.*\) of archives.*/\1/p' <<<"$said")
    disk=$(sed -n 's/^After this operation, \(.*\) of additional.*/\1/p' <<<"$said")
    megabytes=$(sed -nE 's|.*[/ ]([0-9.,]+) MB$|\1|p' <<<" $download" | tr -d ,)
    echo "tools/setup.sh installs: ${packages[*]}"
    echo "It downloads ${download:-an unknown size}, takes ${disk:-an unknown size} on disk, and" \
        "$(awk -v mb="${megabytes:-0}" 'BEGIN { printf "about %d min", 1 + mb / 240 }')."
}

install_packages() {
    echo "tools/setup.sh asks for Debian's lists of packages: about 10 MB to download"
    logged apt-get -q update || echo "tools/setup.sh: it goes on with the lists that are there" >&2
    choose_packages
    [ ${#packages[@]} != 0 ] || return 0
    announce
    logged env DEBIAN_FRONTEND=noninteractive apt-get -q -y --no-install-recommends install "${packages[@]}"
}

# Copies standard input to a file, and prints a dot after each 20 seconds.
with_dots() {
    local log=$1 line= piece status=0 dots= last=$SECONDS
    : >"$log"
    while [ $status != 1 ]; do
        status=0
        IFS= read -r -t 20 piece || status=$?
        line+=$piece
        if [ $status = 0 ] || { [ $status = 1 ] && [ -n "$line" ]; }; then echo "$line" >>"$log" && line=; fi
        [ $((SECONDS - last)) -lt 20 ] || { printf . && last=$SECONDS dots=$'\n'; }
    done
    printf %s "$dots"
}

# Runs a command, and shows its output only if it fails.
logged() {
    "$@" 2>&1 | with_dots "$work/log" || {
        tail -n 20 "$work/log" >&2
        echo "tools/setup.sh: failed: $*" >&2
        return 1
    }
}

# The address of Debian's main archive in this machine's configuration.
mirror() {
    apt-get indextargets --format '$(REPO_URI) $(RELEASE)' 'Created-By: Packages' 'Origin: Debian' |
        awk '$2 !~ /-/ && $1 !~ /security/ { print $1; exit }'
}

# Unpacks packages of Debian 13 into $work/root, and does not install them.
unpack() {
    local package keys=/usr/share/keyrings/debian-archive-keyring.gpg
    local options=(-qq -o Dir::Etc::SourceList="$work/sources.list" -o Dir::Etc::SourceParts=-
        -o Dir::State::Lists="$work/lists" -o Dir::Cache="$work/cache" -o APT::Sandbox::User=root)
    rm -rf "$work"/{root,debs}
    mkdir -p "$work"/{lists/partial,cache/archives/partial,debs}
    if [ ! -f "$work/sources.list" ]; then
        echo "deb [signed-by=$keys] $(mirror) trixie main" >"$work/sources.list"
        logged apt-get "${options[@]}" update
    fi
    (cd "$work/debs" && logged apt-get "${options[@]}" download "$@")
    for package in "$work"/debs/*.deb; do
        dpkg -x "$package" "$work/root"
    done
}

# Puts a program of $work/root into a folder, with its libraries, the C library and the loader that it needs, and a
# command that runs it: FOLDER PROGRAM COMMAND LIBRARY..
put() {
    local to=$1 program=$2 command=$3
    shift 3
    mkdir -p "$to/lib"
    cp -a "${@/#/"$work"/root/usr/lib/x86_64-linux-gnu/}" "$to/lib/"
    cp -a "$work"/root/usr/lib/x86_64-linux-gnu/{libc,libm}.so* "$work"/root/usr/lib*/*/ld-linux-x86-64.so.2 "$to/lib/"
    cp "$work/root/usr/bin/$program" "$to/$program.program"
    cat >"$to/$program" <<END_OF_SCRIPT
#!/bin/sh
exec $to/lib/ld-linux-x86-64.so.2 --library-path $to/lib $to/$program.program "\$@"
END_OF_SCRIPT
    chmod +x "$to/$program"
    ln -sf "$to/$program" "/usr/local/bin/$command"
}

# Links Debian's own command if it has the version, and unpacks one otherwise.
install_openssl() {
    local to=$folder/openssl-3.5 lib=$work/root/usr/lib/x86_64-linux-gnu
    ! has_openssl || return 0
    if has_version openssl 3.5; then
        ln -sf /usr/bin/openssl /usr/local/bin/openssl-3.5
        return
    fi
    echo "tools/setup.sh unpacks OpenSSL 3.5 of Debian 13 into $to: about 20 MB to download"
    unpack openssl libssl3t64 libssl-dev libc6 zlib1g libzstd1
    put "$to" openssl openssl-3.5 $(cd "$lib" && ls -d libcrypto.so* libssl.so* libz.so* libzstd.so*)
    mkdir -p "$to/include"
    cp -r "$work"/root/usr/include/openssl "$work"/root/usr/include/*/openssl "$to/include/"
    openssl-3.5 version
}

install_wasm2c() {
    local lib=$work/root/usr/lib/x86_64-linux-gnu
    ! has_wasm2c || return 0
    if [ "$(wasm2c --version 2>/dev/null)" = 1.0.36 ]; then
        ln -sf /usr/bin/wasm2c /usr/local/bin/wasm2c-1.0.36
        return
    fi
    echo "tools/setup.sh unpacks wasm2c 1.0.36 of Debian 13 into $folder/wabt: about 10 MB to download"
    unpack wabt libssl3t64 libstdc++6 libgcc-s1 libc6 zlib1g libzstd1
    put "$folder/wabt" wasm2c wasm2c-1.0.36 \
        $(cd "$lib" && ls -d libcrypto.so* libstdc++.so.6* libgcc_s.so* libz.so* libzstd.so*)
    echo "wasm2c $(wasm2c-1.0.36 --version)"
}

# It needs no library.
install_qemu() {
    ! has_qemu || return 0
    if has_version qemu-user 1:10; then
        ln -sf /usr/bin/qemu-x86_64 /usr/local/bin/qemu-x86_64-10
        return
    fi
    echo "tools/setup.sh unpacks qemu 10 of Debian 13 into $folder/qemu-10: about 70 MB to download"
    unpack qemu-user
    install -D "$work/root/usr/bin/qemu-x86_64" "$folder/qemu-10/qemu-x86_64"
    ln -sf "$folder/qemu-10/qemu-x86_64" /usr/local/bin/qemu-x86_64-10
    qemu-x86_64-10 --version | sed -n 1p
}

mapfile -t found < <(missing)
if [ $asked = missing ] || [ ${#found[@]} = 0 ]; then
    [ ${#found[@]} = 0 ] || { echo "${found[*]}" && exit 1; }
    [ $asked = missing ] || echo "all is there that the tests need"
    exit 0
fi
if ! is_debian || [ "$(id -u)" != 0 ]; then
    echo "tools/setup.sh: run it as root on Debian, or install by other means: ${found[*]}" >&2
    exit 2
fi
work=$(mktemp -d)
trap 'rm -rf "$work"' EXIT
install_packages
install_openssl
install_wasm2c
install_qemu
mapfile -t found < <(missing)
[ ${#found[@]} = 0 ] || { echo "tools/setup.sh: still missing: ${found[*]}" >&2 && exit 1; }
echo "all is there that the tests need"
