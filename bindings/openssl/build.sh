#!/usr/bin/env bash
# Builds the provider `slh` for OpenSSL 3.5 and later, and installs it as PREFIX/lib/ossl-modules/slh.so, over the
# library that tools/library.sh has installed into PREFIX, with a configuration for it as PREFIX/etc/slh.cnf.
# docs/OPENSSL.md says how they are used.
#
# usage: bindings/openssl/build.sh PREFIX
#
# It needs a C compiler (CC, default cc) and OpenSSL's headers and libraries, 3.5 or later: those of the folder that
# OPENSSL_PREFIX names, with include/ and lib/, else those that pkg-config finds, else those beside the command
# `openssl-3.5`. Without them it says so, with status 3. The provider loads libslh.so.1 from the folder that SLH_RUNPATH
# names, from its own place on (default '$ORIGIN/..'; an empty one leaves it to the system). The compiler is handed
# CFLAGS behind all other options.
set -euo pipefail
here=$(cd "$(dirname "${BASH_SOURCE[0]}")" && pwd)
if [ $# != 1 ]; then
    echo "usage: bindings/openssl/build.sh PREFIX" >&2
    exit 2
fi
prefix=$1
[ -f "$prefix/include/slh.h" ] && [ -f "$prefix/lib/libslh.so" ] || {
    echo "build.sh: there is no library in $prefix: tools/library.sh installs it" >&2
    exit 2
}

# Whether a folder has OpenSSL 3.5 or later.
is_recent() {
    local version
    version=$(sed -n 's/^# *define OPENSSL_VERSION_STR "\(.*\)"$/\1/p' "$1/include/openssl/opensslv.h" 2>/dev/null)
    [ -n "$version" ] && printf '3.5\n%s\n' "$version" | sort -V -C
}

found= flags=()
if [ -n "${OPENSSL_PREFIX-}" ]; then
    found=$OPENSSL_PREFIX
elif pkg-config --atleast-version=3.5 libcrypto 2>/dev/null; then
    flags=($(pkg-config --cflags --libs libcrypto))
elif command -v openssl-3.5 >/dev/null; then
    found=$(dirname "$(readlink -f "$(command -v openssl-3.5)")")
fi
if [ -n "$found" ] && is_recent "$found"; then
    flags=(-I "$found/include" -L "$found/lib" -lcrypto)
fi
if [ ${#flags[@]} = 0 ]; then
    echo "build.sh: there are no headers of OpenSSL 3.5 or later" >&2
    exit 3
fi
runpath=() from_module='$ORIGIN/..'
[ -z "${SLH_RUNPATH=$from_module}" ] || runpath=(-Wl,--enable-new-dtags,-rpath,"$SLH_RUNPATH")
mkdir -p "$prefix/lib/ossl-modules"
"${CC:-cc}" -std=c11 -O2 -ffile-prefix-map="$here/=" -fPIC -shared -pthread -Wall -Wextra -Werror -pedantic \
    -I "$prefix/include" "$here"/{provider,keys,signatures,jobs}.c "$prefix/lib/libslh.so" "${flags[@]}" \
    "${runpath[@]}" \
    -Wl,--version-script="$here/slh.map",-z,defs,-z,relro,-z,now,--allow-shlib-undefined ${CFLAGS-} \
    -o "$prefix/lib/ossl-modules/slh.so"
mkdir -p "$prefix/etc"
module=$(cd "$prefix/lib/ossl-modules" && pwd)/slh.so
module=$(sed 's/[\\|&]/\\&/g' <<<"$module") # for sed
sed "s|@MODULE@|$module|" "$here/slh.cnf.in" >"$prefix/etc/slh.cnf"
echo "installed in $prefix: lib/ossl-modules/slh.so, etc/slh.cnf"
