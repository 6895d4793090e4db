#!/usr/bin/env bash
# Builds the package for Java: a jar with the classes, the module's description and the version. It needs a JDK, version
# 22 or later. A test compares two builds: they have the same bits.
#
# usage: bindings/java/build.sh JAR
set -euo pipefail
here=$(cd "$(dirname "${BASH_SOURCE[0]}")/../.." && pwd)
if [ $# != 1 ] || [[ $1 = -* ]]; then
    echo "usage: bindings/java/build.sh JAR" >&2
    exit 2
fi
source=$here/bindings/java
java_home=${JAVA_HOME:+$JAVA_HOME/bin/}
work=$(mktemp -d)
trap 'rm -rf "$work"' EXIT

"${java_home}javac" --release 22 -Xlint:all,-restricted -Werror -d "$work/classes" $(find "$source/src" -name '*.java')
mkdir -p "$work/classes/META-INF/services"
cp "$here/VERSION" "$work/classes/pipitscreen/slh/"
cp "$here"/LICENSE-* "$work/classes/META-INF/"
echo pipitscreen.slh.SlhProvider >"$work/classes/META-INF/services/java.security.Provider"
"${java_home}jar" --create --file "$1" --date 2024-08-13T00:00:00Z --module-version "$(cat "$here/VERSION")" \
    -C "$work/classes" .
