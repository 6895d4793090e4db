#!/usr/bin/env bash
# Shows the whole job in a folder of its own: it makes a key, signs a letter with several workers and --twice, verifies
# it, and sees that a damaged letter is refused. It prints each command before it runs it, and the time of each. It
# needs no kit and no other tool than a Linux has. The status is 0 if everything was as expected, else 1.
#
# usage: tools/show.sh [FOLDER]
#
# FOLDER must not exist. Without it the script makes a folder for temporary files.
set -euo pipefail
here=$(cd "$(dirname "${BASH_SOURCE[0]}")/.." && pwd)
usage() { sed -n '/^# usage:/,/^# FOLDER/s/^# \{0,1\}//p' "${BASH_SOURCE[0]}"; }
case "$#${1-}" in
1--help | 1-h) usage && exit ;;
0* | 1[!-]*) ;;
*) usage >&2 && exit 2 ;;
esac
if [ $# = 1 ]; then folder=$1 && mkdir "$folder"; else folder=$(mktemp -d "${TMPDIR:-/tmp}/slh-show.XXXXXX"); fi
cd "$folder"
folder=$PWD workers=$(nproc)
[ "$workers" -ge 2 ] || workers=2
[ "$workers" -le 64 ] || workers=64

fail() {
    echo "tools/show.sh: $1: this is not as expected. The files are in $folder" >&2
    exit 1
}

# The time in microseconds.
clock() { echo "${EPOCHREALTIME/[.,]/}"; }

# Prints a command and its purpose, runs it, and prints its output and time: PURPOSE STATUS OUTPUT COMMAND. The status
# and the output have to be these.
show() {
    local purpose=$1 wanted=$2 output=$3 command=$4 said status=0 start
    printf '\n# %s\n$ %s\n' "$purpose" "$command"
    start=$(clock)
    said=$(eval "$command") || status=$?
    printf '%s%5d ms\n' "${said:+$said$'\n'}" $((($(clock) - start) / 1000))
    [ "$status" = "$wanted" ] || fail "status $status, and not $wanted"
    [ "$said" = "$output" ] || fail "the output is not '$output'"
}

echo "\$ cd $folder && ln -s $here/slh . && umask 077 && set -C"
ln -s "$here/slh" . && umask 077 && set -C
show "a letter" 0 "" \
    'echo "Dear reader," > letter.txt'
show "a secret key of 48 random bytes; only its owner can read the file" 0 "" \
    'od -An -v -tx1 -N48 /dev/urandom | tr -d " \n" | ./slh keygen --set SLH-DSA-SHA2-128s > secret.key'
show "its public key, which everybody may have" 0 "" \
    './slh public --key secret.key > public.key'
show "16 random bytes, fresh for each signature" 0 "" \
    'od -An -v -tx1 -N16 /dev/urandom | tr -d " \n" > random.hex'
show "the signature, by $workers workers; it is computed twice, and nothing is written if the two differ" 0 "" \
    "./slh sign --key secret.key --message letter.txt --random \"\$(cat random.hex)\" --workers $workers \
--xmss-levels 3 --twice > letter.sig"
show "its length in bytes" 0 7856 \
    'wc -c < letter.sig'
show "the verdict" 0 valid \
    './slh verify --key public.key --message letter.txt --signature letter.sig'
show "a damaged letter" 0 "" \
    'sed "s/Dear/dear/" letter.txt > damaged.txt'
show "it is refused, with status 1" 1 invalid \
    './slh verify --key public.key --message damaged.txt --signature letter.sig'
printf '\nEverything was as expected. The files are in %s\n' "$folder"
