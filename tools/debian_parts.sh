# What tools/debian.sh and tools/source_package.sh share, which read it with `source`, with the folders `here` and
# `work`: the date, the maintainer and the copyright of Debian packages.

# The second of the last commit, where this is a clone: not of another repository, in which an unpacked tarball may be.
date_of_files() {
    if [ -e "$here/.git" ]; then git -C "$here" log -1 --format=%ct; else stat -c %Y "$here/CHANGELOG.md"; fi
}

[ -n "${SOURCE_DATE_EPOCH-}" ] || SOURCE_DATE_EPOCH=$(date_of_files) || {
    echo "tools/${0##*/}: git does not tell the last commit: set SOURCE_DATE_EPOCH" >&2
    exit 1
}
export SOURCE_DATE_EPOCH
dated=$(LC_ALL=C date -R -u -d "@$SOURCE_DATE_EPOCH")
maintainer="${DEBFULLNAME:-Pipitscreen maintainers} <${DEBEMAIL:-maintainers@users.noreply.pipitscreen.example}>"
escaped=$(sed 's|[\\/&]|\\&|g' <<<"$maintainer") # for sed

# Debian's list of changes: VERSION, and the line of it.
changelog() {
    printf 'slh (%s) unstable; urgency=medium\n\n  * %s\n\n -- %s  %s\n' "$1" "$2" "$maintainer" "$dated"
}

# bindings/debian/copyright with the text of LICENSE-MIT, a paragraph of which is ended by a line with a full stop.
copyright() {
    sed -n '/^Permission/,$p' "$here/LICENSE-MIT" | sed 's/^$/./; s/^/ /' >"$work/licence"
    sed -e "s/@COPYRIGHT@/$(sed -n 's/^Copyright (c) //p' "$here/LICENSE-MIT")/" \
        -e "/^@MIT@\$/{r $work/licence" -e 'd}' "$here/bindings/debian/copyright"
}
