#!/usr/bin/env bash
# Makes an archive for those who want to use the library and not to prove it: tools/dist.sh [FOLDER]
#
# It leaves tunicschist-VERSION-x86_64-linux.tar.gz and its checksum in FOLDER, bindings/out if none is named. The
# archive has headers, libaqs.a and libaqs.so, the program aqs with its man page and completions, the recorder
# aqs-record, the Rust crate, a wheel for Python, a jar, the sums of the proved sources, and an install script. Its
# file VERSION names the commit that the sources are of: the commit that adds an archive to release/ is a later one.
# What the machine has no tools for is left out, and said. CORE names another proved library than
# crates/aqs_c/out/libaqs_c.a, as in bindings/c/Makefile, and AQS another program aqs.
set -euo pipefail
export LC_ALL=C

TOP=$(cd "$(dirname "$0")/.." && pwd -P)
. "$TOP/tools/needed.sh"
OUT=$(mkdir -p "${1:-$TOP/bindings/out}" && cd "${1:-$TOP/bindings/out}" && pwd -P)
VERSION=$(cat "$TOP/VERSION")
NAME=tunicschist-$VERSION
ARCHIVE=$NAME-x86_64-linux.tar.gz
AQS=${AQS:-$TOP/crates/aqs/out/aqs}
export AQS

left_out() { printf 'dist: left out: %s: %s\n' "$1" "$2"; }

has() { command -v "$1" >/dev/null; }

# The sums of all sources of the library and the program, with their proofs.
sources() {
    cd "$TOP"
    for name in $(needed_by aqs_c aqs); do
        find "crates/$name" -name out -prune -o -path '*/wrong-bodies' -prune -o -type f -print
    done | sort | xargs sha256sum
}

about() {
    local commit kit
    commit=$(git -C "$TOP" rev-parse HEAD 2>/dev/null) || commit=unknown
    if [[ -n $(git -C "$TOP" status --porcelain -- crates crates.txt bindings 2>/dev/null) ]]; then
        commit+=', with changes'
    fi
    kit=$(PATH=$PATH:/opt/rattle/bin rt version 2>/dev/null) || kit=unknown
    printf 'version %s\ncommit %s\nkit %s\nsources %s\n' "$VERSION" "$commit" "$kit" "$(sha256sum <"$1" | cut -c 1-64)"
}

# The man page, and what completes the program's words in each shell.
put_shell() {
    install -D -m 644 "$TOP/tools/shell/aqs.1" "$1/man/man1/aqs.1"
    install -D -m 644 "$TOP/tools/shell/aqs.bash" "$1/bash-completion/completions/aqs"
    install -D -m 644 "$TOP/tools/shell/_aqs" "$1/zsh/site-functions/_aqs"
    install -D -m 644 "$TOP/tools/shell/aqs.fish" "$1/fish/vendor_completions.d/aqs.fish"
}

put_c() {
    make -s -C "$TOP/bindings/c" install PREFIX="$1" DESTDIR=
    sed -i 's|^prefix=.*|prefix=@PREFIX@|' "$1/lib/pkgconfig/aqs.pc"
    make -s -C "$TOP/bindings/pthread" install PREFIX="$1" DESTDIR=
    if [[ -x $AQS ]]; then
        install -D -m 755 "$AQS" "$1/bin/aqs"
        put_shell "$1/share"
    else
        left_out 'the program aqs' "$AQS is not built"
    fi
}

# The crate finds ../../c/out/libaqs.a, as in a clone.
put_rust() {
    mkdir -p "$1/rust" "$1/c"
    tar -C "$TOP/bindings/rust" --exclude=target -cf - aqs | tar -C "$1/rust" -xf -
    ln -s ../lib "$1/c/out"
}

put_python() {
    if ! has python3; then left_out 'the wheel' 'there is no python3'; return; fi
    if [[ ! -d $TOP/bindings/python/aqs ]]; then left_out 'the wheel' 'bindings/python has no package'; return; fi
    mkdir -p "$1/python"
    python3 -B "$TOP/tools/dist/wheel.py" "$TOP/bindings/python/aqs" "$1/lib/libaqs.so" "$VERSION" "$1/python"
}

put_java() {
    if ! has javac || ! has jar; then left_out 'the jar' 'there is no JDK'; return; fi
    if ! grep -q '^jar:' "$TOP/bindings/java/Makefile"; then left_out 'the jar' 'bindings/java has no jar'; return; fi
    make -s -C "$TOP/bindings/java" jar
    install -D -m 644 "$TOP/bindings/java/out/aqs.jar" "$1/java/aqs.jar"
}

put_pages() {
    install -m 644 "$TOP/LICENSE-MIT" "$TOP/LICENSE-APACHE" "$TOP/CHANGELOG.md" "$1"
    install -m 644 "$TOP/tools/dist/README.md" "$1/README.md"
    install -m 755 "$TOP/tools/dist/install.sh" "$1/install.sh"
    sources >"$1/SOURCES.sha256"
    about "$1/SOURCES.sha256" >"$1/VERSION"
}

main() {
    local room stage
    room=$(mktemp -d) && trap "rm -rf '$room'" EXIT
    stage=$room/$NAME
    mkdir "$stage"
    put_c "$stage"
    put_rust "$stage"
    put_python "$stage"
    put_java "$stage"
    put_pages "$stage"
    (cd "$stage" && find . -type f -print0 | sort -z | xargs -0 sha256sum) >"$room/sums"
    mv "$room/sums" "$stage/SHA256SUMS"
    tar -C "$room" --sort=name --owner=0 --group=0 --numeric-owner --mtime='2026-01-01 00:00Z' -cf - "$NAME" |
        gzip -9n >"$room/$ARCHIVE"
    mv "$room/$ARCHIVE" "$OUT/$ARCHIVE"
    (cd "$OUT" && sha256sum "$ARCHIVE" >"$ARCHIVE.sha256")
    printf 'dist: %s, %s bytes\n' "$OUT/$ARCHIVE" "$(stat -c %s "$OUT/$ARCHIVE")"
}

main
