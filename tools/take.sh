#!/usr/bin/env bash
# Takes the library into a repository of yours: tools/take.sh DIR [CRATE]
#
# DIR is the top of a git repository of the same kit: it has a crates.txt, and a HANDLES that allows Threads and Wait.
# CRATE is the crate that your programs name, `locks` if you name none. It and the crates that it needs are copied to
# DIR/crates, and their lines to DIR/crates.txt, between two marks. DIR/tunicschist has the licences, and a file VERSION
# with the commit, the kit and the checksum of each file. Commit all of it.
#
# Run it again to update, or to take another crate in place of the first. It replaces what it took before, and nothing
# else. If a file of that was changed, or a crate of yours has such a name, it says so and changes nothing. A run that
# was cut off is completed by the next.
#
# The status is 0, 1 if DIR cannot take the library, with the reason on standard error, or 2 for wrong arguments.
set -euo pipefail
export LC_ALL=C

TOP=$(cd "$(dirname "$0")/.." && pwd -P)
. "$TOP/tools/needed.sh"
NOTES=tunicschist
VERSION=$NOTES/VERSION
BEGINS='# From Tunicschist. Its program take.sh writes these lines:'
ENDS='# End of Tunicschist'

refuse() { printf 'take: %s\n' "$1" >&2; exit 1; }

# What is between the marks of a crates.txt, with them.
block_of() { sed -n "/^$BEGINS\$/,/^$ENDS\$/p" "$1"; }

# What is not.
rest_of() { sed "/^$BEGINS\$/,/^$ENDS\$/d" "$1"; }

sum_of() { sha256sum | cut -d ' ' -f 1; }

commit() {
    local hash changes=
    hash=$(git -C "$TOP" rev-parse HEAD 2>/dev/null) || { echo 'unknown, as the source has no git history'; return; }
    if [[ -n $(git -C "$TOP" status --porcelain -- crates crates.txt) ]]; then changes=', with changes'; fi
    echo "$hash$changes"
}

kit() { PATH=$PATH:/opt/rattle/bin rt version 2>/dev/null || echo 'unknown, as there is no rt'; }

# Paths of the files of the crates that were taken, with their sums, as sha256sum writes them.
taken() { grep -E '^[0-9a-f]{64}  ' "$DIR/$VERSION" 2>/dev/null || true; }

taken_crates() { taken | sed -E 's|^.{66}crates/([^/]*)/.*|\1|' | sort -u; }

files_of() { (cd "$1" && find "crates/$2" -name out -prune -o -name __pycache__ -prune -o ! -type d -print); }

check_repository() {
    [[ $DIR/ != "$TOP"/* ]] || refuse "$1 lies in the repository that is to be taken"
    [[ -e $DIR/.git ]] || refuse "$1 is not the top of a git repository: 'git init' makes one"
    [[ -f $DIR/crates.txt ]] || refuse "$1 has no crates.txt: make an empty one"
    grep -qs Threads "$DIR/HANDLES" && grep -qs Wait "$DIR/HANDLES" ||
        refuse "$1/HANDLES does not allow Threads and Wait: write the line '$(cat "$TOP/HANDLES")' there"
    [[ $(grep -cFx "$BEGINS" "$DIR/crates.txt") == "$(grep -cFx "$ENDS" "$DIR/crates.txt")" ]] ||
        refuse "of the two marks in $1/crates.txt one is missing"
}

# What was taken is as it was taken, and nothing was put beside it.
check_unchanged() {
    local noted found name
    if [[ ! -f $DIR/$VERSION ]]; then
        [[ -z $(block_of "$DIR/crates.txt") ]] || refuse "$1/crates.txt has the marks, but $1/$VERSION is gone"
        return
    fi
    noted=$(sed -n 's/^# lines //p' "$DIR/$VERSION")
    [[ $(block_of "$DIR/crates.txt" | sum_of) == "$noted" ]] ||
        refuse "the lines between the marks in $1/crates.txt were changed"
    found=$(cd "$DIR" && taken | sha256sum --check --quiet 2>/dev/null | head -1) || true
    [[ -z $found ]] || refuse "${found%%: *} was changed since it was taken"
    for name in $(taken_crates); do
        found=$(comm -13 <(taken | cut -c 67- | sort) <(files_of "$DIR" "$name" | sort) | head -1)
        [[ -z $found ]] || refuse "$found was added to a crate that was taken"
    done
}

# No crate of the user's has the name of one that is to be taken.
check_names() {
    local name
    if [[ -e $DIR/$NOTES && ! -f $DIR/$VERSION ]]; then
        refuse "$1/$NOTES is there, and was not made by this program"
    fi
    for name in $NAMES; do
        if rest_of "$DIR/crates.txt" | grep -qE "^$name( [a-z]+)*:"; then
            refuse "$1/crates.txt has a crate $name of its own"
        fi
        if [[ -e $DIR/crates/$name ]] && ! taken_crates | grep -qFx "$name"; then
            refuse "$1/crates/$name is there, and was not taken from here"
        fi
    done
}

# Writes what is to be taken to a folder, as it will stand in DIR.
stage() {
    local to=$1 name
    mkdir -p "$to/$NOTES"
    cp "$TOP/LICENSE-MIT" "$TOP/LICENSE-APACHE" "$to/$NOTES"
    for name in $NAMES; do files_of "$TOP" "$name"; done | tar -C "$TOP" -cf - -T - | tar -C "$to" -xf -
    {
        rest_of "$DIR/crates.txt"
        printf '%s\n' "$BEGINS"
        for name in $NAMES; do line_of "$name"; done
        printf '%s\n' "$ENDS"
    } >"$to/crates.txt"
    {
        printf '# Tunicschist, taken by its tools/take.sh. sha256sum --check tells whether a file was changed.\n'
        printf '# crate %s\n# commit %s\n# kit %s\n' "$CRATE" "$(commit)" "$(kit)"
        printf '# lines %s\n' "$(block_of "$to/crates.txt" | sum_of)"
        (cd "$to" && find crates ! -type d -print0 | sort -z | xargs -0 sha256sum)
    } >"$to/$VERSION"
    comm -23 <(taken_crates) <(tr ' ' '\n' <<<"$NAMES" | sort) >"$to/gone"
}

# Puts what was staged in its place. Each step may be made twice, so a run that was cut off here can be completed.
replace() {
    local from=$1 name
    for name in $(cat "$from/gone"); do rm -rf "$DIR/crates/${name:?}"; done
    mkdir -p "$DIR/crates"
    for name in $(ls "$from/crates"); do
        # (what rt kept of the crate's proofs stays)
        if [[ -d $DIR/crates/$name/out && ! -e $from/crates/$name/out ]]; then
            mv "$DIR/crates/$name/out" "$from/crates/$name/out"
        fi
        rm -rf "$DIR/crates/${name:?}" && mv "$from/crates/$name" "$DIR/crates/$name"
    done
    if [[ -f $from/crates.txt ]]; then mv "$from/crates.txt" "$DIR/crates.txt"; fi
    if [[ -d $from/$NOTES ]]; then rm -rf "${DIR:?}/$NOTES" && mv "$from/$NOTES" "$DIR/$NOTES"; fi
    mv "$from" "$DIR/.tunicschist.part" && rm -rf "$DIR/.tunicschist.part"
}

main() {
    local given=${1%/}
    CRATE=${2:-locks}
    [[ -n $(line_of "$CRATE") ]] || refuse "there is no crate $CRATE to take"
    [[ -d $given ]] || refuse "there is no folder $given"
    DIR=$(cd "$given" && pwd -P)
    NAMES=$(needed_by "$CRATE" | tr '\n' ' ')
    check_repository "$given"
    exec 9<"$DIR" && flock -n 9 || refuse "another run is at work in $given"
    rm -rf "$DIR/.tunicschist.part"
    if [[ -d $DIR/.tunicschist.ready ]]; then replace "$DIR/.tunicschist.ready"; fi
    check_unchanged "$given"
    check_names "$given"
    stage "$DIR/.tunicschist.part"
    mv "$DIR/.tunicschist.part" "$DIR/.tunicschist.ready"
    replace "$DIR/.tunicschist.ready"
    printf 'take: %s and all that it needs\ntake: %s crates\n' "$CRATE" "$(wc -w <<<"$NAMES")"
    sed -n 's/^# \(commit\|kit\) /take: \1 /p' "$DIR/$VERSION"
}

if [[ $# -lt 1 || $# -gt 2 || $1 == -* || $1 == "" || ! ${2:-locks} =~ ^[a-z0-9_]+$ ]]; then
    printf 'usage: tools/take.sh DIR [CRATE]\n' >&2
    exit 2
fi
main "$@"
