#!/usr/bin/env bash
# Installs the library: ./install.sh PREFIX, as ./install.sh /usr/local or ./install.sh ~/.local
#
# It puts headers, libraries and the program aqs below PREFIX, with aqs.pc for pkg-config. It checks the sums of all
# files of the archive first, and installs nothing if one differs. ./install.sh --uninstall PREFIX removes them.
set -euo pipefail

HERE=$(cd "$(dirname "$0")" && pwd -P)

refuse() { printf 'install: %s\n' "$1" >&2; exit 1; }

# The files and links to install, below PREFIX.
files() { (cd "$HERE" && find . -path './*/*' \( -type f -o -type l \) | grep -E '^\./(include|lib|bin|share)/' | sort); }

remove() {
    files | while IFS= read -r file; do rm -f "$1/$file"; done
    printf 'install: removed from %s\n' "$1"
}

put() {
    files | while IFS= read -r file; do
        mkdir -p "$1/$(dirname "$file")"
        cp -P --remove-destination "$HERE/$file" "$1/$file"
    done
    sed -i "s|^prefix=.*|prefix=$1|" "$1/lib/pkgconfig/aqs.pc"
    printf 'install: installed in %s. A program is built by\n' "$1"
    printf '  cc program.c $(PKG_CONFIG_PATH=%s/lib/pkgconfig pkg-config --cflags --libs aqs)\n' "$1"
}

# The folder as an absolute path. It has to be there.
whole() { cd "$1" 2>/dev/null && pwd -P || refuse "there is no folder $1"; }

case $#,${1:-} in
2,--uninstall)
    remove "$(whole "$2")"
    ;;
0,* | *,-* | 1,)
    printf 'usage: ./install.sh [--uninstall] PREFIX\n' >&2
    exit 2
    ;;
1,*)
    (cd "$HERE" && sha256sum --check --quiet SHA256SUMS >&2) || refuse 'a file of the archive is not as it was made'
    mkdir -p "$1" || refuse "cannot make the folder $1"
    put "$(whole "$1")"
    ;;
*)
    printf 'usage: ./install.sh [--uninstall] PREFIX\n' >&2
    exit 2
    ;;
esac
