#!/bin/sh
# SPDX-License-Identifier: MIT
# Installs what lies beside it: program, C library, header, manual pages, completions, documents, examples, and the Rust
# and Python packages.
#
#   ./install.sh [PREFIX]             below PREFIX, /usr/local by default
#   ./install.sh --remove [PREFIX]    removes these files again, and the folders that are then empty
#
# First it compares the files with SHA256SUMS. The variable DESTDIR stands before PREFIX where a package is made.
# `make uninstall` calls it with --remove-listed, and names of files below PREFIX as its input.
set -eu
here=$(cd "$(dirname "$0")" && pwd)

fail() {
    echo "install.sh: $1" >&2
    exit 1
}

# The files that are installed, by their names below PREFIX.
files() {
    sed 's/^[0-9a-f]*  //' "$here/SHA256SUMS" | grep -E '^(bin|include|lib|share)/'
}

# put FILE: copies a file, or a link as a link. The .pc files get the prefix.
put() {
    mkdir -p "$(dirname "$to/$1")"
    rm -f "$to/$1"
    case $1 in
        *.pc) sed "s|@PREFIX@|$prefix|" "$here/$1" > "$to/$1" ;;
        *) cp -P "$here/$1" "$to/$1" ;;
    esac
}

# remove: removes the files whose names it reads, and what Python and cargo keep beside them.
remove() {
    while read -r file; do
        rm -f "$to/$file"
        folder=$to/$(dirname "$file")
        case $file in
            *.py) rm -rf "$folder/__pycache__" ;;
            */Cargo.toml) rm -rf "$folder/Cargo.lock" "$folder/target" ;;
        esac
        printf '%s\n' "$file"
    done
}

# prune: removes those folders of the files whose names it reads that are empty. Those of the system stay.
prune() {
    awk -F/ '{ for (at = 1; at < NF; at++) { path = at == 1 ? $1 : path "/" $at; print path } }' | sort -ru |
        while read -r folder; do
            case $to/$folder in
                /usr/bin | /usr/include | /usr/lib | /usr/share | /usr/share/man) ;;
                /usr/local/bin | /usr/local/include | /usr/local/lib | /usr/local/share | /usr/local/share/man) ;;
                *) rmdir "$to/$folder" 2> /dev/null || true ;;
            esac
        done
}

action=put
case ${1-} in
    --remove | --remove-listed)
        action=$1
        shift
        ;;
esac
[ $# -le 1 ] || fail "usage: ./install.sh [--remove] [PREFIX]"
case ${1-} in -*) fail "usage: ./install.sh [--remove] [PREFIX]" ;; esac
prefix=${1:-/usr/local}
case $prefix in
    /*) ;;
    *) prefix=$PWD/$prefix ;;
esac
to=${DESTDIR-}${prefix%/}

case $action in
    --remove) files | remove | prune ;;
    --remove-listed) remove | prune ;;
esac
[ "$action" = put ] || exit 0
(cd "$here" && sha256sum --quiet -c SHA256SUMS) || fail "files were changed (SHA256SUMS)"
files | while read -r file; do put "$file"; done
echo "installed below $prefix"
