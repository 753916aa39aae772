#!/bin/sh
# Puts the program, its manual and its completions below a folder, or takes them away again, and says what it did.
#
#     tools/install.sh PREFIX                 as /usr/local or ~/.local
#     tools/install.sh --uninstall PREFIX
#
# The program is the one that ./qtc builds, which is proved: the first build takes some minutes. DESTDIR stands before PREFIX
# where a package is made. What is taken away are these files alone, and the folder share/doc/qtc where it is empty then.
set -eu
top=$(cd "$(dirname "$0")/.." && pwd -P)

usage() {
    echo "usage: tools/install.sh [--uninstall] PREFIX" >&2
    exit 2
}

take_away=
if [ "${1-}" = --uninstall ]; then
    take_away=yes
    shift
fi
[ $# -eq 1 ] || usage
case $1 in
-* | '') usage ;;
/*) prefix=${DESTDIR-}$1 ;;
*) prefix=${DESTDIR-}$PWD/$1 ;;
esac

# put MODE FROM TO: one file, which is taken away again under the same name
put() {
    to=$prefix/$3
    if [ -n "$take_away" ]; then
        if [ -e "$to" ]; then
            rm -f "$to"
            echo "took away $to"
        else
            echo "wasn't there: $to"
        fi
        case $to in
        */share/doc/qtc/*) rmdir "$(dirname "$to")" 2>/dev/null || true ;;
        esac
    else
        mkdir -p "$(dirname "$to")"
        # A file of its own beside the old one, so that a program that runs keeps its file.
        cp "$top/$2" "$to.new"
        chmod "$1" "$to.new"
        mv "$to.new" "$to"
        echo "put $to"
    fi
}

if [ -z "$take_away" ]; then
    # The usage, from a program that is built and newer than its sources.
    "$top/qtc" >/dev/null 2>&1 || [ $? -eq 2 ] || {
        echo "install: the program can't be built; ./qtc says why" >&2
        exit 1
    }
fi
put 755 crates/qtc_cli/out/qtc_cli bin/qtc
put 755 tools/why.py bin/qtc-why
put 644 docs/qtc.1 share/man/man1/qtc.1
put 644 docs/JOB_FILES.md share/doc/qtc/JOB_FILES.md
# bash-completion loads a command's words from a file of its name.
put 644 tools/completions/qtc.bash share/bash-completion/completions/qtc
put 644 tools/completions/qtc.bash share/bash-completion/completions/qtc-why
put 644 tools/completions/_qtc share/zsh/site-functions/_qtc
if [ -z "$take_away" ]; then
    case :$PATH: in
    *:"$prefix/bin":*) ;;
    *) echo "$prefix/bin is not on the PATH" ;;
    esac
fi
