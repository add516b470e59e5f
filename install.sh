#!/usr/bin/env bash
# Installs the program, its man page and completions, the libraries for C, and the module for Python, and builds what of them
# is missing.
#
#     ./install.sh [--prefix DIR] [--destdir DIR] [--uninstall]
#
# --prefix     where to install: /usr/local, unless told
# --destdir    puts all of it below this folder, as packagers do; what is installed does not name it
# --uninstall  removes what an earlier run installed there, and the folders that it made
#
# The tree may be moved afterwards: amihunk.pc finds the header and the libraries from where it stands itself. The status is 0
# if all was done, 1 if something could not be done, and 2 if the command line is not understood.
set -eu
export LC_ALL=C
top="$(cd "$(dirname "${BASH_SOURCE[0]}")" && pwd)"

# The lines of the module for Python: all of its name in python/, but what Python itself leaves there.
python_parts() {
    [ ! -d "$top/python" ] || (cd "$top/python" && find . -name __pycache__ -prune -o -type f -path './amihunk*' \
        -printf '644 python/%P lib/python3/site-packages/%P\n') | sort
}

version="$(sed -n 's/^## \([0-9.]*\).*/\1/p' "$top/CHANGELOG.md" | sed -n 1p)"
shared="libamihunk.so.$version"
soname="libamihunk.so.${version%%.*}"

# What is installed: MODE SOURCE TARGET, the source below this folder and the target below the prefix. A source with a `?`
# may be missing. A link has the word `link` for its mode, and for its source what it leads to. To install another file, add
# its line.
parts="
755 crates/amihunk/out/amihunk bin/amihunk
644 docs/amihunk.1             share/man/man1/amihunk.1
644 completions/amihunk.bash   share/bash-completion/completions/amihunk
644 completions/_amihunk       share/zsh/site-functions/_amihunk
644 capi/out/amihunk.h         include/amihunk.h
644 capi/out/libamihunk.a      lib/libamihunk.a
755 capi/out/$shared           lib/$shared
link $shared                   lib/$soname
link $soname                   lib/libamihunk.so
644 capi/out/amihunk.pc        lib/pkgconfig/amihunk.pc
644 LICENSE?                   share/doc/amihunk/LICENSE
$(python_parts)
"
# What the files and folders of an installation are, for the next run and for --uninstall.
record=share/amihunk/installed

refuse() { # STATUS WORDS..
    local status="$1"
    shift
    echo "install.sh: $*" >&2
    exit "$status"
}

prefix=/usr/local
destdir=
uninstall=no
while [ $# -gt 0 ]; do
    case "$1" in
        --prefix | --destdir)
            [ $# -gt 1 ] || refuse 2 "$1 needs a folder"
            declare "${1#--}=$2"
            shift
            ;;
        --prefix=* | --destdir=*)
            word="${1%%=*}"
            declare "${word#--}=${1#*=}"
            ;;
        --uninstall) uninstall=yes ;;
        --help)
            sed -n '2,/^set -eu/{ s/^# \{0,1\}//p }' "${BASH_SOURCE[0]}"
            exit
            ;;
        *) refuse 2 "unknown argument $1" ;;
    esac
    shift
done
case "$prefix" in
    *$'\n'*) refuse 2 "--prefix has an end of line" ;;
    /*) ;;
    *) refuse 2 "--prefix is to begin with a slash" ;;
esac
case "$destdir" in
    *$'\n'*) refuse 2 "--destdir has an end of line" ;;
    '' | /*) ;;
    *) destdir="$PWD/$destdir" ;;
esac
root="${destdir%/}/${prefix#/}"
root="${root%/}"

# The lines of the record of an earlier run that begin with one of these words: WORDS.
recorded_lines() {
    if [ -f "$root/$record" ]; then
        grep -E "^(${1// /|}) " "$root/$record" || true
    fi
}

remove() { # TARGET, with what Python made of it when it was imported
    local name
    case "$1" in
        *.py)
            name="${1##*/}"
            rm -f -- "$root/${1%/*}/__pycache__/${name%.py}".*.pyc
            rmdir -- "$root/${1%/*}/__pycache__" 2> /dev/null || true
            ;;
    esac
    rm -f -- "$root/$1"
}

if [ "$uninstall" = yes ]; then
    [ -f "$root/$record" ] || refuse 1 "nothing is installed in $root"
    mapfile -t files < <(recorded_lines file)
    mapfile -t folders < <(recorded_lines folder | sort -r)
    mapfile -t above < <(recorded_lines above | sort -r)
    for file in "${files[@]#file }" "$record"; do
        remove "$file" || refuse 1 "cannot remove $root/$file"
    done
    # A folder stays if something else is in it. Those above the prefix are theirs only as long as the tree was not moved.
    for folder in "${folders[@]#folder }"; do
        folder="$root/$folder"
        rmdir -- "${folder%/.}" 2> /dev/null || true
    done
    for folder in "${above[@]#above }"; do
        case "$root/" in "$folder"/*) rmdir -- "$folder" 2> /dev/null || true ;; esac
    done
    exit
fi

build() { # what of the parts is missing
    if [ -e "$top/crates/amihunk/out/amihunk" ] && [ -e "$top/capi/out/amihunk.pc" ] && [ -e "$top/capi/out/$shared" ]; then
        return
    fi
    command -v rt > /dev/null || refuse 1 "not everything is built, and there is no rt to build it"
    if [ ! -e "$top/crates/amihunk/out/amihunk" ]; then
        echo "The program is proved and built first, which takes about half an hour."
        (cd "$top/crates/amihunk" && rt run -- --version) || refuse 1 "the program was not built"
    fi
    if [ ! -e "$top/capi/out/amihunk.pc" ] || [ ! -e "$top/capi/out/$shared" ]; then
        echo "The libraries for C are proved and built first."
        "$top/capi/build.sh" || refuse 1 "the libraries were not built"
    fi
}

# The folders that this run makes, in the order in which it makes them: the lines of the record, and the paths.
made=()
made_paths=()

make_folder() { # PATH, with the folders above it
    [ ! -d "$1" ] || return 0
    make_folder "$(dirname "$1")"
    mkdir -- "$1" || refuse 1 "cannot make $1"
    chmod 755 -- "$1"
    made_paths+=("$1")
    case "$1/" in
        "$root/") made+=("folder .") ;;
        "$root"/*) made+=("folder ${1#"$root"/}") ;;
        *) made+=("above $1") ;;
    esac
}

put() { # MODE SOURCE TARGET: a whole file or link, or none
    local new="$root/$3.new"
    make_folder "$(dirname "$root/$3")"
    {
        if [ "$1" = link ]; then
            ln -sf -- "$2" "$new"
        else
            cp -- "$2" "$new" && chmod "$1" -- "$new"
        fi && mv -fT -- "$new" "$root/$3"
    } || {
        rm -f -- "$new"
        refuse 1 "cannot write $root/$3"
    }
}

# Writes down what there is now of an installation, for --uninstall also if this run ends early.
remember() {
    if [ "${#put_files[@]}" -eq 0 ]; then
        for ((index = ${#made_paths[@]} - 1; index >= 0; index--)); do
            rmdir -- "${made_paths[index]}" 2> /dev/null || true
        done
        return 0
    fi
    {
        printf '%s\n' "$made_before" "${made[@]}"
        printf '%s\n' "$files_before" "${put_files[@]/#/file }" | sort -u
    } | grep . > "$work/installed"
    cp -- "$work/installed" "$root/$record" && chmod 644 -- "$root/$record"
}

build
work="$(mktemp -d)"
trap 'remember; rm -rf "$work"' EXIT
put_files=()
made_before="$(recorded_lines 'folder above')"
files_before="$(recorded_lines file)"
make_folder "$root/${record%/*}"
while read -r mode source target; do
    [ -n "$mode" ] || continue
    if [ "${source%\?}" != "$source" ] && [ ! -e "$top/${source%\?}" ]; then
        continue
    fi
    [ "$mode" = link ] || source="$top/${source%\?}"
    if [ "$target" = lib/pkgconfig/amihunk.pc ]; then
        # In the build the files stand side by side; here they have folders of their own.
        sed -e 's|^prefix=.*|prefix=${pcfiledir}/../..|' -e 's|^includedir=.*|includedir=${prefix}/include|' \
            -e 's|^libdir=.*|libdir=${prefix}/lib|' "$source" > "$work/amihunk.pc"
        source="$work/amihunk.pc"
    fi
    put "$mode" "$source" "$target"
    put_files+=("$target")
done <<< "$parts"

# What an earlier version installed, and this one does not.
while read -r _ file; do
    if [ -n "$file" ] && ! printf '%s\n' "${put_files[@]}" | grep -qxF -- "$file"; then
        remove "$file"
    fi
done <<< "$files_before"
files_before=
echo "Installed in ${root:-/}."
