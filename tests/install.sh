#!/usr/bin/env bash
# Tests ./install.sh and ./dist.sh: installs, uses and uninstalls what has been built, and runs the program of the archive in
# an empty root file system with a C library alone. What cannot be done without root is left out then, and the script says so.
#
# The last line is 'N passed, M failed', and the status is 0 if M is 0. It needs what was built by rt ci and capi/check.sh, a C
# compiler ($CC, or cc), python3, GNU tar and binutils.
set -u
export LC_ALL=C
export PATH="$PATH:/usr/sbin:/sbin" # where chroot is
top="$(cd "$(dirname "$0")/.." && pwd)"
cc="${CC:-cc}"
version="$(sed -n 's/^## \([0-9.]*\).*/\1/p' "$top/CHANGELOG.md" | sed -n 1p)"
name="amihunk-$version-x86_64-linux"
shared="libamihunk.so.$version"
soname="libamihunk.so.${version%%.*}"
work="$(mktemp -d)"
trap 'rm -rf "$work"' EXIT
chmod 755 "$work"
passed=0
failed=0

# Counts what was tried, and shows why it failed: NAME FUNCTION. The function runs in a shell of its own, since in a
# condition bash would not stop at the first command that fails.
attempt() {
    local what="$1"
    if bash -c 'set -eu -o pipefail; '"$2" > "$work/log" 2>&1; then
        passed=$((passed + 1))
        return 0
    fi
    failed=$((failed + 1))
    echo "FAILED: $what"
    tail -n 20 "$work/log"
    return 1
}

# Whether a command ends with a status: STATUS COMMAND..
ends() {
    local wanted="$1" status=0
    shift
    "$@" || status=$?
    [ "$status" -eq "$wanted" ]
}

# Everything in a folder but the folder itself: the paths, with their modes, where links lead to, and sums.
tree_of() {
    (cd "$1" && find . -mindepth 1 -printf '%P %y %m %l\n' | sort && find . -type f -exec sha256sum {} + | sort)
}

# Builds the emulator, and runs it where it needs as many shared libraries of ours: NEEDED WORDS.., of the compiler.
emulates() {
    local needed="$1"
    shift
    "$cc" "$top/examples/c/emulator.c" -o "$work/emulator" "$@"
    objdump -p "$work/emulator" > "$work/emulator needs"
    [ "$(grep -cE "NEEDED +$soname\$" "$work/emulator needs")" = "$needed" ]
    "$work/emulator" "$top/examples/two-hunks.load" 10000 20000 | grep -qx 'the machine starts at 00010000: 207c'
}

# Runs python3 with the modules of a tree, and with no other library than it finds from there: FOLDER WORDS..
python_of() {
    local there="$1"
    shift
    env -u PYTHONDONTWRITEBYTECODE -u PYTHONPYCACHEPREFIX -u AMIHUNK_LIBRARY PYTHONPATH="$there/lib/python3/site-packages" \
        python3 "$@"
}

# Whether all that is installed in a folder can be used: FOLDER
is_usable() {
    local there="$1" flags
    [ "$("$there/bin/amihunk" --version)" = "amihunk $version" ]
    "$there/bin/amihunk" image --at 10000,20000,30000,40000 "$top/examples/main.o" "$top/examples/library.o" > "$work/printed"
    grep -qx '00010000 41f9000200004eb9000300084e754e71' "$work/printed"
    grep -q '^\.TH AMIHUNK 1 ' "$there/share/man/man1/amihunk.1"
    bash -n "$there/share/bash-completion/completions/amihunk"
    grep -qx '#compdef amihunk' "$there/share/zsh/site-functions/_amihunk"
    grep -q AMIHUNK_H "$there/include/amihunk.h"
    [ "$(readlink "$there/lib/libamihunk.so")" = "$soname" ]
    [ "$(readlink "$there/lib/$soname")" = "$shared" ]
    emulates 1 -I"$there/include" "$there/lib/libamihunk.so" "-Wl,-rpath,$there/lib"
    emulates 0 -I"$there/include" "$there/lib/libamihunk.a"
    if command -v pkg-config > /dev/null; then
        local -x PKG_CONFIG_PATH="$there/lib/pkgconfig"
        [ "$(pkg-config --modversion amihunk)" = "$version" ]
        eval "flags=($(pkg-config --cflags --libs amihunk))"
        [ "$(realpath "${flags[0]#-I}" "${flags[1]#-L}")" = "$(realpath "$there/include" "$there/lib")" ]
        emulates 1 "${flags[@]}" "-Wl,-rpath,$there/lib"
        emulates 0 -Wl,-Bstatic "${flags[@]}" -Wl,-Bdynamic
    fi
    python_of "$there" -B -c 'import amihunk; print(amihunk.VERSION, amihunk.__file__, open("/proc/self/maps").read())' \
        > "$work/python says"
    head -n 1 "$work/python says" | grep -qF "$version $there/lib/python3/site-packages/amihunk"
    grep -qF "$(realpath "$there")/lib/$shared" "$work/python says"
}

install_twice() {
    local there="$work/a path with spaces/usr"
    "$top/install.sh" --prefix "$there"
    tree_of "$there" > "$work/first"
    "$top/install.sh" --prefix="$there"
    tree_of "$there" | diff "$work/first" -
    is_usable "$there"
}

# The tree of install_twice, at another place.
move() {
    mv "$work/a path with spaces" "$work/another path"
    is_usable "$work/another path/usr"
}

uninstall_moved() {
    "$top/install.sh" --prefix "$work/another path/usr" --uninstall
    [ ! -e "$work/another path/usr" ]
    ends 1 "$top/install.sh" --prefix "$work/another path/usr" --uninstall
}

uninstall_leaves_nothing() {
    "$top/install.sh" --prefix "$work/new/deep/folder"
    "$top/install.sh" --prefix "$work/new/deep/folder"
    python_of "$work/new/deep/folder" -c 'import amihunk'
    [ -n "$(find "$work/new" -name '*.pyc')" ]
    "$top/install.sh" --prefix "$work/new/deep/folder" --uninstall
    [ ! -e "$work/new" ]
}

uninstall_leaves_what_is_not_ours() {
    local there="$work/shared"
    mkdir -p "$there/bin" "$there/share/man" "$there/lib"
    echo mine > "$there/lib/mine"
    tree_of "$there" > "$work/before"
    "$top/install.sh" --prefix "$there"
    echo later > "$there/include/later.h"
    "$top/install.sh" --prefix "$there" --uninstall
    [ "$(cat "$there/include/later.h")" = later ]
    rm -r "$there/include"
    tree_of "$there" | diff "$work/before" -
}

# Installs a checkout with a licence, and with modules among files of Python's own and of others; and then with less of it.
licence_and_module() {
    local checkout="$work/check out" there="$work/licensed" modules
    modules="$there/lib/python3/site-packages"
    mkdir -p "$checkout/python/amihunk/__pycache__" "$checkout/python/tests"
    ln -s "$top/crates" "$top/capi" "$top/docs" "$top/completions" "$top/CHANGELOG.md" "$checkout"
    cp "$top/install.sh" "$checkout"
    echo licence > "$checkout/LICENSE"
    for file in amihunk/{__init__.py,_part.py,__pycache__/_part.cpython-311.pyc} amihunk_more.py tests/other.py; do
        echo "number = 1" > "$checkout/python/$file"
    done
    "$checkout/install.sh" --prefix "$there"
    [ "$(cat "$there/share/doc/amihunk/LICENSE")" = licence ]
    [ "$(cd "$modules" && find . -type f | sort | paste -sd ' ')" = \
        './amihunk/__init__.py ./amihunk/_part.py ./amihunk_more.py' ]
    python_of "$there" -c 'import amihunk._part, amihunk_more'
    [ "$(find "$modules" -name '*.pyc' | wc -l)" -eq 3 ]
    rm "$checkout/python/amihunk/_part.py" "$checkout/LICENSE"
    "$checkout/install.sh" --prefix "$there"
    [ -z "$(find "$there" -name '*_part*' -o -name LICENSE)" ]
    "$checkout/install.sh" --prefix "$there" --uninstall
    [ ! -e "$there" ]
}

destdir_is_not_named() {
    "$top/install.sh" --destdir "$work/dest dir" --prefix /srv/amihunk
    is_usable "$work/dest dir/srv/amihunk"
    ends 1 grep -rlF "dest dir" "$work/dest dir/srv/amihunk/lib" "$work/dest dir/srv/amihunk/bin"
    "$top/install.sh" --destdir "$work/dest dir" --prefix /srv/amihunk --uninstall
    [ ! -e "$work/dest dir" ]
}

wrong_arguments() {
    cd "$work" || return
    ends 2 "$top/install.sh" --prefix
    ends 2 "$top/install.sh" --prefix relative
    ends 2 "$top/install.sh" --destination x
    ends 1 "$top/install.sh" --prefix "$work/nothing" --uninstall
    [ ! -e relative ]
    [ ! -e nothing ]
}

# What is not built cannot be built without the toolchain.
nothing_is_built() {
    mkdir "$work/checkout"
    cp "$top/install.sh" "$work/checkout"
    ends 1 env PATH=/usr/bin:/bin "$work/checkout/install.sh" --prefix "$work/nothing"
    [ ! -e "$work/nothing" ]
}

# A run that fails at once leaves nothing, and what one that fails in the middle has put there is uninstalled.
runs_that_fail() {
    local part
    for part in bin include; do
        mkdir "$work/without $part"
        echo mine > "$work/without $part/$part"
        tree_of "$work/without $part" > "$work/mine"
        ends 1 "$top/install.sh" --prefix "$work/without $part"
        if [ -e "$work/without $part/bin/amihunk" ]; then
            "$top/install.sh" --prefix "$work/without $part" --uninstall
        fi
        tree_of "$work/without $part" | diff "$work/mine" -
    done
}

# What is missing is built: here by a toolchain and a script that put there what has been built already.
builds_what_is_missing() {
    local checkout="$work/not built"
    mkdir -p "$checkout/crates/amihunk" "$checkout/capi" "$work/toolchain"
    ln -s "$top/docs" "$top/completions" "$top/python" "$top/CHANGELOG.md" "$checkout"
    cp "$top/install.sh" "$checkout"
    cat > "$work/toolchain/rt" << END
#!/bin/sh
[ "\$*" = 'run -- --version' ] && mkdir -p out && cp "$top/crates/amihunk/out/amihunk" out
END
    cat > "$checkout/capi/build.sh" << END
#!/bin/sh
cp -a "$top/capi/out" "$checkout/capi"
END
    chmod +x "$work/toolchain/rt" "$checkout/capi/build.sh"
    PATH="$work/toolchain:$PATH" "$checkout/install.sh" --prefix "$work/was built"
    is_usable "$work/was built"
}

# What root may do and others may not, as nobody.
as_nobody() {
    mkdir "$work/locked" "$work/nobody folder"
    chown 65534:65534 "$work/nobody folder"
    run=(setpriv --reuid=65534 --regid=65534 --clear-groups env TMPDIR="$work/nobody folder")
    ends 1 "${run[@]}" "$top/install.sh" --prefix "$work/locked/usr"
    [ -z "$(ls -A "$work/locked")" ]
    "${run[@]}" "$top/install.sh" --prefix "$work/nobody folder/usr"
    is_usable "$work/nobody folder/usr"
    "${run[@]}" "$top/install.sh" --prefix "$work/nobody folder/usr" --uninstall
    [ -z "$(ls -A "$work/nobody folder")" ]
}

# Whatever the time, the time zone, the folder and the mask of permissions.
archives_are_the_same() {
    "$top/dist.sh" "$work/one"
    sleep 1.1
    (umask 077 && TZ=Asia/Tokyo "$top/dist.sh" "$work/two dist")
    cmp "$work/one/$name.tar.gz" "$work/two dist/$name.tar.gz"
    (cd "$work/two dist" && sha256sum "$name.tar.gz" | cmp - "$name.tar.gz.sha256")
    [ "$(ls "$work/one" | wc -l)" -eq 2 ]
}

archive_is_whole() {
    mkdir "$work/unpacked"
    tar -xzf "$work/one/$name.tar.gz" -C "$work/unpacked"
    is_usable "$work/unpacked/$name"
    [ "$(wc -l < "$work/unpacked/$name/README")" -eq 2 ]
    "$top/install.sh" --prefix "$work/installed"
    rm -r "$work/installed/share/amihunk"
    diff -r --no-dereference -x README "$work/installed" "$work/unpacked/$name"
}

# Whether the program and the shared library ask for no library but C's, and for no newer one than the archive says.
needs_the_c_library_alone() {
    local there="$work/unpacked/$name" told
    objdump -p "$there/bin/amihunk" "$there/lib/$shared" | sed -n 's/^ *NEEDED *//p' > "$work/needed"
    ends 1 grep -vxE 'lib(c|m|pthread|dl|rt)\.so\.[0-9]+|ld-linux-x86-64\.so\.2' "$work/needed"
    told="$(sed -n 's/.*GNU C library \([0-9.]*\) or newer.*/\1/p' "$there/README")"
    objdump -T "$there/bin/amihunk" "$there/lib/$shared" | grep -oE 'GLIBC_[0-9.]+' | sed 's/GLIBC_//' | sort -uV | tail -n 1 \
        | grep -qxF "$told"
    grep -qF "GNU C library $told or newer" "$top/README.md"
}

# An empty root file system with the files of the C library that the program names, and the archive.
empty_root() {
    local root="$work/root" library
    mkdir -p "$root/lib64" "$root/examples"
    tar -xzf "$work/one/$name.tar.gz" -C "$root"
    cp "$top"/examples/*.o "$top"/examples/*.load "$root/examples"
    ldd "$root/$name/bin/amihunk" | grep -oE '/[^ ]+' | while read -r library; do
        mkdir -p "$root$(dirname "$library")"
        cp -L "$library" "$root$library"
    done
    in_root() { $enter "$root" "/$name/bin/amihunk" "$@"; }
    [ "$(in_root --version)" = "amihunk $version" ]
    in_root link --out /hello /examples/main.o /examples/library.o
    in_root load --at 10000,20000,30000,40000 /hello > "$work/loaded"
    in_root image --at 10000,20000,30000,40000 /examples/main.o /examples/library.o | diff "$work/loaded" -
    [ -s "$work/loaded" ]
}

# How a program is run in another root: by root, or by others where they may have a name space of their own.
enter=
for words in chroot 'unshare --user --map-root-user chroot'; do
    if [ -z "$enter" ] && $words / true 2> /dev/null; then
        enter="$words"
    fi
done

export top cc version name shared soname work enter
export -f ends tree_of emulates python_of is_usable install_twice move uninstall_moved uninstall_leaves_nothing \
    uninstall_leaves_what_is_not_ours licence_and_module destdir_is_not_named wrong_arguments nothing_is_built \
    runs_that_fail builds_what_is_missing as_nobody archives_are_the_same archive_is_whole needs_the_c_library_alone empty_root
if attempt "a tree in a path with spaces, installed twice, is used" install_twice; then
    attempt "a tree that was moved is used" move
    attempt "a tree that was moved is uninstalled" uninstall_moved
fi
attempt "uninstalling leaves nothing" uninstall_leaves_nothing
attempt "uninstalling leaves what is not ours" uninstall_leaves_what_is_not_ours
attempt "a licence and a module are installed, and what is no part of them any more is removed" licence_and_module
attempt "a destination is not named in what is installed" destdir_is_not_named
attempt "wrong arguments are refused" wrong_arguments
if ! env PATH=/usr/bin:/bin sh -c 'command -v rt' > /dev/null; then
    attempt "nothing is installed where nothing is built" nothing_is_built
fi
attempt "a run that fails leaves nothing that is not uninstalled" runs_that_fail
attempt "what is missing is built" builds_what_is_missing
if attempt "two archives are the same" archives_are_the_same && attempt "the archive is whole" archive_is_whole; then
    attempt "the program needs the C library alone" needs_the_c_library_alone
    if [ -n "$enter" ]; then
        attempt "the archive runs in an empty root" empty_root
    else
        echo "The empty root was left out: it needs root, or a name space of its own."
    fi
fi
if [ "$(id -u)" -eq 0 ] && setpriv --reuid=65534 --regid=65534 --clear-groups test -r "$top/install.sh" 2> /dev/null; then
    attempt "it is installed without root" as_nobody
else
    echo "Installing as nobody was left out: it needs root, and a checkout that the user nobody can read."
fi
echo "$passed passed, $failed failed"
[ "$failed" -eq 0 ]
