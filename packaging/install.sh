#!/bin/sh
# Installs the folders that lie beside it (or those of FOLDER) below PREFIX, or removes what it installed there.
#
#     install.sh [--prefix=PREFIX] [--destdir=FOLDER] [--from=FOLDER] [--uninstall]
#
# PREFIX is by default /usr/local. With --destdir everything is put below that folder, for packages. What was installed is listed in
# PREFIX/share/pageshare/installed: each file, and each folder that wasn't there before, so that --uninstall leaves nothing. An older
# installation at the same place is removed first. The host's unit and other texts that name the prefix get it here.
set -eu

prefix=/usr/local destdir='' from=$(cd "$(dirname "$0")" && pwd) action=install

stop() {
    printf 'install.sh: %s\n' "$1" >&2
    exit "${2:-1}"
}

for word in "$@"; do
    case $word in
    --prefix=*) prefix=${word#*=} ;;
    --destdir=*) destdir=${word#*=} ;;
    --from=*) from=${word#*=} ;;
    --uninstall) action=uninstall ;;
    --help)
        sed -n '2,/^set/s/^# \{0,1\}//p' "$0"
        exit 0
        ;;
    *) stop "$word: unknown; --help says what there is" 2 ;;
    esac
done
case $prefix in
/*) ;;
*) stop "the prefix $prefix is no absolute path" 2 ;;
esac
root=$destdir$prefix
list=share/pageshare/installed

# The loader finds shared libraries by a list that is made anew.
list_libraries() {
    if [ -z "$destdir" ] && [ "$(id -u)" = 0 ]; then
        PATH=$PATH:/sbin:/usr/sbin
        if command -v ldconfig > /dev/null; then ldconfig; fi
    fi
}

# Removes what is listed: files first, and then the folders, the innermost first.
remove() {
    listed=$(cat "$root/$list")
    printf '%s\n' "$listed" | grep -v '/$' | while IFS= read -r file; do rm -f "$root/$file"; done
    printf '%s\n' "$listed" | grep '/$' | sort -r | while IFS= read -r folder; do
        rmdir "$destdir$folder" 2> /dev/null || true
    done
}

# Makes a folder below the destination, and lists it and those above it that weren't there.
make_folder() {
    if [ -d "$1" ]; then return; fi
    make_folder "$(dirname "$1")"
    mkdir "$1"
    chmod 755 "$1"
    printf '%s/\n' "${1#"$destdir"}" >> "$room/folders"
}

# The texts that have the word @PREFIX@ get the prefix in its place.
name_prefix() {
    named=$(printf '%s' "$prefix" | sed 's/[&|\\]/\\&/g')
    grep -v -e '\.a$' -e '\.so' "$room/files" | while IFS= read -r file; do
        if [ -L "$root/$file" ] || ! grep -q -I '@PREFIX@' "$root/$file"; then continue; fi
        sed "s|@PREFIX@|$named|g" "$from/$file" > "$room/text"
        cat "$room/text" > "$root/$file"
    done
}

install_all() {
    room=$(mktemp -d)
    trap 'rm -rf "$room"' EXIT
    for top in bin include lib libexec share; do
        if [ -d "$from/$top" ]; then (cd "$from" && find "$top" \( -type f -o -type l \) | sort); fi
    done > "$room/files"
    [ -s "$room/files" ] || stop "there is nothing to install in $from"
    : > "$room/folders"
    while IFS= read -r file; do
        make_folder "$(dirname "$root/$file")"
        rm -f "$root/$file"
        cp -P "$from/$file" "$root/$file"
        if [ ! -L "$root/$file" ]; then
            if [ -x "$from/$file" ]; then chmod 755 "$root/$file"; else chmod 644 "$root/$file"; fi
        fi
    done < "$room/files"
    name_prefix
    make_folder "$(dirname "$root/$list")"
    { cat "$room/files" && printf '%s\n' "$list" && cat "$room/folders"; } > "$root/$list"
    chmod 644 "$root/$list"
}

if [ "$action" = uninstall ]; then
    [ -f "$root/$list" ] || stop "nothing is installed below $root"
    remove
    list_libraries
    printf 'pageshare is removed from %s\n' "$root"
else
    if [ -f "$root/$list" ]; then remove; fi
    install_all
    list_libraries
    printf 'pageshare is installed below %s\n' "$root"
fi
