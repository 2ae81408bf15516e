#!/usr/bin/env bash
# Packs the program, and the library where it is built, with man page, completions and header, into
# out/boxantrel-VERSION-x86_64-linux.tar.gz, and where dpkg-deb is installed into out/boxantrel_VERSION_amd64.deb.
# The same files give the same bytes.
#
# Usage: tools/pack.sh VERSION
set -euo pipefail
cd "$(dirname "$0")/.."
export LC_ALL=C TZ=UTC SOURCE_DATE_EPOCH=0
umask 022
version=$1
work=$(mktemp -d)
trap 'rm -rf "$work"' EXIT

# What `make install` puts below a folder, for files that will lie below this prefix.
install_below() {
    make --silent --no-print-directory install DESTDIR="$1" PREFIX="$2"
    local package="$1$2/lib/pkgconfig/boxantrel.pc"
    if [ -e "$package" ]; then
        sed "s|@PREFIX@|$3|; s|@VERSION@|$version|" bindings/c/boxantrel.pc.in > "$package"
    fi
    find "$1" -exec touch --no-dereference --date=@0 {} +
}

# A folder of that name, which may be unpacked anywhere.
pack_archive() {
    local name=boxantrel-$version-x86_64-linux
    # shellcheck disable=SC2016  # pkg-config reads the name
    install_below "$work/archive" "/$name" '${pcfiledir}/../..'
    tar --create --directory "$work/archive" --sort=name --format=ustar --owner=0 --group=0 --numeric-owner \
        --mtime=@0 "$name" | gzip --no-name --best > "out/$name.tar.gz"
    echo "out/$name.tar.gz"
}

pack_debian() {
    local package=out/boxantrel_${version}_amd64.deb tree="$work/debian"
    install_below "$tree" /usr /usr
    gzip --no-name --best "$tree/usr/share/man/man1/dwline.1"
    mkdir -p "$tree/DEBIAN"
    cat > "$tree/DEBIAN/control" << END
Package: boxantrel
Version: $version
Architecture: amd64
Section: devel
Priority: optional
Depends: libc6
Maintainer: The developers of Boxantrel <boxantrel@localhost>
Description: reader, writer and look-up for line tables of DWARF
 The program dwline prints, checks, copies and looks up the line tables of ELF
 files. The library does the same for C, Rust and Python.
END
    find "$tree" -exec touch --no-dereference --date=@0 {} +
    dpkg-deb --root-owner-group --uniform-compression -Zgzip --build "$tree" "$package" > /dev/null
    echo "$package"
}

mkdir -p out
pack_archive
if command -v dpkg-deb > /dev/null; then
    pack_debian
else
    echo "dpkg-deb isn't installed, so no .deb is made" >&2
fi
