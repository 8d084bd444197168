#!/usr/bin/env bash
# Packs what `make install` installs, with what is known of the program and with checksums: a tarball and a Debian
# package in out/dist. `make dist` runs it, and gives it in TREE the commit, and whether the tree is clean or changed.
# The same clean commit, program and gate give the same bytes.
set -euo pipefail
cd "$(dirname "$0")/.."
umask 022
export LC_ALL=C MAKEFLAGS=

refuse() {
    echo "make dist: $1" >&2
    exit 1
}

# What is known of the program. A gate counts where all of it has passed on this commit and nothing else.
known() {
    local gate='none has passed on this commit'
    if [ "$state" = clean ] && grep -qsxF "$TREE" out/passed.txt; then
        gate=$(tail -n 1 out/passed.txt)
    fi
    printf '%s\n' "version: $day" "commit: $commit" "tree: $state" "toolchain: $toolchain" "gate: $gate"
}

# Puts what is packed into a folder, all at the moment of the commit: stage FOLDER PREFIX WHERE_ZSH_LOOKS.
stage() {
    make -s install DESTDIR="$1" PREFIX="$2" ZSH_FUNCTIONS="$2/share/zsh/$3"
    known > "$1$2/share/doc/prepaid/PROVED"
    (cd "$1$2" && find bin share -type f | sort | xargs sha256sum) > "$work/sums"
    install -m 644 "$work/sums" "$1$2/share/doc/prepaid/SHA256SUMS"
    find "$1" -exec touch -d "@$SOURCE_DATE_EPOCH" {} +
}

# The Debian packages that the program needs. dpkg-shlibdeps wants a control file where it runs.
depends() {
    mkdir -p "$work/debian"
    printf 'Source: prepaid\n\nPackage: prepaid\nArchitecture: any\n' > "$work/debian/control"
    (cd "$work" && dpkg-shlibdeps -O deb/usr/bin/prepaid) | sed -n 's/^shlibs:Depends=//p'
}

# What the package is, in the words of the man page and of the README's first paragraph.
description() {
    sed -n 's/^prepaid \\- //p' man/prepaid.1
    awk 'NF && !/^#/ { print; exit }' README.md | fold -s -w 78 | sed 's/^/ /; s/ *$//'
}

control() {
    printf '%s\n' 'Package: prepaid' "Version: ${day//-/.}" "Architecture: $architecture" \
        'Maintainer: Nuddrafel maintainers <maintainers@users.noreply.nuddrafel.example>' \
        'Section: utils' 'Priority: optional' "Depends: $depends" "Description: $(description)"
}

type dpkg-deb dpkg-shlibdeps &> /dev/null || refuse "dpkg-deb or dpkg-shlibdeps isn't here: apt-get install dpkg-dev"
make -sq bin/prepaid || refuse "bin/prepaid isn't there, or is older than its sources: run make"
[ -f out/proved/prepaid ] || refuse "nothing says which toolchain proved bin/prepaid: remove it, and run make"
toolchain=$(< out/proved/prepaid)
version=$(bin/prepaid --version)
[[ $version =~ ^prepaid\ ([0-9]{4}-[0-9]{2}-[0-9]{2})$ ]] || refuse "bin/prepaid isn't proved: its version is $version"
day=${BASH_REMATCH[1]}
read -r commit state <<< "$TREE"
SOURCE_DATE_EPOCH=$(git log -1 --format=%ct "$commit")
export SOURCE_DATE_EPOCH
architecture=$(dpkg --print-architecture)

work=$(mktemp -d)
trap 'rm -rf "$work"' EXIT
mkdir -p "$work/dist" "$work/deb/DEBIAN" out
stage "$work/tarball" "/prepaid-$day" site-functions
tar --format=ustar --sort=name --owner=0 --group=0 --numeric-owner -C "$work/tarball" -c "prepaid-$day" |
    gzip -n > "$work/dist/prepaid-$day.tar.gz"
stage "$work/deb" /usr vendor-completions
depends=$(depends)
control > "$work/deb/DEBIAN/control"
dpkg-deb --root-owner-group -Zxz --build "$work/deb" "$work/dist/prepaid_${day}_$architecture.deb" > /dev/null
(cd "$work/dist" && sha256sum -- *) > "$work/sums"
install -m 644 "$work/sums" "$work/dist/SHA256SUMS"
rm -rf out/dist
mv "$work/dist" out/dist
cat out/dist/SHA256SUMS
