#!/bin/sh
# Makes dist/jobd_VERSION_amd64.deb of the archive in dist/, by dpkg-deb. Two runs over one tree give the same bytes.
set -eu

cd "${0%/*}/.."
version=$(packaging/version.sh)
source=dist/kivgrond-$version-x86_64-linux
debian=packaging/debian
umask 022
LC_ALL=C
export LC_ALL

fail() {
    echo "deb: $*" >&2
    exit 1
}
[ -f "$source.tar.gz" ] || fail "$source.tar.gz is not there: make dist first"
rm -rf "$source"
tar -C dist -xzf "$source.tar.gz"
SOURCE_DATE_EPOCH=${SOURCE_DATE_EPOCH:-$(git log -1 --format=%ct)}
export SOURCE_DATE_EPOCH

# The packages of the libraries that the program asks for.
depends="libc6 (>= $(sed -n 's/^C library: \([0-9.]*\) .*/\1/p' "$source/PROVED.txt"))"
for library in $(objdump -p "$source/bin/jobd" | sed -n 's/^ *NEEDED *//p' | sort -u); do
    case $library in
    libc.so.6 | libm.so.6 | libdl.so.2 | libpthread.so.0 | librt.so.1 | ld-linux-x86-64.so.2) ;;
    libgcc_s.so.1) depends="$depends, libgcc-s1" ;;
    *) fail "$library: no package is known for it" ;;
    esac
done

root=dist/deb
rm -rf "$root"
mkdir -p "$root/DEBIAN" "$root/etc/jobd" "$root/etc/needrestart/conf.d" "$root/lib/systemd/system"
PREFIX=/usr DESTDIR=$PWD/$root sh "$source/install.sh"
doc=$root/usr/share/doc/jobd
mv "$doc/contrib/jobd.service" "$doc/contrib/jobd@.service" "$root/lib/systemd/system"
mkdir -p "$root/usr/lib/systemd/user"
mv "$doc/contrib/jobd-user.service" "$root/usr/lib/systemd/user/jobd.service"
rm "$doc/LICENSE-MIT" "$doc/LICENSE-APACHE"
# Where Debian looks for each.
mkdir -p "$root/usr/share/zsh/vendor-completions"
mv "$root"/usr/share/zsh/site-functions/* "$root/usr/share/zsh/vendor-completions"
rmdir "$root/usr/share/zsh/site-functions"
printf 'jobd (%s) unstable; urgency=medium\n\n  * CHANGELOG.md next to this file says what changed.\n\n -- %s  %s\n' "$version" \
    "$(sed -n 's/^Maintainer: //p' "$debian/control")" "$(date -u -R -d "@$SOURCE_DATE_EPOCH")" >"$doc/changelog"
awk -v license="LICENSE-MIT" '$0 == "@MIT@" { while ((getline row <license) > 0) print row == "" ? " ." : " " row; next } { print }' \
    "$debian/copyright" >"$doc/copyright"
gzip -n -9 "$doc/changelog" "$root"/usr/share/man/man*/*

size=$(find "$root/usr" "$root/etc" "$root/lib" -type f -printf '%s\n' | awk '{ sum += int(($1 + 1023) / 1024) } END { print sum }')
sed "s/@VERSION@/$version/; s/@DEPENDS@/$depends/; s/@SIZE@/$size/" "$debian/control" >"$root/DEBIAN/control"
# How launchers are known stands in each script that asks for them; what is mended in postinst, which tells it to a launcher that goes on without it.
for script in preinst prerm postinst postrm; do
    sed -e "s/@VERSION@/$version/" -e "/@LAUNCHERS@/r $debian/launchers" -e '/@LAUNCHERS@/d' -e "/@MENDED@/r $debian/mended" -e '/@MENDED@/d' \
        "$debian/$script" >"$root/DEBIAN/$script"
    chmod 755 "$root/DEBIAN/$script"
done
install -m 644 "$debian/needrestart.conf" "$root/etc/needrestart/conf.d/jobd.conf"
(cd "$root" && find etc -type f | sed 's|^|/|' | sort >DEBIAN/conffiles)
(cd "$root" && find usr lib etc -type f | sort | xargs md5sum >DEBIAN/md5sums)
find "$root" -exec touch -h -d "@$SOURCE_DATE_EPOCH" {} +
dpkg-deb --root-owner-group -Zxz -b "$root" "dist/jobd_${version}_amd64.deb" >/dev/null
rm -rf "$root" "$source"
echo "dist/jobd_${version}_amd64.deb"
