#!/bin/sh
# Makes a Debian package of the files that scripts/install.sh installs, and of the Python package, by dpkg-deb.
#
#   scripts/deb.sh [FOLDER]    the package goes to FOLDER, or to the current one where it is left out
set -eu
root=$(dirname -- "$(dirname -- "$(readlink -f -- "$0")")")
to=$(readlink -f -- "${1:-.}")
room=$(mktemp -d)
trap 'rm -rf "$room"' EXIT
trap 'exit 1' HUP INT TERM
umask 022
mkdir "$room/files" "$room/files/DEBIAN"
chmod 755 "$room/files"
DESTDIR=$room/files "$root/scripts/install.sh" /usr >/dev/null
files=$room/files/usr
rm "$files/share/doc/datacube/folders"
version=$("$files/bin/datacube" --version)
version=${version#datacube }
gzip -9n "$files/share/man/man1/datacube.1"
# (documents name CHANGELOG.md, so that stays too)
gzip -9nc "$files/share/doc/datacube/CHANGELOG.md" >"$files/share/doc/datacube/changelog.gz"
mv "$files/share/doc/datacube/NOTICES" "$files/share/doc/datacube/copyright"
mkdir -p "$files/share/zsh/vendor-completions"
mv "$files/share/zsh/site-functions/_datacube" "$files/share/zsh/vendor-completions/_datacube"
rmdir "$files/share/zsh/site-functions"

# The Python package, with the page that it serves; its compiled files are Python's to make and to take away.
python=$files/lib/python3/dist-packages/jackraisin
mkdir -p "$python/postgres"
(cd "$root/python/src/jackraisin" && find . -type f ! -path '*/__pycache__/*') | while read -r file; do
    install -D -m 644 "$root/python/src/jackraisin/$file" "$python/$file"
done
install -m 644 "$root/explorer/index.html" "$python/postgres/explorer.html"
cat >"$room/files/DEBIAN/postinst" <<END
#!/bin/sh
set -e
if command -v py3compile >/dev/null; then
    py3compile -p datacube
fi
END
cat >"$room/files/DEBIAN/prerm" <<END
#!/bin/sh
set -e
if command -v py3clean >/dev/null; then
    py3clean -p datacube
fi
END
chmod 755 "$room/files/DEBIAN/postinst" "$room/files/DEBIAN/prerm"

cat >"$room/files/DEBIAN/control" <<END
Package: datacube
Version: $version
Architecture: amd64
Maintainer: $(git -C "$root" log -1 --format='%an <%ae>' 2>/dev/null || echo "datacube <root@localhost>")
Depends: libc6 (>= 2.34)
Recommends: python3 (>= 3.9)
Suggests: python3-aiohttp, python3-pandas, python3-prometheus-client, python3-psycopg2
Section: utils
Priority: optional
Installed-Size: $(du -sk "$files" | cut -f 1)
Description: data cube of feeds of facts, with proved totals
 Reads change feeds of facts (CSV) and prints the whole CUBE over the facts that
 are present in the end: COUNT, SUM, MIN, MAX, AVG, variances, distinct counts
 and percentiles of every cell of every subset of the dimensions, as sorted CSV.
 .
 The Python package jackraisin asks cubes and sessions with types, serves one over
 HTTP, and follows a table of PostgreSQL. A page for the browser shows printed
 cubes.
END
(cd "$room/files" && find usr -type f -print0 | LC_ALL=C sort -z | xargs -0 md5sum >DEBIAN/md5sums)
dpkg-deb --root-owner-group --build "$room/files" "$to/datacube_${version}_amd64.deb"
