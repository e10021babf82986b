#!/bin/bash
# Makes a Debian package of a built program: satip_VERSION_ARCHITECTURE.deb in the current folder.
#
#   tools/make_deb.sh PROGRAM [COMMIT [KIT]]
#
# The package has what tools/installed_files.sh lists, the program without its symbols, the units of
# systemd, the example of a configuration as /etc/satip.toml, a changelog and a copyright file.
# VERSION is the one that the program prints, followed by ~gitDATE.COMMIT unless COMMIT has the tag
# vVERSION: so it rises with each commit, and a release is above all before it. The changelog says
# which commit PROGRAM was built from and which kit proved it: COMMIT is this checkout's without the
# word, KIT what `rt version` prints.
#
# DEBFULLNAME and DEBEMAIL name the packager, as for other Debian tools; without them it is git's
# user. Installing the package starts nothing. Ends with another status than 0, and without a package,
# if something is missing.
# Needs the Debian packages binutils, dpkg-dev, git and gzip, and rt for KIT.
set -euo pipefail
shopt -s inherit_errexit
top=$(cd "$(dirname "$0")/.." && pwd)

usage() {
    sed -n '2,/^set/s/^# \{0,1\}//p' "$0" | sed '$d' >&2
    exit 2
}

need() {
    [ -e "$1" ] || { echo "$1 isn't there" >&2; exit 1; }
}

# The moment of the commit, so that the same program makes the same package.
moment() {
    git -C "$top" log -1 --format=%ct "$commit" 2> "$folder/null" || date +%s
}

# The version of a package: that of the program for a tagged commit, else one that rises.
version_of() {
    local number=$1
    if git -C "$top" tag --points-at "$commit" 2> "$folder/null" | grep -qx "v$number"; then
        echo "$number"
    else
        echo "$number~git$(date -u -d "@$SOURCE_DATE_EPOCH" +%Y%m%d%H%M%S).$commit"
    fi
}

git_says() {
    git -C "$top" config "$1" || { echo "set DEBFULLNAME and DEBEMAIL, or git's $1" >&2; exit 1; }
}

commit_of_top() {
    git -C "$top" rev-parse --short=8 HEAD
}

put() {
    install -D -m "$1" "$2" "$root/$3"
}

write_changelog() {
    cat << END
satip ($version) unstable; urgency=medium

  * Built from commit $commit.
  * Its contracts were proved with $kit.

 -- $packager  $(date -u -R -d "@$SOURCE_DATE_EPOCH")
END
}

# The text of a license as the paragraph of a copyright file.
paragraph() {
    sed -e 's/[[:space:]]*$//' -e 's/^$/./' -e 's/^/ /' "$1"
}

write_copyright() {
    cat << END
Format: https://www.debian.org/doc/packaging-manuals/copyright-format/1.0/
Upstream-Name: satip
Comment: The sources have the licenses as LICENSE-MIT and LICENSE-APACHE. The
 program contains the standard library and crates of the Rattle kit that built
 it, under the licenses that the kit has next to them.

Files: *
Copyright: $(date -u -d "@$SOURCE_DATE_EPOCH" +%Y) The satip authors
License: Expat or Apache-2.0

License: Expat
$(paragraph "$top/LICENSE-MIT")

License: Apache-2.0
 On Debian systems the text is in /usr/share/common-licenses/Apache-2.0.
END
}

# The C library's packages that the program needs. Ends without a package if they aren't known.
write_depends() {
    mkdir -p "$folder/source/debian"
    printf 'Source: satip\n\nPackage: satip\nArchitecture: any\n' > "$folder/source/debian/control"
    (cd "$folder/source" && dpkg-shlibdeps -O "$root/usr/bin/satip" > "$folder/depends" 2> "$folder/warnings") || {
        cat "$folder/warnings" >&2
        exit 1
    }
    sed -n 's/^shlibs:Depends=//p' "$folder/depends" | grep . || {
        echo "dpkg-shlibdeps found nothing that $program depends on" >&2
        exit 1
    }
}

write_control() {
    cat << END
Package: satip
Version: $version
Architecture: $architecture
Maintainer: $packager
Installed-Size: $(du -k -s --apparent-size "$root" | cut -f1)
Depends: $depends, python3 (>= 3.11), python3-jsonschema, python3-prometheus-client, python3-rich
Recommends: ffmpeg, iproute2
Section: video
Priority: optional
Description: SAT>IP server that plays recordings
 It lends a few satellite front ends to many clients of one network, by the
 SAT>IP Protocol Specification 1.2.2. Clients ask over RTSP or HTTP and get RTP
 over unicast UDP, or a transport stream over HTTP. In place of a dish it plays
 recorded transport streams from files.
 .
 Each function of it is proved to meet its contract.
END
}

# Installing starts nothing: the configuration is an example until it is edited. Installing a new
# version restarts nothing: what serves goes on with the old one, and its viewers with it.
write_scripts() {
    cat > "$root/DEBIAN/postinst" << 'END'
#!/bin/sh
set -e
if [ "$1" = configure ] && command -v deb-systemd-helper > /dev/null; then
    # so that purging removes what `systemctl enable` makes
    deb-systemd-helper update-state satip.service > /dev/null || true
fi
if [ "$1" = configure ] && [ -d /run/systemd/system ]; then
    systemctl --system daemon-reload || true
    if [ -n "$2" ] && systemctl --quiet is-active 'satip.service' 'satip@*.service'; then
        echo "satip $2 serves on until it is restarted: systemctl restart satip"
    fi
fi
END
    cat > "$root/DEBIAN/prerm" << 'END'
#!/bin/sh
set -e
if [ "$1" = remove ] && [ -d /run/systemd/system ]; then
    deb-systemd-invoke stop satip.service 'satip@*.service' || true
fi
END
    cat > "$root/DEBIAN/postrm" << 'END'
#!/bin/sh
set -e
if [ "$1" = purge ] && command -v deb-systemd-helper > /dev/null; then
    deb-systemd-helper purge satip.service || true
    deb-systemd-helper unmask satip.service || true
fi
if [ "$1" = remove ] && [ -d /run/systemd/system ]; then
    systemctl --system daemon-reload || true
fi
END
    chmod 755 "$root/DEBIAN/postinst" "$root/DEBIAN/prerm" "$root/DEBIAN/postrm"
    echo /etc/satip.toml > "$root/DEBIAN/conffiles"
}

write_files() {
    local doc=usr/share/doc/satip mode file place name
    "$top/tools/installed_files.sh" "$program" "$folder" > "$folder/list"
    while IFS=$'\t' read -r mode file place; do
        put "$mode" "$file" "usr/$place"
    done < "$folder/list"
    strip --remove-section=.comment --remove-section=.note "$root/usr/bin/satip"
    for name in satip.service satip@.service; do
        sed 's|/usr/local/bin/|/usr/bin/|' "$top/examples/$name" > "$folder/$name"
        put 644 "$folder/$name" "lib/systemd/system/$name"
    done
    sed '1s|satip.schema.json|file:///usr/lib/satip/satip.schema.json|' "$top/examples/satip.toml" > "$folder/satip.toml"
    put 644 "$folder/satip.toml" etc/satip.toml
    ln -s satipctl "$root/usr/share/bash-completion/completions/satip"
    write_changelog > "$folder/changelog"
    put 644 "$folder/changelog" "$doc/changelog"
    gzip -9 -n "$root/$doc/changelog" "$root/usr/share/man/man1/satip.1" "$root/usr/share/man/man1/satipctl.1"
    write_copyright > "$folder/copyright"
    put 644 "$folder/copyright" "$doc/copyright"
}

case ${1-} in "" | -*) usage ;; esac
need "$1"
program=$(realpath "$1")
need "$top/LICENSE-MIT"
need "$top/LICENSE-APACHE"
folder=$(mktemp -d)
trap 'rm -rf "$folder"' EXIT
root=$folder/root
umask 022
commit=${2:-$(commit_of_top)}
SOURCE_DATE_EPOCH=$(moment)
export SOURCE_DATE_EPOCH
number=$("$program" --version | cut -d' ' -f2)
version=$(version_of "$number")
architecture=$(dpkg --print-architecture)
kit=${3:-$(rt version)}
packager="${DEBFULLNAME:-$(git_says user.name)} <${DEBEMAIL:-$(git_says user.email)}>"
write_files
mkdir -p "$root/DEBIAN"
write_scripts
(cd "$root" && find lib usr -type f -print0 | LC_ALL=C sort -z | xargs -0 md5sum) > "$root/DEBIAN/md5sums"
depends=$(write_depends)
write_control > "$root/DEBIAN/control"
package=satip_${version}_$architecture.deb
dpkg-deb --root-owner-group -Zxz --build "$root" "$folder/$package" > "$folder/built"
mv "$folder/$package" .
echo "$package"
