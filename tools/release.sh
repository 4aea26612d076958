#!/usr/bin/env bash
# Makes a Debian package of the proved programs, for people who have no kit.
#
#   tools/release.sh [FOLDER]      writes FOLDER/hawhirupo_DATE.COMMIT_amd64.deb; FOLDER is out/ unless given
#
# It takes the programs that the gate has built (crates/NAME/out/NAME), and refuses one that is missing or older than a
# source, and a work tree with changes: what is packed is what was proved. The version has the date and the commit, and
# the description the logic of the kit. With the programs go their man pages (tools/man.py), completion, docs, examples,
# the tools of Python that need no kit, and hmmrun.sh, which looks at words and explains what is refused.
set -eu
top=$(cd "$(dirname "$(realpath "${BASH_SOURCE[0]}")")/.." && pwd)
names='hmmrun hmmraces hmmwithout hmmjudge hmmview hmmtrace hmmevents'

fail() {
    echo "release.sh: $*" >&2
    exit 70
}

case ${1-} in
    --help | -h)
        sed -n '2,/^set/{/^#/s/^# \{0,1\}//p}' "${BASH_SOURCE[0]}"
        exit 0 ;;
esac
[ $# -le 1 ] || { echo 'usage: tools/release.sh [FOLDER]' >&2; exit 2; }
to=$(realpath -m "${1:-$top/out}")
command -v dpkg-deb >/dev/null || fail 'there is no dpkg-deb, which makes the package'
cd "$top"
[ -z "$(git status --porcelain)" ] || fail 'the work tree has changes; commit them, and run the gate'
for name in $names; do
    program=crates/$name/out/$name
    [ -x "$program" ] || fail "$program is not there; the gate (.ci/run) builds it"
    newer=$(find crates -path '*/out' -prune -o \( -path '*/src/*' -o -path '*/specs/*' \) -newer "$program" -print -quit)
    [ -z "$newer" ] || fail "$newer is newer than $program; run the gate (.ci/run)"
done

logic=$(sed -n 's/^logic=\([0-9a-f]*\).*/\1/p' hmmrun.sh)
commit=$(git rev-parse --short HEAD)
version=$(git log -1 --format=%cd --date=format:%Y%m%d).$commit
room=$(mktemp -d)
trap 'rm -rf "$room"' EXIT
share=$room/usr/share/hawhirupo
mkdir -p "$room/DEBIAN" "$room/usr/bin" "$share/bin" "$room/usr/share/man/man1" \
    "$room/usr/share/bash-completion/completions" "$room/usr/share/doc/hawhirupo"
for name in $names; do
    cp "crates/$name/out/$name" "$share/bin/"
    printf '#!/bin/sh\nexec /usr/share/hawhirupo/hmmrun.sh --program %s "$@"\n' "$name" >"$room/usr/bin/$name"
    chmod 755 "$room/usr/bin/$name"
done
strip --strip-unneeded "$share"/bin/*
cp hmmrun.sh README.md "$share/"
cp -r docs examples "$share/"
git ls-files tools | grep -E '^tools/([a-z_]+\.(py|html)|reference/.*\.py|drivers/.*\.py|protocol/.*\.py)$' |
    xargs cp --parents -t "$share"
tools/man.py "$room/usr/share/man/man1"
gzip -9n "$room"/usr/share/man/man1/*.1
cp tools/completion.bash "$room/usr/share/bash-completion/completions/hmmrun"
for name in ${names#hmmrun }; do ln -s hmmrun "$room/usr/share/bash-completion/completions/$name"; done
echo "$commit" >"$share/COMMIT"
cat >"$room/DEBIAN/control" <<END
Package: hawhirupo
Version: $version
Architecture: amd64
Maintainer: Hawhirupo maintainers <maintainers@users.noreply.hawhirupo.example>
Depends: libc6, bash
Recommends: python3 (>= 3.10)
Section: devel
Priority: optional
Description: proved simulator of the memory manager's half of Linux HMM
 hmmrun, hmmraces, hmmwithout, hmmjudge, hmmview, hmmtrace and hmmevents, for
 authors of accelerator drivers. Each program was proved by Rattle, logic
 $logic, at commit $commit.
END
chmod -R u+rwX,go+rX,go-w "$room"
mkdir -p "$to"
dpkg-deb --root-owner-group --build "$room" "$to/hawhirupo_${version}_amd64.deb" >/dev/null
echo "$to/hawhirupo_${version}_amd64.deb"
