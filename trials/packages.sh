#!/usr/bin/env bash
# Tries what `make dist` and `make package` leave: twice the same bytes, and programs that run where nothing else is.
# The last line is 'N passed, M failed', and the status is 1 where something failed.
cd "$(dirname "$0")/.." || exit
work=$(mktemp -d) || exit
trap 'rm -rf "$work"' EXIT
passed=0
failed=0

# Counts a check: what is checked, and the command that holds where it does.
holds() {
    local what=$1
    shift
    if "$@" > "$work/said" 2>&1; then
        passed=$((passed + 1))
    else
        failed=$((failed + 1))
        echo "$what:"
        tail -n 5 "$work/said"
    fi
}

# The three programs of this root run in it, and the library and its pages are there.
try_root() {
    local root=$1 prefix=$2 name
    truncate -s 51200 "$root/disk.img"
    if [ "$(id -u)" = 0 ]; then
        holds "gptimg in a bare root" chroot "$root" "$prefix/bin/gptimg" /disk.img 512 new "$(printf 'f%.0s' {1..32})"
        holds "gptedit in a bare root" chroot "$root" "$prefix/bin/gptedit" show /disk.img
        holds "gptguid in a bare root" chroot "$root" "$prefix/bin/gptguid" efi
    else
        echo "-- this user may not enter another root: the programs are not run there"
    fi
    for name in include/gptman.h include/gptman_fd.h share/man/man1/gptedit.1.gz share/doc/gptman/README.md \
        share/man/man3/gptman.3.gz lib/python3/dist-packages/gptman/__init__.py \
        share/bash-completion/completions/gptedit share/fish/vendor_completions.d/gptedit.fish \
        share/doc/gptman/docs/gptedit.schema.json share/doc/gptman/examples/growpart; do
        holds "$name is there" test -s "$root$prefix/$name"
    done
}

holds "make dist" make -s dist
archive=$(ls -t gptman-*-x86_64.tar.gz | head -n 1)
cp "$archive" "$work/first.tar.gz"
holds "make dist, again" make -s dist
holds "the same bytes twice: $archive" cmp "$archive" "$work/first.tar.gz"
mkdir -p "$work/dist/usr/local"
holds "unpacking $archive" tar -C "$work/dist/usr/local" --strip-components=1 -xzf "$archive"
try_root "$work/dist" /usr/local
holds "the package for Python finds the library" env GPTMAN_LIBRARY= \
    PYTHONPATH="$work/dist/usr/local/lib/python3/dist-packages" python3 -B -c 'import gptman; print(gptman.version())'

if command -v dpkg-deb > /dev/null; then
    holds "make package" make -s package
    package=$(ls -t gptman_*_amd64.deb | head -n 1)
    cp "$package" "$work/first.deb"
    holds "make package, again" make -s package
    holds "the same bytes twice: $package" cmp "$package" "$work/first.deb"
    mkdir "$work/package"
    holds "unpacking $package" dpkg-deb -x "$package" "$work/package"
    try_root "$work/package" /usr
else
    echo "-- dpkg-deb is not installed: the package is not tried"
fi
echo "$passed passed, $failed failed"
[ "$failed" -eq 0 ]
