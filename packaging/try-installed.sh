#!/bin/sh
# Tries the packages on a bare Debian system. tools/dist_test.py runs it as root in a chroot; it installs and removes things.
#
# /root/dist has the packages, /root/wanted the examples' expected outputs: example.sh and example.out (the README's first), python.out.
# Each step is a line, "ok STEP" or "FAILED STEP"; what a failed step printed follows it.
set -u
export LC_ALL=C DEBIAN_FRONTEND=noninteractive MANPAGER=cat MANWIDTH=100
version=$1 needed=$2
cd /root

# step NAME COMMAND..: the command has to end with status 0.
step() {
    name=$1
    shift
    if "$@" > said 2>&1; then echo "ok $name"; else echo "FAILED $name"; sed 's/^/    /' said; fi
}

# Fails if the command ends with status 0, or says something else than the words.
refuses() {
    words=$1
    shift
    if "$@" > refused 2>&1; then return 1; fi
    grep -F -e "$words" refused || { cat refused; return 1; }
}

no_compiler() { ! command -v cc && ! command -v gcc && ! command -v clang; }
example() { (cd "$1" && PATH=$2:$PATH sh /root/wanted/example.sh) > example.out 2>&1; diff wanted/example.out example.out; }
page() { man "$@" > page.out && grep -q -E 'earliest +- +computes' page.out; }
python() { v/bin/python "$1/many_sources.py" > python.out && diff wanted/python.out python.out; }
in_c() { gcc "$@" -o walk_to && test "$(./walk_to examples/four-nodes.gr 1 0 4)" = "node 4 at 6, over 2 3 4"; }
says_version() { test "$("$1" --version)" = "earliest $version"; }
nothing_left() { ! find /usr -name '*earliest*' -not -path '/usr/local/*' | grep .; }

glibc=$(ldd --version | sed -n '1s/.* //p')
echo "glibc $glibc, Linux $(uname -r), $(. /etc/os-release && echo "$PRETTY_NAME")"
is_enough=$(printf '%s\n%s\n' "$needed" "$glibc" | sort -V | head -1)
step "there is no compiler" no_compiler
step "the checksums" sh -c 'cd dist && sha256sum -c SHA256SUMS'

tar -xzf dist/earliest-"$version"-x86_64-linux.tar.gz
folder=/root/earliest-$version-x86_64-linux
cp -r "$folder/examples" examples
if test "$is_enough" = "$needed"; then
    step "tarball: the README's first example" example "$folder" "$folder/bin"
    step "tarball: the man page" page -M "$folder/share/man" earliest
    cp -r "$folder/bin" "$folder/lib" "$folder/include" "$folder/share" /usr/local/
    step "tarball: the version, installed" says_version /usr/local/bin/earliest
    step "tarball: the man page, installed" page earliest
    rm -r /usr/local/bin/earliest /usr/local/share/man/man1/earliest.1 /usr/local/lib/libearliest.* /usr/local/include/earliest.*
    step "Debian package: it installs" dpkg -i dist/earliest_"$version"_amd64.deb
    step "Debian package: the version" says_version /usr/bin/earliest
    step "Debian package: its files are whole" dpkg --verify earliest
    step "Debian package: the README's first example" example /usr/share/doc/earliest /usr/bin
    step "Debian package: the man page" page earliest
else
    step "the program refuses this glibc" refuses "GLIBC_$needed" "$folder/bin/earliest" --version
    step "dpkg refuses this glibc" refuses "earliest depends on libc6 (>= $needed)" dpkg -i dist/earliest_"$version"_amd64.deb
    dpkg --purge earliest > /dev/null 2>&1
fi

step "wheel: it installs, with no network" sh -c 'python3 -m venv v && v/bin/pip install -q --no-index dist/*.whl'
step "wheel: the Python example" python "$folder/examples"

step "gcc installs" sh -c 'apt-get update -q && apt-get install -y -q --no-install-recommends gcc libc6-dev'
step "tarball: the C example, static" in_c -I"$folder/include" "$folder/examples/walk_to.c" "$folder/lib/libearliest.a"
step "tarball: the C example, shared" in_c -I"$folder/include" "$folder/examples/walk_to.c" -L"$folder/lib" -Wl,-rpath,"$folder/lib" -learliest
if test "$is_enough" = "$needed"; then
    step "Debian package: the C example" in_c "$folder/examples/walk_to.c" -learliest
    step "Debian package: it goes" dpkg --purge earliest
    step "Debian package: nothing is left" nothing_left
fi
