#!/bin/sh
# Installs, from Debian's packages, the programs and headers that rows of the gate take beside the toolchain, where it isn't there: in CI alone (CI is true), and as root. What can't be
# installed is left out of the tests, which say so at their end; so this script never fails.
cd "$(dirname "$0")/.." || exit 0
[ "${CI:-}" = true ] && [ "$(id -u)" = 0 ] && command -v apt-get > /dev/null || exit 0

# Where headers lie.
include=${INCLUDE:-/usr/include}

# lacking: the packages of the programs and headers that aren't there, a line each.
lacking() {
    while read -r name packages; do
        command -v "$name" > /dev/null || echo "$packages"
    done <<'PROGRAMS'
bashreadline libbpf-tools
cc gcc libc6-dev
chromium chromium
clang clang
dash dash
emacs emacs-nox elpa-dap-mode node-vscode-debugprotocol
fish fish
gdb gdb
gdb-multiarch gdb-multiarch
dot graphviz
genhtml lcov
git git
groff groff-base
jq jq
node nodejs
python3 python3
tcpdump tcpdump
vim vim
xxd xxd
zsh zsh
PROGRAMS
    # (and of headers, by a file of each)
    [ -e "$include/linux/bpf.h" ] || echo linux-libc-dev
    [ -e "$include/bpf/bpf_helpers.h" ] || echo libbpf-dev
}

# apt WORD..: apt-get, without a question, and for four minutes at most; what it says is in out/needs.log.
apt() {
    DEBIAN_FRONTEND=noninteractive timeout 240 apt-get -q -y -o Acquire::Retries=0 -o Acquire::http::Timeout=20 --no-install-recommends "$@" >> out/needs.log 2>&1
}

packages=$(lacking)
[ -n "$packages" ] || exit 0
mkdir -p out
: > out/needs.log
apt update
# (names of packages have no blanks; where they don't come together, each by itself)
# shellcheck disable=SC2086
apt install $packages || echo "$packages" | while read -r few; do
    apt install $few < /dev/null || echo "tests/needs.sh: not installed: $few (out/needs.log says why)"
done
exit 0
