#!/bin/sh
# Installs the built program for `make install`: install.sh DESTDIR PREFIX PAGE.. What it says names the places without DESTDIR, as they are where
# the files will be used. Folders and programs have mode 755 and other files 644, whatever the caller's umask is.
set -u
umask 022
cd "$(dirname "$0")/.." || exit 1
destination=$1 prefix=$2
shift 2

# put MODE FOLDER FILE..: copies files into a folder below the prefix, with this mode.
put() {
    mode=$1 folder=$destination$prefix/$2
    shift 2
    mkdir -p "$folder" || exit 1
    for file in "$@"; do
        { cp "$file" "$folder" && chmod "$mode" "$folder/$(basename "$file")"; } || exit 1
    done
}

# put_as MODE FOLDER NAME FILE: copies a file under another name.
put_as() {
    folder=$destination$prefix/$2
    mkdir -p "$folder" && cp "$4" "$folder/$3" && chmod "$1" "$folder/$3" || exit 1
}

put 755 bin crates/bpfdb/out/bpfdb share/bpfdb-shell share/bpfdb-symbols share/bpfdb-show share/bpfdb-page share/bpfdb-context share/bpfdb-convert share/bpfdb-events share/bpfdb-conformance
put 644 share/man/man1 docs/*.1
put 644 share/bpfdb/page share/page/*
put 755 bin share/bpfdb-dap
# (what bpfdb-shell and bpfdb-dap have in common)
put 644 share/bpfdb share/bpfdb/*.py
put 644 share/bpfdb share/bpfdb-gdb.py share/editors/bpfdb.vim share/editors/bpfdb-dap.el share/bpfdb.h
put 644 share/bpfdb/vscode share/editors/vscode/*
# The library of Linux: its C, and where there is a clang for BPF its object and its parts, whose lines are those of the files beside it.
put 644 share/bpfdb share/bpfdb-linux.c share/bpfdb-linux.h share/bpfdb-map.h
put 644 share/bpfdb/bpfdb-linux share/bpfdb-linux/*
if echo | clang -target bpf -x c -c -o /dev/null - 2> /dev/null; then
    object=$destination$prefix/share/bpfdb/bpfdb-linux.o
    (cd share && clang -target bpf -mcpu=v3 -O2 -g -ffile-prefix-map="$PWD=$prefix/share/bpfdb" -c -o "$object" bpfdb-linux.c) || exit 1
    chmod 644 "$object"
    sh tests/parts.sh "$destination$prefix/share/bpfdb/bpfdb-linux/parts" -ffile-prefix-map="$PWD/share=$prefix/share/bpfdb" || exit 1
    chmod 644 "$destination$prefix"/share/bpfdb/bpfdb-linux/parts/*.o
fi
# (each shell looks for a completion by the name of the command; zsh of Debian's packages in a folder of its own)
for name in bpfdb bpfdb-shell bpfdb-page bpfdb-dap bpfdb-context; do
    put_as 644 share/bash-completion/completions "$name" share/completion/bpfdb.bash
    put_as 644 share/fish/vendor_completions.d "$name.fish" share/completion/bpfdb.fish
done
case $prefix in
/usr) put 644 share/zsh/vendor-completions share/completion/_bpfdb ;;
*) put 644 share/zsh/site-functions share/completion/_bpfdb ;;
esac
put 644 share/doc/bpfdb LICENSE README.md CHANGELOG.md docs/session.svg docs/page-overrun.png docs/page-firewall.png
for page in "$@"; do
    put 644 share/doc/bpfdb "docs/$page.md"
done
find examples -type f | while read -r file; do
    put 644 "share/doc/bpfdb/$(dirname "$file")" "$file"
done
# (The pages lie beside README and the examples there. What leads to a page for those who work on bpfdb, which isn't installed, is no link.)
folder=$destination$prefix/share/doc/bpfdb
sed -i 's|](\.\./examples/|](examples/|g; s|](\.\./README.md|](README.md|g' "$folder"/*.md || exit 1
sed -i 's|](\.\./docs/|](../|g' "$folder/examples"/*.md || exit 1
sed -i 's|](docs/\([a-z-]*\.svg\))|](\1)|; s|](docs/\([a-z-]*\.png\))|](\1)|' "$folder/README.md" || exit 1
for page in "$@"; do
    sed -i "s|](docs/$page.md|]($page.md|g; s|\`docs/$page.md\`|\`$page.md\`|g; s|docs/$page.md|$page.md|g" "$folder"/*.md "$folder/examples"/*.md || exit 1
done
for page in docs/*.md; do
    page=$(basename "$page")
    [ -e "$folder/$page" ] || sed -i "s|\[\([^][]*\)\](\(docs/\)\{0,1\}${page}[^)]*)|\1|g" "$folder"/*.md "$folder/examples"/*.md || exit 1
done
echo "installed $prefix/bin/bpfdb, bpfdb-shell, bpfdb-symbols, bpfdb-show, bpfdb-page, bpfdb-context, bpfdb-convert, bpfdb-events and bpfdb-conformance beside it, man pages, completions of bash, zsh and fish, and pages and examples in $prefix/share/doc/bpfdb; in gdb: source $prefix/share/bpfdb/bpfdb-gdb.py"
echo "for editors: $prefix/bin/bpfdb-dap, $prefix/share/bpfdb/vscode and $prefix/share/bpfdb/bpfdb-dap.el"
