# make install and make uninstall, below a folder of their own. They take the program of this repository, so where BPFDB names another one
# they aren't tested.

if [ -n "${BPFDB:-}" ] && [ "$BPFDB" != "$top/crates/bpfdb/out/bpfdb" ]; then
    left_out 'make install' 'BPFDB names the program'
else
    # installed DESTDIR PREFIX UMASK: is installed there under this umask, works, and leaves nothing when it is taken away.
    installed() {
        installed=$1$2
        (umask "$3" && env -u MAKEFLAGS make -s -C "$top" install DESTDIR="$1" PREFIX="$2") > found/out 2> found/err
        echo $? > found/status
        tail -n 1 found/out > found/editors
        echo "for editors: $2/bin/bpfdb-dap, $2/share/bpfdb/vscode and $2/share/bpfdb/bpfdb-dap.el" > wanted/editors
        same "make install PREFIX=$2: what it says of editors" wanted/editors found/editors
        sed -i '$d' found/out
        check "make install PREFIX=$2" 0 "installed $2/bin/bpfdb, bpfdb-shell, bpfdb-symbols, bpfdb-show, bpfdb-page, bpfdb-context, bpfdb-convert, bpfdb-events and bpfdb-conformance beside it, man pages, completions of bash, zsh and fish, and pages and examples in $2/share/doc/bpfdb; in gdb: source $2/share/bpfdb/bpfdb-gdb.py\n" ''
        (cd "$installed" && find . -type f -printf '%m %P\n' | sort) > found/files
        (cd "${1:-$2}" && find . -type d ! -perm 755) > found/folders
        : > wanted/folders
        same "make install PREFIX=$2: modes of folders" wanted/folders found/folders
        {
            cat <<'FILES'
644 share/bash-completion/completions/bpfdb
644 share/bash-completion/completions/bpfdb-context
644 share/bash-completion/completions/bpfdb-dap
644 share/bash-completion/completions/bpfdb-page
644 share/bash-completion/completions/bpfdb-shell
644 share/bpfdb/bpfdb-gdb.py
644 share/bpfdb/bpfdb-dap.el
644 share/bpfdb/bpfdb-linux.c
644 share/bpfdb/bpfdb-linux.h
644 share/bpfdb/bpfdb-map.h
644 share/bpfdb/bpfdb.h
644 share/bpfdb/bpfdb.vim
644 share/bpfdb/page/curve.js
644 share/bpfdb/page/find.js
644 share/bpfdb/page/memory.js
644 share/bpfdb/page/names.js
644 share/bpfdb/page/page.css
644 share/bpfdb/page/page.html
644 share/bpfdb/page/page.js
644 share/bpfdb/page/rows.js
644 share/bpfdb/page/run.js
644 share/bpfdb/vscode/bpfdb.tmLanguage.json
644 share/bpfdb/vscode/extension.js
644 share/bpfdb/vscode/package.json
644 share/doc/bpfdb/CHANGELOG.md
644 share/doc/bpfdb/COMMANDS.md
644 share/doc/bpfdb/CONTEXTS.md
644 share/doc/bpfdb/EDITORS.md
644 share/doc/bpfdb/GDB.md
644 share/doc/bpfdb/HEADLINE.md
644 share/doc/bpfdb/JOURNAL.md
644 share/doc/bpfdb/LICENSE
644 share/doc/bpfdb/LINUX.md
644 share/doc/bpfdb/LISTING.md
644 share/doc/bpfdb/MACHINE.md
644 share/doc/bpfdb/PAGE.md
644 share/doc/bpfdb/PERFORMANCE.md
644 share/doc/bpfdb/PROMISES.md
644 share/doc/bpfdb/README.md
644 share/doc/bpfdb/TESTS.md
644 share/doc/bpfdb/WASM.md
644 share/doc/bpfdb/XDP.md
644 share/doc/bpfdb/page-firewall.png
644 share/doc/bpfdb/page-overrun.png
644 share/doc/bpfdb/session.svg
644 share/fish/vendor_completions.d/bpfdb-context.fish
644 share/fish/vendor_completions.d/bpfdb-dap.fish
644 share/fish/vendor_completions.d/bpfdb-page.fish
644 share/fish/vendor_completions.d/bpfdb-shell.fish
644 share/fish/vendor_completions.d/bpfdb.fish
644 share/man/man1/bpfdb-conformance.1
644 share/man/man1/bpfdb-context.1
644 share/man/man1/bpfdb-convert.1
644 share/man/man1/bpfdb-dap.1
644 share/man/man1/bpfdb-events.1
644 share/man/man1/bpfdb-page.1
644 share/man/man1/bpfdb-shell.1
644 share/man/man1/bpfdb-show.1
644 share/man/man1/bpfdb-symbols.1
644 share/man/man1/bpfdb.1
644 share/zsh/site-functions/_bpfdb
755 bin/bpfdb
755 bin/bpfdb-conformance
755 bin/bpfdb-context
755 bin/bpfdb-convert
755 bin/bpfdb-dap
755 bin/bpfdb-events
755 bin/bpfdb-page
755 bin/bpfdb-shell
755 bin/bpfdb-show
755 bin/bpfdb-symbols
FILES
            (cd "$top" && find examples -type f -printf '644 share/doc/bpfdb/%p\n' && find share/bpfdb -name '*.py' -printf '644 %p\n' && find share/bpfdb-linux -type f -printf '644 share/bpfdb/bpfdb-linux/%f\n')
            if has_clang 'the object of the library of Linux'; then
                echo '644 share/bpfdb/bpfdb-linux.o'
                sed -n 's/^HELPER .*[ *]\(bpf_[a-z0-9_]*\)(.*/\1/p; s/^\(READ[A-Z_]*\|NO_SOCKET\)(\(.*\))$/\2/p' "$top"/share/bpfdb-linux/*.c | sed 's|.*|644 share/bpfdb/bpfdb-linux/parts/&.o|'
            fi
        } | sort > wanted/files
        same "make install PREFIX=$2: files and their modes" wanted/files found/files
        # Each link of an installed page leads to an installed file.
        (
            cd "$installed/share/doc/bpfdb" && for page in *.md examples/*.md; do
                grep -o '](\([^)]*\))' "$page" | sed 's/^](//; s/[)#].*//' | grep -v -e '^$' -e '^https*:' | sort -u | while read -r file; do
                    [ -e "$(dirname "$page")/$file" ] || echo "$page: $file"
                done
            done
        ) > found/links
        : > wanted/links
        same "make install PREFIX=$2: links of the pages" wanted/links found/links
        cp "$top/crates/bpfdb/stdin" script
        "$installed/bin/bpfdb" < script > found/out 2> found/err
        same 'the installed program' "$top/crates/bpfdb/stdout" found/out
        printf 'c\nq\n' > script
        BPFDB=$installed/bin/bpfdb "$installed/bin/bpfdb-shell" "$top/examples/checksum/program.bin" < script > found/out 2> found/err
        printf '%s\n' "$(printf 'continue\n' | "$program" debug "$top/examples/checksum/program.bin")" > wanted/out
        same 'the installed shell' wanted/out found/out
        if has python3 'the installed bpfdb-page'; then
            BPFDB=$installed/bin/bpfdb "$installed/bin/bpfdb-page" -o run.html "$top/examples/checksum/program.bin" < /dev/null > found/out 2>&1
            echo $? > found/status
            : > found/err
            check 'the installed bpfdb-page' 0 '' ''
        fi
        if has python3 'the installed bpfdb-context'; then
            "$installed/bin/bpfdb-context" -o context hex 6263 < /dev/null > found/out 2> found/err
            echo $? > found/status
            check 'the installed bpfdb-context' 0 '' ''
            printf bc > wanted/context
            same 'the file of the installed bpfdb-context' wanted/context context
        fi
        if has python3 'the installed bpfdb-convert'; then
            printf -- '-- asm\nmov %%r0, 1\nexit\n-- result\n1\n' > one.data
            "$installed/bin/bpfdb-convert" one.data < /dev/null > found/out 2> found/err
            echo $? > found/status
            check 'the installed bpfdb-convert' 0 '-- name\none.data\n-- listing\n        mov r0, 1\n        exit\n-- result\n1\n' ''
        fi
        # (the 67 bytes of a request)
        printf 'Content-Length: 67\r\n\r\n{"seq":1,"type":"request","command":"launch","arguments":{"x":"y"}}' | "$installed/bin/bpfdb-dap" > found/out 2> found/err
        echo $? > found/status
        sed -i 's/.*"message": "\([^"]*\)".*/\1/; 1,2d' found/out
        check 'the installed adapter' 0 'program: a text is wanted' ''
        env -u MAKEFLAGS make -s -C "$top" uninstall DESTDIR="$1" PREFIX="$2" > found/out 2> found/err
        echo $? > found/status
        check "make uninstall PREFIX=$2" 0 '' ''
        find "$installed" -type f > found/files
        : > wanted/files
        same 'make uninstall leaves no file' wanted/files found/files
        [ ! -e "$installed/share/bpfdb" ] && [ ! -e "$installed/share/doc/bpfdb" ] || complain 'make uninstall leaves a folder'
    }
    installed "$PWD/root" /usr/local 077
    installed '' "$PWD/opt/bpfdb" 002
fi
