# bpfdb: try, run, check, test, wasm, wrong-bodies, dist, install, uninstall, pages and fmt. The toolchain's command is rt; docs/WORKING.md lists what
# else is called.
.PHONY: try run check test wasm wrong-bodies dist install uninstall files pages fmt

PREFIX = /usr/local
DESTDIR =
BIN = $(PREFIX)/bin
MAN = $(PREFIX)/share/man/man1
SHARE = $(PREFIX)/share/bpfdb
DOC = $(PREFIX)/share/doc/bpfdb
PAGES = COMMANDS LISTING MACHINE JOURNAL GDB EDITORS PAGE WASM CONTEXTS XDP LINUX TESTS HEADLINE PROMISES PERFORMANCE

# The programs whose command lines shells complete.
COMPLETED = bpfdb bpfdb-shell bpfdb-page bpfdb-dap bpfdb-context

# A first look without proofs, in a minute or two: the session of tests/session/script, or with FILE=FILE (and JOB, OPTIONS) `bpfdb JOB OPTIONS FILE`.
JOB = debug
try:
	@$(if $(FILE),[ -f "$(FILE)" ] || { echo "cannot read $(FILE)" >&2; exit 2; }; )sh tests/try.sh $(if $(FILE),$(JOB) $(OPTIONS) "$(FILE)")

# Proves and builds the debugger, where that is not done yet, and shows the session of tests/session/script.
run:
	@sh tests/session.sh

# The tests of the built program alone, or of the one that BPFDB names.
check:
	@sh tests/check.sh

# The whole gate: the pages, rt ci (every proof from nothing, the must-fail edits, the crates' tests), and the built
# program from outside.
test:
	@sh tests/gate.sh

# bpfdb as WebAssembly, in out/wasm: bpfdb.wasm, bpfdb.mjs for node, and bpfdb.html, a page.
wasm:
	@sh tests/wasm.sh

# Tries each wrong body of crates/*/must-fail and crates/*/wrong-bodies, or those of CRATES.
wrong-bodies:
	@sh tests/wrong-bodies.sh $(CRATES)

# An archive and a Debian package of the built program, in out/dist.
dist:
	@sh tests/dist.sh

# Installs the program, its shell for a terminal, man pages, completions of shells, the pages and examples for those who use it and what belongs
# to gdb and to editors, below DESTDIR. It proves and builds the program where that is not done yet.
install:
	@sh tests/build.sh
	@sh tests/install.sh "$(DESTDIR)" "$(PREFIX)" $(PAGES)

# Takes them away again.
uninstall:
	@rm -f "$(DESTDIR)$(BIN)/bpfdb" "$(DESTDIR)$(BIN)/bpfdb-shell" "$(DESTDIR)$(BIN)/bpfdb-symbols" "$(DESTDIR)$(BIN)/bpfdb-show" "$(DESTDIR)$(BIN)/bpfdb-page" "$(DESTDIR)$(BIN)/bpfdb-context" "$(DESTDIR)$(BIN)/bpfdb-convert" "$(DESTDIR)$(BIN)/bpfdb-events" "$(DESTDIR)$(BIN)/bpfdb-conformance"
	@[ ! -d "$(DESTDIR)$(MAN)" ] || { cd "$(DESTDIR)$(MAN)" && rm -f $(notdir $(wildcard docs/*.1)); }
	@[ ! -d "$(DESTDIR)$(PREFIX)/share" ] || { cd "$(DESTDIR)$(PREFIX)/share" && rm -f bpfdb/bpfdb-gdb.py bpfdb/bpfdb.h bpfdb/bpfdb.vim \
		$(patsubst %,bash-completion/completions/%,$(COMPLETED)) zsh/site-functions/_bpfdb zsh/vendor-completions/_bpfdb \
		$(patsubst %,fish/vendor_completions.d/%.fish,$(COMPLETED)); }
	@[ ! -d "$(DESTDIR)$(SHARE)" ] || { cd "$(DESTDIR)$(SHARE)" && rm -rf $(notdir $(wildcard share/bpfdb/*.py)) bpfdb-dap.el vscode \
		bpfdb-linux.c bpfdb-linux.h bpfdb-linux.o bpfdb-map.h bpfdb-linux; }
	@rm -f "$(DESTDIR)$(BIN)/bpfdb-dap"
	@rm -rf "$(DESTDIR)$(DOC)" "$(DESTDIR)$(SHARE)/page"
	@[ ! -d "$(DESTDIR)$(SHARE)" ] || rmdir "$(DESTDIR)$(SHARE)"

# Writes a page with a row of each file, its first sentence.
files:
	@mkdir -p out
	@sh docs/tables.sh --files > out/FILES.md

# Makes the tables of the pages and what is made of them anew, and holds the pages against the repository.
pages:
	@! command -v python3 > /dev/null || python3 docs/flats.py
	@sh docs/tables.sh
	@sh docs/editors.sh
	@sh docs/man.sh
	@sh tests/pages.sh

# Lays every crate out.
fmt:
	@for crate in crates/*/; do (cd $$crate && rt fmt) || exit 1; done
