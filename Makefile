# The commands for developers. hello, quick, build, and test need rt of the Rattle kit. The others need the built program. All but hello,
# build, test, and install need Python 3. bench and faults also need a C compiler. quick, faults, hostile, and soak need Linux.
.PHONY: hello quick build test test-tools install uninstall pages order examples kits live at lens why installed bench walkers model faults hostile soak

SCRIPT := $(CURDIR)/examples/hello.tb
PROGRAM := $(CURDIR)/crates/toolbus/out/toolbus
PAIR := $(CURDIR)/crates/toolbus_pair/out/toolbus_pair
LENS := $(CURDIR)/crates/toolbus_lens/out/toolbus_lens
PREFIX := /usr/local
SHARE := $(DESTDIR)$(PREFIX)/share

# Simulates examples/hello.tb with the unproved program, and prints the log.
hello:
	@echo "This proves nothing: it runs the unproved program. make build proves the program, make test proves all crates."
	@cd crates/toolbus && rt try -- sim "$(SCRIPT)"

# Runs most scenarios, and all calls and examples, with unproved programs.
quick:
	tests/quick

# Proves the programs with all crates that they depend on, and builds them.
build:
	cd crates/toolbus && rt run -- sim "$(SCRIPT)"
	cd crates/toolbus_pair && rt run -- "$(SCRIPT)" "$(SCRIPT)"
	cd crates/toolbus_lens && rt run -- --version
	@echo "The programs are $(PROGRAM), $(PAIR), and $(LENS)"

# The CI gate.
test:
	.ci/run

# Installs the built programs, their pages for man, the completion for bash, the syntax files for editors, and below share/doc/toolbus the
# pages, kits, examples, and definitions as a tree, so that links between pages resolve. PREFIX=DIR installs in DIR. It builds nothing.
# DESTDIR=DIR puts all files below DIR.
TREE := README.md CONTRIBUTING.md crates.txt docs kits examples editors package/README.md bench/peers.svg tests/faults.md \
  crates/tb_top/src/top.rt crates/tb_pair_top/src/top.rt $(wildcard crates/*/README.md crates/*/specs)

install:
	@test -x "$(PROGRAM)" || { echo "There is no $(PROGRAM). make build makes it."; exit 1; }
	@test -x "$(PAIR)" || { echo "There is no $(PAIR). make build makes it."; exit 1; }
	@test -x "$(LENS)" || { echo "There is no $(LENS). make build makes it."; exit 1; }
	install -D -m 755 "$(PROGRAM)" "$(DESTDIR)$(PREFIX)/bin/toolbus"
	install -D -m 755 "$(PAIR)" "$(DESTDIR)$(PREFIX)/bin/toolbus_pair"
	install -D -m 755 "$(LENS)" "$(DESTDIR)$(PREFIX)/bin/toolbus_lens"
	install -D -m 644 man/toolbus.1 "$(SHARE)/man/man1/toolbus.1"
	install -D -m 644 man/toolbus_pair.1 "$(SHARE)/man/man1/toolbus_pair.1"
	install -D -m 644 man/toolbus_lens.1 "$(SHARE)/man/man1/toolbus_lens.1"
	install -D -m 644 man/toolbus.5 "$(SHARE)/man/man5/toolbus.5"
	install -D -m 644 completion/toolbus "$(SHARE)/bash-completion/completions/toolbus"
	install -D -m 644 completion/toolbus "$(SHARE)/bash-completion/completions/toolbus_pair"
	install -D -m 644 completion/toolbus_lens "$(SHARE)/bash-completion/completions/toolbus_lens"
	install -D -m 644 editors/vim/ftdetect/toolbus.vim "$(SHARE)/vim/vimfiles/ftdetect/toolbus.vim"
	install -D -m 644 editors/vim/syntax/toolbus.vim "$(SHARE)/vim/vimfiles/syntax/toolbus.vim"
	install -d "$(SHARE)/doc/toolbus"
	tar -c --exclude-vcs-ignores --mode=u+rwX,go+rX,go-w $(TREE) | tar -x --no-same-owner -C "$(SHARE)/doc/toolbus"

# Removes what make install has installed, with the same PREFIX and DESTDIR.
uninstall:
	rm -f "$(DESTDIR)$(PREFIX)/bin/toolbus" "$(SHARE)/man/man1/toolbus.1" "$(SHARE)/man/man5/toolbus.5"
	rm -f "$(DESTDIR)$(PREFIX)/bin/toolbus_pair" "$(SHARE)/man/man1/toolbus_pair.1"
	rm -f "$(DESTDIR)$(PREFIX)/bin/toolbus_lens" "$(SHARE)/man/man1/toolbus_lens.1"
	rm -f "$(SHARE)/bash-completion/completions/toolbus" "$(SHARE)/bash-completion/completions/toolbus_pair"
	rm -f "$(SHARE)/bash-completion/completions/toolbus_lens"
	rm -f "$(SHARE)/vim/vimfiles/ftdetect/toolbus.vim" "$(SHARE)/vim/vimfiles/syntax/toolbus.vim"
	rm -rf "$(SHARE)/doc/toolbus"

# Runs the tests with real tools, and those of the pages: what the CI gate runs after `rt ci`. At most fifteen minutes.
test-tools:
	tests/with-tools

# Compares what README.md, docs/RULES.md, and man/ show with what the built program does. Some seconds.
pages:
	tests/pages

# Tests make install, the completion for bash, and the syntax files for editors. Some seconds.
installed:
	tests/install

# Compares what docs/ARCHITECTURE.md and docs/ADDING.md say of the sources with them. tests/order --write writes it. It needs no program.
order:
	tests/order

# Runs all scripts of examples/ with their tools, and compares the output, also with the pages of docs/ that show it. Half a minute.
examples:
	examples/run "$(PROGRAM)"

# Runs the tests of the kits for tools. One to three minutes. Tests whose compiler, shell, or broker is missing are left out, each with a
# line.
kits:
	kits/test "$(PROGRAM)"

# Runs the built programs with real children, and compares their logs. A minute.
live:
	tests/live "$(PROGRAM)" "$(PAIR)"

# Compares what toolbus_lens at writes of scripts with an error. Some seconds.
at:
	tests/at "$(LENS)" "$(PROGRAM)"

# Compares what toolbus_lens why writes of logs. Some seconds.
why:
	tests/why "$(LENS)"

# Runs toolbus_lens chart, and uses its pages in Chromium, if that is installed. Half a minute.
lens:
	tests/lens "$(LENS)"

# Measures the time of the built program, on scripts and with live tools, and beside other systems. Draws the latter: bench/peers.svg.
bench:
	bench/run
	bench/live
	bench/pipe
	bench/peers --rows bench/peers.tsv --svg bench/peers.svg

# Simulates 200 random scripts, and compares their logs with those of a small model of the rules. It needs the built crates/scenarios.
# Then the built program verifies random logs of these scripts.
walkers:
	bench/walkers
	bench/walkers --verify "$(PROGRAM)"

# Compares simulations, toolbus_lens why, and charts with a small model of the rules, with tools and notes, on random scripts. Some minutes.
model:
	tests/model/run "$(PROGRAM)" "$(LENS)"

# Rejects each memory request of the built program in turn, for the table of tests/faults.md. Some minutes.
faults:
	tests/faults

# Runs the built program with tools that misbehave and with signals. Two minutes.
hostile:
	tests/hostile

# Runs the built program with sixteen random tools under load, for MINUTES.
MINUTES := 10
soak:
	tests/soak --minutes $(MINUTES)

# Makes a package for Debian of what make install installs, in the directory OUT. It needs dpkg-dev.
.PHONY: deb dist package
OUT := out
deb:
	@package/deb "$(OUT)" PROGRAM="$(PROGRAM)" PAIR="$(PAIR)" LENS="$(LENS)"

# Makes an archive with the same files, and an install.sh.
dist:
	@package/dist "$(OUT)" PROGRAM="$(PROGRAM)" PAIR="$(PAIR)" LENS="$(LENS)"

# Tests both, the package in a clean Debian that debootstrap makes. Some minutes.
package:
	tests/package --program "$(PROGRAM)" --pair "$(PAIR)" --lens "$(LENS)"
