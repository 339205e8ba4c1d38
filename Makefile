# make            proves and builds the program, by the launcher
# make check      runs the gate: every proof, every test
# make install    installs the program, its man page and completions: PREFIX=/usr/local, and DESTDIR= for packagers
# make uninstall  takes them away again
PREFIX ?= /usr/local
INSTALL ?= install

program = crates/cvrp/out/cvrp
bin = $(DESTDIR)$(PREFIX)/bin
man = $(DESTDIR)$(PREFIX)/share/man/man1
bash = $(DESTDIR)$(PREFIX)/share/bash-completion/completions
zsh = $(DESTDIR)$(PREFIX)/share/zsh/site-functions

.PHONY: all check install uninstall

all:
	./cvrp --version

check:
	bash .ci/run

install: all
	$(INSTALL) -d "$(bin)" "$(man)" "$(bash)" "$(zsh)"
	$(INSTALL) -m 755 $(program) "$(bin)/cvrp"
	$(INSTALL) -m 644 man/cvrp.1 "$(man)/cvrp.1"
	$(INSTALL) -m 644 completions/cvrp.bash "$(bash)/cvrp"
	$(INSTALL) -m 644 completions/_cvrp "$(zsh)/_cvrp"

uninstall:
	rm -f "$(bin)/cvrp" "$(man)/cvrp.1" "$(bash)/cvrp" "$(zsh)/_cvrp"
