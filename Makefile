# `make try` shows the program with nothing proved; `make first-run` and `make test` are the set-up; `make install` lays the programs, their manual pages and the unit of the system.

PREFIX = /usr/local
DESTDIR =
BINDIR = $(PREFIX)/bin
MANDIR = $(PREFIX)/share/man
LIBDIR = $(PREFIX)/lib
BASH_COMPLETION = $(PREFIX)/share/bash-completion/completions
ZSH_COMPLETION = $(PREFIX)/share/zsh/site-functions
FISH_COMPLETION = $(PREFIX)/share/fish/vendor_completions.d
# The version, of the one file that has it: both programs are built with it, the manual pages get it here, and CHANGELOG.md has to have a heading of it.
VERSION := $(shell sed -n 's/^pub const VERSION: &str = "\(.*\)";$$/\1/p' crates/program_version/src/lib.rt)
# The built programs, which `rt ci` and `make programs` leave here.
SETTINGS ?= crates/settings/out/settings
SETTINGSCTL ?= crates/settingsctl/out/settingsctl

# Builds the program and makes the first run on the least host, in a folder of its own.
first-run:
	rm -f crates/settings/out/settings
	tools/build settings
	rm -rf out/first-run && mkdir -p out/first-run && cp -r examples/motd out/first-run/image
	cd out/first-run && ../../crates/settings/out/settings init --version 1.0.0
	cd out/first-run && ../../crates/settings/out/settings set 'settings.motd="hi"'
	cat out/first-run/etc/motd

# Builds the programs, once all that they depend on is proved, with every processor. Earlier builds go first, so what is there was proved now.
programs:
	rm -f crates/settings/out/settings crates/settingsctl/out/settingsctl
	tools/build settings settingsctl

# Runs the program with nothing proved: a tour over a disk in memory, each step with what it comes to. It is no way to build it.
try:
	cd crates/rows_runs && rt try -- --show data/tour.rows

# Every proof, mutant of the gate, row and program.
test:
	rt ci

# Lays what is built and proves nothing. With PREFIX=/usr the system finds the unit and the two lists next to it by itself.
install:
	@test -x "$(SETTINGS)" -a -x "$(SETTINGSCTL)" || { echo 'the programs are not built: make programs' >&2; exit 1; }
	@grep -qxF '## $(VERSION)' CHANGELOG.md || { echo 'CHANGELOG.md has nothing of version $(VERSION)' >&2; exit 1; }
	install -d "$(DESTDIR)$(BINDIR)" "$(DESTDIR)$(MANDIR)/man1" "$(DESTDIR)$(MANDIR)/man5" "$(DESTDIR)$(MANDIR)/man8"
	install -d "$(DESTDIR)$(LIBDIR)/systemd/system" "$(DESTDIR)$(LIBDIR)/sysusers.d" "$(DESTDIR)$(LIBDIR)/tmpfiles.d"
	install -m 755 "$(SETTINGS)" "$(DESTDIR)$(BINDIR)/settings"
	install -m 755 "$(SETTINGSCTL)" "$(DESTDIR)$(BINDIR)/settingsctl"
	for page in 1/settingsctl.1 5/settings-image.5 8/settings.8; do \
		sed 's|@VERSION@|$(VERSION)|' "man/$${page#*/}" > "$(DESTDIR)$(MANDIR)/man$$page" && chmod 644 "$(DESTDIR)$(MANDIR)/man$$page" || exit 1; \
	done
	sed 's|@BINDIR@|$(BINDIR)|' packaging/settings.service > "$(DESTDIR)$(LIBDIR)/systemd/system/settings.service"
	chmod 644 "$(DESTDIR)$(LIBDIR)/systemd/system/settings.service"
	install -m 644 packaging/settings.sysusers "$(DESTDIR)$(LIBDIR)/sysusers.d/settings.conf"
	install -m 644 packaging/settings.tmpfiles "$(DESTDIR)$(LIBDIR)/tmpfiles.d/settings.conf"
	install -d "$(DESTDIR)$(BASH_COMPLETION)" "$(DESTDIR)$(ZSH_COMPLETION)" "$(DESTDIR)$(FISH_COMPLETION)"
	install -m 644 packaging/completion/settings.bash "$(DESTDIR)$(BASH_COMPLETION)/settings"
	install -m 644 packaging/completion/settings.bash "$(DESTDIR)$(BASH_COMPLETION)/settingsctl"
	install -m 644 packaging/completion/_settings "$(DESTDIR)$(ZSH_COMPLETION)/_settings"
	install -m 644 packaging/completion/settings.fish "$(DESTDIR)$(FISH_COMPLETION)/settings.fish"
	install -m 644 packaging/completion/settings.fish "$(DESTDIR)$(FISH_COMPLETION)/settingsctl.fish"

# Takes away what `install` has laid. The working folder, the user and what the host has set stay.
uninstall:
	rm -f "$(DESTDIR)$(BINDIR)/settings" "$(DESTDIR)$(BINDIR)/settingsctl"
	rm -f "$(DESTDIR)$(MANDIR)/man1/settingsctl.1" "$(DESTDIR)$(MANDIR)/man5/settings-image.5" "$(DESTDIR)$(MANDIR)/man8/settings.8"
	rm -f "$(DESTDIR)$(LIBDIR)/systemd/system/settings.service"
	rm -f "$(DESTDIR)$(LIBDIR)/sysusers.d/settings.conf" "$(DESTDIR)$(LIBDIR)/tmpfiles.d/settings.conf"
	rm -f "$(DESTDIR)$(BASH_COMPLETION)/settings" "$(DESTDIR)$(BASH_COMPLETION)/settingsctl" "$(DESTDIR)$(ZSH_COMPLETION)/_settings"
	rm -f "$(DESTDIR)$(FISH_COMPLETION)/settings.fish" "$(DESTDIR)$(FISH_COMPLETION)/settingsctl.fish"

.PHONY: first-run programs try test install uninstall
