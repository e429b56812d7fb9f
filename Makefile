# Proves, tests and formats the crates, installs the built program, its man page and its completions, and takes them away again.

PREFIX = /usr/local
DESTDIR =
BINDIR = $(PREFIX)/bin
DATADIR = $(PREFIX)/share
MANDIR = $(DATADIR)/man

program = crates/seatdesk/out/seatdesk
installed = $(BINDIR)/seatdesk
page = $(MANDIR)/man1/seatdesk.1
bash = $(DATADIR)/bash-completion/completions/seatdesk
zsh = $(DATADIR)/zsh/site-functions/_seatdesk
fish = $(DATADIR)/fish/vendor_completions.d/seatdesk.fish

.PHONY: help check test cluster-test fmt install uninstall

help:
	@echo 'make check       proves what changed since it was last proved'
	@echo 'make test        the test command, .ci/run: every proof from nothing, and every test'
	@echo 'make cluster-test  eight desks over four shards on a log of three nodes, and twenty kills: docs/CLUSTER.md'
	@echo 'make fmt         formats the sources of each crate that crates.txt names'
	@echo 'make install     the built program, its man page and its completions, below PREFIX ($(PREFIX))'
	@echo 'make uninstall   takes them away again, with the folders below PREFIX that are then empty'
	@echo 'The last two take PREFIX=FOLDER, and DESTDIR=FOLDER ahead of it. ./seatdesk --version proves and builds the program.'

check:
	rt all check

test:
	.ci/run

# (Debian's packages; who may not install them finds them there)
cluster-test:
	@dpkg -s rabbitmq-server python3-pika >/dev/null 2>&1 || RUNLEVEL=1 apt-get install -y --no-install-recommends rabbitmq-server python3-pika
	tests/cluster

fmt:
	@for it in $$(sed -n 's/^\([a-z_]*\)[^:#]*:.*/\1/p' crates.txt); do \
	    (cd "crates/$$it" && rt fmt) || exit; \
	done

install:
	@test -x $(program) || { echo 'The program is not built: ./seatdesk --version proves and builds it.' >&2; exit 1; }
	@bash -c '. tests/tools/sources.sh && is_stamped $(program)' 2>/dev/null || \
	    echo '$(program) may be older than its sources: ./seatdesk --version builds it anew where it is.' >&2
	for it in '$(installed)' '$(page)' '$(bash)' '$(zsh)' '$(fish)'; do \
	    mkdir -p "$(DESTDIR)$${it%/*}" || exit; \
	done
	install -m 755 $(program) '$(DESTDIR)$(installed)'
	install -m 644 docs/seatdesk.1 '$(DESTDIR)$(page)'
	install -m 644 completions/seatdesk.bash '$(DESTDIR)$(bash)'
	install -m 644 completions/_seatdesk '$(DESTDIR)$(zsh)'
	install -m 644 completions/seatdesk.fish '$(DESTDIR)$(fish)'

# (rmdir leaves a folder that holds anything)
uninstall:
	rm -f '$(DESTDIR)$(installed)' '$(DESTDIR)$(page)' '$(DESTDIR)$(bash)' '$(DESTDIR)$(zsh)' '$(DESTDIR)$(fish)'
	@for it in '$(installed)' '$(page)' '$(bash)' '$(zsh)' '$(fish)'; do \
	    it=$${it%/*}; \
	    while case $$it in '$(PREFIX)'/*) rmdir "$(DESTDIR)$$it" 2>/dev/null ;; *) false ;; esac; do it=$${it%/*}; done; \
	done
