# For BSD make and GNU make.
PREFIX ?=	/usr/local
BINDIR ?=	$(PREFIX)/bin
MANDIR ?=	$(PREFIX)/man
# where the Python tools find their modules, from BINDIR: ../share/dpbn
SHAREDIR ?=	$(PREFIX)/share/dpbn
# what is installed beside the programs; each has a page in man/
TOOLS =		expand-listing why-ignored unpack-log make-builds build-jobs make-listing order-listing build-over-ssh \
		dpbn-report dpbn-host dpbn-hosts draw-trace

all:
	tools/build dpbr dpbn

check:
	tests/run

install: all
	install -d $(DESTDIR)$(BINDIR) $(DESTDIR)$(MANDIR)/man1 $(DESTDIR)$(MANDIR)/man5 $(DESTDIR)$(MANDIR)/man7 $(DESTDIR)$(SHAREDIR)/services
	for program in dpbr dpbn; do install -m 755 crates/$$program/out/$$program $(DESTDIR)$(BINDIR)/$$program || exit 1; done
	for tool in $(TOOLS); do install -m 755 tools/$$tool $(DESTDIR)$(BINDIR)/$$tool || exit 1; done
	for part in dpbn_tools dpbn_tools/driver; do \
		install -d $(DESTDIR)$(SHAREDIR)/$$part || exit 1; \
		for module in tools/$$part/*.py; do install -m 644 $$module $(DESTDIR)$(SHAREDIR)/$$part/ || exit 1; done; \
	done
	install -d $(DESTDIR)$(SHAREDIR)/examples
	install -m 755 examples/build-port $(DESTDIR)$(SHAREDIR)/examples/
	install -m 644 tools/dpbn_tools/page.html $(DESTDIR)$(SHAREDIR)/dpbn_tools/
	for service in services/*; do \
		sed "s|@BINDIR@|$(BINDIR)|" $$service > $(DESTDIR)$(SHAREDIR)/$$service && chmod 644 $(DESTDIR)$(SHAREDIR)/$$service || exit 1; \
	done
	tools/commit > $(DESTDIR)$(SHAREDIR)/VERSION
	for page in man/*.1; do install -m 644 $$page $(DESTDIR)$(MANDIR)/man1/ || exit 1; done
	for page in man/*.5; do install -m 644 $$page $(DESTDIR)$(MANDIR)/man5/ || exit 1; done
	for page in man/*.7; do install -m 644 $$page $(DESTDIR)$(MANDIR)/man7/ || exit 1; done

dist: all
	tools/dist

# a bench that is over what is wanted says so and ends with 1; the next one runs all the same
bench: all
	-bench/status
	-bench/audit
	tools/prove probes log_probe
	-bench/wire
	-bench/member
	-bench/node
	-bench/traces
	-bench/way
	-bench/nodes
	-bench/live
	-bench/bulk
	-bench/latency
	-bench/places
	-bench/link
	-bench/seals

.PHONY: all check install dist bench
