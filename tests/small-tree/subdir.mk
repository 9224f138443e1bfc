# What a category, and a folder of ports, ends with.
REPORT_PROBLEM ?= exit 1
PREFIX ?= ${.CURDIR:T}/

dump-vars:
	@for place in *; do [ -f $$place/Makefile ] || continue; \
		echo "===> ${PREFIX}$$place"; \
		(cd $$place; MAKEFLAGS= ${MAKE} dump-vars) || { echo "===> Exiting ${PREFIX}$$place with an error"; ${REPORT_PROBLEM}; }; \
	done
