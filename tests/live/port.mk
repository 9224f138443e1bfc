# What each Makefile of a tree that make-tree makes ends with. `dump-vars` prints the lines of a listing. `package` makes all packages
# of the port at once in $OUT, of those that lie in $DEPS. Each has two files: `content`, which follows from the port and from the
# contents of what it needs alone, so that it is the same whoever builds it and when; and `built-on`, the signatures of what lay in $DEPS.
.MAIN: package
MULTI_PACKAGES ?= -
SECONDS ?= 0
BROKEN ?=
IGNORE ?=
FULLPKGNAME- ?= ${DISTNAME}
LIB_DEPENDS- ?= ${LIB_DEPENDS}
RUN_DEPENDS- ?= ${RUN_DEPENDS}

dump-vars:
	@echo "===> ${PKGPATH}"
.for s in ${MULTI_PACKAGES}
	@echo "${PKGPATH}${s:S/^-$//:S/^-/,-/}.FULLPKGNAME=${FULLPKGNAME${s}}"
.  for word in BUILD_DEPENDS LIB_DEPENDS${s} RUN_DEPENDS${s}
.    if !empty(${word})
	@echo "${PKGPATH}${s:S/^-$//:S/^-/,-/}.${word:C/-.*//}=${${word}}"
.    endif
.  endfor
.  if !empty(IGNORE)
	@echo "${PKGPATH}${s:S/^-$//:S/^-/,-/}.IGNORE=${IGNORE}"
.  endif
.endfor

package:
.if empty(IGNORE)
	@echo "===> Building for ${DISTNAME}"
	@sleep ${SECONDS}
.  if !empty(BROKEN)
	@echo "*** ${DISTNAME} is broken: ${BROKEN}" >&2; exit 1
.  endif
.  for path in ${NEEDS:S,/,:,g}
	@test -f "$$DEPS/${path}/content" || { echo "*** ${path} is not installed" >&2; exit 1; }
.  endfor
	@sort "$${SIGNATURES:-/dev/null}" > saw
.  for s in ${MULTI_PACKAGES}
	@mkdir "$$OUT/${PKGPATH:S,/,:,g}${s:S/^-$//:S/^-/,-/}"
	@cp saw "$$OUT/${PKGPATH:S,/,:,g}${s:S/^-$//:S/^-/,-/}/built-on"
	@{ echo "${FULLPKGNAME${s}}"; for path in ${NEEDS:S,/,:,g}; do echo "$$path"; cat "$$DEPS/$$path/content"; done; } \
	    | cksum > "$$OUT/${PKGPATH:S,/,:,g}${s:S/^-$//:S/^-/,-/}/content"
.  endfor
	@echo "===> Built ${DISTNAME}"
.endif
