# What each port ends with. FLAVOR is the default one of the port, or comes from the environment. Flavors are in FULLPKGPATH, and
# pseudo-flavors aren't: one that begins with no_ leaves out a subpackage.
FLAVORS ?=
PSEUDO_FLAVORS ?=
FLAVOR ?=
MULTI_PACKAGES ?= -
FULLPKGPATH = ${PKGPATH}
EXT =
.for flavor in ${FLAVOR:O}
.  if !empty(FLAVORS:M${flavor})
FULLPKGPATH := ${FULLPKGPATH},${flavor}
EXT := ${EXT}-${flavor}
.  elif !empty(PSEUDO_FLAVORS:M${flavor})
MULTI_PACKAGES := ${MULTI_PACKAGES:N-${flavor:S/^no_//}}
.  else
.    error "Fatal: Unknown flavor(s) ${flavor} (in ${PKGPATH})"
.  endif
.endfor

dump-vars:
	@echo '${FULLPKGPATH}.HOMEPAGE=https://${PKGPATH:T}.example/?a=b'
.for name in BUILD_DEPENDS IGNORE
.  if !empty(${name})
	@echo '${FULLPKGPATH}.${name}=${${name}}'
.  endif
.endfor
.for part in ${MULTI_PACKAGES}
	@echo '${FULLPKGPATH}${part:S/^-$//:S/^-/,-/}.FULLPKGNAME=${STEM}${part:S/^-$//:S/^-main$//}-${VERSION}${EXT:S/-python3//}'
.  for name in LIB_DEPENDS RUN_DEPENDS
.    if !empty(${name}${part:S/^-$//})
	@echo '${FULLPKGPATH}${part:S/^-$//:S/^-/,-/}.${name}=${${name}${part:S/^-$//}}'
.    endif
.  endfor
.endfor
