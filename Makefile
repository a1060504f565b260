# Builds, tries, installs and packs Zahupnik: `make help` lists what can be made.
#
# Needs GNU make, bash, a C compiler and rt, the command of the Rattle kit, which proves the library and the programs channel and store and
# builds them. The shared library is linked from the proved archive, and the program why is compiled, by the C compiler. Only what has
# changed is built, and all of it stands in target/. What rt keeps of its proofs stands in crates/NAME/out/.
#
# Folders, as packagers set them: PREFIX, BINDIR, LIBDIR, INCLUDEDIR, MANDIR, or the same in small letters; DESTDIR goes before each, and no
# installed file names it. The first five are absolute, of letters, digits and the marks _ . / + , @ = ~ - alone, since pkg-config and CMake
# read them; DESTDIR may have any mark but the dollar sign, which make reads. CC, CFLAGS, CPPFLAGS, LDFLAGS and INSTALL are as everywhere.

prefix ?= /usr/local
PREFIX ?= $(prefix)
bindir ?= $(PREFIX)/bin
BINDIR ?= $(bindir)
libdir ?= $(PREFIX)/lib
LIBDIR ?= $(libdir)
includedir ?= $(PREFIX)/include
INCLUDEDIR ?= $(includedir)
mandir ?= $(PREFIX)/share/man
MANDIR ?= $(mandir)
INSTALL ?= install
DIST ?= target/dist
CFLAGS ?= -O2

# The version is the header's, and the soname its first number.
number = $(shell sed -n 's/^.define ZAHUPNIK_VERSION_$(1) *\([0-9][0-9]*\).*/\1/p' include/zahupnik.h)
override MAJOR := $(call number,MAJOR)
override VERSION := $(MAJOR).$(call number,MINOR).$(call number,PATCH)
SONAME = libzahupnik.so.$(MAJOR)

ARCHIVE = target/staticlib/libzahupnik.a
SHARED = target/lib/libzahupnik.so.$(VERSION)
LINKS = target/lib/$(SONAME) target/lib/libzahupnik.so
PROGRAMS = target/bin/channel target/bin/store target/bin/why
HEADERS = $(wildcard include/*.h)
PAGES = $(wildcard man/*.1 man/*.3)
# A page by the name of every function, which leads to zahupnik.3.
FUNCTIONS := $(shell sed -nE 's/^(uint32_t|struct zahupnik_change|static inline const char) \*?(zahupnik_[a-z_]+).*/\2/p' $(HEADERS))

# The tests that prove nothing anew, each tests/NAME/run.
CHECKS = documents pictures header library texts store desk why man python rust scripts install

all: $(ARCHIVE) $(SHARED) $(LINKS) $(PROGRAMS)

help:
	@printf '%s\n' \
	    'make            the static and the shared library and the programs, where something has changed; needs rt, and takes' \
	    '                minutes the first time, since everything is proved' \
	    'make check      the tests that prove nothing anew: $(CHECKS)' \
	    'make install    libraries, headers, zahupnik.pc, files for CMake, programs and man pages, to PREFIX (/usr/local), or to' \
	    '                BINDIR, LIBDIR, INCLUDEDIR, MANDIR, each after DESTDIR' \
	    'make uninstall  takes away what make install put there, if told the same folders' \
	    'make dist       target/dist/zahupnik-VERSION-x86_64-linux.tar.gz, an archive for machines without the kit' \
	    'make clean      takes away the shared library, why and the archives; what is proved stays (rm -r crates/*/out target takes that too)'

# Each decides by itself, by the contents of its sources, whether something is to be proved and built anew. A recipe that leaves its file alone
# causes no more work.
$(ARCHIVE): FORCE
	@bash -euo pipefail -c 'name=make built=target/library; . tests/library/common.sh; build_library'
$(PROGRAMS): FORCE
	@bin/$(@F) --build

# -z text refuses code that is not position independent, -z defs a function that neither the archive nor libc has; -z now binds memcpy and
# memset before the first call, so that no call takes the stack of a binding.
$(SHARED): $(ARCHIVE) packaging/zahupnik.map include/zahupnik.h Makefile
	@mkdir -p $(@D)
	$(CC) -shared $(LDFLAGS) -Wl,-soname,$(SONAME) -Wl,--version-script=packaging/zahupnik.map -Wl,-z,text -Wl,-z,defs -Wl,-z,relro \
	    -Wl,-z,now -Wl,--whole-archive $(ARCHIVE) -Wl,--no-whole-archive -o $@

target/lib/$(SONAME): $(SHARED) FORCE
	@[ "$$(readlink $@)" = $(notdir $(SHARED)) ] || ln -sfn $(notdir $(SHARED)) $@
target/lib/libzahupnik.so: target/lib/$(SONAME) FORCE
	@[ "$$(readlink $@)" = $(SONAME) ] || ln -sfn $(SONAME) $@

# All of them run, whatever one of them says, and those that failed are named last.
check: all
	@failed=; \
	for test in $(CHECKS); do \
	    printf 'check: tests/%s/run\n' "$$test"; \
	    "tests/$$test/run" || failed="$$failed tests/$$test/run"; \
	done; \
	[ -z "$$failed" ] || { printf 'check: FAILED:%s\n' "$$failed" >&2; exit 1; }; \
	printf 'check: passed: %s\n' '$(CHECKS)'

quoted = '$(subst ','\'',$(1))'
to = $(call quoted,$(DESTDIR)$(1))
folder_words = $(foreach name,PREFIX BINDIR LIBDIR INCLUDEDIR MANDIR,$(call quoted,$(name)=$($(name))))
folders:
	@for folder in $(folder_words); do \
	    case $${folder#*=} in \
	    /*) ;; \
	    *) printf 'make: %s: give an absolute path\n' "$$folder" >&2; exit 2 ;; \
	    esac; \
	    case $${folder#*=} in \
	    *[!A-Za-z0-9_./+,@=~-]*) \
	        printf 'make: %s: a space or another mark that pkg-config and CMake do not read alike everywhere; choose a path of %s\n' \
	            "$$folder" 'letters, digits and _ . / + , @ = ~ -' >&2; \
	        exit 2 ;; \
	    esac; \
	done

# Under sudo rt may be missing: then what was built before is installed, and it is only looked that all of it is there.
built:
	@for file in $(ARCHIVE) $(SHARED) $(PROGRAMS); do \
	    [ -f "$$file" ] || { \
	        printf 'make: %s is not built, and rt, the command of the Rattle kit, is not on the PATH to prove and build it\n' "$$file" >&2; \
	        exit 1; \
	    }; \
	done
	@printf 'make: note: rt is not on the PATH, so what was built before is installed as it is\n'

# What zahupnik.pc calls the prefix: make dist has an archive that may lie anywhere.
PC_PREFIX = $(PREFIX)
below_prefix = $(patsubst $(PREFIX)/%,$${prefix}/%,$(1))
filled = sed -e 's|@PREFIX@|$(PC_PREFIX)|' -e 's|@LIBDIR@|$(call below_prefix,$(LIBDIR))|' \
    -e 's|@INCLUDEDIR@|$(call below_prefix,$(INCLUDEDIR))|' -e 's|@VERSION@|$(VERSION)|' -e 's|@MAJOR@|$(MAJOR)|' \
    -e "s|@INCLUDE_FROM_LIB@|$$(realpath -ms --relative-to='$(LIBDIR)' '$(INCLUDEDIR)')|"
PC = $(LIBDIR)/pkgconfig
CMAKE = $(LIBDIR)/cmake/zahupnik

install: folders $(if $(shell command -v rt),all,built)
	$(INSTALL) -d $(call to,$(BINDIR)) $(call to,$(PC)) $(call to,$(CMAKE)) $(call to,$(INCLUDEDIR)) \
	    $(call to,$(MANDIR)/man1) $(call to,$(MANDIR)/man3)
	$(INSTALL) -m 755 $(PROGRAMS) $(call to,$(BINDIR))
	$(INSTALL) -m 644 $(ARCHIVE) $(call to,$(LIBDIR))
	$(INSTALL) -m 755 $(SHARED) $(call to,$(LIBDIR))
	ln -sfn $(notdir $(SHARED)) $(call to,$(LIBDIR)/$(SONAME))
	ln -sfn $(SONAME) $(call to,$(LIBDIR)/libzahupnik.so)
	$(INSTALL) -m 644 $(HEADERS) $(call to,$(INCLUDEDIR))
	@$(filled) packaging/zahupnik.pc.in | $(INSTALL) -m 644 /dev/stdin $(call to,$(PC)/zahupnik.pc)
	@$(filled) packaging/zahupnikConfig.cmake.in | $(INSTALL) -m 644 /dev/stdin $(call to,$(CMAKE)/zahupnikConfig.cmake)
	@$(filled) packaging/zahupnikConfigVersion.cmake.in | \
	    $(INSTALL) -m 644 /dev/stdin $(call to,$(CMAKE)/zahupnikConfigVersion.cmake)
	$(if $(filter %.1,$(PAGES)),$(INSTALL) -m 644 $(filter %.1,$(PAGES)) $(call to,$(MANDIR)/man1))
	$(if $(filter %.3,$(PAGES)),$(INSTALL) -m 644 $(filter %.3,$(PAGES)) $(call to,$(MANDIR)/man3))
	@for function in $(FUNCTIONS); do ln -sfn zahupnik.3 $(call to,$(MANDIR)/man3)/$$function.3; done

# The folders that others use too stay, but for those that are left empty after DESTDIR, where nobody else puts anything.
INSTALLED = $(addprefix $(BINDIR)/,$(notdir $(PROGRAMS))) \
    $(addprefix $(LIBDIR)/,$(notdir $(ARCHIVE) $(SHARED)) $(SONAME) libzahupnik.so) \
    $(addprefix $(INCLUDEDIR)/,$(notdir $(HEADERS))) $(PC)/zahupnik.pc \
    $(CMAKE)/zahupnikConfig.cmake $(CMAKE)/zahupnikConfigVersion.cmake \
    $(addprefix $(MANDIR)/man1/,$(notdir $(filter %.1,$(PAGES)))) $(addprefix $(MANDIR)/man3/,$(notdir $(filter %.3,$(PAGES)))) \
    $(patsubst %,$(MANDIR)/man3/%.3,$(FUNCTIONS))
uninstall: folders
	rm -f $(foreach file,$(INSTALLED),$(call to,$(file)))
	@[ ! -d $(call to,$(CMAKE)) ] || rmdir --ignore-fail-on-non-empty $(call to,$(CMAKE))
	@[ -z $(call to,) ] || [ ! -d $(call to,) ] || { \
	    cd $(call to,) && \
	    for folder in $(LIBDIR)/cmake $(PC) $(LIBDIR) $(BINDIR) $(INCLUDEDIR) $(MANDIR)/man1 $(MANDIR)/man3; do \
	        [ ! -d ".$$folder" ] || rmdir -p --ignore-fail-on-non-empty "$${folder#/}"; \
	    done; \
	}

dist: all
	@packaging/dist $(VERSION) $(call quoted,$(DIST))

clean:
	rm -rf target/lib target/dist target/bin/why

FORCE:
.PHONY: all help check folders built install uninstall dist clean FORCE
# One thing at a time is built and put into target/.
.NOTPARALLEL:
