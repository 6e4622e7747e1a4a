# Peachanchor, built of dist/ by a C compiler.
#
#     make             the program build/tlsf, and the library in build/lib
#     make check       tries both, in 3 to 4 minutes: 'N right, 0 wrong'; with BRIEF=1
#                      tries less, in half a minute
#     make install     puts them below PREFIX, which is /usr/local
#     make uninstall   takes them away from there
#     make deb         packages for Debian, in build/
#     make release     a tar of this commit, in build/
#     make clean       removes build/
#
# With rt, Rattle's toolchain:
#
#     make prove       proves all, and tests it: ./test
#     make try         build/try/tlsf of the sources as they stand, not proved
#
# The compilers are CC and CXX, and AR makes the archives, with CPPFLAGS, CFLAGS
# and LDFLAGS. For another processor give those for it, and RUN, which runs a
# program that they build:
#
#     make check CC=aarch64-linux-gnu-gcc CXX=aarch64-linux-gnu-g++ \
#         AR=aarch64-linux-gnu-ar RUN='qemu-aarch64 -L /usr/aarch64-linux-gnu'
#
# The program is for x86-64 Linux; for others the library alone is built.
#
# STATES is the largest region, in words, of the test of all states. SHARED= leaves
# the shared library out, as for Windows and macOS, and with
# CPPFLAGS=-DTLSF_NO_TLS for bare metal.
#
# The folders of an install are libdir, includedir, bindir, datadir, docdir and
# mandir. DESTDIR is set before each. What is installed can be moved: the files
# for pkg-config and CMake know the way from one folder to the other.

CC ?= cc
CXX ?= c++
AR ?= ar
INSTALL ?= install
RUN ?=
STATES ?=
BRIEF ?=

BUILD = build
PREFIX ?= /usr/local
libdir = $(PREFIX)/lib
includedir = $(PREFIX)/include
bindir = $(PREFIX)/bin
datadir = $(PREFIX)/share
docdir = $(datadir)/doc/peachanchor
mandir = $(datadir)/man

SONAME = libpeachanchor.so.3
SHARED = $(BUILD)/lib/$(SONAME)
ARCHIVES = $(BUILD)/lib/libpeachanchor.a $(BUILD)/lib/libpeachanchor_nomalloc.a
DOCS = README.md CHANGELOG.md LICENSE-MIT LICENSE-APACHE dist/NOTICES dist/MANIFEST

all: $(ARCHIVES) $(SHARED) $(BUILD)/lib/names $(BUILD)/program

# One goal after the other, as `make -j clean all` wants. What is built takes a second by one processor.
.NOTPARALLEL:

# What a command left that failed isn't taken, and neither is what another compiler or other flags made.
.DELETE_ON_ERROR:
$(BUILD)/flags: ALWAYS
	@set -- $(CC); command -v "$$1" > /dev/null || { echo "$$1, which builds all, isn't on the path: install a C compiler, or set CC" >&2; exit 1; }
	@mkdir -p $(BUILD)/lib; told='$(CC) $(CPPFLAGS) $(CFLAGS) $(LDFLAGS)'; \
	echo "$$told" | cmp -s - $@ || { echo "$$told" > $@.$$$$ && mv $@.$$$$ $@; }
ALWAYS:

$(BUILD)/calls.o: dist/tlsf.S dist/library-*.s $(BUILD)/flags
	$(CC) $(CPPFLAGS) $(CFLAGS) -DTLSF_ONLY_CALLS -c dist/tlsf.S -o $@

$(BUILD)/memory.o: dist/tlsf.S dist/library-*.s $(BUILD)/flags
	$(CC) $(CPPFLAGS) $(CFLAGS) -DTLSF_ONLY_MEMORY -c dist/tlsf.S -o $@

$(BUILD)/memory_nomalloc.o: dist/tlsf.S dist/library-*.s $(BUILD)/flags
	$(CC) $(CPPFLAGS) $(CFLAGS) -DTLSF_ONLY_MEMORY -DTLSF_NO_MALLOC -c dist/tlsf.S -o $@

$(BUILD)/lib/libpeachanchor.a: $(BUILD)/calls.o $(BUILD)/memory.o
	rm -f $@ && $(AR) rcs $@ $(BUILD)/calls.o $(BUILD)/memory.o

$(BUILD)/lib/libpeachanchor_nomalloc.a: $(BUILD)/calls.o $(BUILD)/memory_nomalloc.o
	rm -f $@ && $(AR) rcs $@ $(BUILD)/calls.o $(BUILD)/memory_nomalloc.o

# -static, which no shared library is linked by, is for the program.
$(BUILD)/lib/$(SONAME): $(BUILD)/calls.o $(BUILD)/memory.o c/exports.map
	@case $$($(CC) $(CFLAGS) -dumpmachine) in *mingw* | *windows* | *darwin* | *apple*) \
		echo "the shared library is for ELF alone: give make SHARED= besides" >&2; exit 1 ;; esac
	$(CC) $(CFLAGS:-static=) $(LDFLAGS:-static=) -shared -Wl,-soname,$(SONAME),--version-script,c/exports.map,-Bsymbolic,-z,relro,-z,now,--build-id \
		-o $@ $(BUILD)/calls.o $(BUILD)/memory.o
	ln -f $@ $(BUILD)/lib/libpeachanchor.so

# What pkg-config and CMake read of this folder.
$(BUILD)/lib/names: tools/package/names tools/package/*.pc tools/package/*.cmake include/peachanchor.h
	tools/package/names $(BUILD)/lib ../../include $(SONAME) && touch $@

# Other C libraries than glibc aren't known to give it its words, so there the library alone is built. ./tlsf may build it meanwhile for
# this machine: what tells that it is built for CC is that this file has something in it.
$(BUILD)/program: dist/program-x86_64.s c/os.c $(BUILD)/flags
	@printf '#include <stdlib.h>\n#if defined(__x86_64__) && defined(__LP64__) && defined(__GLIBC__)\nserved\n#endif\n' | \
		$(CC) $(CPPFLAGS) $(CFLAGS) -E - 2> $(BUILD)/log | grep -x served > $@ || { \
		echo "the program tlsf isn't built, which is for x86-64 Linux with glibc" >&2; exit 0; }; \
	$(CC) $(CPPFLAGS) $(CFLAGS) $(LDFLAGS) -O1 dist/program-x86_64.s c/os.c -pthread -o $(BUILD)/tlsf

# What is tried is an install of it.
check: all
	@command -v sha256sum > /dev/null || { echo "sha256sum isn't there, so sums aren't compared" >&2; exit 0; }; \
	sed -n '/^[0-9a-f]\{64\}  /p' dist/MANIFEST | (cd dist && sha256sum -c) > $(BUILD)/sums || { grep -v ': OK$$' $(BUILD)/sums; exit 1; }
	@to=$$(mktemp -d) || exit 1; trap 'rm -rf "$$to"' EXIT; trap 'exit 130' INT; trap 'exit 143' HUP TERM; \
	$(MAKE) -s install DESTDIR= PREFIX="$$to" || exit 1; \
	why=; if [ ! -s $(BUILD)/program ]; then why="the program is for x86-64 Linux with glibc"; \
	elif ! python3 -c 'import tomllib' 2> /dev/null; then why="to try the program takes python3 from 3.11 on"; fi; \
	[ -z "$$why" ] || echo "$$why, so the library alone is tried" >&2; \
	CC='$(CC)' CXX='$(CXX)' RUN='$(RUN)' STATES='$(STATES)' BRIEF='$(BRIEF)' tests/library_test --check "$$to"; status=$$?; \
	[ -n "$$why" ] || RUN='$(RUN)' tests/program_test --cases $(BUILD)/tlsf || status=1; exit $$status

# Man pages are made of the stored helps.
install: all
	@case "$$DESTDIR$$PREFIX" in *[\"\']*) echo "DESTDIR and PREFIX have to be without quotes" >&2; exit 1 ;; esac
	@case '$(PREFIX)' in /*) ;; *) echo "PREFIX is '$(PREFIX)', and has to begin with /" >&2; exit 1 ;; esac
	@$(INSTALL) -d '$(DESTDIR)$(includedir)' '$(DESTDIR)$(libdir)' '$(DESTDIR)$(datadir)/gdb' '$(DESTDIR)$(docdir)' || \
		{ echo "$(DESTDIR)$(PREFIX) can't be written: 'make install PREFIX=/FOLDER' takes a folder of yours, and sudo any" >&2; exit 1; }
	$(INSTALL) -m 644 include/*.h include/*.hpp '$(DESTDIR)$(includedir)'
	for it in compat/mattconte compat/tlsf24; do $(INSTALL) -d '$(DESTDIR)$(includedir)'/$$it && \
		$(INSTALL) -m 644 include/$$it/tlsf.h '$(DESTDIR)$(includedir)'/$$it || exit 1; done
	$(INSTALL) -m 644 $(ARCHIVES) '$(DESTDIR)$(libdir)'
	for kind in "" _nomalloc; do ln -sf libpeachanchor$$kind.a '$(DESTDIR)$(libdir)'/libtlsf$$kind.a || exit 1; done
	[ -z '$(SHARED)' ] || { $(INSTALL) -m 755 $(SHARED) '$(DESTDIR)$(libdir)' && \
		ln -sf $(SONAME) '$(DESTDIR)$(libdir)/libpeachanchor.so'; }
	@from='/$(libdir)/' to='/$(includedir)' up=; \
	while case $$to/ in "$$from"*) false ;; esac; do from=$${from%/*/}/ up=../$$up; done; \
	tools/package/names '$(DESTDIR)$(libdir)' "$$up$${to#"$$from"}" $(SONAME) || exit 1; \
	[ -n '$(SHARED)' ] || rm '$(DESTDIR)$(libdir)/pkgconfig/peachanchor-shared.pc'
	$(INSTALL) -m 644 tools/package/tlsf-gdb.py '$(DESTDIR)$(datadir)/gdb'
	$(INSTALL) -m 644 $(DOCS) '$(DESTDIR)$(docdir)'
	@[ ! -s $(BUILD)/program ] || { $(INSTALL) -d '$(DESTDIR)$(bindir)' '$(DESTDIR)$(mandir)/man1' && \
		$(INSTALL) -m 755 $(BUILD)/tlsf '$(DESTDIR)$(bindir)/tlsf' && { tools/package/man.py '$(DESTDIR)$(mandir)/man1' || \
		echo "no man pages are put there: these need python3 from 3.11 on" >&2; }; }

# The files that an install puts there, and folders of its own that then are empty.
uninstall:
	@rm -rf $(BUILD)/root; $(MAKE) -s install DESTDIR='$(BUILD)/root' > $(BUILD)/log
	@(cd $(BUILD)/root && find . ! -type d && find . -depth -type d '(' -name peachanchor -o -name tlsf -o -path '.$(includedir)/compat*' ')') > $(BUILD)/there; \
	status=0; while read -r it; do \
		it='$(DESTDIR)'$${it#.}; if [ -d "$$it" ]; then rmdir "$$it" || :; \
		elif [ -e "$$it" ] || [ -h "$$it" ]; then rm -f "$$it" && echo "rm $$it" || status=1; fi; \
	done < $(BUILD)/there; rm -r $(BUILD)/root $(BUILD)/there; exit $$status

deb: all
	tools/deb $(BUILD)

# The repository is the release. Its bytes don't follow a user's umask.
release: ALWAYS
	@[ "$$(git rev-parse --show-cdup 2> /dev/null)" = "" ] && git rev-parse -q --verify HEAD > /dev/null || \
		{ echo "a release is made of a commit, and this is no clone of the repository" >&2; exit 1; }
	@git diff --quiet HEAD || echo "changes that aren't committed are left out" >&2
	@mkdir -p $(BUILD); name=peachanchor-$$(tools/package/names --version) && \
	git -c tar.umask=0022 archive --prefix=$$name/ -o $(BUILD)/$$name.tar.gz HEAD && sha256sum $(BUILD)/$$name.tar.gz

test: check

prove:
	./test

try:
	@mkdir -p $(BUILD)/try
	tools/unproved program $(BUILD)/try/tlsf

clean:
	rm -rf $(BUILD)

help:
	@sed -n '1,/^$$/s/^# \{0,1\}//p' Makefile

.PHONY: all check test install uninstall deb release prove try clean help ALWAYS
