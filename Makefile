# Installs the library for C, C++ and Rust, and the programs that are built.
#
#     make                                  makes out/libyettuvam.a, the one archive that programs link
#     make install PREFIX=DIR [DESTDIR=..]  installs the header, the archive, the files for pkg-config and CMake, licences
#     make uninstall PREFIX=DIR             removes what `make install` with the same words installs
#     make dist                             makes a tarball of the same: `sh dist.sh`
#
# Nothing is proved here. The library is crates/yettuvam_c/out/libyettuvam_c.a, which `rt lib` in crates/yettuvam_c proves and
# builds, or LIBRARY. HEAP is the toolchain's liblibc_c.a, which `rt doc` leads to. The programs are installed if they are
# built: YETTUVAM and OIL name them. Needs GNU make, binutils and coreutils.
PREFIX = /usr/local
DESTDIR =
BINDIR = $(PREFIX)/bin
LIBDIR = $(PREFIX)/lib
INCLUDEDIR = $(PREFIX)/include
SHAREDIR = $(PREFIX)/share
DOCDIR = $(SHAREDIR)/doc/yettuvam
MANDIR = $(SHAREDIR)/man

OUT = out
LIBRARY = crates/yettuvam_c/out/libyettuvam_c.a
KIT := $(dir $(shell rt doc 2> /dev/null | head -n 1))
HEAP = $(KIT)c/liblibc_c.a
YETTUVAM = crates/yettuvam/out/yettuvam
OIL = crates/naga_oil_mini/out/naga_oil_mini

VERSION := $(shell sed -n 's/^pub const VERSION: &str = "yettuvam \([0-9.]*\).*/\1/p' crates/yettuvam_build/src/help.rt)
CMAKEDIR = $(LIBDIR)/cmake/Yettuvam
PKGCONFIGDIR = $(LIBDIR)/pkgconfig
LICENCES = LICENSE-MIT LICENSE-APACHE NOTICE
UNICODE = $(KIT)rattle/ucd_props/LICENSE-UNICODE

# Fills in the version, and the ways from a file's folder to the installed folders, so that all may be moved together.
way = $(shell realpath -ms --relative-to='$(1)' '$(2)')
fill = sed -e 's|@VERSION@|$(VERSION)|g' -e 's|@PREFIX@|$(call way,$(1),$(PREFIX))|g' -e 's|@LIBDIR@|$(call way,$(1),$(LIBDIR))|g' \
	-e 's|@INCLUDEDIR@|$(call way,$(1),$(INCLUDEDIR))|g'

.PHONY: archive install uninstall dist

archive:
	LIBRARY='$(LIBRARY)' HEAP='$(HEAP)' sh package/archive.sh '$(OUT)/libyettuvam.a'

install: archive
	install -d '$(DESTDIR)$(INCLUDEDIR)' '$(DESTDIR)$(PKGCONFIGDIR)' '$(DESTDIR)$(CMAKEDIR)' '$(DESTDIR)$(DOCDIR)'
	install -m 644 crates/yettuvam_c/include/yettuvam.h '$(DESTDIR)$(INCLUDEDIR)'
	install -m 644 '$(OUT)/libyettuvam.a' '$(DESTDIR)$(LIBDIR)'
	$(call fill,$(PKGCONFIGDIR)) package/yettuvam.pc > '$(DESTDIR)$(PKGCONFIGDIR)/yettuvam.pc'
	$(call fill,$(CMAKEDIR)) package/YettuvamConfig.cmake > '$(DESTDIR)$(CMAKEDIR)/YettuvamConfig.cmake'
	$(call fill,$(CMAKEDIR)) package/YettuvamConfigVersion.cmake > '$(DESTDIR)$(CMAKEDIR)/YettuvamConfigVersion.cmake'
	install -m 644 $(LICENCES) docs/LIBRARY.md docs/LANGUAGE.md '$(DESTDIR)$(DOCDIR)'
	if [ -f '$(UNICODE)' ]; then install -m 644 '$(UNICODE)' '$(DESTDIR)$(DOCDIR)'; fi
	if [ -x '$(YETTUVAM)' ]; then install -D '$(YETTUVAM)' '$(DESTDIR)$(BINDIR)/yettuvam'; fi
	install -D -m 644 share/yettuvam.1 '$(DESTDIR)$(MANDIR)/man1/yettuvam.1'
	install -D -m 644 share/yettuvam.bash '$(DESTDIR)$(SHAREDIR)/bash-completion/completions/yettuvam'
	install -D -m 644 share/_yettuvam '$(DESTDIR)$(SHAREDIR)/zsh/site-functions/_yettuvam'
	install -D -m 644 share/yettuvam.fish '$(DESTDIR)$(SHAREDIR)/fish/vendor_completions.d/yettuvam.fish'
	if [ -x '$(OIL)' ]; then install -D '$(OIL)' '$(DESTDIR)$(BINDIR)/oil'; fi

uninstall:
	rm -f '$(DESTDIR)$(INCLUDEDIR)/yettuvam.h' '$(DESTDIR)$(LIBDIR)/libyettuvam.a' '$(DESTDIR)$(PKGCONFIGDIR)/yettuvam.pc' \
		'$(DESTDIR)$(BINDIR)/yettuvam' '$(DESTDIR)$(BINDIR)/oil' '$(DESTDIR)$(MANDIR)/man1/yettuvam.1' \
		'$(DESTDIR)$(SHAREDIR)/bash-completion/completions/yettuvam' '$(DESTDIR)$(SHAREDIR)/zsh/site-functions/_yettuvam' \
		'$(DESTDIR)$(SHAREDIR)/fish/vendor_completions.d/yettuvam.fish'
	rm -rf '$(DESTDIR)$(CMAKEDIR)' '$(DESTDIR)$(DOCDIR)'

dist:
	sh dist.sh
