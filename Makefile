# Installs what scripts/release made, for packagers and for who has unpacked the tar.gz:
#
#   make install [DESTDIR=FOLDER] [PREFIX=/usr/local] [LIBDIR=PREFIX/lib]
#   make uninstall, with the same words
#
# Beside this file are bin, lib, include and share, if it is the one of the tar.gz. In a checkout the tree is
# release/tree, which `make` makes of the proved archive and the proved programs.
PREFIX ?= /usr/local
LIBDIR ?= $(PREFIX)/lib
TREE := $(if $(wildcard bin/bser),.,release/tree)
FILES = cd $(TREE) && find bin include share lib ! -type d | sort

.PHONY: all install uninstall
all: $(TREE)/bin/bser

release/tree/bin/bser:
	scripts/release --tree

# pkg-config and CMake find the prefix by the place of their files; other folders than PREFIX/lib are written into them.
install: all
	@set -e; $(FILES) | while read -r file; do \
	    case $$file in lib/*) to="$(DESTDIR)$(LIBDIR)/$${file#lib/}" ;; *) to="$(DESTDIR)$(PREFIX)/$$file" ;; esac; \
	    mkdir -p "$$(dirname "$$to")"; rm -f "$$to"; cp -P -p "$$file" "$$to"; \
	done
	@if [ "$(LIBDIR)" != "$(PREFIX)/lib" ]; then \
	    sed -i 's|^prefix=.*|prefix=$(PREFIX)|; s|^libdir=.*|libdir=$(LIBDIR)|' \
	        "$(DESTDIR)$(LIBDIR)/pkgconfig/kuvtsada_bser.pc"; \
	    sed -i 's|^get_filename_component.*|set(_kuvtsada "$(PREFIX)")|; s|$${_kuvtsada}/lib/|$(LIBDIR)/|' \
	        "$(DESTDIR)$(LIBDIR)/cmake/kuvtsada_bser/kuvtsada_bserConfig.cmake"; \
	fi

uninstall:
	@set -e; $(FILES) | while read -r file; do \
	    case $$file in lib/*) to="$(DESTDIR)$(LIBDIR)/$${file#lib/}" ;; *) to="$(DESTDIR)$(PREFIX)/$$file" ;; esac; \
	    rm -f "$$to"; \
	done
	@rmdir "$(DESTDIR)$(LIBDIR)/cmake/kuvtsada_bser" "$(DESTDIR)$(PREFIX)/include/kuvtsada" \
	    "$(DESTDIR)$(PREFIX)/share/doc/kuvtsada/docs" "$(DESTDIR)$(PREFIX)/share/doc/kuvtsada"
