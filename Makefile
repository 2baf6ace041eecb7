# The library for C. `make` proves it and writes its archive; `make install` puts the archive, the header and a
# pkg-config file under PREFIX, or under DESTDIR and PREFIX; `make uninstall` takes the three files away again.
PREFIX ?= /usr/local

archive = target/staticlib/liblhstar.a
header = include/lhstar.h
root = $(DESTDIR)$(PREFIX)
sources := crates.txt $(shell find crates/*/src crates/*/specs crates/*/proofs)

.PHONY: all install uninstall
.DELETE_ON_ERROR:

all: $(archive)

$(archive): $(sources)
	cd crates/lhstar && rt lib
	install -D -m 644 crates/lhstar/out/liblhstar.a $(archive)

# The version stands in the header.
install: $(archive)
	@case '$(PREFIX)' in /*) ;; *) echo 'PREFIX is no absolute path: $(PREFIX)' >&2; exit 1 ;; esac
	install -d '$(root)/include' '$(root)/lib/pkgconfig'
	install -m 644 $(header) '$(root)/include/lhstar.h'
	install -m 644 $(archive) '$(root)/lib/liblhstar.a'
	@echo "writing '$(root)/lib/pkgconfig/lhstar.pc'"
	@version=$$(sed -n 's/^#define LHSTAR_VERSION "\(.*\)"$$/\1/p' $(header)) && printf '%s\n' \
	    'prefix=$(PREFIX)' \
	    'includedir=$${prefix}/include' \
	    'libdir=$${prefix}/lib' \
	    '' \
	    'Name: lhstar' \
	    'Description: An LH* file over lent memory' \
	    "Version: $$version" \
	    'Cflags: -I$${includedir}' \
	    'Libs: -L$${libdir} -llhstar' \
	    > '$(root)/lib/pkgconfig/lhstar.pc'
	@chmod 644 '$(root)/lib/pkgconfig/lhstar.pc'

# The folders stay: other files may need them.
uninstall:
	rm -f '$(root)/include/lhstar.h' '$(root)/lib/liblhstar.a' '$(root)/lib/pkgconfig/lhstar.pc'
