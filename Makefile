# Builds what there is to install, for x86-64 Linux: the desk, the library, its header, the bindings and the manual.
#
#     make                    proves and builds it, into target/tree (some minutes; needs Rattle's kit)
#     make install PREFIX=P   puts it into P, /usr/local where none is given; DESTDIR is put in front
#     make uninstall          takes that away again
#     make dist               packs it into one file, target/moonhalyard-VERSION-x86_64-linux.tar.gz, which needs no kit to be used
#     make check              installs it into an empty folder and runs a host in C, in Python and in Rust against that alone
#
# The same source gives the same bytes.
version := $(shell sed -n 's/.*MOONHALYARD_VERSION_TEXT "\(.*\)"/\1/p' include/moonhalyard.h)
name := moonhalyard-$(version)-x86_64-linux
PREFIX ?= /usr/local
to := $(DESTDIR)$(PREFIX)

all:
	tools/tree target/tree

# What was built is installed as it stands, so that who installs need not be who builds.
install: | target/tree
	mkdir -p "$(to)"
	cd target/tree && tar -cf - . | (cd "$(to)" && tar -xf - --no-same-owner)

uninstall: | target/tree
	cd target/tree && find . ! -type d -exec sh -c 'for f do rm -f "$(to)/$$f"; done' sh {} +

target/tree:
	tools/tree target/tree

dist: all
	tar -C target --sort=name --mtime=@0 --owner=0 --group=0 --numeric-owner --mode='u=rwX,go=rX' --transform 's:^tree:$(name):' -cf - tree | gzip -9n >target/$(name).tar.gz
	cd target && sha256sum $(name).tar.gz

check: all
	tools/check-install

.PHONY: all install uninstall dist check
