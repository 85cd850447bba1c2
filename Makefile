# make install, make uninstall: the proved program where a bench can use it without the kit, its manual page, and what it is proved by.
# PREFIX is where it goes, DESTDIR a folder that stands for / while a package is made. Nothing is built here.
PREFIX = /usr/local
DESTDIR =

to = $(DESTDIR)$(PREFIX)
name = program_khushelvo
program = crates/$(name)/out/$(name)
build = cd crates/$(name) && rt run
version = lib/khushelvo/version
log = share/doc/khushelvo/proof.log
sums = share/doc/khushelvo/SHA256SUMS
files = bin/khushelvo lib/khushelvo/$(name) $(version) share/man/man1/khushelvo.1 $(log)
folders = lib/khushelvo share/doc/khushelvo share/man/man1 share/man share/doc share lib bin

.PHONY: ready install uninstall

# The program is for x86-64, and has to be the one that these sources give.
ready:
	@[ "$$(uname -m)" = x86_64 ] || { echo "make install: the program is for x86-64, and this machine is $$(uname -m)" >&2; exit 1; }
	@[ -x '$(program)' ] || { echo "make install: the program is not built: $(build)" >&2; exit 1; }
	@newer=$$(find crates.txt crates -name out -prune -o \( -name crates.txt -o -name '*.rt' -o -name '*.antt' \) -newer '$(program)' -print | sed 1q); \
	    [ -z "$$newer" ] || { echo "make install: the program is older than $$newer: $(build)" >&2; exit 1; }
	@command -v rt >/dev/null || { echo "make install: rt is not there, which says by what the program is proved" >&2; exit 1; }

# The log has the version, the program's checksum, of each library of the program by which logic it is proved and the sum of what was built (rt builds only
# what is proved), and the line by which rt says that the program is proved. It is asked for that line before anything is installed. Of libraries that are
# not built yet rt says the same first: what it says last is of the program.
install: ready
	@mkdir -p target
	(cd crates/$(name) && rt check) >target/check.say
	awk '/^logic [^=]/ { said = "" } { said = said $$0 "\n" } END { printf "%s", said }' target/check.say >target/proof.say
	grep -q '^logic=proved ' target/proof.say
	install -d $(folders:%='$(to)/%')
	install -m 755 khushelvo '$(to)/bin/khushelvo'
	install -m 755 '$(program)' '$(to)/lib/khushelvo/$(name)'
	install -m 644 docs/khushelvo.1 '$(to)/share/man/man1/khushelvo.1'
	install -m 644 /dev/null '$(to)/$(version)'
	install -m 644 /dev/null '$(to)/$(log)'
	install -m 644 /dev/null '$(to)/$(sums)'
	./khushelvo --version >'$(to)/$(version)'
	(cat '$(to)/$(version)' && cd '$(to)' && sha256sum lib/khushelvo/$(name)) >'$(to)/$(log)'
	for crate in $$(sed -n 's/^[a-z]* \([a-z0-9_]*\): modules loaded=.*/\1/p' target/proof.say); do \
	    [ ! -d crates/$$crate ] || [ $$crate = $(name) ] || { \
	    by=$$(sed -n 's/^\(logic\|sum\) /\1=/p' crates/$$crate/out/rlib/$$crate.rlib/format) && [ -n "$$by" ] && echo $$crate: $$by; } || exit 1; \
	    done >>'$(to)/$(log)'
	sed -n 's/^logic=proved /$(name): &/p' target/proof.say >>'$(to)/$(log)'
	cd '$(to)' && sha256sum $(files) >$(sums)

uninstall:
	cd '$(to)' && rm -f $(files) $(sums)
	cd '$(to)' && for folder in $(folders); do [ ! -d $$folder ] || rmdir --ignore-fail-on-non-empty $$folder; done
