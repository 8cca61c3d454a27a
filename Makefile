# The library, the command and their installation, all for x86-64, the kit's processor. `rt` proves; nothing here is trusted for that.
PREFIX ?= /usr/local
CFLAGS ?= -O2
VERSION = 0.1.0

out = target/host
at = $(DESTDIR)$(PREFIX)
flags = -std=c11 -D_GNU_SOURCE -Iinclude -Wall -Wextra -Wpedantic -Wconversion -Wshadow $(CFLAGS)
proved = crates.txt $(shell find crates -name out -prune -o \( -name '*.rt' -o -name '*.antt' \) -print)

all: $(out)/libpanulimbe.a $(out)/panulimbe

# The crate of the exports, for every x86-64 processor, as the library has always been; without --cpu it would ask for SSE4.2 and say nothing.
# `rt ci` leaves no archive, and takes away what stood in out/: so a copy is kept here.
$(out)/libpanulimbe.a: $(proved)
	mkdir -p $(out)
	cd crates/panulimbe && rt lib --cpu x86-64
	cp crates/panulimbe/out/libpanulimbe.a $@

$(out)/panulimbe: $(wildcard host/command/*.[ch]) include/hsd.h $(out)/libpanulimbe.a
	$(CC) $(flags) host/command/*.c $(out)/libpanulimbe.a -o $@

# The programs of crates that the host tests and the demonstrations run. `rt ci` leaves them there, too. `rt` builds a program by running it,
# and what it says of no input and no arguments is nobody's business here.
programs = list rewrite testcard
define program
crates/$(1)/out/$(1): $(proved)
	rm -f $$@
	mkdir -p crates/$(1)/out
	cd crates/$(1) && { rt run </dev/null >/dev/null 2>out/run.log || [ -x out/$(1) ] || { cat out/run.log >&2; exit 1; }; }
endef
$(foreach name,$(programs),$(eval $(call program,$(name))))

programs: $(foreach name,$(programs),crates/$(name)/out/$(name))

install: all
	install -d $(at)/bin $(at)/include $(at)/lib/pkgconfig $(at)/share/man/man1
	install -m 644 $(out)/libpanulimbe.a $(at)/lib
	install -m 644 include/hsd.h $(at)/include
	sed -e 's|@PREFIX@|$(abspath $(PREFIX))|' -e 's|@VERSION@|$(VERSION)|' host/panulimbe.pc >$(at)/lib/pkgconfig/panulimbe.pc
	install -m 644 host/command/panulimbe.1 $(at)/share/man/man1
	install -m 755 $(out)/panulimbe $(at)/bin

test:
	.ci/run

demo: all crates/testcard/out/testcard
	sh host/demo/run

bench: all crates/testcard/out/testcard
	sh host/bench/run

# Wrong functions with contracts to match, each refused by a theorem.
pairs:
	sh pairs/run

clean:
	rm -rf $(out) demo

.PHONY: all programs install test demo bench pairs clean
