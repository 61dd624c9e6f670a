# make            the archive target/c/libsorgizhed.a (proves the crates that it is made of, and compiles them), the helper target/c/libsorgizhed_host.a,
#                 the example host target/c/box and, where nbdkit's header is installed, the plugin target/c/sorgizhed.so
# make demo       builds the archive and the example host and shows the engine at work
# make test       all tests (the same as .ci/run)
# make install    headers, archives and pkg-config file under PREFIX (DESTDIR is put before it)
# make uninstall  takes them away
# make clean      removes what was made of C; make distclean the proofs too (crates/*/out)
PREFIX ?= /usr/local
DESTDIR ?=
VERSION = $(shell sed -n 's/^\#define SORGIZHED_VERSION "\(.*\)"/\1/p' include/sorgizhed.h)
OUT = target/c
CC ?= gcc
CFLAGS ?= -O2 -g
STRICT = -std=c99 -Wall -Wextra -Wpedantic -Werror -Iinclude
SANE = -fsanitize=address,undefined -fno-sanitize-recover=all

HELPER = array gather run words files
PROGRAM = main filing soak check
HOST_HEADERS = $(wildcard host/*.h) include/sorgizhed.h include/sorgizhed_host.h
ARCHIVES = $(OUT)/libsorgizhed_host.a $(OUT)/libsorgizhed.a
SANE_ARCHIVES = $(OUT)/sane/libsorgizhed_host.a $(OUT)/libsorgizhed.a
INSTALLED = include/sorgizhed.h include/sorgizhed_host.h lib/libsorgizhed.a lib/libsorgizhed_host.a lib/pkgconfig/sorgizhed.pc
# the prefix as one word of the shell, and with a backslash before each blank as pkg-config reads it
PLACE = "$(DESTDIR)$(PREFIX)"

all: $(ARCHIVES) $(OUT)/box $(if $(wildcard /usr/include/nbdkit-plugin.h),$(OUT)/sorgizhed.so)

# kit.txt lists the kits that the gate is green with, one a line; what counts is the logic, the last word
kit:
	@rt version >/dev/null 2>&1 || { echo "rt, the command of the Rattle kit, is not there: this text is proved and compiled with one of: $$(tr '\n' ';' <kit.txt)" >&2; exit 1; }
	@logic=$$(rt version | awk '{ print $$NF }'); awk '{ print $$NF }' kit.txt | grep -qxF "$$logic" || { echo "this machine has $$(rt version), whose logic is none of those in kit.txt ($$(tr '\n' ';' <kit.txt)), so the proofs may not hold here. Install one of these kits, or add yours to kit.txt and run make test" >&2; exit 1; }

# rt lib proves the crates that api_c is made of, where that is still to be done, and compiles them; it keeps its work in crates/*/out
$(OUT)/libsorgizhed.a: crates.txt $(shell find crates -name out -prune -o -type f -not -path '*/wrong/*' -not -path '*/must-fail/*' -print) | kit
	@mkdir -p $(OUT)
	@echo "proving and compiling the engine: long from nothing, later only what changed"
	@{ (cd crates/api_c && rt lib) 2>&1; echo $$? >$(OUT)/status; } | tee $(OUT)/lib.log | grep --line-buffered -E '^(rt|crate)\b' | grep --line-buffered -vE 'begins with|fix-imports|chose --jobs' | sed -u 's/^crate \([a-z0-9_]*\):.*/checked: \1/'; \
	test "$$(cat $(OUT)/status)" = 0 || { tail -40 $(OUT)/lib.log; exit 1; }
	@cp crates/api_c/out/libapi_c.a $@

# the helper between calls and drives, and the example host over it
$(OUT)/host/%.o: host/%.c $(HOST_HEADERS)
	@mkdir -p $(OUT)/host
	$(CC) $(CFLAGS) $(STRICT) -fPIC -c $< -o $@

$(OUT)/libsorgizhed_host.a: $(HELPER:%=$(OUT)/host/%.o)
	$(AR) rcs $@ $^

$(OUT)/box: $(PROGRAM:%=$(OUT)/host/%.o) $(ARCHIVES)
	$(CC) $(CFLAGS) $^ -o $@

# the same with the sanitizers
$(OUT)/sane/%.o: host/%.c $(HOST_HEADERS)
	@mkdir -p $(OUT)/sane
	$(CC) -O1 -g $(SANE) $(STRICT) -c $< -o $@

$(OUT)/sane/libsorgizhed_host.a: $(HELPER:%=$(OUT)/sane/%.o)
	$(AR) rcs $@ $^

$(OUT)/box-sane: $(PROGRAM:%=$(OUT)/sane/%.o) $(SANE_ARCHIVES)
	$(CC) $(SANE) $^ -o $@

# an nbdkit plugin over it
$(OUT)/sorgizhed.so: host/nbd.c $(HOST_HEADERS) $(ARCHIVES)
	$(CC) $(CFLAGS) $(STRICT) -fPIC -shared $< $(ARCHIVES) -o $@

# tests/c/NAME.c with the archives, and the same with the sanitizers
$(OUT)/%: tests/c/%.c $(ARCHIVES)
	$(CC) $(CFLAGS) $(STRICT) $< $(ARCHIVES) -o $@

$(OUT)/%-sane: tests/c/%.c $(SANE_ARCHIVES)
	$(CC) -O1 -g $(SANE) $(STRICT) $< $(SANE_ARCHIVES) -o $@

$(OUT)/order $(OUT)/order-sane $(OUT)/helper $(OUT)/helper-sane $(OUT)/power $(OUT)/power-sane: tests/c/ram.h host/array.c host/files.c $(HOST_HEADERS)

demo: $(OUT)/box
	host/demo $(OUT)/box

test:
	.ci/run

install: $(ARCHIVES)
	install -d $(PLACE)/include $(PLACE)/lib/pkgconfig
	install -m 644 include/sorgizhed.h include/sorgizhed_host.h $(PLACE)/include
	install -m 644 $(ARCHIVES) $(PLACE)/lib
	sed -e "s|@PREFIX@|$$(printf '%s' "$(PREFIX)" | sed -e 's/ /\\\\ /g')|" -e 's|@VERSION@|$(VERSION)|' sorgizhed.pc.in >$(PLACE)/lib/pkgconfig/sorgizhed.pc

uninstall:
	for f in $(INSTALLED); do rm -f $(PLACE)/$$f; done

clean:
	rm -rf $(OUT)/host $(OUT)/sane $(OUT)/libsorgizhed_host.a $(OUT)/sorgizhed.so $(OUT)/box $(OUT)/box-sane
	for f in tests/c/*.c; do p=$(OUT)/$$(basename "$$f" .c); rm -f "$$p" "$$p-sane"; done

distclean:
	rm -rf target crates/*/out

.PHONY: all demo test install uninstall clean distclean kit
