# All that is done here by one command. `make` alone prints what there is.
#
# There are two builds of the library, and neither stands in for the other. `make prove` makes the proved one, and
# `make unproved` the other, dcsctp-unproved, in out/unproved. Each target takes the proved one where it was made, else
# the other; with the goal `unproved` before it, as in `make unproved install`, always the other. Only `make prove`
# starts proofs.
#
# PREFIX (/usr/local), LIBDIR (PREFIX/lib) and DESTDIR say where to install. ARCHIVE=FILE takes an archive that rt has
# built, and KIT=FOLDER the kit.

PREFIX ?= /usr/local
LIBDIR ?= $(PREFIX)/lib
CC ?= cc
CXX ?= c++
OBJCOPY ?= objcopy
NM ?= nm
READELF ?= readelf
CFLAGS ?= -O2 -g
# (Debian's aiortc is its own Python's, which may not be the first one)
AIORTC_PYTHON ?= $(shell python3 -c 'import aiortc' 2>/dev/null && echo python3 || echo /usr/bin/python3)
KIT ?= $(shell dirname "$$(dirname "$$(readlink -f "$$(command -v rt)")")")

# ---- Which build ------------------------------------------------------------------------------

PROVED_ARCHIVE = crates/dcsctp_c/out/libdcsctp_c.a
UNPROVED_ARCHIVE = out/unproved/libdcsctp_c-unproved.a
ifndef ARCHIVE
ifneq ($(filter unproved,$(MAKECMDGOALS)),)
ARCHIVE := $(UNPROVED_ARCHIVE)
else ifneq ($(filter prove,$(MAKECMDGOALS))$(wildcard $(PROVED_ARCHIVE)),)
ARCHIVE := $(PROVED_ARCHIVE)
else ifneq ($(filter demo chat test fuzz bench bench-server check-restart,$(MAKECMDGOALS))$(wildcard $(UNPROVED_ARCHIVE)),)
ARCHIVE := $(UNPROVED_ARCHIVE)
else
ARCHIVE := no-library
endif
endif
export ARCHIVE

# What isn't proved has another name, in another folder.
MARK := $(findstring -unproved,$(notdir $(ARCHIVE)))
KIND := $(if $(MARK),unproved,proved)
NAME = dcsctp$(MARK)
OUT ?= out$(MARK:-%=/%)
LIBRARY = $(OUT)/lib$(NAME).a
SHARED = $(OUT)/lib$(NAME).so.0
PACKAGE = $(OUT)/$(NAME).pc $(OUT)/$(NAME)Config.cmake $(OUT)/$(NAME)ConfigVersion.cmake
VERSION := $(shell awk '/define DCSCTP_VERSION_[MP]/ { v = v s $$3; s = "." } END { print v }' \
    include/dcsctp.h)

TESTS = names calls queries many options events ends kept handover refusals random threads channels \
    channel_texts fuzz_channels deadlines trace seed checksum
EXAMPLES = demo two_sockets two_channels file_transfer channels server load
WARNINGS = -Wall -Wextra -Wshadow -pedantic -Werror
COMPILE = $(CC) -std=c11 $(WARNINGS) $(CFLAGS) -Iinclude

help:
	@echo "make demo              two sockets over a link that loses a packet    2 min, without proofs"
	@echo "make test              all tests                                      10 min, without proofs"
	@echo "make unproved          the C library without proofs                   2 min"
	@echo "make unproved install  copies it to PREFIX=$(PREFIX)"
	@echo "make prove             proves and tests all, builds the C library     an hour or more"
	@echo "make install           copies what was built, the proved one first    "
	@echo "make uninstall         removes what either has copied"
	@echo "make check             checks the library, also by valgrind           5 min"
	@echo "make dist              packs the library with bindings and examples"
	@echo "make deb               packages for Debian: libdcsctp0, libdcsctp-dev 20 s"
	@echo "make wheel             a wheel for Python, with the library inside   10 s"
	@echo "make crate             crates for Rust, with the library inside      20 s"
	@echo "make reference         pages of all contracts and definitions         10 s, into out/reference"
	@echo "make doc               pages of C, Rust and Python, too               1 min, into out/doc"
	@echo "make fuzz MINUTES=5    calls the C library as libFuzzer's inputs say"
	@echo "make bench             instructions, beside those of docs/figures.md  5 min"
	@echo "make bench-server      messages a second of the server on 1, 2, 4 cores 6 min"
	@echo "make check-restart     restarts the server twenty times               1 min"
	@echo "make chat              a page in your browser, whose texts come back"
	@echo "make check-browser     a page in Chromium uses data channels          1 min"
	@echo "make check-peers       data channels to Chromium, pion, aiortc, usrsctp 3 min"
	@echo "make check-usrsctp     programs for usrsctp run over this library     1 min"
	@echo "make check-janus       Debian's Janus serves a text room over it      15 s"
	@echo "make clean             removes out/"
	@echo
	@echo "Targets take the proved library where 'make prove' has built it, else the other;"
	@echo "'make unproved TARGET' always takes the other. Only 'make prove' starts proofs."

# ---- The library ------------------------------------------------------------------------------

all unproved: $(LIBRARY) $(SHARED) $(PACKAGE)

SOURCES := $(shell find crates -name out -prune -o -name '*.rt' -print)
prove:
	KIT=$(KIT) bash scripts/prove.sh
	@$(MAKE) -s --no-print-directory all

# (where prove is a goal, too, it has been made by now)
$(PROVED_ARCHIVE): $(if $(filter prove,$(MAKECMDGOALS)),,$(SOURCES) crates.txt)
	@[ -n "$(filter prove,$(MAKECMDGOALS))" ] || { echo "make: sources are newer than the proved library." \
	    "'make prove' proves it again (an hour or more);"; echo "make: 'make unproved $(MAKECMDGOALS)' does it without" \
	    "proofs (two minutes)."; exit 2; } >&2

$(UNPROVED_ARCHIVE): $(SOURCES) crates.txt scripts/unproved.sh
	KIT=$(KIT) bash scripts/unproved.sh library $@

no-library:
	@{ echo "make: no library has been built here."; \
	echo "make: 'make unproved $(MAKECMDGOALS)' builds it without proofs first (two minutes)."; \
	echo "make: 'make prove $(MAKECMDGOALS)' proves and tests all first (an hour or more)."; exit 2; } >&2

# What the tests take beside the library: programs and tests in Rattle.
RATTLE_PROGRAMS = $(if $(MARK),out/unproved/dcsctp_run out/unproved/dcsctp_socket_script out/unproved/rattle_tests)
out/unproved/rattle_tests: $(SOURCES) crates.txt scripts/unproved.sh
	KIT=$(KIT) bash scripts/unproved.sh tests $@
out/unproved/dcsctp_%: $(SOURCES) crates.txt scripts/unproved.sh
	KIT=$(KIT) bash scripts/unproved.sh program dcsctp_$* $@

# One object: what rt built, the kit's three functions over malloc, and what libgcc has of 128 bits.
# Only dcsctp_* can be seen from outside.
$(LIBRARY): $(ARCHIVE) Makefile
	@mkdir -p $(OUT)
	$(LD) -r -o $(OUT)/$(NAME).o --whole-archive $(ARCHIVE) --no-whole-archive \
	    $(KIT)/c/liblibc_c.a "$$($(CC) -print-libgcc-file-name)"
	$(OBJCOPY) --strip-debug --wildcard --keep-global-symbol='dcsctp_*' $(OUT)/$(NAME).o
	rm -f $@
	$(AR) rcD $@ $(OUT)/$(NAME).o
	$(AR) sD $@

# The same object. It needs what the archive needs, and nothing of the compiler's.
$(SHARED): $(LIBRARY) packaging/exports.map
	$(CC) -shared -nostartfiles -Wl,-soname,$(notdir $@) -Wl,--version-script=packaging/exports.map \
	    -Wl,-z,defs,-z,now,-z,noexecstack,-z,text,--fatal-warnings \
	    -Wl,--whole-archive $< -Wl,--no-whole-archive -o $@

# (made again each time, since PREFIX and LIBDIR may be others)
HOW = $(if $(MARK),built without proofs,proved in Rattle)
TO_PREFIX = $(shell realpath -ms --relative-to=$(LIBDIR)/pkgconfig $(or $(PREFIX),/))
$(OUT)/$(NAME)%: packaging/dcsctp%.in include/dcsctp.h FORCE
	@mkdir -p $(OUT)
	@sed -e 's|@NAME@|$(NAME)|' -e 's|@VERSION@|$(VERSION)|' -e 's|@MARK@|$(MARK)|' \
	    -e 's|@PROVED@|$(HOW)|' -e 's|@TO_PREFIX@|$(TO_PREFIX)|' $< >$@

# ---- Packages ---------------------------------------------------------------------------------

HEADERS = include/dcsctp.h include/dcsctp_checksum.h
INCLUDE_TO = $(DESTDIR)$(PREFIX)/include
LIB_TO = $(DESTDIR)$(LIBDIR)
install: all
	install -d $(INCLUDE_TO) $(LIB_TO)/pkgconfig $(LIB_TO)/cmake/$(NAME)
	install -m 644 $(HEADERS) $(INCLUDE_TO)/
	install -m 644 $(LIBRARY) $(LIB_TO)/
	install -m 755 $(SHARED) $(LIB_TO)/
	ln -sf $(notdir $(SHARED)) $(LIB_TO)/lib$(NAME).so
	install -m 644 $(OUT)/$(NAME).pc $(LIB_TO)/pkgconfig/
	install -m 644 $(OUT)/$(NAME)Config.cmake $(OUT)/$(NAME)ConfigVersion.cmake $(LIB_TO)/cmake/$(NAME)/
	$(if $(MARK),for it in Config ConfigVersion; do install -m 644 $(OUT)/$(NAME)$$it.cmake \
	    $(LIB_TO)/cmake/$(NAME)/dcsctp$$it.cmake; done)
	@echo "Installed $(NAME) $(VERSION), $(HOW), to $(DESTDIR)$(PREFIX). To compile a program:"
	@echo "    export PKG_CONFIG_PATH=$(DESTDIR)$(LIBDIR)/pkgconfig LD_LIBRARY_PATH=$(DESTDIR)$(LIBDIR)"
	@echo "    cc program.c \$$(pkg-config --cflags --libs $(NAME))"

NAMES = dcsctp dcsctp-unproved
uninstall:
	rm -f $(HEADERS:include/%=$(INCLUDE_TO)/%) $(NAMES:%=$(LIB_TO)/pkgconfig/%.pc) \
	    $(foreach it,.a .so .so.0,$(NAMES:%=$(LIB_TO)/lib%$(it)))
	rm -rf $(NAMES:%=$(LIB_TO)/cmake/%)

# The libraries, the headers, the bindings, and the documents and examples, whose .c and .h files users copy. The same bytes
# from the same files, wherever it is packed.
PACKED = $(shell find bindings docs examples \( -name target -o -name __pycache__ -o -name '*.script*' \) -prune -o \
    -type f -print)
DIST = dcsctp-$(VERSION)$(MARK)-linux-x86_64-v2
TAR = tar --sort=name --owner=0 --group=0 --numeric-owner --mtime=@0
dist: all
	rm -rf $(OUT)/$(DIST)
	$(MAKE) -s install DESTDIR=$(abspath $(OUT)/$(DIST)) PREFIX= LIBDIR=/lib >/dev/null
	install -m 644 LICENSE NOTICE CHANGELOG.md SECURITY.md $(OUT)/$(DIST)/
	@cp --parents $(PACKED) $(OUT)/$(DIST)/
	chmod -R u=rwX,go=rX $(OUT)/$(DIST)
	KIT=$(KIT) bash scripts/verdict.sh $(OUT)/$(DIST) >$(OUT)/VERDICT
	mv $(OUT)/VERDICT $(OUT)/$(DIST)/
	$(TAR) -C $(OUT) -c $(DIST) | gzip -n9 >$(OUT)/$(DIST).tar.gz
	@echo "Packed $(OUT)/$(DIST).tar.gz, $(HOW)"

# Packages of Debian, a wheel of Python and crates of Rust, of what was packed.
deb: dist
	CC='$(CC)' bash scripts/deb.sh $(OUT)/$(DIST).tar.gz

wheel: dist
	bash scripts/wheel.sh $(OUT)/$(DIST).tar.gz

crate: dist
	bash scripts/crate.sh $(OUT)/$(DIST).tar.gz

clean:
	rm -rf out

reference:
	python3 scripts/reference.py

doc:
	bash scripts/doc.sh

# ---- Programs ---------------------------------------------------------------------------------

# The tests refuse allocations, and count what isn't given back.
WRAP = -Wl,--wrap=malloc,--wrap=realloc,--wrap=free

$(OUT)/tests/%: tests/c/%.c $(wildcard tests/c/*.h) $(HEADERS) $(LIBRARY)
	@mkdir -p $(OUT)/tests
	$(COMPILE) $(if $(MARK),-DUNPROVED) $(filter %.c,$^) $(LIBRARY) \
	    $(if $(filter refusals random costs fuzz_channels,$*),$(WRAP)) -pthread -o $@

# The server has a store where hiredis is installed.
STORE := $(shell $(CC) -E -include hiredis/hiredis.h -x c /dev/null >/dev/null 2>&1 && echo -DWITH_STORE -lhiredis)
$(OUT)/examples/%: examples/c/%.c include/dcsctp.h $(LIBRARY)
	@mkdir -p $(OUT)/examples
	$(COMPILE) $(filter %.c,$^) $(LIBRARY) $(if $(filter server,$*),-pthread $(STORE)) -o $@

c-programs: $(TESTS:%=$(OUT)/tests/%) $(EXAMPLES:%=$(OUT)/examples/%)
examples: $(EXAMPLES:%=$(OUT)/examples/%)
	@printf 'built %s\n' $^

# Deadlines and traces are files that users copy.
$(OUT)/tests/deadlines $(OUT)/examples/server $(OUT)/examples/load: examples/c/deadlines.c \
    examples/c/deadlines.h
$(OUT)/examples/server: examples/c/server.h $(wildcard examples/c/server_*.c)
$(OUT)/tests/trace $(OUT)/examples/demo $(OUT)/examples/server $(OUT)/examples/file_transfer: \
    examples/c/trace.c examples/c/trace.h

# Two sockets over a link that loses a packet.
demo: $(OUT)/examples/demo
	@bash scripts/demo.sh $< out/demo.pcap

# ---- Checks -----------------------------------------------------------------------------------

# Each thing that was checked is a line `check: ..`, and each that can't be is a line `skipped: ..`, with what to install.

# What the tests need is built side by side.
JOBS = $(shell nproc)
test:
	@printf '%s\n' $(RATTLE_PROGRAMS) $(filter-out $(PROVED_ARCHIVE),$(ARCHIVE)) | \
	    xargs -r -P $(JOBS) -n 1 $(MAKE) -s --no-print-directory
	@OUT=$(OUT) TESTS='$(TESTS)' bash scripts/test.sh $(KIND)

check: check-header check-symbols check-tests check-cpp check-cffi check-examples check-install check-dist \
    check-valgrind check-sanitizers check-bindings check-webrtc check-rust

# Each header alone, in C and C++, and of which lines a compiler warns.
WARNED = tests/c/warned.c 2>&1 | sed -n 's/^[^:]*warned.c:\([0-9]*\):.* warning: .*/\1/p' | sort -nu | \
    diff $(OUT)/marked -
check-header:
	@mkdir -p $(OUT)
	for it in $(HEADERS:include/%=%); do \
	    echo "#include <$$it>" | $(CC) -std=c11 $(WARNINGS) -Iinclude -fsyntax-only -x c - || exit 1; done
	sed -n '/\/\* warned \*\/$$/=' tests/c/warned.c >$(OUT)/marked
	$(CC) -std=c11 -Wall -Wextra -Iinclude -c -o /dev/null $(WARNED)
	@if command -v $(CXX) >/dev/null; then set -e; \
	for it in $(HEADERS:include/%=%); do \
	    echo "#include <$$it>" | $(CXX) -std=c++11 $(WARNINGS) -Iinclude -fsyntax-only -x c++ -; done; \
	$(CXX) -std=c++11 -Wall -Wextra -Iinclude -c -o /dev/null -x c++ $(WARNED); \
	echo "check: the headers in C++"; \
	else echo "skipped: the headers in C++: no $(CXX) (apt install g++)"; fi
	printf '#undef __linux__\n#include <dcsctp.h>\nint dcsctp_random_seed;\n' | \
	    $(CC) -std=c11 $(WARNINGS) -Iinclude -fsyntax-only -x c -
	! grep -n '.\{101\}' $(HEADERS)
	@echo "check: the headers in C"

# What is exported is what is declared, and nothing is needed but these functions of the C library. In the
# shared library each call has the version of the series.
NEEDED = _GLOBAL_OFFSET_TABLE_|malloc|realloc|free|memcpy|memmove|memset
SERIES = DCSCTP_$(basename $(VERSION))
check-symbols: $(LIBRARY) $(SHARED)
	$(NM) -g --defined-only $(LIBRARY) | awk 'NF == 3 { print $$3 }' | sort >$(OUT)/exported
	grep -o '^[a-z0-9_]* dcsctp_[a-z_]*(' include/dcsctp.h | sed 's/.* //; s/(//' | sort \
	    >$(OUT)/declared
	diff $(OUT)/declared $(OUT)/exported
	$(NM) -u $(LIBRARY) | awk 'NF == 2 { print $$2 }' | sort -u >$(OUT)/needed
	! grep -vxE '$(NEEDED)' $(OUT)/needed
	$(READELF) -W --dyn-syms $(SHARED) | awk '$$4 == "FUNC" && $$7 != "UND" { print $$8 }' | sort \
	    >$(OUT)/exported
	sed 's/$$/@@$(SERIES)/' $(OUT)/declared | diff - $(OUT)/exported
	$(READELF) -W --dyn-syms $(SHARED) | awk 'NR > 3 && $$7 == "UND" && NF > 7 { print $$8 }' | \
	    sed 's/@.*//' >$(OUT)/needed
	! grep -vxE '$(NEEDED)' $(OUT)/needed
	$(READELF) -d $(SHARED) | sed -n 's/.*(\(NEEDED\|SONAME\)).*\[\(.*\)\]/\2/p' | sort | tr '\n' ' ' | \
	    grep -qx 'libc.so.6 $(notdir $(SHARED)) '
	@echo "check: the symbols of both libraries"

check-tests: $(TESTS:%=$(OUT)/tests/%)
	@for it in $^; do $$it || exit 1; echo "check: $$it"; done

check-cpp: $(LIBRARY)
	@mkdir -p $(OUT)/tests
	@if command -v $(CXX) >/dev/null; then set -e; \
	$(CXX) -std=c++11 $(WARNINGS) $(CFLAGS) -Iinclude tests/c/in_cpp.cpp $(LIBRARY) -o $(OUT)/tests/in_cpp; \
	$(OUT)/tests/in_cpp; echo "check: calls in C++"; \
	else echo "skipped: calls in C++: no $(CXX) (apt install g++)"; fi

# What the preprocessor leaves of the header, for tools that read declarations alone. Python's cffi is one.
check-cffi: check-symbols
	$(CC) -E -P -DDCSCTP_DECLARATIONS include/dcsctp.h >$(OUT)/declarations
	! grep -nE '#|__|static|inline|"' $(OUT)/declarations
	@echo "check: the declarations alone"
	@if python3 -c 'import cffi' 2>/dev/null; then set -e; \
	python3 tests/c/declared.py $(OUT)/declarations $(SHARED); echo "check: cffi"; \
	else echo "skipped: cffi reads dcsctp.h: no cffi (apt install python3-cffi)"; fi

# The examples, the file transfer with 20 of 1,000 packets lost in each direction, and the server with 100
# associations. README has the loop of the first, and the guide to channels that of the second.
check-examples: $(EXAMPLES:%=$(OUT)/examples/%)
	sed -n '/^static int drain/,/^}/p' examples/c/two_sockets.c >$(OUT)/drain
	sed -n '/^```c$$/,/^```$$/p' README.md | sed '1d; $$d' | diff - $(OUT)/drain
	$(OUT)/examples/two_sockets | diff examples/c/two_sockets.stdout -
	@echo "check: two_sockets"
	sed -n '/^static int take/,/^}/p' examples/c/two_channels.c >$(OUT)/take
	sed -n '/^```c$$/,/^```$$/p' docs/guide/channels.md | sed '1d; $$d' | diff - $(OUT)/take
	$(OUT)/examples/two_channels | diff examples/c/two_channels.stdout -
	@echo "check: two_channels"
	$(OUT)/examples/channels | diff examples/c/channels.stdout -
	@echo "check: channels"
	$(OUT)/examples/demo $(OUT)/demo.pcap | diff examples/c/demo.stdout -
	@bash scripts/demo.sh $(OUT)/examples/demo $(OUT)/demo.pcap >/dev/null
	@echo "check: demo"
	@command -v tshark >/dev/null || echo "skipped: demo.pcap in Wireshark: no tshark (apt install tshark)"
	@if command -v $(CXX) >/dev/null; then set -e; \
	$(CXX) -std=c++11 $(WARNINGS) $(CFLAGS) -Iinclude -x c++ examples/c/two_sockets.c -x none \
	    $(LIBRARY) -o $(OUT)/examples/in_cpp; \
	$(OUT)/examples/in_cpp | diff examples/c/two_sockets.stdout -; \
	$(CXX) -std=c++11 $(WARNINGS) $(CFLAGS) -Iinclude -x c++ examples/c/two_channels.c -x none \
	    $(LIBRARY) -o $(OUT)/examples/in_cpp; \
	$(OUT)/examples/in_cpp | diff examples/c/two_channels.stdout -; \
	$(CXX) -std=c++11 $(WARNINGS) $(CFLAGS) -Iinclude -x c++ examples/c/channels.c -x none \
	    $(LIBRARY) -o $(OUT)/examples/in_cpp; \
	$(OUT)/examples/in_cpp | diff examples/c/channels.stdout -; \
	$(CXX) -std=c++11 $(WARNINGS) $(CFLAGS) -Iinclude -x c++ examples/c/demo.c examples/c/trace.c \
	    -x none $(LIBRARY) -o $(OUT)/examples/in_cpp; \
	$(OUT)/examples/in_cpp $(OUT)/demo.pcap | diff examples/c/demo.stdout -; echo "check: examples in C++"; \
	else echo "skipped: examples in C++: no $(CXX) (apt install g++)"; fi
	timeout 120 $(OUT)/examples/file_transfer 2>/dev/null
	timeout 120 $(OUT)/examples/file_transfer --loss 20 --pcap $(OUT)/file_transfer.pcap 2>/dev/null
	@echo "check: file_transfer"
	timeout 120 bash scripts/try-server.sh $(OUT)/examples
	@echo "check: server and load"
	@$(MAKE) -s check-small-restart

# Restarts of the server of examples/c, by processes and by a store.
RESTARTED = $(OUT)/examples/server $(OUT)/examples/load
check-restart: $(RESTARTED)
	@bash scripts/check-restart.sh $(OUT)/examples 20
	@bash scripts/check-restart.sh --store $(OUT)/examples 4

check-small-restart: $(RESTARTED)
	EVERY=0.2 timeout 120 bash scripts/check-restart.sh $(OUT)/examples 5 20

# A caller finds both libraries where they were installed, also in a folder of the machine's kind, and where
# what was packed has been unpacked elsewhere. What was installed can be removed.
STAGE = $(abspath $(OUT)/stage)
STAGED = DESTDIR=$(STAGE) LIBDIR=$(PREFIX)/lib/x86_64-linux-gnu
FOUND = CC='$(CC)' bash scripts/try-installed.sh
check-install: all
	rm -rf $(STAGE)
	$(MAKE) -s install $(STAGED)
	$(FOUND) $(NAME) $(VERSION) $(STAGE)$(PREFIX) lib/x86_64-linux-gnu
	$(MAKE) -s uninstall $(STAGED)
	find $(STAGE) -not -type d | diff /dev/null -
	@echo "check: installed, used and removed"

check-dist: dist
	@set -e; folder=$$(mktemp -d); trap 'rm -rf "$$folder"' EXIT; \
	tar -C "$$folder" -xzf $(OUT)/$(DIST).tar.gz; \
	(cd "$$folder/$(DIST)" && grep -E '^[0-9a-f]{64}  ' VERDICT | sha256sum -c --quiet); \
	bash scripts/links.sh "$$folder/$(DIST)"; \
	$(FOUND) $(NAME) $(VERSION) "$$folder/$(DIST)" lib; echo "check: $(OUT)/$(DIST).tar.gz"

# Leaks count. A child ends by _exit, so what can still be reached there doesn't.
VALGRIND = valgrind -q --leak-check=full --errors-for-leak-kinds=definite,possible \
    --error-exitcode=9
check-valgrind: $(TESTS:%=$(OUT)/tests/%) $(EXAMPLES:%=$(OUT)/examples/%)
	@if command -v valgrind >/dev/null; then set -e; \
	for it in $(TESTS:%=$(OUT)/tests/%) $(OUT)/examples/two_sockets $(OUT)/examples/two_channels \
	    $(OUT)/examples/channels $(OUT)/examples/demo; \
	do echo "check: valgrind $$it"; $(VALGRIND) $$it >/dev/null; done; \
	echo "check: helgrind $(OUT)/tests/threads"; \
	valgrind -q --tool=helgrind --error-exitcode=9 $(OUT)/tests/threads >/dev/null; \
	echo "check: valgrind $(OUT)/examples/file_transfer"; timeout 300 $(VALGRIND) \
	    --trace-children=yes $(OUT)/examples/file_transfer --loss 20 include/dcsctp.h >/dev/null; \
	echo "check: valgrind $(OUT)/examples/server"; \
	timeout 300 bash scripts/try-server.sh $(OUT)/examples $(VALGRIND) --trace-children=yes; \
	COMMAND='$(VALGRIND) --trace-children=yes' timeout 300 bash scripts/check-restart.sh $(OUT)/examples 2 10; \
	else echo "skipped: all under valgrind: no valgrind (apt install valgrind)"; fi

# (that of threads can't see that the ends of a channel that was inherited belong together)
SANITIZE = -fsanitize=address,undefined -fno-sanitize-recover=all
check-sanitizers: $(LIBRARY)
	@mkdir -p $(OUT)/sanitize
	@if echo 'int main(void) { return 0; }' | $(CC) $(SANITIZE) -x c - \
	    -o $(OUT)/sanitize/try 2>/dev/null && $(OUT)/sanitize/try; \
	then echo "check: $(SANITIZE)"; $(MAKE) -s OUT=$(OUT)/sanitize LIBRARY=$(LIBRARY) \
	    CFLAGS='-O1 -g $(SANITIZE)' check-tests check-examples; \
	else echo "skipped: all under sanitizers: $(CC) has none (apt install gcc)"; fi
	@if echo 'int main(void) { return 0; }' | $(CC) -fsanitize=thread -x c - -o $(OUT)/sanitize/try 2>/dev/null && \
	    $(OUT)/sanitize/try; \
	then echo "check: the server, -fsanitize=thread"; echo race:channel_open >$(OUT)/sanitize/known; \
	    TSAN_OPTIONS=suppressions=$(abspath $(OUT))/sanitize/known $(MAKE) -s OUT=$(OUT)/sanitize/thread \
	    LIBRARY=$(LIBRARY) CFLAGS='-O1 -g -fsanitize=thread' check-small-restart; \
	else echo "skipped: the server, -fsanitize=thread: $(CC) has none (apt install gcc)"; fi

# What is packed is enough for each binding.
check-bindings: dist
	CXX='$(CXX)' bash scripts/bindings.sh $(OUT)/$(DIST).tar.gz $(NAME)

# WebRTC's interface of a socket, over the library and over WebRTC's own sockets.
check-webrtc: $(LIBRARY)
	@CXX='$(CXX)' bash scripts/check-webrtc.sh $(LIBRARY) $(OUT)/webrtc

# C writes lines of packets in which bytes were changed, and Rust must write the same.
check-rust: $(LIBRARY) $(OUT)/tests/trace
	@$(OUT)/tests/trace 20000 $(OUT)/trace.txt >/dev/null
	@if command -v cargo >/dev/null; then set -e; cd examples/rust; \
	export DCSCTP_LIB_DIR=$(abspath $(OUT)) DCSCTP_LIB_NAME=$(NAME) \
	    CARGO_TARGET_DIR=$(abspath $(OUT)/cargo); \
	TRACE_ROWS=$(abspath $(OUT)/trace.txt) timeout 300 cargo test --offline --quiet \
	    --manifest-path ../../bindings/rust/Cargo.toml --package dcsctp-socket --test trace -- --include-ignored; \
	echo "check: lines of packets by C and by Rust"; \
	timeout 120 cargo run --offline --quiet --release 2>/dev/null; \
	timeout 120 cargo run --offline --quiet --release -- --loss 20 2>/dev/null; echo "check: examples/rust"; \
	else echo "skipped: examples/rust, lines of packets in Rust: no cargo (apt install cargo)"; fi

check-browser: $(SHARED)
	bash scripts/browser.sh $(SHARED) $(OUT)/browser

# Other SCTPs, with a browser's habits, and lost packets.
check-peers: $(LIBRARY) $(SHARED)
	CC='$(CC)' bash scripts/check-peers.sh $(SHARED) $(OUT)/peers

# What is typed on a page in one's own browser comes back.
chat: $(SHARED)
	@$(AIORTC_PYTHON) -c 'import aiortc' 2>/dev/null || { echo "chat: no aiortc (apt install python3-aiortc)"; exit 1; }
	@DCSCTP_LIBRARY=$(abspath $(SHARED)) PYTHONPATH=bindings/python PYTHONDONTWRITEBYTECODE=1 \
	    $(AIORTC_PYTHON) examples/browser/chat.py

# Programs for usrsctp, unedited. OUT/usrsctp gets libusrsctp.so.2 and libusrsctp.a.
check-usrsctp: $(LIBRARY)
	CC='$(CC)' LD='$(LD)' OBJCOPY='$(OBJCOPY)' NM='$(NM)' bash scripts/check-usrsctp.sh $(LIBRARY) $(OUT)/usrsctp

check-janus: $(LIBRARY)
	CC='$(CC)' LD='$(LD)' OBJCOPY='$(OBJCOPY)' bash scripts/check-janus.sh $(LIBRARY) $(OUT)/usrsctp

# Any calls, by libFuzzer. out/fuzz keeps its inputs.
MINUTES ?= 5
fuzz: $(LIBRARY)
	@bash scripts/fuzz.sh $(LIBRARY) out/fuzz $(MINUTES)

# Instructions of what is proved, else of the same without proofs and without checks.
FAST = out/fast/libdcsctp_c-unproved.a
FAST_BENCH = out/fast/dcsctp_bench
PROVED_BENCH = $(wildcard crates/dcsctp_bench/out/dcsctp_bench)
$(FAST): $(SOURCES) crates.txt scripts/unproved.sh
	CHECKS=no KIT=$(KIT) bash scripts/unproved.sh library $@
$(FAST_BENCH): $(SOURCES) crates.txt scripts/unproved.sh
	CHECKS=no KIT=$(KIT) bash scripts/unproved.sh program dcsctp_bench $@
bench: $(if $(MARK),$(FAST) $(FAST_BENCH),$(LIBRARY) $(or $(PROVED_BENCH),$(FAST_BENCH)))
	@$(if $(MARK),$(MAKE) -s --no-print-directory ARCHIVE=$(FAST) OUT=out/fast out/fast/libdcsctp-unproved.a)
	@bash scripts/bench.sh $(filter %/dcsctp_bench,$^) $(if $(MARK),out/fast,$(OUT))

# Messages a second of the server on 1, 2 and 4 cores, by the same builds, and what it costs to steer a packet.
$(OUT)/tests/steering: examples/c/server_port.c examples/c/server_note.c examples/c/server.h
bench-server: $(if $(MARK),$(FAST),$(OUT)/tests/steering $(RESTARTED))
	@$(if $(MARK),$(MAKE) -s --no-print-directory ARCHIVE=$(FAST) OUT=out/fast bench-server-programs)
	@bash scripts/bench-server.sh $(if $(MARK),out/fast,$(OUT))/examples
	@$(if $(MARK),out/fast,$(OUT))/tests/steering

bench-server-programs: $(OUT)/tests/steering $(RESTARTED)

# (dist and install write the same files)
.NOTPARALLEL:
.PHONY: FORCE help demo chat test prove unproved all no-library examples c-programs reference doc install uninstall \
    dist deb wheel crate clean check check-header check-symbols check-tests \
    check-cpp check-cffi check-examples check-install check-dist check-valgrind check-sanitizers \
    check-bindings check-webrtc check-rust check-browser check-peers check-usrsctp check-janus check-restart check-small-restart fuzz \
    bench bench-server bench-server-programs
