# make demo    a container's day as a C program plays it from the text of its chart, and a picture of its chart (build/lifecycle.svg) where Graphviz is installed
# make test    proves every crate, tries every must-fail edit, runs the second program, the tests in C and every check of this repository
# make lib     build/libauttervil.a, the static library for C; so does make alone
# make install PREFIX=/..  header, library and auttervil.pc; make uninstall PREFIX=/.. takes them away
# make test-c  the tests in C alone
# make chart-a   plays chart A by the second program and prints its trace in words
# make bench   how long the library takes, beside the second program, an ordinary engine and where it is installed Qt 6 SCXML (docs/bench.md)
# make bench-host   an event as a host sends it, alone, and which wanted ratios are missed (OPTIONS=--strict: fails then); bench-qt installs Qt 6 SCXML first
#                   (Debian), bench-instructions counts instructions (bench-rounds-instructions those of a round alone), bench-worst measures the dearest calls by rows, bench-matching prints the table of matching alone, bench-reading that of reading texts
# make examples   writes the computed examples anew (crates/examples)
# make cases   writes what the programs over the crates read and print anew
# make expected   writes what the life cycle prints anew
CARGO = cargo build --quiet --offline
LINKED = --manifest-path linked/Cargo.toml --target-dir build/linked
BENCH = --release --manifest-path bench/Cargo.toml --target-dir build/bench --features linked

# For C programs.
LIB = build/libauttervil.a
PREFIX ?= /usr/local
DESTDIR ?=
PLACE = $(DESTDIR)$(PREFIX)
VERSION = $(shell sed -n 's/^\#define AUTTERVIL_VERSION "\(.*\)"/\1/p' include/auttervil.h)
LIFECYCLE = examples/lifecycle

.DEFAULT_GOAL := lib
.PHONY: test demo lib bench bench-matching bench-reading bench-host bench-worst bench-qt bench-instructions bench-rounds-instructions agree examples cases second linked clean lifecycle picture chart-a test-c expected absolute install uninstall

test:
	@bash tests/run

second:
	@$(CARGO) --release --manifest-path second/Cargo.toml --target-dir build/second

demo: lifecycle picture

chart-a: second
	@build/second/release/demo

lib: build/libauttervil.a

# Proved anew whenever code, contract or proof has changed.
build/libauttervil.a: crates.txt $(shell find crates -path '*/out' -prune -o \( -name '*.rt' -o -name '*.antt' \) -print)
	@bash prove

build/lifecycle: $(LIFECYCLE)/lifecycle.c $(LIFECYCLE)/text.h $(LIFECYCLE)/chart.h include/auttervil.h $(LIB)
	@$(CC) -std=c99 -O2 -Wall -Wextra -Iinclude $(LIFECYCLE)/lifecycle.c -o build/lifecycle $(LIB)

# A small init on signals and a timer.
build/init: examples/init/init.c include/auttervil.h $(LIB)
	@$(CC) -std=c99 -O2 -Wall -Wextra -Iinclude examples/init/init.c -o build/init $(LIB)

lifecycle: build/lifecycle
	@build/lifecycle $(LIFECYCLE)/lifecycle.scxml < $(LIFECYCLE)/day.txt

# The chart at noon, when a reload has been paused.
picture: build/lifecycle second
	@sed '/^resume/,$$d' $(LIFECYCLE)/day.txt | build/lifecycle --tables $(LIFECYCLE)/lifecycle.scxml | build/second/release/picture > build/lifecycle.dot
	@if command -v dot > /dev/null; then dot -Tsvg build/lifecycle.dot -o build/lifecycle.svg && echo 'The chart at noon: build/lifecycle.svg'; \
	else echo 'The chart at noon: build/lifecycle.dot (Graphviz, which is not installed, would make a picture of it)'; fi

# Writes what the example prints anew, for reading before it is committed.
expected: build/lifecycle
	@build/lifecycle $(LIFECYCLE)/lifecycle.scxml < $(LIFECYCLE)/day.txt > $(LIFECYCLE)/expected.txt

test-c:
	@bash tests/c/run

# auttervil.pc has the prefix in it, which would mean nothing from another directory.
absolute:
	@case '$(PREFIX)' in /*) ;; *) echo 'PREFIX has to begin with /: $(PREFIX)'; exit 1;; esac

install: absolute $(LIB)
	install -d '$(PLACE)/include' '$(PLACE)/lib/pkgconfig'
	install -m 644 include/auttervil.h '$(PLACE)/include/auttervil.h'
	install -m 644 '$(LIB)' '$(PLACE)/lib/libauttervil.a'
	sed -e 's|@PREFIX@|$(PREFIX)|' -e 's|@VERSION@|$(VERSION)|' auttervil.pc.in > '$(PLACE)/lib/pkgconfig/auttervil.pc'
	chmod 644 '$(PLACE)/lib/pkgconfig/auttervil.pc'

uninstall: absolute
	rm -f '$(PLACE)/include/auttervil.h' '$(PLACE)/lib/libauttervil.a' '$(PLACE)/lib/pkgconfig/auttervil.pc'

linked: lib
	@$(CARGO) --release $(LINKED) --bin linked

# Two ways to match four descriptors, for the benchmark alone.
build/libmatch_bench.a: crates.txt $(shell find crates/match_bench crates/onepass crates/names crates/places -path '*/out' -prune -o \( -name '*.rt' -o -name '*.antt' \) -print)
	@bash prove match_bench

bench-matching: lib build/libmatch_bench.a
	@AUTTERVIL_LIBRARY=$(CURDIR)/build $(CARGO) $(BENCH) --bin matches
	@build/bench/release/matches

bench: bench-matching
	@$(CARGO) --profile measured $(LINKED) --bin bench
	@build/linked/measured/bench
	@$(MAKE) --no-print-directory bench-reading
	@AUTTERVIL_LIBRARY=$(CURDIR)/build $(CARGO) $(BENCH) --bin rounds
	@mkdir -p build/rounds
	@build/bench/release/rounds build/rounds
	@$(MAKE) --no-print-directory bench-host bench-worst

# Texts of 1 to 32 KB, by the library and the second program.
bench-reading: lib
	@$(CARGO) --profile measured $(LINKED) --bin reading
	@build/linked/measured/reading $(OPTIONS)

# An event as a host sends it: the library, the engine of bench/, a switch, and Qt 6 SCXML if pkg-config knows it.
HOST = build/host
QT = $(shell pkg-config --exists Qt6Scxml 2> /dev/null && echo Qt6Scxml)
QT_CFLAGS = $(if $(QT),-DWITH_QT $(shell pkg-config --cflags $(QT)))
QT_LIBS = $(if $(QT),$(shell pkg-config --libs $(QT)))

$(HOST)/host: $(LIB) include/auttervil.h bench/host/host.cpp $(wildcard bench/host/*.hpp) $(shell find bench/src bench/host/engine -name '*.rs')
	@$(CARGO) --release --manifest-path bench/host/engine/Cargo.toml --target-dir $(HOST)/engine
	@$(CXX) -std=c++17 -O2 -Wall -Wextra -fPIC $(QT_CFLAGS) -Iinclude bench/host/host.cpp -o $@ $(QT_LIBS) $(HOST)/engine/release/libengine.a $(LIB)

bench-host: $(HOST)/host
	@$(HOST)/host $(OPTIONS)

# The dearest calls that we know of, by rows.
$(HOST)/worst: $(LIB) include/auttervil.h bench/host/worst.cpp $(wildcard bench/host/*.hpp)
	@mkdir -p $(HOST)
	@$(CXX) -std=c++17 -O2 -Wall -Wextra -Iinclude bench/host/worst.cpp -o $@ $(LIB)

bench-worst: $(HOST)/worst
	@$(HOST)/worst

# Built anew, so that it has Qt in it.
bench-qt:
	@pkg-config --exists Qt6Scxml || apt-get install --yes --no-install-recommends qt6-scxml-dev
	@rm -f $(HOST)/host
	@$(MAKE) --no-print-directory bench-host

# Rounds alone, for counting: it can be linked with the library and the header of another version.
$(HOST)/rounds: $(LIB) include/auttervil.h bench/host/rounds.cpp bench/host/charts.hpp
	@mkdir -p $(HOST)
	@$(CXX) -std=c++17 -O2 -Wall -Wextra -Iinclude bench/host/rounds.cpp -o $@ $(LIB)

bench-rounds-instructions: $(HOST)/rounds
	@bench/host/instructions --rounds $(HOST)/rounds

bench-instructions: $(HOST)/host $(HOST)/worst $(HOST)/rounds
	@bench/host/instructions $(HOST)/host $(HOST)/worst $(HOST)/rounds

agree: lib
	@AUTTERVIL_LIBRARY=$(CURDIR)/build $(CARGO) $(BENCH) --bin agree

examples: second
	@build/second/release/write-examples crates/examples/specs

cases: second
	@build/second/release/write-cases crates

clean:
	rm -rf build crates/*/out
