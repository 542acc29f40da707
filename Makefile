.PHONY: packages test edits check build demo install uninstall dist package traces commands estimate fleet no-thread embed windows guests host fuzz tenants soak hints bench bench-v3

# The gate is these three commands. They say how far they are and what failed, and leave the times of their steps at out/gate.tsv. On
# a computer that has run none of it all is done from nothing.

# Every proof, every test, each program, and the runs of the proved program.
test:
	tools/gate.py test

# The wrong bodies that the prover must refuse, tried over what `make test` proved: those that are new or stand on something that changed,
# and a tenth of the others. With ALL=1 all of them.
edits:
	tools/gate.py edits $(if $(ALL),--all)

# The packages of Debian that `make check` needs, installed by apt-get (root).
packages:
	tools/gate.py packages

# What isn't proved of the product, built and run over the libraries that `make test` proved: all of C, C++, Rust and packaging.
check:
	tools/gate.py check

# The processor level that `make build` and `make embed` build for: x86-64-v2, which runs everywhere, or x86-64-v3 (AVX2).
CPU = x86-64-v2
SUFFIX = $(patsubst -v2,,$(patsubst x86-64-%,-%,$(CPU)))
# (Rust links a library by its name alone, so that the one for x86-64-v3 has a folder of its own)
FOLDER = $(patsubst -%,%/,$(SUFFIX))

# The proved program, left at out/pageshare, or for x86-64-v3 at out/pageshare-v3. What a gate on this computer has proved of the
# same files is taken from it, and what is proved here is kept for it.
build: out/pageshare$(SUFFIX)

SOURCES = $(shell find crates -path '*/out' -prune -o -type f -print) crates.txt

out/pageshare: $(SOURCES)
	tools/build.py pageshare $@

out/pageshare-v3: $(SOURCES)
	tools/build.py pageshare $@ --cpu x86-64-v3

# The program and the library for both levels, and the host with the library that monitors preload and its units, with man pages,
# completions, headers and documents, below DESTDIR and PREFIX; `make uninstall` with the same words removes them. LIBDIR is the
# libraries' folder below PREFIX. docs/INSTALL.md lists all.
PREFIX = /usr/local
LIBDIR = lib
HOST_PRODUCTS = out/host/pageshare-host out/host/libpageshare-window.so
PRODUCTS = out/pageshare out/pageshare-v3 out/libpageshare.a out/v3/libpageshare.a $(HOST_PRODUCTS)
install: $(PRODUCTS)
	packaging/stage.py out/stage --libdir $(LIBDIR)
	packaging/install.sh --from=out/stage --prefix=$(PREFIX) --destdir=$(DESTDIR)
uninstall:
	packaging/install.sh --uninstall --prefix=$(PREFIX) --destdir=$(DESTDIR)

# A tarball and two Debian packages of the same, with their sums, in out/dist; `make package` tries them where nothing else is.
dist: $(PRODUCTS)
	packaging/dist.py out/dist
package: dist
	checks/package.py out/dist

# The program that plays traces of windows (docs/FORMATS.md).
out/window_trace: $(SOURCES)
	tools/build.py window_trace $@

# A first look: two guests' scans meet, a thread for each; and what sharing would reclaim of two images.
demo:
	@examples/first_look.py out/demo

# What follows is run by itself. docs/TESTING.md says which of it the gate runs as well, shortened or whole.

# Status, standard output and standard error of each command, on texts, ends and words of each kind.
commands: out/pageshare
	checks/commands.py

# Small traces of windows, right and wrong ones, played by the proved program.
traces: out/window_trace
	checks/traces.py

# What `estimate` prints of 1,000 random images, beside a count by hashes in Python (COUNT and SEED may be given).
estimate: out/pageshare
	checks/estimate.py $(or $(COUNT),1000) $(SEED)

# The numbers of fleets by `fleet`, by Dask's distributed engine and by SQL, beside a plain count in Python, and the
# memory of a live process by `digest` (SEED may be given). What this computer has no packages for is skipped, and reported.
fleet: out/pageshare
	checks/fleet.py $(SEED)
	checks/live.py

# Where the system refuses to start a thread, a run, a script and a hashing of many pages answer so and end.
no-thread: out/page_bench out/pageshare
	checks/no_thread.sh out

out/page_bench: $(SOURCES)
	tools/build.py page_bench $@

out/page_bench-v3: $(SOURCES)
	tools/build.py page_bench $@ --cpu x86-64-v3

# 100,000 broken texts, each of which must get its output or one fault line (COUNT and SEED may be given).
fuzz: out/pageshare
	checks/fuzz.py $(or $(COUNT),100000) $(SEED)

# 1,000 random journals of two tenants, with and without the second one's entries (COUNT and SEED may be given).
tenants: out/pageshare
	checks/tenants.py $(or $(COUNT),1000) $(SEED)

# Random scripts through threads, their journals replayed, for ten minutes (SECONDS and SEED may be given).
soak: out/pageshare
	checks/soak.py $(or $(SECONDS),600) $(SEED)

# A replay's time grows with the number of its hints and no faster. Nothing else may run meanwhile.
hints: out/pageshare
	benches/hints.py

# The proved programs beside plain Rust, in one table; status 1 where a ratio is above its goal. CRATES may name
# a folder with the sources of the opponents' crates. Builds for x86-64-v3 that are in out/ (`make bench-v3` makes them) are timed
# as well, beside opponents built for it. Nothing else may run meanwhile.
bench: out/pageshare out/page_bench
	benches/bench.py --table out/bench.tsv $(if $(CRATES),--crates $(CRATES))
	benches/plots.py out/bench.tsv out

bench-v3: out/pageshare-v3 out/page_bench-v3 bench

# The library for C and Rust, left at out/libpageshare.a, or for x86-64-v3 at out/v3/libpageshare.a, with its examples and tests; with
# FULL=1 also 4,294,967,295 requests, in about a minute. What this computer has no program for is skipped, and reported.
embed: out/$(FOLDER)libpageshare.a
	checks/embed.sh $<

# Windows, through which guests' idle pages are lent (docs/MONITOR.md), by programs of threads, each stress for SECONDS
# (10) at most. What this computer has no userfaultfd, sanitizer or right for is skipped, and reported.
windows: out/libpageshare.a out/libpageshare_window.a out/window_trace
	checks/windows.py out/libpageshare.a $(or $(SECONDS),10)

# Guests under KVM whose memory the library shares (docs/MONITOR.md), for SECONDS (30) each, with KSM=1 under the
# kernel's KSM as well, and with KERNEL=bzImage Linux as well. What this computer has no KVM or userfaultfd for is skipped, and reported.
guests: out/libpageshare.a out/libpageshare_window.a out/pageshare out/window_trace
	checks/guests.py out/libpageshare.a $(or $(SECONDS),30)

# The library, static and shared: what is proved, and lib/src/library.c.
LIBRARY = lib/include/pageshare.h $(wildcard lib/src/*)
out/libpageshare.a: LEVEL = 2
out/v3/libpageshare.a: LEVEL = 3
out/libpageshare.a out/v3/libpageshare.a: %/libpageshare.a: %/proved.a $(LIBRARY)
	lib/src/make.sh $< $(LEVEL) $(@D)

out/proved.a: $(SOURCES)
	tools/build.py pageshare_c $@
out/v3/proved.a: $(SOURCES)
	tools/build.py pageshare_c $@ --cpu x86-64-v3

# A host for processes of virtual machine monitors (docs/HOST.md), and the library that is preloaded into them.
# `make host CHECK=1` (root) runs checks/host.py and benches/host.py over them, and FIGURE=1 draws what 1 to 8 guests share. INSTALL=1
# gets the Debian packages that they need.
host: $(HOST_PRODUCTS)
	$(if $(CHECK),checks/host.py && benches/host.py)
	$(if $(FIGURE),benches/host.py figure)

# (HOST_LIBRARY and WINDOW_LIBRARY name other libraries than the proved ones)
HOST_LIBRARY = out/libpageshare_host.a
WINDOW_LIBRARY = out/libpageshare_window.a
HOST_FLAGS = -std=c11 -O2 -g -Wall -Wextra -Wconversion -Werror -pthread -Ilib/include -Iwindow -Ihost $(CFLAGS)
HOST_LINK = -Wl,--wrap=memset
HOST_SOURCES = $(wildcard host/*.c host/daemon/*.c host/check/*.c) window/lines.c window/lender/bus.c
WINDOW_SOURCES = $(wildcard host/*.c host/preload/*.c window/*.c)
HOST_HEADERS = $(wildcard host/*.h host/*/*.h window/*.h window/lender/bus.h lib/include/*.h)

out/host/pageshare-host: $(HOST_SOURCES) $(HOST_HEADERS) $(HOST_LIBRARY)
	@mkdir -p $(@D)
	$(CC) $(HOST_FLAGS) $(HOST_LINK) -o $@ $(HOST_SOURCES) $(HOST_LIBRARY)

# (so that its own calls of `syscall` aren't taken for the monitor's: host/preload/raw_calls.c)
WINDOW_LINK = -Wl,--wrap=syscall -Wl,-soname,$(@F) -Wl,-z,relro,-z,now -Wl,--exclude-libs,ALL
out/host/libpageshare-window.so: $(WINDOW_SOURCES) $(HOST_HEADERS) $(WINDOW_LIBRARY)
	@mkdir -p $(@D)
	$(CC) $(HOST_FLAGS) -fPIC -shared -fvisibility=hidden $(WINDOW_LINK) -o $@ $(WINDOW_SOURCES) $(WINDOW_LIBRARY) -ldl

out/proved_window.a: $(SOURCES)
	tools/build.py pageshare_window_c $@
out/proved_host.a: $(SOURCES)
	tools/build.py pageshare_host_c $@

# (with the kit's calls of malloc, realloc and free, of which a program may have its own)
out/libpageshare_window.a out/libpageshare_host.a: out/libpageshare_%.a: out/proved_%.a
	rm -f $@
	printf 'create $@\naddlib $<\naddlib %s/c/liblibc_c.a\nsave\nend\n' "$$(dirname "$$(rt doc)")" | ar -M
