# run: the program on document 01's example. test: the gate. wrong-programs: all of them, and how each is refused. bench: the figures of docs/PERFORMANCE.md.
# install: archives, headers and ffn.pc under PREFIX, for C builds.
.PHONY: run test wrong-programs bench install
# Both archives stand on the same libraries.
.NOTPARALLEL:

PREFIX ?= /usr/local
FFN_LIB_DIR ?= target/staticlib
prefix = $(abspath $(PREFIX))
place = $(DESTDIR)$(prefix)
need_rt = command -v rt >/dev/null || { echo "missing: rt, the Rattle kit's command"; exit 1; }

run:
	@$(need_rt)
	@test -x crates/ffn/out/ffn || echo "proving and building the program first: some minutes" >&2
	@tests/build ffn
	@tests/x86-64 crates/ffn/out/ffn <crates/ffn/stdin

test:
	@.ci/run

wrong-programs:
	@$(need_rt)
	@mkdir -p target
	@rt must-fail 2>&1 | tee target/wrong-programs.log | tests/wrong-programs

bench:
	@. tests/processor.sh; is_x86_64 || { echo "not measured: the library is x86-64 code, and a time on $$machine would say nothing" >&2; exit 1; }
	@$(need_rt)
	@command -v cargo >/dev/null || { echo "missing: cargo, Debian's Rust"; exit 1; }
	@tests/build ffn_c radio_c
	@cd rust/bench && cargo run --release --offline --quiet

install: $(FFN_LIB_DIR)/libffn_c.a $(FFN_LIB_DIR)/libradio_c.a
	@mkdir -p $(place)/lib/pkgconfig $(place)/include
	@install -m 644 $^ $(place)/lib
	@install -m 644 include/ffn.h include/ffn_radio.h $(place)/include
	@sed 's|@PREFIX@|$(prefix)|' include/ffn.pc.in >$(place)/lib/pkgconfig/ffn.pc
	@chmod 644 $(place)/lib/pkgconfig/ffn.pc

target/staticlib/lib%.a: crates.txt $(shell find crates -name out -prune -o \( -name '*.rt' -o -name '*.antt' \) -print)
	@$(need_rt)
	@echo "proving and building lib$*.a first: some minutes" >&2
	@tests/build $*
