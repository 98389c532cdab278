# `make run` shows the main job, `make test` is the gate.
# `make sweep FIELD=..`, `make card`, `make reader`, `make front`, `make type_b`, `make trace` prove a program, then run it on a file of samples/.
# `make remember` shows both sweeps of one field side by side; `make frames` counts their frames over many fields.
# `make speed` measures the core against plain Rust of our own (docs/SPEED.md).
# `make lib` proves the library for C and archives it, `make examples` compiles the programs of examples/ with it and runs them,
# `make fuzz CALLS=.. SEED=..` holds it to the independent model through its boundary.
# `make vectors` writes the programs' scripts and expected output anew, from the independent model.
.PHONY: run sweep remember frames card reader front type_b trace speed lib examples fuzz test behind toolchain vectors vectors-check model-check pages impostors

CARGO = --quiet --release --offline --locked --manifest-path model/Cargo.toml
MODEL = cargo run $(CARGO) --
FIELD = samples/lockers.txt
MAKER = samples/maker.txt
TRACE = samples/trace.log
SWEEP = crates/bench_sweep/out/bench_sweep
ARCHIVE = crates/lacrivosum/out/liblacrivosum.a
LINKED = rustc --edition 2021 -D warnings -C opt-level=3 -L $(dir $(ARCHIVE)) -l static=lacrivosum
CALLS = 20000
SEED = 1
JOBS = 4

toolchain:
	@command -v rt >/dev/null 2>&1 || { echo "the Rattle toolchain is missing: no command 'rt' on the PATH"; exit 1; }
	@mkdir -p target

# rt try compiles the program with checks, runs it and proves nothing. What it wrote is held to the stored output.
run: toolchain
	@cd crates/bench_sweep && rt try <stdin >$(CURDIR)/target/run.txt 2>$(CURDIR)/target/said.txt || { cat $(CURDIR)/target/said.txt; exit 1; }
	@cmp target/run.txt crates/bench_sweep/stdout
	@cat crates/bench_sweep/stdin target/run.txt
	@echo
	@echo "The program was compiled with checks and run, and wrote just this, which is what is stored. That proves nothing yet."
	@echo "'make sweep' proves the program and what it stands on, then sweeps $(FIELD). 'make test' proves everything."

# Proves the program $(1) and what it stands on and builds it, a line for each crate that is proved anew; then shows by the command $(3) the file $(2) and
# what the program wrote on it.
define proved-run
	@[ -f "$(2)" ] || { echo "there is no file $(2)"; exit 1; }
	@echo "proving $(1) and what it stands on; the first time this takes some minutes"
	@{ cd crates/$(1) && rt run <"$(abspath $(2))" 2>&1 >$(CURDIR)/target/run.txt; echo "ended $$?"; } | { while IFS= read -r line; do \
	    printf '%s\n' "$$line" >&3; case $$line in \
	    "crate "*) name=$${line#crate }; name=$${name%%:*} ;; \
	    "logic=proved "*) echo "$$name proved: $$line" | sed 's/ \(sum\|target\)=.*//' ;; \
	    "ended 0") exit 0 ;; \
	    "ended "*) echo "target/said.txt has what the prover said"; exit 1 ;; \
	esac; done; } 3>target/said.txt
	@$(3) "$(2)"
	@cat target/run.txt
endef

sweep: toolchain
	$(call proved-run,bench_sweep,$(FIELD),cat)

# The program bench_sweep, proved and built.
define proved-sweep
	@echo "proving bench_sweep and what it stands on; the first time this takes some minutes"
	@cd crates/bench_sweep && rt run </dev/null >$(CURDIR)/target/said.txt 2>&1 || { echo "bench_sweep is not proved: target/said.txt has what the prover said"; exit 1; }
endef

# Both sweeps of one field, side by side: the plain one on the left, the one that remembers on the right.
remember: toolchain
	$(proved-sweep)
	@$(SWEEP) <$(MAKER) >target/plain.txt
	@{ cat $(MAKER); echo remember; } | $(SWEEP) >target/remembers.txt
	@cat $(MAKER)
	@printf '%-76s%s\n' "the plain sweep" "the sweep that remembers"
	@for lines in '^[<>]' '^[fc]'; do \
	    grep "$$lines" target/plain.txt | cut -c1-74 >target/left.txt; grep "$$lines" target/remembers.txt | cut -c1-74 >target/right.txt; \
	    paste -d '|' target/left.txt target/right.txt | awk -F '|' '{ printf "%-76s%s\n", $$1, $$2 }'; \
	done

# Frames of both sweeps over fields drawn by a fixed generator: README's table.
frames: toolchain
	$(proved-sweep)
	@tools/frames $(SWEEP)

card: toolchain
	$(call proved-run,bench_card,samples/card.txt,cat)

reader: toolchain
	$(call proved-run,bench_reader,samples/reader.txt,cat)

front: toolchain
	$(call proved-run,bench_front,samples/front.txt,cat)

type_b: toolchain
	$(call proved-run,bench_type_b,samples/type_b.txt,cat)

# A log is bytes, so it is shown in hexadecimal.
trace: toolchain
	$(call proved-run,trace_check,$(TRACE),od -An -v -tx1)

# No part of the gate: a time is the machine's, and what else it does at that moment.
speed: toolchain
	@command -v rustc >/dev/null 2>&1 || { echo "there is no rustc: the programs that the core is measured against cannot be built"; exit 1; }
	@$(MAKE) --no-print-directory lib
	$(LINKED) speed/main.rs -o target/speed
	@target/speed
	@if command -v size >/dev/null 2>&1; then echo && echo "the archive, in bytes" && size $(ARCHIVE); fi

# The core's reader and card for C: $(ARCHIVE), to be linked with include/lacrivosum.h. rt lib would prove what it stands on one crate after the other;
# here some are proved side by side, the lowest first, each once.
lib: toolchain
	@echo "proving lacrivosum and what it stands on; the first time this takes some minutes"
	@for c in $$(sed -n 's/^lacrivosum staticlib://p' crates.txt) lacrivosum; do echo $$c; done | \
	    xargs -n 1 -P $(JOBS) sh -c 'cd crates/$$0 && { said=$$(rt lib 2>&1) || { printf "%s\n" "$$said"; exit 1; }; }'
	@ls -l $(ARCHIVE)

# The programs of examples/, in C and in Rust, compiled with all warnings as errors and run with the library.
examples: lib
	@if command -v gcc >/dev/null 2>&1; then for c in examples/*.c; do \
	    p=target/example-$$(basename $$c .c); \
	    gcc -std=c99 -Wall -Wextra -Werror -pedantic -Iinclude $$c $(ARCHIVE) -o $$p && echo "$$c:" && $$p || exit 1; done; \
	else echo "no gcc: the programs of examples/ in C are not compiled"; fi
	@if command -v rustc >/dev/null 2>&1; then \
	    $(LINKED) examples/talk.rs -o target/example-talk && echo "examples/talk.rs:" && target/example-talk || exit 1; \
	else echo "no rustc: the program of examples/ in Rust is not compiled"; fi

# The library for C against the model, call by call: drawn states, rows and lengths (fuzz/fuzz.rs); a part of them under valgrind.
fuzz: lib
	@if command -v rustc >/dev/null 2>&1; then $(LINKED) fuzz/fuzz.rs -o target/fuzz && target/fuzz $(CALLS) $(SEED) || exit 1; \
	    if command -v valgrind >/dev/null 2>&1; then echo "under valgrind:" && valgrind -q --error-exitcode=9 target/fuzz 2000 $(SEED) || exit 1; \
	    else echo "no valgrind: memory outside of what is lent is not watched"; fi; \
	else echo "no rustc: the library for C is not held to the model"; fi

vectors:
	$(MODEL) write crates

vectors-check:
	@if command -v cargo >/dev/null 2>&1; then $(MODEL) check crates; \
	else echo "no cargo: the stored vectors are not compared with the model"; fi

# The model's own tests, and whether the stored scripts reach every place that it counts.
model-check:
	@if command -v cargo >/dev/null 2>&1; then cargo test $(CARGO) && { said=$$($(MODEL) coverage) || { printf '%s\n' "$$said"; exit 1; }; \
	printf '%s\n' "$$said" | tail -n 2; }; \
	else echo "no cargo: the model's own tests are not run"; fi

# docs/RULES.md names only what the code declares; contracts cite definitions only; the header for C declares what the library exports.
pages:
	@tools/rules-check
	@tools/contract-check
	@tools/header-check

# Every must-fail edit, those of crates/*/impostors too, in a copy of the repository apart from it. This takes hours.
impostors: toolchain
	@copy=$$(mktemp -d) && git clone --quiet . "$$copy" && cd "$$copy" && \
	for d in crates/*/impostors; do mkdir -p "$${d%impostors}must-fail" && cp "$$d"/*.edit "$${d%impostors}must-fail/" || exit 1; done && \
	rt must-fail; status=$$?; rm -rf "$$copy"; exit $$status

# What the gate runs behind rt ci. The library is proved once more, since rt ci keeps no archive: in a fresh checkout from nothing, but for what other checkouts
# of this machine have checked.
behind: pages vectors-check model-check examples fuzz

# The gate.
test: toolchain
	@.ci/run
