# The lines that begin with ## are what `make help` prints; every target that people call has one.

.PHONY: help try answer preview rules accread accfix accclass library host build install dist test gate-steps gate-before gate-behind needs samples keys \
	sentences pictures programs commands c-side reference asked compared edits-found broken-rules edits bench bench-spools stack stack-kept stack-bound compare sanitize

## make help                  this list; bare `make` is the same
help:
	@sed -n 's/^## \{0,1\}//p' Makefile

##
## A spool read. SPOOL is examples/floor.spool where none is named; blanks may stand in a name.

# The recipes take it from the environment, so that the shell takes no character of it for its own.
try answer preview: export SPOOL = examples/floor.spool

# Before any long work: the file can be read, and programs for x86-64 run here.
READY = tools/answer --readable -- "$$SPOOL" && tools/x86 need run

## make try SPOOL=FILE        its answer in a sentence, by a reader that is built without proof in half a minute: it proves nothing
try:
	@$(READY)
	@tools/unproved accclass
	@tools/answer --unproved -- "$$SPOOL"

## make answer SPOOL=FILE     the same by the proved reader: ten to fifteen minutes of proof the first time, then at once. It fails where the
##                            spool is refused (the status of tools/answer is 1 then, that of make is always 2)
answer:
	@$(READY)
	@tools/prove accclass
	@tools/answer -- "$$SPOOL"

## make preview SPOOL=FILE    its picture, from the records of the proved reader: target/preview/NAME.svg
preview:
	@$(READY)
	@tools/prove accclass
	@mkdir -p target/preview
	@to="target/preview/$$(basename -- "$$SPOOL" .spool).svg"; \
	tools/preview "$$SPOOL" >"$$to.part" || { status=$$?; rm -f -- "$$to.part"; exit $$status; }; \
	mv -- "$$to.part" "$$to" && echo "$$to"

##
## Proofs and programs

## make rules                 prove the definitions of document 01 and compute its sample rulings: a quarter of a minute
rules:
	cd crates/rules && rt check

## make accread               prove the reader and build target/bin/accread: ten to fifteen minutes
accread:
	tools/prove accread

## make accfix                prove the rewriter and build target/bin/accfix
accfix:
	tools/prove accfix

## make accclass              prove the reader for any class and build target/bin/accclass
accclass:
	tools/prove accclass

## make library               prove the C side and build target/libploverdell.a, for include/ploverdell.h
# rt calls it crates/host_c/out/libhost_c.a, by its crate.
library:
	@tools/prove host_c
	cp target/libhost_c.a target/libploverdell.a

## make host                  the same, and target/host (examples/host.c)
host:
	@tools/x86 need cc
	@$(MAKE) --no-print-directory library
	tools/x86 cc -O2 -Iinclude -o target/host examples/host.c target/libploverdell.a

##
## For a machine without the kit

## make build                 prove and build all that is installed: the programs and the library
build:
	@tools/prove accread accfix accclass
	@$(MAKE) --no-print-directory library

## make install PREFIX=FOLDER DESTDIR=FOLDER   put what `make build` built below PREFIX (/usr/local): programs, library, header, pkg-config file,
##                            manual pages, samples and tools
install: export PREFIX = /usr/local
install: export DESTDIR =
install:
	@tools/dist install "$$PREFIX" "$$DESTDIR"

## make dist                  target/dist/ploverdell-VERSION-x86_64.tar.gz: the same, checksums and the last line of the gate, which must have
##                            passed on these very files
dist:
	@tools/dist check
	@$(MAKE) --no-print-directory build
	@tools/dist archive

##
## Tests

## make test                  the gate: the tests that need no proof, every proof, must-fail edit and program (rt ci, which sees to the layout too),
##                            then the tests of what was proved
test:
	@tools/gate $(MAKE) --no-print-directory gate-steps

# The last line printed is that of rt ci.
gate-steps:
	@$(MAKE) --no-print-directory gate-before
	@tools/ci
	@$(MAKE) --no-print-directory gate-behind
	@tools/ci --last

gate-before: needs samples keys sentences pictures c-side reference programs commands asked edits-found

gate-behind: compared broken-rules stack-bound

# Before anything is tried: what the gate calls is there.
needs:
	@tools/need rt cargo "$${CC:-cc}"
	@tools/x86 need run

## make samples               the sample spools, their listed answers and the questions about them are what their scripts make: a second
samples:
	tools/make-samples --check
	tools/frame-samples --check

## make keys                  code, proofs and docs/KEYS.md that go by the tables' keys are what their scripts make of the definitions' rows: a second
keys:
	tools/make-keys --check
	tools/make-rules --check

## make sentences             tools/explain says what it must of the listed answers: seconds
sentences:
	tools/explain-test

## make pictures              tools/preview draws every listed sheet as its records say: seconds
pictures:
	tools/preview-test

## make programs              accread, accfix, accclass (built without proof) and the example host, on what fails too: under a minute
programs:
	tools/try-programs
	tools/try-host

## make commands              tools/answer and the other commands, by a reader built without proof; what dist and install hand on: under a minute
commands:
	tools/try-commands

## make c-side                header, example host and drivers compile without a warning, and the header's prototypes are the code's: seconds
c-side:
	tools/c-side

## make stack-bound           none of the three functions for C takes 1 KB of stack more than bench/STACK says, whatever the spool; no key is laid
##                            out in an array to be compared: the proved library is looked at
stack-bound: bench-spools
	@tools/x86 need run
	@$(MAKE) --no-print-directory library
	tools/stack --check $(STACK_SPOOLS)

## make reference             the tests of tests/reference, which answers the samples and vectors as they are listed: seconds
reference:
	tools/reference-test

## make asked                 the program asked, built without proof, answers samples, vectors and 20,000 questions of the reference, every number
##                            among their answers: a minute
asked:
	tools/frame-compared --unproved 20000 1997

## make compared              the same of the program as it was proved, by each of the two compilers that built it
compared:
	tools/frame-compared 20000 1997

## make edits-found           every edit of a wrong program still finds its lines, no two are the same, those that PROMISES names are there: a second
edits-found:
	tools/more-edits --check
	tools/promised

## make broken-rules          the theorems refuse wrong rules
broken-rules:
	tools/broken-rules

##
## Beside the gate

## make edits                 the wrong programs that the gate leaves out, tried and refused: about an hour where all is proved
edits:
	tools/more-edits

# The spools that the reader is timed on; the first is the mixed floor that the others are compared with.
TIMED = floor-60k floor-8k lines mixed-figures placed-symbols only-symbols only-long-names only-serials only-partners only-found \
	only-wires only-wire-serials only-circles only-turnless-circles only-layers only-comments only-long-comments only-empty-lines
TIMED_SPOOLS = $(TIMED:%=target/bench/%.spool)

bench-spools:
	tools/make-bench target/bench

## make bench                 ns per byte of splitting, of reading and of rewriting a spool, beside plain C (bench/FIGURES.md)
bench: bench-spools
	@tools/x86 need cc run
	@tools/prove linebench
	@$(MAKE) --no-print-directory library
	tools/x86 cc -O2 -o target/split bench/split.c target/liblinebench.a
	tools/x86 cc -O2 -Iinclude -o target/read bench/read.c bench/plain.c target/libploverdell.a
	@echo "x86-64 programs run here: $$(tools/x86 where)"
	tools/x86 run target/split
	tools/x86 run target/read $(TIMED_SPOOLS)

# What the stack is measured on.
STACK_SPOOLS = examples/*.spool $(TIMED_SPOOLS)

## make stack                 the stack of the check, the reader and the rewriter: the most it can be, what is measured, every function and array
stack: bench-spools
	@tools/x86 need run
	@$(MAKE) --no-print-directory library
	tools/stack $(STACK_SPOOLS)

## make stack-kept            the same, and bench/STACK written, which the gate goes by
stack-kept: bench-spools
	@tools/x86 need run
	@$(MAKE) --no-print-directory library
	tools/stack --write $(STACK_SPOOLS)

N = 100000
SEED = 1

## make compare N=100000 SEED=1   the library's answers beside those of tests/reference, on N questions; LIBRARY=FILE takes a built one
compare:
	@tools/x86 need cc run
	$(if $(LIBRARY),,@$(MAKE) --no-print-directory library)
	tools/compare $(N) $(SEED) $(LIBRARY)

## make sanitize              a thousand questions under AddressSanitizer, UndefinedBehaviorSanitizer and valgrind: about two minutes
sanitize:
	@$(MAKE) --no-print-directory library
	tools/sanitize 1000 $(SEED)
