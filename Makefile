# `make` shows the schedule of the shipped example within about a minute, by the program built without its proofs;
# then it proves and builds the program, with a line a library, leaves it as ./irs and shows the same schedule.
#
#   make irs          the second half alone: the proved program
#   make test         the gate (rt ci): every proof, test, must-fail edit and stored run; what it proved, the others take
#   make try          the program as it is, unproved, on files of yours: DOC=FILE FIX=FILE CALS='FILE FILE',
#                     COMMAND=NAME, or ARGS='any words' (tools/try says more)
#   make unproved     the program and the library for C without their proofs, in build/unproved
#   make examples     the proved program on every example, and on those of docs/RULES.md; the pages' links and commands
#   make library      the proved library for C, and for the Python package
#   make bindings     tries the library through C, C++, Java and Python (bindings/install installs what it uses)
#   make desk         tries the page irs-desk in a real browser (bindings/install desk installs it)
#   make dist         the packages, in dist/; make install [PREFIX=..] [DESTDIR=..] installs
#   make try-dist     the packages, each in an empty root; make try-tools tries the tools
#   make faults       each allocation and each call on a file fails in turn
#   make fuzz         libFuzzer over the unproved library for a minute, or SECONDS=N
#   make hostile      the program on the largest and the worst inputs, and beside other readers of JSON and XML
#   make bench        counts what it takes
#
# Proving wants the kit's command `rt` and nothing else. The look, the tools and the bindings want Python and a
# C compiler too, and the counts valgrind.
.PHONY: all irs try unproved examples faults fuzz hostile bench library bindings desk dist try-dist try-tools
.PHONY: install test clean
# With CDPATH set, `cd crates/irs` could go elsewhere.
unexport CDPATH

all:
	@tools/look
	@$(MAKE) --no-print-directory irs
	@echo '    ./irs schedule examples/fixed_leg/terms.json -'
	@./irs schedule examples/fixed_leg/terms.json -

irs:
	@tools/version
	@tools/prove

try:
	@tools/try

unproved:
	@tools/unproved

examples: irs
	examples/compare
	tools/rules
	tools/shown
	tools/words --wrong
	tools/reading --check
	tools/rows --check

faults: irs
	tools/faults

fuzz:
	tools/fuzz $(SECONDS)

hostile: irs
	tools/hostile
	tools/json_beside
	tools/xml_beside

bench: irs
	tools/bench

library:
	@tools/version
	@tools/prove library

# With no proved library here, bindings/try takes the unproved one, and says so.
bindings:
	@tools/prove --take
	bindings/try

desk:
	bindings/desk_tests

dist: irs library
	tools/dist

try-dist:
	@tools/prove --take
	tools/try_dist

try-tools:
	tools/test_tools.py

install: irs library
	tools/install $(if $(PREFIX),--prefix '$(PREFIX)') $(if $(DESTDIR),--destdir '$(DESTDIR)')

test:
	@tools/gate

clean:
	rm -rf irs dist build crates/*/out bindings/libirs.a bindings/libirs.so bindings/python/irs/libirs.so
