.POSIX:
.PHONY: demo build test cases docs bench

RT = rt
FIRST = examples/first

# Runs the first example. Standard output has the answer lines alone.
demo:
	@if test -x bin/ddup; then \
		echo 'demo: by bin/ddup, as make build left it' >&2; \
		bin/ddup replay < $(FIRST)/script.json; \
	else \
		echo 'demo: by rt try, straight from the sources, which proves nothing' >&2; \
		cd crates/ddup && $(RT) try -- replay < ../../$(FIRST)/script.json; \
	fi

# Proves every crate, lowest first and over what earlier checks kept, and leaves the program as bin/ddup once its answers to the
# cases of examples/ are the right ones, and board_speed beside it.
build:
	$(RT) all check
	mkdir -p bin
	cd crates/ddup && $(RT) run -- replay < ../../$(FIRST)/script.json > ../../bin/answers.txt
	cmp bin/answers.txt $(FIRST)/answers.txt
	rm bin/answers.txt
	cp crates/ddup/out/ddup bin/ddup
	tools/run_cases bin/ddup
	cd crates/board_speed && $(RT) run -- check 5 100 > ../../bin/lines.txt
	cmp bin/lines.txt crates/board_speed/stdout
	rm bin/lines.txt
	cp crates/board_speed/out/board_speed bin/board_speed

# Proves from nothing each crate that it hasn't passed on this machine, tries the wrong bodies, and runs the tests and the programs.
test:
	.ci/run

# Puts the cases of examples/ into the stored run of ddup_cases, by which the gate runs them.
cases:
	tools/gather_cases > crates/ddup_cases/stdin
	tools/gather_cases --wanted > crates/ddup_cases/stdout

# Looks whether the paths, calls, clauses and definitions that the pages cite exist, whether manual page and completions
# tell the same words, whether bin/ddup prints what the pages show, and whether the stored run of ddup_cases has the
# cases of examples/.
docs:
	tools/check_docs
	tools/gather_cases | cmp - crates/ddup_cases/stdin

# Measures bin/ddup and bin/board_speed, as make build left them; docs/SPEED.md says what. Nothing in the gate rests on
# it.
bench:
	tools/bench bin/ddup
	tools/bench_board bin/board_speed
