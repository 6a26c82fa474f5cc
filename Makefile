# make run    the main job: the bench card of paper 01 on its own example
# make test   everything: the proofs, the wrong programs that must be refused, the programs run and compared, then the C
#             tests; the last line is 'N passed, 0 failed', and the exit status says the same
# make desk   the archive for C, target/staticlib/libdesk.a, and the desk tool over it, target/c/desk
# make bench  the instructions that a word, a dot, a frame and a pixel cost, counted: the tables of docs/BENCH.md
# make figure the cookie cut of the manual's Figure 6-4, memory before and after
# What is proved is proved again only where something changed.
.PHONY: run test desk bench figure

# a target whose making fails is no target
.DELETE_ON_ERROR:
# two proofs at once would write the same files
.NOTPARALLEL:
# to look for make's own rules, none of which is used, takes longer than all else where nothing changed
MAKEFLAGS += -r

# the desk tool's files
tool = c/desk.c c/check.c c/copper.c c/drawn.c c/fold.c c/instruction.c c/jobfile.c c/jobwrite.c c/known.c c/line.c \
       c/listing.c c/machine.c c/outcome.c c/outfile.c c/parts.c c/picture.c c/picturefile.c c/reader.c c/round.c \
       c/step.c c/text.c
archive = target/staticlib/libdesk.a
# what is proved; a folder changes when a file in it comes or goes
proved := crates.txt $(shell find crates \( -name must-fail -o -name out \) -prune -o -print)

run: target/bin/card
	@scripts/start target/bin/card <crates/card/stdin

figure: target/bin/blit_figure
	@scripts/start target/bin/blit_figure

desk: target/c/desk
	@echo "$(archive) (declared in include/desk.h) and target/c/desk are made."
	@echo "Run the tool by: scripts/start target/c/desk list jobs/copy.job"

bench: $(archive)
	@bench/run

test:
	@scripts/test

target/bin/card target/bin/blit_figure: target/bin/%: $(proved)
	@scripts/proved $*

$(archive): $(proved)
	@scripts/archive

target/c/desk: $(tool) $(wildcard c/*.h) include/desk.h scripts/compile Makefile $(archive)
	@mkdir -p target/c
	@scripts/compile $@ $(tool) $(archive)
