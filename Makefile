# The commands of the README; `make` alone lists them. What the prover says goes to target/rt_*.log.
.PHONY: help test quick run mend show limits vectors lib install compare mutants bench stack statement index picture

PREFIX ?= /usr/local
N ?= 200000
SCRIPT ?= crates/runner/stdin
PART ?= mspm0
IMAGE ?=
OUT ?=
SCOPE ?= ../shared/documents/01-scope.md
REQUESTS ?= ../shared/documents/02-change-requests.md

# Handed on by the environment, where a space or a quote in them does no harm.
export PREFIX DESTDIR N SCRIPT PART IMAGE OUT SCOPE REQUESTS

help:
	@sed "s/{crates}/$$(grep -Ec '^[a-z_0-9]+( staticlib)?:' crates.txt)/" tools/help.txt

# The gate.
test:
	@.ci/run --progress

# The gate without the wrong programs, over what is already proved.
quick:
	@.ci/run --quick

# A session: proves and builds the runner, and plays a script, or the text of one where its name ends in .txt.
# Without SCRIPT= it is the example of document 01; PART=am13e230x plays it to a board of that part.
run:
	@tools/sessions/look_at_script.sh "$$SCRIPT" "$$PART"
	@tools/progress.py program runner$$([ "$$PART" = mspm0 ] || echo "_$$PART")
	@tools/sessions/run_script.sh "$$SCRIPT" "$$PART"

# A settings image mended: proves and builds the program, prints what it changed of IMAGE, and stores the mended image as OUT.
mend:
	@tools/mend/look_at_files.sh "$$IMAGE" "$$OUT"
	@tools/progress.py program mend
	@tools/mend/mend_image.sh "$$IMAGE" "$$OUT"

# The settings reader and writer at work: proves the program and prints what it wrote.
show:
	@tools/progress.py program show_settings
	@. tools/shared/program.sh && run_program . show_settings

# A session at the sides of every limit, and each command accepted and refused.
limits:
	@tools/progress.py program show_limits
	@. tools/shared/program.sh && run_program . show_limits <crates/show_limits/stdin

# Every whole packet that the source documents print.
vectors:
	@tools/progress.py program show_vectors
	@. tools/shared/program.sh && run_program . show_vectors

# The library for C: target/staticlib/libbhorelmu.a, to be linked beside include/bhorelmu.h.
lib:
	@. tools/shared/toolchain.sh && build_library && echo "$$library"

# The library, its header and its .pc file below PREFIX.
install:
	@tools/install.sh "$$PREFIX" "$$DESTDIR"

# The library beside the model in C, over N calls from the first seed on.
compare:
	@sh verification/compare/run.sh "$$N"

# Whether the comparison finds mistakes: the model with one at a time, beside the model as it is.
mutants:
	@sh verification/compare/mutants.sh

# Instructions and time of the library beside the model in C, and of the checksum beside others, and the stack: rewrites the tables
# of docs/BENCH.md.
bench:
	sh bench/run.sh

# The stack that each function of the library takes at most, and the deepest way down.
stack:
	sh stack/run.sh

# The statement for signing, target/statement/STATEMENT.pdf: says which commit, toolchain and library the gate has passed on.
statement:
	python3 -B tools/statement/statement.py

# Which definitions quote which sentence of document 01, and of the requests of document 02.
index:
	@tools/make_index.py "$$SCOPE" "$$REQUESTS" docs/INDEX.md

# The rooms of crates.txt and what each stands on.
picture:
	@tools/rooms_picture.py docs/rooms.svg
