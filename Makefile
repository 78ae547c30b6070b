# Everything here needs the toolchain's command `rt` alone.
PREFIX ?= /usr/local
PROJECT ?= examples/first
WORDS ?= check licenses
PROGRAM = crates/cargo_deny/out/cargo_deny
METADATA = $(CURDIR)/crates/cargo_deny/out/metadata.json

FIRST = ../../examples/first

.PHONY: try build run sample test prove examples map read wrong starve stack calls bench dist install

# A first answer in minutes, by an unproved build.
try:
	@sh tools/try.sh

# Proves the program and all that it depends on, as much side by side as the machine allows, and builds it.
build:
	@sh tools/build.sh cargo_deny

# Runs it in a project's folder, where it looks for the policy and an exceptions file. WORDS are what comes after the path of
# the metadata. The metadata of the examples name a folder /project, in whose place that folder is put.
run: build
	@cd $(PROJECT) && sed -e "s|\"/project|\"$$(pwd)|g" -e "s|file:///project|file://$$(pwd)|g" metadata.json > $(METADATA)
	@cd $(PROJECT) && $(CURDIR)/$(PROGRAM) deny --metadata-path $(METADATA) $(WORDS)

# Checks a workspace of 20,000 crates that is made up in memory.
sample: build
	@$(PROGRAM) sample 20000

# Compares all rows and cases without a proof, in minutes, and prints what differs with its file and line; or those of a folder of
# crates/tests_rows/data: make test NAME=spdx. NAME=run, start and hostile are whole runs.
test:
	@sh tools/test.sh $(NAME)

# Proves and tests all; the merge gate, .ci/run, also compares documents and examples.
prove:
	rt ci

# Compares what the built programs print of each example, and of odd words and files, and the outputs that the documents show,
# with examples/outputs.
examples: build
	@sh tools/build.sh licence_hash
	@sh tools/examples.sh

# Prints what each crate depends on and which crates use it, or of one crate: make map NAME=gather_license
map:
	@sh tools/map.sh $(NAME)

# Prints each definition that a statement rests on, from the top, with its file and line, and how many there are: make read
# NAME=Headline
read:
	@sh tools/read.sh $(NAME)

# Tries the wrong bodies of a crate that the gate leaves out: make wrong NAME=gather_license
wrong:
	@sh tools/wrong.sh $(NAME)

# Compares the rows and cases of a folder of crates/tests_rows/data while memory is wanting: make starve NAME=spdx; or runs the
# built program with less and less memory (NAME=program), or with each growth failing in turn (NAME=growths)
starve:
	@sh tools/starve.sh $(NAME)

# Runs each case of crates/tests_rows/data/hostile with less and less stack, as both compilers build that program.
stack:
	@sh tools/build.sh tests_rows
	@sh tools/stack.sh

# Prints the public calls of the libraries, with why each may be refused, and checks tools/memory_cases.txt; or prints those of one
# crate: make calls NAME=spdx_core
calls:
	@sh tools/calls.sh $(NAME)

# Times the lower layers, beside plain Rust and xxhsum where these are installed, and counts whole runs beside a plain gate
# where cargo, valgrind and serde_json are.
bench: build
	sh bench/compare.sh
	if command -v cargo > /dev/null && command -v valgrind > /dev/null; then sh bench/gates.sh; fi

# The archive that is handed out, with its SHA-256, in dist/.
dist: build
	@sh tools/build.sh licence_hash
	@sh tools/dist.sh

# Puts the same files under PREFIX: the proved programs where `cargo deny ..` finds them, completions and the manual page where the
# shells and `man` look.
install: build
	@sh tools/build.sh licence_hash
	@sh tools/stage.sh "$(DESTDIR)$(PREFIX)"
