# What a user and a developer call. Everything that proves or builds needs the toolchain's command, rt.
PREFIX ?= /usr/local
TRACE ?= examples/lttng-ust
PROGRAM = crates/bt_ctf/out/bt_ctf

.PHONY: run prove test further-edits check bench install fmt clean-work help
export TRACE
export PYTHONDONTWRITEBYTECODE = 1

# Prints a trace at once: by the proved program where it stands, else by a build without proofs.
run:
	@if tools/built; then exec $(PROGRAM) "$$TRACE"; fi; \
	trace=$$(realpath "$$TRACE"); echo 'building without proofs, in a minute or two ..' >&2; \
	cd crates/bt_ctf && rt try -- "$$trace"; status=$$?; \
	echo 'NOT PROVED: a build without proofs printed this. It is not kept, and prints 1 MiB at most: make prove proves and builds the program.' >&2; exit $$status

# Proves what is not proved yet, several crates at a time, and builds the program.
prove:
	@tools/prove

# The whole gate: every proof, the must-fail edits, the tests and the programs.
test:
	@tools/further-edits --form
	@files=$$(tools/built --sum) && RT_JOBS=$${RT_JOBS:-$$(tools/lanes)} rt ci && tools/built --record "$$files"

# The edits that the gate leaves out, all or those of CRATES='a b'.
further-edits:
	@tools/further-edits $(CRATES)

# One crate: its proof, its tests and its edits of the gate.
check:
	@[ -n "$(CRATE)" ] || { echo 'which crate? make check CRATE=ctf_format' >&2; exit 1; }
	@tools/prove $(CRATE)
	cd crates/$(CRATE) && rt check && rt test
	rt must-fail $(CRATE)

# Measures the program over each shape of event records, beside BEFORE=PROGRAM and beside babeltrace2.
bench:
	@tools/built
	bench/compare.py $(PROGRAM) $(BEFORE) $$(command -v babeltrace2 > /dev/null && echo --babeltrace2 babeltrace2)

# Puts the program that stands in place, with companions, manual and completions. It builds nothing, so root may run it.
install:
	@tools/built
	@tools/place $(PROGRAM) $(DESTDIR)$(PREFIX)

# Lays out the sources.
fmt:
	for crate in crates/*/; do (cd "$$crate" && rt fmt) || exit 1; done

# Gives back the disk of what only speeds the proof of a later change.
clean-work:
	rm -rf crates/*/out/incremental

help:
	@sed -n '/^#/{s/^# *//;h;d};/^[a-z-]*:/{s/:.*//;G;s/\n/\t/;p};/^$$/{s/.*//;h}' Makefile | grep '	.' | expand -t 16

# -- What users get --
.PHONY: uninstall dist test-users

# Takes away what make install put in place, and the folders that it made.
uninstall:
	@tools/place --remove $(DESTDIR)$(PREFIX)

# A package for Debian, a tarball with a static program, and their checksums, in dist/, of the program that stands.
dist:
	@tools/dist

# The companions, the manual, the completions, and each command of README and recipes: under a minute.
test-users:
	@tools/test-users $(PROGRAM)
