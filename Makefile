# The program, its demonstration, its tests and its installation. `rt` proves and builds.

PREFIX = /usr/local
SCRIPT = examples/tour.script
REPLIES = examples/tour.replies

# The crates of the program, each behind those that it uses, and the files that they are made of.
CRATES := $(shell awk -F: ' \
	/^[a-z]/ { uses[$$1] = $$2 } \
	function visit(crate, used, n, i) { \
		if (crate in seen || !(crate in uses)) return; \
		seen[crate]; \
		n = split(uses[crate], used, " "); \
		for (i = 1; i <= n; i++) visit(used[i]); \
		print crate \
	} \
	END { visit("edge") }' crates.txt)
FOLDERS := $(foreach crate,$(CRATES),$(wildcard $(addprefix crates/$(crate)/,src specs proofs)))
SOURCES := crates.txt $(shell find $(FOLDERS) -name '*.rt' -o -name '*.antt')

.PHONY: all edge demo test install clean

all: edge

edge: build/edge

# Proves each crate and builds the program, which rt does only where all is proved. `rt run` also runs
# what it has built: here on a script with no line.
build/edge: $(SOURCES)
	@mkdir -p build
	@n=0; for crate in $(CRATES); do \
		n=$$((n + 1)); \
		case $$crate in edge) verb='run -- run data/tiny.img' ;; *) verb=lib ;; esac; \
		(cd crates/$$crate && rt $$verb) </dev/null >build/$$crate.log 2>&1 || { \
			cat build/$$crate.log; \
			echo "$$crate is not proved"; \
			exit 1; \
		}; \
		echo "$$crate proved, $$n of $(words $(CRATES))"; \
	done
	@install crates/edge/out/edge build/edge
	@echo 'built build/edge'

# Shows the program at work in a minute or two, built and not proved: it formats an image, runs a script
# on it (directories and files, writes, reads, a rename, a point, a full volume that gets room back),
# shows each line with its reply, and compares the replies with the stored ones.
demo:
	@rm -rf build/demo
	@mkdir -p build/demo/cases
	@echo 'Building edge as rt try does, which proves nothing. make edge proves it.'
	@image=$$PWD/build/demo/demo.img cases=$$PWD/build/demo/cases; \
	: >$$cases/1; printf '%s\n' format $$image -n 64 -m 8 >$$cases/1.args; \
	cp $(SCRIPT) $$cases/2; printf '%s\n' run $$image >$$cases/2.args; \
	(cd crates/edge && rt try --cases $$cases) >build/demo/log 2>&1 || { cat build/demo/log; exit 1; }
	@echo '$$ edge format demo.img -n 64 -m 8'
	@sed -n '/^== 1$$/,/^case=1 /{//!p;}' build/demo/log
	@echo '$$ edge run demo.img'
	@sed -n '/^== 2$$/,/^case=2 /{//!p;}' build/demo/log >build/demo/replies
	@exec 3<build/demo/replies; \
	while IFS= read -r line || [ -n "$$line" ]; do \
		IFS= read -r reply <&3; \
		printf '> %s\n%s\n' "$$line" "$$reply"; \
	done <$(SCRIPT)
	@cmp build/demo/replies $(REPLIES)

test:
	.ci/run

# Installs the program, which is built anew where it is out of date, and its page of the manual.
install: build/edge
	install -D build/edge "$(DESTDIR)$(PREFIX)/bin/edge"
	install -D -m 644 docs/edge.1 "$(DESTDIR)$(PREFIX)/share/man/man1/edge.1"

# Removes what make and rt have made.
clean:
	rm -rf build crates/*/out .git/rt-aside .git/rt-ci.lock
