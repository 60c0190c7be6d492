# make run    builds the replay of a journal without a proof and runs the first example: a look, in about a minute
# make quick  compiles the three programs without a proof, as build/quick/jobd, jobctl and jobscope, in some minutes; each says that it is not proved
# make try    runs what is tried of calls, without a proof, in half an hour on one processor: for whoever changes a text, or only looks
# make test   the gate: every proof, the wrong bodies, the tests, the programs (rt ci), then the scenes over the program that it proved
#             (tests/scenes), and then 200 numbers of the simulator (tools/simulate); with kit 13f, what an earlier run on this machine passed over the same files is not proved or tried again; with 13b
#             everything is. It leaves the program in build/ too
# make scenes plays the scenes alone, with the program of build/
# make times  the build and then the gate, with nothing kept from earlier runs: how long the build took, and what each crate cost in processor seconds
# make build  proves, and leaves the program as build/jobd, with build/jobctl and build/jobscope as links to it; and build/jobd-wake by the system's
#             C compiler, if there is one
# make install  puts the program of build/ under its three names below PREFIX; make uninstall removes it
# make dist   the archive of the program in build/, with what belongs to it; make deb, the Debian package of it
# make bench  times build/jobd, the calendar and the live launcher, and counts the instructions of a line; BASELINE=PROGRAM takes turns
#             with another program
.PHONY: run quick try test scenes times bench need_rt build install uninstall dist deb

# One job a check, as many checks side by side as there are processors: two jobs of one check cost a quarter more.
RT_JOBS ?= $(shell nproc)

run: need_rt
	@mkdir -p build
	@python3 tools/look.py

quick: need_rt
	@python3 tools/quick.py
	@sh packaging/wake.sh build/quick

# The lines that a case writes are those of crates/trials/stdout; another one is a fault.
try: need_rt
	@mkdir -p build
	@cd crates/trials && { rt try --seconds 3600 -- calls > ../../build/try.out 2> ../../build/try.log; echo $$? > ../../build/try.status; }
	@[ "$$(cat build/try.status)" -eq 0 ] || tail -n 20 build/try.log >&2
	@awk 'NR == FNR { known[$$0]; next } $$0 in known { good++; next } { print; bad++ } \
	    END { printf "%d passed, %d failed, nothing was proved\n", good, bad; exit bad > 0 || good == 0 }' crates/trials/stdout build/try.out \
	    && [ "$$(cat build/try.status)" -eq 0 ]

# What the gate said last is kept for `make dist`, and so is the program that it proved and ran.
test: need_rt
	@mkdir -p build
	@rm -f build/gate.txt
	@{ RT_JOBS=$(RT_JOBS) python3 tools/gate.py; echo $$? > build/gate.status; } 2>&1 | tee build/gate.log
	@[ "$$(cat build/gate.status)" -eq 0 ] || exit 1; \
	    { echo "Commit: $$(git rev-parse HEAD)"; echo "Gate: $$(tail -n 1 build/gate.log)"; } > build/gate.txt
	@rm -f build/proved.txt; { $(put_program); } || exit 0; $(say_proved)

scenes:
	@python3 tests/scenes/play.py

times: need_rt
	@RT_JOBS=$(RT_JOBS) python3 bench/times.py

bench: build
	@python3 bench/replay.py
	@bench/calendar.sh
	@python3 bench/live.py
	@python3 bench/lines.py

need_rt:
	@command -v rt > /dev/null 2>&1 || { echo "rt is not on the PATH: install the Rattle kit (README, From source)" >&2; exit 127; }

# make build: proves the program and all that it stands on (tools/build_all.py: as many crates side by side as there are processors), and
# leaves it as build/jobd, with build/jobctl and build/jobscope as links to it, and beside it jobd-wake (packaging/wake.sh), which is not proved. What an earlier build on this machine passed
# over the same files is not proved again; with kit 13f, what a gate passed neither.
PROGRAM := jobd_program
# The program acts by the name that it is started under. The links are hard ones: the gate of kit 13b stops at a symbolic link in any folder here.
put_program = install -m 755 crates/$(PROGRAM)/out/$(PROGRAM) build/jobd && ln -f build/jobd build/jobctl && ln -f build/jobd build/jobscope && sh packaging/wake.sh build
# Which commit and which kit stand behind the program of build/.
say_proved = { echo "Commit: $$(git rev-parse HEAD)"; echo "Kit: $$(rt version)"; \
    echo "Program: $$(cd build && sha256sum jobd)"; } > build/proved.txt

build: need_rt
	@mkdir -p build
	@rm -f build/proved.txt
	@python3 tools/build_all.py $(PROGRAM)
	@$(put_program)
	@$(say_proved)

# make install, make uninstall: packaging/install.sh puts the program of build/ under its three names, manual pages, completions, documents
# and licences below PREFIX, each path behind DESTDIR, or removes them. A packager sets DESTDIR to a scratch folder.
PREFIX ?= /usr/local
DESTDIR ?=

install:
	@PREFIX='$(PREFIX)' DESTDIR='$(DESTDIR)' sh packaging/install.sh

uninstall:
	@PREFIX='$(PREFIX)' DESTDIR='$(DESTDIR)' sh packaging/install.sh uninstall

# make dist: dist/kivgrond-VERSION-x86_64-linux.tar.gz; make deb: dist/jobd_VERSION_amd64.deb. Both take the program of build/ as it
# is, and say of it whether `make build` proved it at this commit. They need no kit, no compiler and no network.
dist:
	@sh packaging/dist.sh

deb: dist
	@sh packaging/deb.sh
