# make help lists what there is. The times are of one processor; where other work is done on the machine, by the clock they are more.
PREFIX ?= /usr/local
# Of `make look` and `make repl`, whether a person named a script.
LOOK_ORIGIN := $(if $(filter undefined,$(origin SCRIPT)),file,named)
SCRIPT ?= examples/plant_b.lsys
# Where Inkscape looks, if it is here.
INKSCAPE_EXTENSIONS ?= $(shell { inkscape --system-data-directory 2>/dev/null || echo $(PREFIX)/share/inkscape; } | tail -1)/extensions
PACKED := lsys-$(shell cat VERSION)-x86_64-linux
.DEFAULT_GOAL := bin/lsys
# A script's path reaches the tools as it is, with its blanks and quotes.
export SCRIPT

bin/lsys: $(shell find crates -name '*.rt' -path '*/src/*') $(shell find crates -name '*.antt' -not -path '*/out/*') crates.txt | python3
	@tools/prove

.PHONY: help python3 run look repl gallery test check gate prove dist install

help:
	@echo 'make run [SCRIPT=path]   runs a script, examples/plant_b.lsys by default, and puts its pictures beside it (those of examples/'
	@echo '                         into build/pictures): 3 to 7 minutes of one processor where a program has to be built, then at once'
	@echo 'make look [SCRIPT=path]  opens a script in a browser, to be edited beside its picture; without SCRIPT a gallery to begin from'
	@echo 'make repl [SCRIPT=path]  answers lines on the terminal, as they are typed'
	@echo 'make test                the tests for between commits, without a proof: some minutes (make check is the same); the unit tests and'
	@echo '                         checkers of the tools are among them, and alone they are tools/check tools'
	@echo 'make                     proves the program and builds it as bin/lsys, and says how far it is: an hour from nothing, after a'
	@echo '                         change what stands on it'
	@echo 'make gate                the whole gate, as .ci/run: 3 to 5 hours of one processor from nothing (make prove is the same)'
	@echo 'make gallery             draws all scripts of examples/ with the proved program on one page, gallery/index.html'
	@echo 'make dist                packs the proved program for people without the toolchain: build/$(PACKED).tar.gz and .deb'
	@echo 'make install [PREFIX=..] installs what the package has: lsys, lsys-run, lsys-repl, lsys-look, lsys-export, the manual page,'
	@echo '                         the extension for Inkscape and the syntax files'
	@echo 'make help                this list'

python3:
	@command -v python3 >/dev/null || { echo '; there is no python3 in PATH: the tools need Python 3.9 or newer (README.md)' >&2; exit 127; }

run: python3
	@tools/run "$$SCRIPT"

look: python3
	@tools/look $(if $(filter file,$(LOOK_ORIGIN)),,"$$SCRIPT")

repl: python3
	@tools/repl $(if $(filter file,$(LOOK_ORIGIN)),,"$$SCRIPT")

gallery: bin/lsys
	@tools/gallery --program bin/lsys

test check: python3
	@tools/check

gate prove:
	.ci/run

dist: bin/lsys
	@tools/dist --program bin/lsys

install: bin/lsys
	@tools/dist --program bin/lsys --install "$(PREFIX)" --root "$(DESTDIR)" --inkscape "$(INKSCAPE_EXTENSIONS)"
