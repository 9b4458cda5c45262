# demo: the main job on a small batch, run from the sources, unproved
# build: the proved programs, each left at bin/NAME
# test: the gate: every proof, must-fail edit, test and program, and then the cases
# check CRATE=NAME: one crate, while you write it
PROGRAMS = ossl_replay ossl_batch ossl_enc ossl_speed
INSTALLED = ossl_replay ossl_batch ossl_enc
PREFIX = /usr/local
.PHONY: demo build test check install uninstall

demo:
	@tools/demo

build:
	tools/build $(PROGRAMS)

test:
	tools/timed out/test.log rt ci
	@for name in $(PROGRAMS); do test -x crates/$$name/out/$$name || tools/build $$name || exit 1; done
	tools/timed out/cases.log cases/run
	tools/timed out/pages.log cases/pages

check:
	cd crates/$(CRATE) && rt check

install:
	@tools/install "$(DESTDIR)$(PREFIX)" $(INSTALLED)

uninstall:
	@tools/install -r "$(DESTDIR)$(PREFIX)" $(INSTALLED)
