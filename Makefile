# make help   what can be made
.PHONY: help needs run digest test bench soak install uninstall deb wheel clean fmt

help:
	@echo 'make run         from nothing: proves and builds the library, builds the tool, and does the main job with it on the sample that ships'
	@echo 'make digest      the SHA-256 of the library that make run builds, build/libafshtruni.a, and the kit that it was proved with'
	@echo 'make test        the gate: every crate proved, every must-fail edit refused, all tests'
	@echo 'make install     tool, library, header, pkg-config files, man pages, completion, Python package: PREFIX=/usr/local, DESTDIR before it;'
	@echo '                 make uninstall removes them'
	@echo 'make deb         Debian packages in build/deb: afshtruni, libafshtruni by its soname, libafshtruni-dev, python3-afshtruni; on x86-64 only'
	@echo 'make wheel       the wheel of the Python package in build/wheel, for pip to install; it carries the library of this machine'
	@echo 'make needs       lists the packages that these need, and which are there; installs nothing'
	@echo 'make bench       times of the calls beside the reference, plain C and OpenJPEG: docs/BENCHMARKS.md; on x86-64 only'
	@echo 'make soak        ten million records, most of them damaged, decoded by the archive and by the reference, all memory lent compared; a line'
	@echo '                 every ten seconds tells how far it is; half an hour or more, hours in an emulator; SEED=.. for other records'
	@echo 'make clean       removes all that was made, what was proved too'
	@echo 'make fmt         lays out every .rt and .antt file'

needs:
	@tools/needs

# What the library is made of is proved before it is built. All that is for the user is in build/, which the gate leaves alone.
run:
	@$(MAKE) --no-print-directory -s -C host afs partlist library
	@host/demo build/afs build/demo
	@echo
	@echo 'The tool is build/afs, the program that lists parts build/partlist, the library build/libafshtruni.a and .so.'

digest:
	@$(MAKE) --no-print-directory -s -C host digest

test:
	@tools/gate

bench:
	@$(MAKE) --no-print-directory -s -C host bench

soak:
	@$(MAKE) --no-print-directory -C host soak

install uninstall:
	@$(MAKE) --no-print-directory -s -C host $@

deb:
	@package/make_debs build build/deb
	@echo 'The packages are build/deb/*.deb.'

wheel:
	@$(MAKE) --no-print-directory -s -C host library
	@python/make_wheel build build/wheel
	@echo 'The wheel is there: pip install --no-index --no-deps build/wheel/*.whl'

clean:
	@rm -rf build target reference/target python/*/__pycache__ crates/*/out

fmt:
	@for crate in crates/*/src; do (cd $$crate/.. && rt fmt) || exit; done
