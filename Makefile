# Proves, builds and runs the checker. Needs `rt` on the PATH.
program = crates/cppcheck/out/cppcheck

.PHONY: all run test clean FORCE

all: cppcheck

# The program is built only where everything below it is proved. `rt run` also runs it, here on an
# empty file, and ends with its status.
cppcheck: FORCE
	@: > crates/cppcheck/empty.c
	cd crates/cppcheck && rt run -- empty.c > /dev/null; status=$$?; rm -f empty.c; exit $$status
	cp $(program) $@

run: cppcheck
	cd examples && ../cppcheck zero.c

test:
	bash .ci/run

clean:
	rm -rf cppcheck crates/*/out

FORCE:
