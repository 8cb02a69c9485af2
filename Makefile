# Thin names over rt and the gate.
.PHONY: run lib example cost stack memory bench test

# Build what there is to run, and run it on small examples.
run:
	for program in hash demo cipher_vectors; do (cd crates/$$program && rt run <"$$(ls stdin 2>/dev/null || echo /dev/null)" >/dev/null) || exit 1; done
	@echo; echo "document 01's example for the hash program:"
	printf '\200\0\0\0\0\0\0\0\0\0\0\0\0\0\0\0\1' | crates/hash/out/hash
	@echo; echo "one file's life:"
	crates/demo/out/demo
	@echo; echo "FIPS 197's examples for the cipher:"
	head -n 11 crates/cipher_vectors/stdin | crates/cipher_vectors/out/cipher_vectors

# The static library that C and Rust programs link, and its header, in target/lib. It needs no other library.
LAYERS = crates/refusals crates/planes crates/clmul crates/cipher crates/field crates/gcm crates/file crates/journal crates/capi
lib: target/lib/libarmfile.a target/lib/armfile.h
# What the compiler's back end calls, memset and memcpy, is joined to it, and hidden.
target/lib/libarmfile.a: crates/capi/out/libcapi.a target/memory/memory.o
	mkdir -p target/lib
	ld -r -o target/memory/armfile.o --whole-archive crates/capi/out/libcapi.a --no-whole-archive target/memory/memory.o
	objcopy --localize-symbol=memset --localize-symbol=memcpy target/memory/armfile.o
	rm -f $@
	ar rcs $@ target/memory/armfile.o
target/memory/memory.o: runtime/memory.S
	mkdir -p target/memory
	$(CC) -c $< -o $@
crates/capi/out/libcapi.a: crates.txt $(shell find $(LAYERS) -name out -prune -o -name '*.rt' -print -o -name '*.antt' -print)
	cd crates/capi && rt lib
target/lib/armfile.h: include/armfile.h
	mkdir -p target/lib
	cp include/armfile.h $@

# The C example, compiled against the library and run.
example: lib
	mkdir -p target/example
	$(CC) -std=c11 -Wall -Wextra -Werror -O2 -Itarget/lib examples/c/seal.c -Ltarget/lib -larmfile -o target/example/seal
	target/example/seal

# What the calls cost on this machine.
cost: lib
	mkdir -p target/example
	$(CC) -std=c11 -Wall -Wextra -Werror -O2 -Itarget/lib examples/c/cost.c -Ltarget/lib -larmfile -o target/example/cost
	target/example/cost

# How many bytes of stack each call of the library takes.
stack: lib
	mkdir -p target/example
	$(CC) -std=c11 -Wall -Wextra -Werror -O2 -Itarget/lib tests/stack/stack.c target/lib/libarmfile.a -lpthread -o target/example/stack
	target/example/stack

# The library's memset and memcpy beside loops of bytes.
memory: target/memory/memory.o
	objcopy --redefine-sym memset=armfile_test_memset --redefine-sym memcpy=armfile_test_memcpy $< target/memory/renamed.o
	$(CC) -std=c11 -Wall -Wextra -Werror -O1 tests/memory/memory.c target/memory/renamed.o -o target/memory/memory
	target/memory/memory

# The library's speed beside other libraries'; it installs Debian's packages of them where they are missing.
bench:
	bench/run

# The gate.
test:
	bash .ci/run
