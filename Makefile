# lib: the static library, proved and ready to link, beside include/lyndon.h. example: four C programs that use it.
# agreement: the measure of how far two words agree, by itself, for the benchmark and the tests.
# bench: the benchmark. beside: the library beside an older one, OLD=.../liblyndon.a, all calls or those whose names begin with a word of
# CALLS. test: all tests.
CFLAGS = -O3 -Wall -Wextra -Iinclude -Ibench
BENCH = bench/bench.c bench/families.c bench/reference.c bench/reference_factors.c bench/reference_ranked.c bench/reference_from_array.c \
	bench/reference_infinite.c bench/reference_reader.c bench/suffix_array.c
DIVSUFSORT := $(shell $(CC) -E -include divsufsort.h -x c /dev/null > /dev/null 2>&1 && echo -DHAVE_DIVSUFSORT -ldivsufsort)

.PHONY: lib agreement example bench beside test clean

lib:
	cd crates/lyndon_c && rt lib
	mkdir -p target/lib
	cp crates/lyndon_c/out/liblyndon_c.a target/lib/liblyndon.a

agreement:
	cd crates/agreement_c && rt lib
	mkdir -p target/lib
	cp crates/agreement_c/out/libagreement_c.a target/lib/libagreement.a

example: lib
	mkdir -p target/examples
	$(CC) $(CFLAGS) -o target/examples/runs examples/runs.c target/lib/liblyndon.a
	./target/examples/runs mississippi
	$(CC) $(CFLAGS) -o target/examples/two_groups examples/two_groups.c target/lib/liblyndon.a
	./target/examples/two_groups GATTaca
	$(CC) $(CFLAGS) -o target/examples/default_order examples/default_order.c target/lib/liblyndon.a
	./target/examples/default_order GATTaca
	$(CC) $(CFLAGS) -o target/examples/infinite_order examples/infinite_order.c target/lib/liblyndon.a
	./target/examples/infinite_order abacabade abac

bench: lib agreement
	mkdir -p target/bench
	$(CC) $(CFLAGS) -o target/bench/bench $(BENCH) target/lib/liblyndon.a $(DIVSUFSORT)
	./target/bench/bench
	$(CC) $(CFLAGS) -o target/bench/store bench/store.c bench/families.c target/lib/liblyndon.a
	./target/bench/store
	./scripts/agreement

beside: lib
	./scripts/beside $(OLD) $(CALLS)

test:
	./run-tests

clean:
	rm -rf target crates/*/out
