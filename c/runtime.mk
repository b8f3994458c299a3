# Links dsa_run from its proved object with a C compiler alone: make, and then make check.
CFLAGS ?= -std=c11 -O2 -Wall -Wextra -pedantic
EXAMPLE ?= ../examples/one-move

dsa_run: dsa_run.o runtime.c
	$(CC) $(CFLAGS) $(LDFLAGS) -o $@ dsa_run.o runtime.c -pthread

check: dsa_run
	./dsa_run <$(EXAMPLE).json | diff $(EXAMPLE).out -

clean:
	rm -f dsa_run

.PHONY: check clean
