# The archive that HARZOULIN_LIB names by its whole path, or else the one that `tools/archive` writes.
usual := ../../target/staticlib/libharzoulin.a
HARZOULIN_LIB ?= $(usual)
header := ../../include/harzoulin.h
programs := ../../target/examples
FLAGS := -Wall -Wextra -Wpedantic -Wconversion -Werror -O2 -I../../include

run: $(program)
	$(program)

$(programs):
	mkdir -p $@

$(usual):
	cd ../.. && tools/archive

# Another archive may be named than the last time.
always:

.PHONY: run always
