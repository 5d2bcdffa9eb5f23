# Solves the instances of a folder, several at once, and leaves those that are solved already:
#
#   make -f examples/folder.mk -j 4 FROM=instances TO=reports
#
# Each NAME.instance.json of FROM gives a report NAME.report in TO. MCP is the program; E, B, ROUNDS and SEED are the words of
# `solve`. With `make -k` an instance that is refused stops no other one.
MCP = crates/mcp/out/mcp
FROM = .
TO = reports
E = 1
B = 1
ROUNDS = 1000
SEED = 7

REPORTS = $(patsubst $(FROM)/%.instance.json,$(TO)/%.report,$(wildcard $(FROM)/*.instance.json))

all: $(REPORTS)

$(TO)/%.report: $(FROM)/%.instance.json
	@mkdir -p $(TO)
	$(MCP) solve $(E) $(B) $(ROUNDS) $(SEED) < $< > $@.part && mv $@.part $@

.PHONY: all
