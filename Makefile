# Comparisons of the engine with the oracle, a second implementation in Python.
#
#   make oracle           self test of the oracle
#   make compare SEED=7   fresh cases, answered by the built program and by the oracle
#   make cases            the stored cases and answers, made again from the first seed

SEED ?= 1
PYTHON ?= python3
COMPARE ?= $(CURDIR)/crates/compare/out/compare
STORE ?= crates/compare

.PHONY: oracle compare cases

oracle:
	$(PYTHON) oracle/check.py

compare:
	@test -x "$(COMPARE)" || { echo "there is no program $(COMPARE): build it first"; exit 1; }
	@folder=$$(mktemp -d) && trap 'rm -rf "$$folder"' EXIT && \
	$(PYTHON) oracle/make_cases.py $(SEED) "$$folder" > "$$folder/counts.txt" && \
	{ (cd "$$folder" && "$(COMPARE)") > "$$folder/printed.txt"; code=$$?; \
	  if cmp -s "$$folder/expected.txt" "$$folder/printed.txt" && test $$code -eq 0; then \
	    echo "$$(wc -l < "$$folder/expected.txt") cases, all alike"; \
	  else \
	    echo "seed $(SEED), exit code $$code; wanted by the oracle (<), printed by the program (>):"; \
	    diff "$$folder/expected.txt" "$$folder/printed.txt" | head -40; \
	    exit 1; \
	  fi; }

cases:
	@mkdir -p "$(STORE)/data"
	@folder=$$(mktemp -d) && trap 'rm -rf "$$folder"' EXIT && \
	$(PYTHON) oracle/make_cases.py 1 "$$folder" && \
	cp "$$folder/cases.txt" "$(STORE)/data/cases.txt" && \
	cp "$$folder/expected.txt" "$(STORE)/stdout"
