# make -j16 -f tools/spreading/pieces.mk -C FOLDER SPREAD=$PWD/tools/spread
SPREAD ?= spread
all: $(patsubst %.qc,%.cert,$(wildcard *.qc))
%.cert: %.qc
	$(SPREAD) piece $< $(WORDS)
