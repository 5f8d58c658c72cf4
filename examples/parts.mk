# A large set of uploads in parts, one folder each: PART.csv beside each folder PART of UPLOADS, made once.
#
#   make -j 8 -f examples/parts.mk UPLOADS=FOLDER [REPORT=chudravik-report]
#
# What was made is not made again, so that it goes on where it was stopped; on several machines over one file system each
# takes parts of its own (UPLOADS=FOLDER/1, ..). One core a part: -j says how many parts at a time. No blanks in the folders' names.
UPLOADS = uploads
REPORT = chudravik-report

parts := $(patsubst %/,%,$(wildcard $(UPLOADS)/*/))

all: $(parts:=.csv)

# Refused circuits (status 1) are lines of the table; files that could not be read (2) leave no table.
%.csv: %
	OMP_NUM_THREADS=1 $(REPORT) --csv $< >$@.part || [ $$? = 1 ]
	mv $@.part $@

.PHONY: all
.DELETE_ON_ERROR:
