# library.mk -- the static library, and how C files are compiled and linked
#
# Included by the Makefiles of the repository. A Makefile sets TOP, the way to the
# top of the clone, includes this file, and says what each program is made of:
#
#   TOP = ..
#   include $(TOP)/library.mk
#
#   $(BUILD)/some_program: $(call objects,some_program some_part) $(LIB)
#   	$(LINK)
#
# The library is proved and built first, by `rt lib`, where it is missing or older
# than the sources of the crates, for whatever has $(LIB) among its prerequisites.
# (`rt ci` takes it away, as all that stands in a crate's out/.) C files are compiled
# one by one to objects in $(BUILD); what they include is noted there too, so that
# no Makefile lists headers.

.DEFAULT_GOAL = all
.DELETE_ON_ERROR:

LIB = $(TOP)/crates/linkwords/out/liblinkwords.a
HEADER = $(TOP)/include/linkwords.h
SOURCES := $(TOP)/crates.txt $(shell find $(TOP)/crates -name out -prune -o -type f \( -name '*.rt' -o -name '*.antt' \) -print)

$(LIB): $(SOURCES)
	cd $(TOP)/crates/linkwords && rt lib

BUILD = build
CC = cc
CXX = c++
OPTIMISE = -O2
WARNINGS = -Wall -Wextra -Wpedantic -Wconversion -Wshadow -Wundef -Werror
CFLAGS = -std=c11 $(OPTIMISE) $(WARNINGS) -Wstrict-prototypes -Wmissing-prototypes
CXXFLAGS = -std=c++17 $(OPTIMISE) $(WARNINGS)
CPPFLAGS = -I$(TOP)/include
LDFLAGS =
SANITIZE =

objects = $(patsubst %,$(BUILD)/%.o,$(1))
LINK = $(CC) $(CFLAGS) $(SANITIZE) $(LDFLAGS) -o $@ $(filter %.o %.a,$^)
LINK_CXX = $(CXX) $(CXXFLAGS) $(SANITIZE) $(LDFLAGS) -o $@ $(filter %.o %.a,$^)

$(BUILD)/%.o: %.c Makefile $(TOP)/library.mk | $(BUILD)
	$(CC) $(CPPFLAGS) -MMD -MP $(CFLAGS) $(SANITIZE) -c -o $@ $<

$(BUILD)/%.cc.o: %.cc Makefile $(TOP)/library.mk | $(BUILD)
	$(CXX) $(CPPFLAGS) -MMD -MP $(CXXFLAGS) $(SANITIZE) -c -o $@ $<

$(BUILD):
	mkdir -p $@

-include $(wildcard $(BUILD)/*.d)
