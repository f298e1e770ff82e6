# Installs what a board needs: the proved libraries, the C header, and what pkg-config and CMake ask for. `make` by
# itself says what there is. What is installed finds the rest from where it stands, so that the folder can be moved.
PREFIX ?= /usr/local
DESTDIR ?=

names := board images
archives := $(names:%=target/staticlib/lib%.a)
version := $(shell sed -n 's/^\#define BOARD_VERSION \([0-9][0-9]*\)$$/\1/p' include/board.h)

place := $(DESTDIR)$(PREFIX)
libraries := lib
headers := include
packages := lib/pkgconfig
cmake := lib/cmake/board
installed := $(names:%=$(libraries)/lib%.a) $(headers)/board.h $(packages)/board.pc \
    $(cmake)/boardConfig.cmake $(cmake)/boardConfigVersion.cmake
# with_version FILE,FOLDER: a file with the version in it, made from FILE.in.
with_version = sed 's/@VERSION@/$(version)/' host/installed/$(1).in > '$(place)/$(2)/$(1)' && \
    chmod 644 '$(place)/$(2)/$(1)'

.PHONY: help install uninstall libraries try

help:
	@echo 'make install [PREFIX=/usr/local] [DESTDIR=]   the libraries libboard.a and libimages.a, board.h, board.pc for'
	@echo '                                              pkg-config and the package board for CMake; a library that is'
	@echo '                                              not built yet is proved and built first, which takes minutes'
	@echo 'make uninstall [PREFIX=/usr/local] [DESTDIR=] removes them'
	@echo 'make libraries                                proves and builds the libraries anew where sources changed'
	@echo 'make try                                      installs into a temporary folder and uses the copy from C, CMake'
	@echo '                                              and Cargo (host/installed/run)'
	@echo 'The proofs, the programs and the gate: see README.md.'

# A library that is there is taken as it is; `make libraries` asks whether its sources changed.
target/staticlib/lib%.a:
	@echo "lib$*.a is not built yet: it is proved and built now, which takes minutes"
	host/libraries $*

libraries:
	host/libraries $(names)

install: $(archives)
	$(if $(version),,$(error include/board.h has no line with BOARD_VERSION))
	install -d '$(place)/$(headers)' '$(place)/$(packages)' '$(place)/$(cmake)'
	install -m 644 $(archives) '$(place)/$(libraries)'
	install -m 644 include/board.h '$(place)/$(headers)'
	install -m 644 host/installed/boardConfig.cmake '$(place)/$(cmake)'
	$(call with_version,boardConfigVersion.cmake,$(cmake))
	$(call with_version,board.pc,$(packages))

uninstall:
	cd '$(place)/' && rm -f $(installed)
	-cd '$(place)/' && rmdir $(cmake)

try:
	host/installed/run
