# make, make install [DESTDIR=..] [PREFIX=..], make uninstall, make dist, make lab, make deb: what is built is put where others find it. ./build
# proves and builds the program, and `make -C c proved` the library. Where that hasn't been done both are built of the
# same sources unproved, and the file BUILD-INFO says so.
PREFIX ?= /usr/local
LIBDIR ?= $(PREFIX)/lib
# The folder below PREFIX where Python looks, if there is one.
SEEN = import sys; print(next((it for it in sys.path if it.startswith("$(PREFIX)/") and it.endswith("-packages")), ""))
PYTHONDIR ?= $(or $(shell python3 -c '$(SEEN)'),$(PREFIX)/lib/python3/dist-packages)
VERSION := $(shell sed -n 's/^VERSION = //p' c/Makefile)
OUT = out/dist
SHARE = $(DESTDIR)$(PREFIX)/share
# The names of all that was installed; `make uninstall` reads it.
LIST = $(PREFIX)/share/doc/monk/INSTALLED
DOC = $(SHARE)/doc/monk
PUT = install -D -m 644 -t
ifndef PROGRAM
PROGRAM := $(shell checks/program)
endif
# (by root it is another user's repository)
export SOURCE_DATE_EPOCH := $(or $(shell git -c safe.directory='*' log -1 --format=%ct),0)

all: program library $(OUT)/libmonk_log.so $(OUT)/BUILD-INFO

# It is laid out in a room, with the modes that others need, and then put where it belongs.
install: asked writable all
	@umask 022 && room=$$(mktemp -d) && trap 'rm -rf "$$room" "$$room.list"' EXIT && \
	  $(MAKE) -s laid_out DESTDIR="$$room" && dist/put "$$room" '$(DESTDIR)' '$(LIST)'
	@echo "monk $(VERSION) is below $(DESTDIR)$(PREFIX), and its modules for Python in $(PYTHONDIR)"

uninstall: asked
	@dist/put --away '$(DESTDIR)' '$(LIST)'
	@echo "monk is taken away from $(DESTDIR)$(PREFIX)"

laid_out:
	$(MAKE) -s -C c put DESTDIR='$(DESTDIR)' PREFIX='$(PREFIX)' LIBDIR='$(LIBDIR)'
	install -D -m 755 -t $(DESTDIR)$(PREFIX)/bin $(PROGRAM)
	install -D -m 755 -t $(DESTDIR)$(LIBDIR) $(OUT)/libmonk_log.so
	install -D -m 755 -t $(DESTDIR)$(PREFIX)/bin recorders/c/monk-record
	$(PUT) $(DESTDIR)$(PYTHONDIR) recorders/python/*.py
	$(PUT) $(DESTDIR)$(PYTHONDIR)/monk c/python/monk/*.py c/python/monk/py.typed
	for it in c go java rust; do $(PUT) $(SHARE)/monk/recorders/$$it recorders/$$it/*; done
	chmod 755 $(SHARE)/monk/recorders/c/sites $(SHARE)/monk/recorders/c/monk-record
	$(PUT) $(SHARE)/man/man1 dist/monk.1 && gzip -9nf $(SHARE)/man/man1/monk.1
	install -D -m 644 dist/monk.bash $(SHARE)/bash-completion/completions/monk
	$(PUT) $(DOC) $(OUT)/BUILD-INFO README.md $(wildcard LICENSE)
	$(PUT) $(DOC)/docs docs/*.md docs/playground.html
	$(PUT) $(DOC)/docs/pictures docs/pictures/*.svg docs/pictures/*.html
	$(PUT) $(DOC)/recorders recorders/README.md
	tar --exclude=out --exclude=__pycache__ -cf - examples lab | tar --no-same-owner -C $(DOC) -xf -

# A path with a space or a mark of the shell can't be passed on.
asked: export PLACE = $(DESTDIR)$(PREFIX)
asked: export FOLDERS = $(LIBDIR)$(PYTHONDIR)
asked:
	@case $$PLACE$$FOLDERS in *[!A-Za-z0-9_/.,+@:=~-]*) \
	  echo "monk: $$PLACE: a prefix has no space and no mark but _ / . , + @ : = ~ -" >&2; exit 1 ;; esac
	@case $$PLACE in /* | '') ;; *) echo "monk: $$PLACE: a prefix begins with /" >&2; exit 1 ;; esac
program:
	@test -n '$(PROGRAM)'
writable:
	@umask 022; mkdir -p '$(DESTDIR)$(PREFIX)/' 2>/dev/null && test -w '$(DESTDIR)$(PREFIX)/' || { echo \
	  "monk: $(DESTDIR)$(PREFIX) can't be written: take \`make install PREFIX=\$$HOME/.local\`, or ask root" >&2; exit 1; }
$(OUT):
	mkdir -p $@
$(OUT)/libmonk_log.so: $(wildcard recorders/c/*) | $(OUT)
	$(CC) -O2 -shared -fPIC -o $@ recorders/c/libmonk_log.c -ldl -lpthread
# (what is built can be installed by root, who may have no kit)
library:
	@if command -v rt >/dev/null || ! [ -e c/out/libmonk_pthread.so ]; then $(MAKE) -s -C c; fi
$(OUT)/BUILD-INFO: library FORCE | $(OUT)
	dist/build_info $(VERSION) $(PROGRAM) >$@

dist: program | $(OUT)
	dist/pack tar $(OUT)/monk-$(VERSION)-x86_64-linux '$(MAKE) -s install PROGRAM=$(PROGRAM)'
# The lab of two hours for students: it runs by its own page, and has no answers.
lab: program | $(OUT)
	dist/pack lab $(OUT)/monk-lab-$(VERSION) '$(MAKE) -s install PROGRAM=$(PROGRAM)'
deb: program | $(OUT)
	dist/pack deb $(OUT)/monk_$(VERSION)_amd64.deb '$(MAKE) -s install PROGRAM=$(PROGRAM)' $(VERSION)
FORCE:
.PHONY: all asked install laid_out uninstall program library writable dist lab deb FORCE
