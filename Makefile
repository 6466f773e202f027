# Needs the Rattle kit, with its command `rt` on the path, and python3.

PREFIX = /usr/local
bin = $(DESTDIR)$(PREFIX)/bin
man = $(DESTDIR)$(PREFIX)/share/man/man1
headers = $(DESTDIR)$(PREFIX)/include
libraries = $(DESTDIR)$(PREFIX)/lib
included = wgsl.h wgsl_packed.h wgsl_packed.json

.PHONY: help demo build lib web site tables test prove mutants programs browsers install uninstall
.PHONY: dist clean

help:
	@echo "make demo       formats a shader with wgsltidy, and prints it with wgslfmt, without proofs"
	@echo "make build      proves the three programs and what they depend on, and puts them into build/"
	@echo "make lib        proves the library for C and Rust, build/libwgsl.a; with ARCH=aarch64"
	@echo "                build/aarch64/libwgsl.a"
	@echo "make web        makes the npm package build/web of that library, as WebAssembly"
	@echo "make site       makes the page build/site of that package and of web/"
	@echo "make install    installs the programs, their man pages, and the library if it is built, below"
	@echo "                PREFIX, which is $(PREFIX)"
	@echo "make uninstall  removes them"
	@echo "make dist       packs what is built into an archive in build/ that needs no prover"
	@echo "make tables     writes again what tools write from the definitions"
	@echo "make test       runs all tests, over programs that are not proved, and checks the documents"
	@echo "make prove      proves everything, and tries what is built; make mutants tries all wrong bodies"
	@echo "make browsers   tries build/site and build/web in Chromium and Firefox"
	@echo "make clean      removes build/ and what rt keeps in crates/*/out"

demo:
	@for program in wgsltidy wgslfmt; do \
	    echo "examples/commented/waves.wgsl by $$program, in about a minute:"; \
	    { said=$$(cd crates/$$program && rt try < ../../examples/commented/waves.wgsl 2>&1 >&3); } 3>&1 \
	        || { echo "$$said" >&2; exit 1; }; \
	done
	@echo "These programs are not proved; \`make build\` proves them."

build:
	@tools/build

lib:
	@tools/build lib $(ARCH)

web:
	@tools/web

site:
	@tools/site

tables:
	@tools/make_tables

# Everything that shows behaviour, without a proof. The quotes in README.md, docs/USE.md and CALLING.md
# have to be in the sources; the documents have to use the words of the dictionary, and each file the
# version of VERSION; each file of a crate has to be in the layout of rt fmt, and no line of a
# definition or a proof may be too long; what tools write has to be up to date; each wrong body has
# to be one that can be applied, and on record. Then all rows and tests are run over programs as
# `rt try` compiles them, with checks of each access; if `make web` has been run, those of the
# package for JavaScript; and if `make build` has, those of what USE says of editors and of CI.
test:
	@test "$$(cat HANDLES)" = "Handles allowed: none." \
	    || { echo "Failed: the file HANDLES."; exit 1; }
	@tools/snippets || { echo "Failed: tools/snippets, as the lines above say."; exit 1; }
	@tools/words || { echo "Failed: tools/words, as the lines above say."; exit 1; }
	@tools/versions || { echo "Failed: tools/versions, as the lines above say."; exit 1; }
	@tools/layout || { echo "Failed: tools/layout, as the lines above say."; exit 1; }
	@tools/lines --check || { echo "Failed: run \`tools/lines\`."; exit 1; }
	@tools/make_tables --check || { echo "Failed: run \`make tables\`."; exit 1; }
	@tools/edits_apply || { echo "Failed: tools/edits_apply, as the lines above say."; exit 1; }
	@tools/run_tests || { echo "Failed: tools/run_tests, as the lines above say."; exit 1; }
	@test ! -d build/web || tools/web_test \
	    || { echo "Failed: tools/web_test, as the lines above say."; exit 1; }
	@test ! -x build/wgsltidy || tools/editors_test \
	    || { echo "Failed: tools/editors_test, as the lines above say."; exit 1; }
	@echo "All passed."

# Every proof, the wrong bodies that tools/prove_all tries, and `make programs` over what was
# proved. ANEW=--anew takes nothing from earlier runs.
prove:
	@tools/prove_all $(ANEW) || { echo "Failed: tools/prove_all, as above."; exit 1; }
	@echo "All proved."

# All wrong bodies, over what `make prove` proved.
mutants:
	@tools/edits --all || { echo "Failed: tools/edits, as the lines above say."; exit 1; }

# What make prove tries of what it proved: the built programs on their rows, on made texts and on
# deep nests, wgsltidy and wgslmin on real files, with each allocation failing in turn; the library, called from
# C, and from Rust if there is cargo; and the archive of `make dist`, which is made twice, unpacked,
# and used without the kit.
programs:
	@tools/run_tests --built || { echo "Failed: tools/run_tests, as the lines above say."; exit 1; }
	@tools/fuzz --program crates/wgslfmt/out/wgslfmt \
	    || { echo "Failed: tools/fuzz, as the lines above say."; exit 1; }
	@tools/nests --program crates/wgsltidy/out/wgsltidy --printer crates/wgslfmt/out/wgslfmt \
	    --minifier crates/wgslmin/out/wgslmin \
	    || { echo "Failed: tools/nests, as the lines above say."; exit 1; }
	@tools/tidy_texts --program crates/wgsltidy/out/wgsltidy --printer crates/wgslfmt/out/wgslfmt \
	    || { echo "Failed: tools/tidy_texts, as the lines above say."; exit 1; }
	@tools/files_test --program crates/wgsltidy/out/wgsltidy \
	    || { echo "Failed: tools/files_test, as the lines above say."; exit 1; }
	@tools/minify_test --program crates/wgslmin/out/wgslmin \
	    || { echo "Failed: tools/minify_test, as the lines above say."; exit 1; }
	@tools/refused_memory || { echo "Failed: tools/refused_memory, as above."; exit 1; }
	@tools/build lib || { echo "Failed: tools/build lib, as above."; exit 1; }
	@tools/library_tests || { echo "Failed: tools/library_tests, as above."; exit 1; }
	@tools/build || { echo "Failed: tools/build, as above."; exit 1; }
	@tools/dist_test || { echo "Failed: tools/dist_test, as above."; exit 1; }

# The page and the rows in Chromium and Firefox, which neither `make test` nor `make prove` needs.
browsers:
	@tools/browsers || { echo "Failed: tools/browsers, as the lines above say."; exit 1; }

install:
	@for program in wgsltidy wgslfmt wgslmin; do \
	    test -x build/$$program \
	        || { echo "build/$$program is not there: run \`make build\` first."; exit 1; }; \
	done
	@install -d "$(bin)" "$(man)"
	@for program in wgsltidy wgslfmt wgslmin; do \
	    install -m 755 build/$$program "$(bin)/$$program" \
	        && install -m 644 man/$$program.1 "$(man)/$$program.1" || exit 1; \
	    echo "Installed $(bin)/$$program and $(man)/$$program.1."; \
	done
	@if test -f build/libwgsl.a; then \
	    install -d "$(headers)" "$(libraries)/pkgconfig" \
	        && install -m 644 $(included:%=include/%) "$(headers)" \
	        && install -m 644 build/libwgsl.a "$(libraries)/libwgsl.a" \
	        && install -m 644 include/wgsl.pc "$(libraries)/pkgconfig/wgsl.pc" || exit 1; \
	    echo "Installed $(libraries)/libwgsl.a, $(libraries)/pkgconfig/wgsl.pc, and in $(headers):"; \
	    echo "$(included)."; \
	fi

uninstall:
	@for program in wgsltidy wgslfmt wgslmin; do \
	    rm -f "$(bin)/$$program" "$(man)/$$program.1"; \
	done
	@for file in $(included); do rm -f "$(headers)/$$file"; done
	@rm -f "$(libraries)/libwgsl.a" "$(libraries)/pkgconfig/wgsl.pc"

dist:
	@tools/dist

clean:
	@rm -rf build crates/*/out
