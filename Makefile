# What one can do here. `make` lists it; each line behind ## says what a target does.
PREFIX ?= /usr/local
OFFICE = crates/toll_office/out/toll_office
SERVE = crates/toll_serve/out/toll_serve
SHARE = $(DESTDIR)$(PREFIX)/share
NAME = ductchervil-$(shell cat VERSION)-linux-x86_64

help: ## lists the targets
	@sed -n 's/^\([a-z]*\):[^#]*## \(.*\)/\1\t\2/p' Makefile | expand -t 10

build: ## proves the two programs and what they stand on, and leaves them at crates/NAME/out/NAME; 40 to 90 minutes
	python3 tools/build.py toll_office toll_serve

test: ## the gate: proves all, tries wrong edits, runs all tests, then the checks and trials below; hours
	.ci/run

docs: ## writes what the documents have from other files, then checks documents, rows and the form of the edits; a minute
	python3 tools/write_docs.py
	python3 tools/contracts.py
	python3 tools/pictures.py
	.ci/run --documents

trials: ## tries the built programs as their users would; some minutes
	.ci/run --trials

speed: ## measures the built program beside an unproved one; half an hour on an idle machine
	python3 bench/run.py $(OFFICE)

edits: ## make edits CRATE=NAME: tries the wrong edits of a crate, some seconds each
	python3 tools/edits.py $(CRATE)

install: ## puts the built programs, manual pages and completions below PREFIX (/usr/local)
	install -d $(DESTDIR)$(PREFIX)/bin $(SHARE)/man/man1 $(SHARE)/bash-completion/completions
	install -d $(SHARE)/zsh/site-functions $(SHARE)/fish/vendor_completions.d
	install -m 755 $(OFFICE) $(SERVE) $(DESTDIR)$(PREFIX)/bin
	install -m 644 docs/toll_office.1 docs/toll_serve.1 $(SHARE)/man/man1
	install -m 644 docs/toll_office.bash $(SHARE)/bash-completion/completions/toll_office
	install -m 644 docs/toll_office.bash $(SHARE)/bash-completion/completions/toll_serve
	install -m 644 docs/toll_office.zsh $(SHARE)/zsh/site-functions/_toll_office
	install -m 644 docs/toll_office.fish $(SHARE)/fish/vendor_completions.d/toll_office.fish
	install -m 644 docs/toll_office.fish $(SHARE)/fish/vendor_completions.d/toll_serve.fish

release: ## packs what install puts, its programs stripped, with the digest of each file: dist/NAME.tar.gz
	rm -rf dist/$(NAME)
	$(MAKE) --no-print-directory install DESTDIR=dist/$(NAME) PREFIX=
	strip dist/$(NAME)/bin/*
	cp README.md CHANGELOG.md VERSION KIT dist/$(NAME)
	git rev-parse HEAD > dist/$(NAME)/COMMIT
	cd dist/$(NAME) && find . -type f | sort | xargs sha256sum > ../$(NAME).sha256 && mv ../$(NAME).sha256 SHA256SUMS
	cd dist && tar --sort=name --mtime="$$(git log -1 --format=%cI)" --owner=0 --group=0 --numeric-owner -c $(NAME) | gzip -n > $(NAME).tar.gz
	cd dist && sha256sum $(NAME).tar.gz | tee $(NAME).tar.gz.sha256

.PHONY: help build test docs trials speed edits install release
