# SPDX-License-Identifier: MIT
#
# PROGRAM=FILE and LIBRARY=FILE take another program and C library (libnvme_capi.a) than those that tools/build proves and
# builds, as they are. With UNPROVED=1 install, dist, deb and test take builds of which nothing is proved.
PREFIX = /usr/local
DESTDIR =
TO = $(DESTDIR)$(abspath $(PREFIX))
PROGRAM =
LIBRARY =
# What lies below share/nvmearb in the order of this repository, so that most links of the documents hold.
SHARED = README.md CHANGELOG.md SECURITY.md LICENSE docs examples capi/nvmearb.h capi/examples capi/sim capi/rust capi/python
FIND_SHARED = find $(SHARED) \( -name target -o -name out -o -name __pycache__ \) -prune -o -type f ! -name Cargo.lock -print
# The manual pages and completions, and where each lies below PREFIX.
PAGES = docs/nvmearb.1:share/man/man1/nvmearb.1 out/nvmearb.5:share/man/man5/nvmearb.5 \
	completions/nvmearb.bash:share/bash-completion/completions/nvmearb completions/_nvmearb:share/zsh/site-functions/_nvmearb \
	completions/nvmearb.fish:share/fish/vendor_completions.d/nvmearb.fish

all: ## prove and build the program, crates/nvmearb/out/nvmearb
	$(if $(PROGRAM),,tools/build $(if $(UNPROVED),--unproved) nvmearb)

demo: ## build program and C library in some minutes, with nothing proved, and show them
	tools/ready demo
	tools/build --unproved nvmearb nvme_capi
	./nvmearb --unproved demo
	./nvmearb --unproved once --blocks 1000 < examples/read.hex
	@echo 'Nothing of this is proved (make check proves it). For nvmearb write ./nvmearb --unproved, as in ./nvmearb --unproved help'

check: ## the gate: prove and test all that changed since it last passed here, and try the must-fail edits
	.ci/run

prove: ## prove every crate, or with CRATE=nvme_lane that one
	tools/ready
	cd crates/$(CRATE) && rt $(if $(CRATE),,all )check

test: ## test what is built, with UNPROVED=1 what is built without proofs, or NAME=words by tests/words alone; with CRATE=nvme_sim_tests that crate's tests, or NAME=one
	$(if $(CRATE),$(if $(wildcard tests/crates/$(CRATE)),tests/libraries $(CRATE) $(NAME),cd crates/$(CRATE) && rt test $(if $(NAME),-- $(NAME))),tests/run $(NAME))

docs: ## make the pages of docs/ anew that tell what stands elsewhere (tools/docs)
	tools/docs $(PROGRAM)

bench: ## measure, COUNT=1000000 steps each, or with COUNT=worst count the instructions of the worst single calls
	tools/bench $(COUNT)

install: all ## install program, manual pages, completions, C library, documents, examples, Rust and Python packages, below PREFIX=/usr/local
	install -D $(or $(PROGRAM),crates/nvmearb/out/$(if $(UNPROVED),unproved/)nvmearb) $(TO)/bin/nvmearb
	mkdir -p out && packaging/formats > out/nvmearb.5
	for it in $(PAGES); do install -D -m 644 "$${it%:*}" "$(TO)/$${it#*:}" || exit; done
	$(MAKE) -C capi install PREFIX=$(abspath $(PREFIX)) DESTDIR=$(abspath $(DESTDIR)) LIBRARY=$(abspath $(LIBRARY))
	install -d $(TO)/share/nvmearb/capi
	$(FIND_SHARED) | xargs cp --parents -t $(TO)/share/nvmearb
	ln -sf ../../../include/nvmearb.h $(TO)/share/nvmearb/capi/nvmearb.h

uninstall: ## remove what install of this version put below PREFIX=/usr/local, and the folders that are then empty
	{ printf 'share/nvmearb/%s\n' $$($(FIND_SHARED)); printf '%s\n' bin/nvmearb $(foreach it,$(PAGES),$(lastword $(subst :, ,$(it)))); } \
		| DESTDIR=$(DESTDIR) packaging/install.sh --remove-listed $(or $(abspath $(PREFIX)),/)
	$(MAKE) -C capi uninstall PREFIX=$(abspath $(PREFIX)) DESTDIR=$(abspath $(DESTDIR))

dist: ## make out/dist/nvmearb-VERSION-linux-x86_64.tar.gz and a Python wheel, which need no toolchain
	$(if $(UNPROVED),tools/build --unproved nvmearb nvme_capi)
	packaging/dist $(addprefix --program ,$(or $(PROGRAM),$(if $(UNPROVED),crates/nvmearb/out/unproved/nvmearb))) \
		$(addprefix --library ,$(or $(LIBRARY),$(if $(UNPROVED),crates/nvme_capi/out/unproved/libnvme_capi.a)))

deb: dist ## make a Debian package of the same files, out/dist/nvmearb_VERSION_amd64.deb
	packaging/deb

help: ## list these
	@awk -F ': [a-z ]*## ' '/^[a-z]+: .*## / { printf "make %-9s %s\n", $$1, $$2 }' $(MAKEFILE_LIST)

.PHONY: all demo check prove test docs bench install uninstall dist deb help
