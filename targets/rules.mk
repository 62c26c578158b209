# The library for other processors and systems, from the module that was proved (tools/retarget, docs/TARGETS.md).
# make targets          builds it for each of the targets below, in target/TARGET
# make TARGET           builds it for one, as make wasm32
# They need, beside the toolchain, Debian's gcc-aarch64-linux-gnu, gcc-riscv64-linux-gnu, gcc-mingw-w64-x86-64 and clang.
targets := aarch64-linux riscv64-linux wasm32 x86_64-windows
.PHONY: targets $(targets) aarch64-darwin
targets: $(targets)

module := target/module/module.ll
llvm := target/module/toolchain/bin
# The functions of the header, to be exported.
functions := $(shell sed -nE 's/^[a-z].*[ *](tipshare_[a-z_]+)[^a-z_].*/\1/p' include/tipshare.h)

$(module): $(library) tools/retarget
	tools/retarget --module

.PRECIOUS: target/%/tipshare_c.o
target/%/tipshare_c.o: $(module) tools/retarget include/tipshare.h
	tools/retarget $*

# Never linked or run: no machine of ours has that system.
aarch64-darwin: target/aarch64-darwin/tipshare_c.o

# wasm32: the module tipshare.wasm imports nothing. Its stack lies first in its memory, so that a call that outgrows it ends in
# a trap; the rest of the memory, from __heap_base on, is the caller's.
wasm := target/wasm32
wasm32: $(wasm)/libtipshare.a $(wasm)/tipshare.wasm

$(wasm)/words.o: library/words.c target/lib/words.o include/tipshare.h
	clang --target=wasm32 -ffreestanding -mcpu=mvp -std=c11 -Wall -Wextra -Werror -O2 -Iinclude -Itarget/lib -c $< -o $@

$(wasm)/libtipshare.a: $(wasm)/tipshare_c.o $(wasm)/words.o
	rm -f $@
	$(llvm)/llvm-ar rcsD $@ $^

$(wasm)/tipshare.wasm: $(wasm)/libtipshare.a
	$(llvm)/wasm-ld --no-entry --fatal-warnings --stack-first -z stack-size=262144 --strip-all \
		--export=__heap_base $(addprefix --export=,$(functions)) $< -o $@

# Linux on other processors: as make builds it for x86-64, by Debian's compilers for them.
elf := aarch64-linux riscv64-linux
cc-aarch64-linux := aarch64-linux-gnu-gcc
cc-riscv64-linux := riscv64-linux-gnu-gcc
define elf-rules
$(1): target/$(1)/libtipshare.a target/$(1)/$(notdir $(shared)) target/$(1)/tipshare

target/$(1)/words.o: library/words.c target/lib/words.o include/tipshare.h
	mkdir -p $$(@D)
	$$(cc-$(1)) $(CFLAGS) -fPIC -Iinclude -Itarget/lib -c $$< -o $$@

target/$(1)/libtipshare.a: target/$(1)/tipshare_c.o target/$(1)/words.o
	rm -f $$@
	$(llvm)/llvm-ar rcsD $$@ $$^

target/$(1)/$(notdir $(shared)): target/$(1)/libtipshare.a packaging/exports.map
	$$(cc-$(1)) -shared -Wl,-soname,$(soname) -Wl,--version-script=packaging/exports.map -Wl,-z,defs -Wl,-z,relro -Wl,-z,now \
		-Wl,--whole-archive $$< -Wl,--no-whole-archive -o $$@
	ln -sf $$(@F) target/$(1)/$(soname)
	ln -sf $(soname) target/$(1)/libtipshare.so

target/$(1)/tipshare: targets/tipshare.c target/$(1)/libtipshare.a
	$$(cc-$(1)) $(CFLAGS) -Iinclude $$^ -o $$@
endef
$(foreach target,$(elf),$(eval $(call elf-rules,$(target))))

# Windows: the library to link into a program, the shared one with what a program is linked with for it, and the program.
windows := target/x86_64-windows
mingw := x86_64-w64-mingw32-gcc
x86_64-windows: $(windows)/libtipshare.a $(windows)/tipshare.dll $(windows)/tipshare.exe

$(windows)/words.o: library/words.c target/lib/words.o include/tipshare.h
	mkdir -p $(@D)
	$(mingw) $(CFLAGS) -Iinclude -Itarget/lib -c $< -o $@

$(windows)/libtipshare.a: $(windows)/tipshare_c.o $(windows)/words.o
	rm -f $@
	$(llvm)/llvm-ar rcsD $@ $^

$(windows)/tipshare.def: include/tipshare.h
	mkdir -p $(@D)
	(echo EXPORTS && printf '%s\n' $(functions)) > $@

$(windows)/tipshare.dll: $(windows)/tipshare.def $(windows)/libtipshare.a
	$(mingw) -shared -static-libgcc -Wl,--out-implib,$(windows)/libtipshare.dll.a $< \
		-Wl,--whole-archive $(windows)/libtipshare.a -Wl,--no-whole-archive -o $@

$(windows)/tipshare.exe: targets/tipshare.c $(windows)/libtipshare.a
	$(mingw) $(CFLAGS) -static-libgcc -Iinclude $^ -o $@

# What makes recorded calls again on each target, and the check of all targets, which installs from Debian what it needs.
target/%-linux/replay: targets/replay.c target/%-linux/libtipshare.a
	$(cc-$*-linux) $(CFLAGS) -static -Iinclude $^ -o $@

$(windows)/replay.exe: targets/replay.c $(windows)/libtipshare.a
	$(mingw) $(CFLAGS) -static -Iinclude $^ -o $@

.PHONY: check-targets
check-targets:
	targets/check --install

# A folder that npm install takes.
npm := target/npm
.PHONY: npm
npm: $(wasm)/tipshare.wasm
	rm -rf $(npm)
	mkdir -p $(npm)
	cp $< packaging/npm/tipshare.js packaging/npm/tipshare.d.ts packaging/npm/README.md $(npm)
	chmod 644 $(npm)/*
	sed 's/@VERSION@/$(version)/' packaging/npm/package.json.in > $(npm)/package.json

# Python wheels with the library, for x86-64 and, with make wheel-aarch64, for ARM.
.PHONY: wheel wheel-aarch64
wheel: $(shared)
	mkdir -p target/wheel
	TIPSHARE_TARGET=x86_64-linux python3 -m pip wheel --quiet --no-deps --no-build-isolation --wheel-dir target/wheel packaging/wheel

wheel-aarch64: target/aarch64-linux/$(notdir $(shared))
	mkdir -p target/wheel
	TIPSHARE_TARGET=aarch64-linux python3 -m pip wheel --quiet --no-deps --no-build-isolation --wheel-dir target/wheel packaging/wheel

# Debian packages for ARM, of what make deb installs and the library for it.
.PHONY: deb-arm64
deb-arm64: all aarch64-linux
	packaging/deb $(version) arm64

# A zip for Windows.
.PHONY: windows-zip
windows-zip: all x86_64-windows
	packaging/windows $(version)

# Whether a backtrace passes through a call.
target/%-linux/backtrace: targets/backtrace.c target/%-linux/libtipshare.a
	$(cc-$*-linux) $(CFLAGS) -funwind-tables -Iinclude $^ -o $@
