# For a Makefile of programs in C and C++: `include PATH/sdk/fsu.mk`. Then `make build/NAME` makes the image of
# NAME.c or NAME.cpp; a program of more files names the others as prerequisites: `build/NAME: more.c`. CC, CFLAGS and
# LDFLAGS are the user's. CC is GCC for RISC-V or, by CC=clang, clang with lld. Where picolibc is installed, programs
# may use all of it.

MAKEFLAGS += --no-builtin-rules
.SUFFIXES:

FSU_SDK := $(patsubst %/,%,$(dir $(lastword $(MAKEFILE_LIST))))
FSU_GCC := riscv64-unknown-elf-gcc
PICOLIBC ?= /usr/lib/picolibc/riscv64-unknown-elf
BUILD ?= build
ifeq ($(origin CC),default)
CC := $(FSU_GCC)
endif
FSU_IS_CLANG := $(findstring clang,$(notdir $(CC)))
ifeq ($(origin CXX),default)
CXX := $(if $(FSU_IS_CLANG),$(subst clang,clang++,$(CC)),$(subst gcc,g++,$(CC)))
endif
CFLAGS ?= -O2 -Wall -Wextra

# Nothing may need gp, and nothing tp but thread-local variables: a thread of fsu_create begins with both 0.
FSU_MACHINE := -march=rv32im -mabi=ilp32
FSU_FLAGS := $(FSU_MACHINE) -mno-relax -ftls-model=local-exec -isystem $(FSU_SDK)/include
FSU_LINK := -nostdlib -static -Wl,--no-relax -Wl,-T,$(FSU_SDK)/fsu.ld
FSU_WRAPPED := vfprintf fputs puts fwrite strerror _strerror_r
FSU_CXXFLAGS := -fno-exceptions -fno-rtti
ifeq ($(FSU_IS_CLANG),)
FSU_TOOLS := $(CC)
FSU_PACKAGES := gcc-riscv64-unknown-elf
FSU_LOOPS := -fno-tree-loop-distribute-patterns
FSU_AR := $(shell $(CC) -print-prog-name=ar 2>/dev/null)
# source/locks.c says why.
FSU_WRAPPED += __retarget_lock_acquire_recursive __retarget_lock_release_recursive
else
FSU_AR := $(shell $(CC) -print-prog-name=llvm-ar 2>/dev/null)
FSU_TOOLS := $(CC) ld.lld $(FSU_AR)
FSU_PACKAGES := clang lld llvm
FSU_LOOPS := -fno-builtin
FSU_FLAGS += --target=riscv32-unknown-elf -nostdlibinc
# Without -O0 lld puts equal strings together, away from where they stood.
FSU_LINK += -fuse-ld=lld -Wl,-O0,-z,norelro
endif

FSU_LINK += $(FSU_WRAPPED:%=-Wl,--wrap=%)

# clang takes the libgcc of GCC, where that is there.
FSU_OWNER := $(if $(FSU_IS_CLANG),$(FSU_GCC),$(firstword $(CC)))
FSU_LIBGCC := $(if $(shell command -v $(FSU_OWNER) 2>/dev/null),$(shell $(FSU_OWNER) $(FSU_MACHINE) -print-libgcc-file-name 2>/dev/null))
# picolibc stands on libgcc.
FSU_LIBC := $(if $(FSU_LIBGCC),$(wildcard $(PICOLIBC)/lib/rv32im/ilp32/libc.a))
FSU_FLAGS += $(if $(FSU_LIBC),-isystem $(PICOLIBC)/include,-ffreestanding)

# libfsu.a is the kit; libbase.a is what stands in where there is no picolibc and no libgcc.
FSU_OUT := $(BUILD)/kit
FSU_BASE := division.c errno.c seconds.c
FSU_WITH_LIBC := stdio.c strerror.c locks.c timeofday.c cxx.c
FSU_MEMBERS := $(filter-out start.S $(FSU_BASE) $(if $(FSU_LIBC),,$(FSU_WITH_LIBC)),$(notdir $(wildcard $(FSU_SDK)/source/*.[cS])))
FSU_KIT := $(FSU_OUT)/start.S.o $(FSU_OUT)/libfsu.a $(FSU_OUT)/libbase.a
FSU_LIBS := -Wl,--start-group $(FSU_OUT)/libfsu.a $(FSU_LIBC) $(FSU_LIBGCC) $(FSU_OUT)/libbase.a -Wl,--end-group
FSU_HEADERS := $(wildcard $(FSU_SDK)/include/*.h $(FSU_SDK)/include/sys/*.h $(FSU_SDK)/source/*.h)

# One sentence in place of what goes wrong without a tool, or without picolibc for a source that needs it.
define FSU_NEED
@for tool in $(1); do command -v $$tool >/dev/null && continue; \
    echo "fsu.mk: there is no $$tool here; install it (on Debian: apt-get install $(FSU_PACKAGES)), or name another compiler by CC=" >&2; exit 1; done
endef
define FSU_CHECK
$(call FSU_NEED,$(FSU_TOOLS))
@$(CC) $(FSU_FLAGS) -fsyntax-only -x c /dev/null 2>/dev/null || { \
    echo "fsu.mk: $(CC) does not compile for RV32IM; take $(FSU_GCC) or clang by CC=" >&2; exit 1; }
endef
FSU_LIBC_HEADERS := assert|ctype|inttypes|locale|math|search|setjmp|stdio|stdlib|string|strings|wchar|wctype
ifeq ($(FSU_LIBC),)
define FSU_CHECK_LIBC
@! grep -qE '^ *# *include *<($(FSU_LIBC_HEADERS))\.h>' $(filter %.c %.cpp,$^) || { \
    echo "fsu.mk: $< needs picolibc; install it (on Debian: apt-get install picolibc-riscv64-unknown-elf, which brings GCC with its libgcc), or say where it is by PICOLIBC=" >&2; exit 1; }
endef
endif

$(BUILD)/%: %.c $(FSU_KIT) $(FSU_SDK)/fsu.ld
	$(FSU_CHECK_LIBC)
	$(CC) $(FSU_FLAGS) $(CFLAGS) $(LDFLAGS) $(FSU_LINK) -o $@ $(FSU_OUT)/start.S.o $(filter %.c %.S,$^) $(FSU_LIBS)

$(BUILD)/%: %.cpp $(FSU_KIT) $(FSU_SDK)/fsu.ld
	$(call FSU_NEED,$(firstword $(CXX)))
	$(FSU_CHECK_LIBC)
	$(CXX) $(FSU_FLAGS) $(FSU_CXXFLAGS) $(CFLAGS) $(LDFLAGS) $(FSU_LINK) -o $@ $(FSU_OUT)/start.S.o $(filter %.cpp,$^) $(FSU_LIBS)

$(FSU_OUT)/libfsu.a: $(FSU_MEMBERS:%=$(FSU_OUT)/%.o)
	@rm -f $@
	@$(FSU_AR) rcs $@ $^

$(FSU_OUT)/libbase.a: $(FSU_BASE:%=$(FSU_OUT)/%.o)
	@rm -f $@
	@$(FSU_AR) rcs $@ $^

# No loop of memset becomes a call of memset.
$(FSU_OUT)/memory.c.o: FSU_FLAGS += $(FSU_LOOPS)

$(FSU_OUT)/%.o: $(FSU_SDK)/source/% $(FSU_HEADERS) $(FSU_OUT)/compiler
	@$(CC) $(FSU_FLAGS) -O2 -fdata-sections -Wall -Wextra -c -o $@ $<

# All is made anew when the compiler or its flags change.
$(FSU_OUT)/compiler: fsu_always
	$(FSU_CHECK)
	@mkdir -p $(FSU_OUT)
	@echo '$(CC) $(FSU_FLAGS) $(CFLAGS)' | cmp -s - $@ || echo '$(CC) $(FSU_FLAGS) $(CFLAGS)' >$@

.PHONY: fsu_always
.SECONDARY:

.DEFAULT:
	@echo "fsu.mk: there is no way to make $@: $(BUILD)/NAME is made of NAME.c or NAME.cpp$(if $(NAMES),$(comma) and the names here are: $(NAMES))" >&2; exit 1
comma := ,
