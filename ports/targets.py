"""The targets of ports/build: how each folder of prebuilt/ is compiled and linked."""

from dataclasses import dataclass


SHIM_FLAGS = "-O2 -ffreestanding -fno-builtin -ffunction-sections -fdata-sections -Wall -Wno-override-module"


@dataclass(frozen=True)
class Target:
    # whose object and module `rattle build` makes: aarch64 or x86_64
    machine: str
    triple: str
    programs: tuple[str, ...]
    # the ends of the names of a program's files
    ends: tuple[str, ...]
    # its files in this folder
    files: tuple[str, ...]
    # the packages of Debian whose files its commands take
    packages: tuple[str, ...]
    # links {code}, the program's object, and {shims}, those of the files; {made} is the program's path without its end
    commands: tuple[str, ...]
    # compiles the module with these flags; without any the code is the object of `rattle build`
    flags: str = ""
    # and the files with these
    shim_flags: str = SHIM_FLAGS


# the toolchain's own flags, and those that it adds for x86-64 and for WebAssembly
FLAGS = """-ffunction-sections -fdata-sections -mllvm -trap-unreachable -mllvm -disable-machine-licm
    -mllvm -disable-postra-machine-licm -mllvm -sink-common-insts=false --no-default-config -Werror -O3"""
X86_FLAGS = f"-mllvm -no-trap-after-noreturn -mllvm -no-x86-call-frame-opt {FLAGS}"
WASM_FLAGS = f"-mllvm -expand-div-rem-bits=64 -mllvm -expand-fp-convert-bits=64 {FLAGS}"
# bulk memory is what stands for memcpy, memmove and memset
WASM_CPU = "-mcpu=lime1 -mbulk-memory"
WASM_OPT = """wasm-opt --enable-bulk-memory --enable-sign-ext --enable-nontrapping-float-to-int --enable-mutable-globals
    --enable-multivalue"""
WASM_LOWER = f"{WASM_OPT} --enable-memory64 --memory64-lowering"
WASM_LINK = ("wasm-ld -m wasm64 --no-entry --export=main --export=malloc --gc-sections --stack-first -z stack-size=8388608"
             " --fatal-warnings --strip-debug")

# --wrap=main: ports/native/linux.c and ports/windows/windows.c say why
LD = "ld.lld -s --gc-sections --wrap=main"
LINUX = ("native/heap.ll", "native/words.c", "native/linux.c")
GLIBC = "/usr/aarch64-linux-gnu/lib"
GCC_ARM = "/usr/lib/gcc-cross/aarch64-linux-gnu/12"
MUSL = "/usr/lib/x86_64-linux-musl"
MINGW = "/usr/x86_64-w64-mingw32/lib"
GCC_WINDOWS = "/usr/lib/gcc/x86_64-w64-mingw32/12-win32"
# twice, because they need each other
MINGW_LIBRARIES = "-lmingw32 -lgcc -lmingwex -lmsvcrt -lkernel32 -lmingw32 -lgcc -lmingwex -lmsvcrt -lkernel32"

TARGETS = {
    "aarch64-linux": Target(
        machine="aarch64",
        triple="aarch64-unknown-linux-gnu",
        programs=("agc", "agc-console", "agc-dsky", "agc-study"),
        ends=("",),
        files=LINUX,
        packages=("libc6-dev-arm64-cross", "libgcc-12-dev-arm64-cross"),
        commands=(
            f"{LD} -static -o {{made}} {GLIBC}/crt1.o {GLIBC}/crti.o {GCC_ARM}/crtbeginT.o {{code}} {{shims}} --start-group"
            f" {GLIBC}/libc.a {GCC_ARM}/libgcc.a {GCC_ARM}/libgcc_eh.a --end-group {GCC_ARM}/crtend.o {GLIBC}/crtn.o",
        ),
    ),
    "x86_64-linux-static": Target(
        machine="x86_64",
        triple="x86_64-unknown-linux-musl",
        programs=("agc", "agc-console", "agc-dsky", "agc-study"),
        ends=("",),
        files=LINUX,
        packages=("musl-dev",),
        commands=(
            f"{LD} -static -o {{made}} {MUSL}/crt1.o {MUSL}/crti.o {{code}} {{shims}} {MUSL}/libc.a"
            f" {{kit}}/toolchain/lib/libgcc.a {MUSL}/crtn.o",
        ),
    ),
    "x86_64-windows": Target(
        machine="x86_64",
        triple="x86_64-w64-windows-gnu",
        programs=("agc", "agc-console", "agc-study"),
        ends=(".exe",),
        files=("native/heap.ll", "native/words.c", "windows/windows.c"),
        packages=("mingw-w64-x86-64-dev", "gcc-mingw-w64-x86-64-win32"),
        commands=(
            f"{LD} -m i386pep -Bstatic --no-insert-timestamp --stack 8388608 -o {{made}}.exe {MINGW}/crt2.o {{code}} {{shims}}"
            f" -L{MINGW} -L{GCC_WINDOWS} -lsynchronization {MINGW_LIBRARIES}",
        ),
        flags=X86_FLAGS,
    ),
    # the module with 64-bit addresses; the same with 32-bit addresses; and that one as a module that can stop in `read` and
    # be started again, for browsers that cannot suspend one
    "wasm": Target(
        machine="x86_64",
        triple="wasm64-unknown-unknown",
        programs=("agc-console",),
        ends=(".wasm", "-32.wasm", "-32-asyncify.wasm"),
        files=("native/heap.ll", "wasm/wasm.c", "wasm/int128.c"),
        packages=("binaryen",),
        commands=(
            f"{WASM_LINK} -o {{made}}.wasm {{code}} {{shims}}",
            f"{WASM_LOWER} {{made}}.wasm -o {{made}}-32.wasm",
            f"{WASM_OPT} --asyncify --pass-arg=asyncify-imports@host.read -O1 {{made}}-32.wasm -o {{made}}-32-asyncify.wasm",
        ),
        flags=f"{WASM_CPU} {WASM_FLAGS}",
        shim_flags=f"{WASM_CPU} {SHIM_FLAGS}",
    ),
    # a module with 32-bit addresses, for every browser: the program never waits for input
    "wasm32": Target(
        machine="x86_64",
        triple="wasm64-unknown-unknown",
        programs=("agc-study",),
        ends=(".wasm",),
        files=("native/heap.ll", "wasm/wasm.c", "wasm/files.c", "wasm/int128.c"),
        packages=("binaryen",),
        commands=(f"{WASM_LINK} -o {{made}}-64.wasm {{code}} {{shims}}", f"{WASM_LOWER} {{made}}-64.wasm -o {{made}}.wasm"),
        flags=f"{WASM_CPU} {WASM_FLAGS}",
        shim_flags=f"{WASM_CPU} {SHIM_FLAGS}",
    ),
}

# the programs of the targets, in the order in which they are made
PROGRAMS = ("agc", "agc-console", "agc-study", "agc-dsky")
EVERY = [(name, program) for program in PROGRAMS for name in TARGETS if program in TARGETS[name].programs]
