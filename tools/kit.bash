# Sourced by the scripts: where the kit's compiler, linker and archiver are, which stand beside the real file of `rt`, and how C is
# compiled. freestanding/ has the few headers that the kit's clang lacks for its target.

if ! command -v rt >/dev/null; then
    echo "rt was not found; install Rattle's kit and put rt on the PATH" >&2
    exit 1
fi
kit=$(dirname "$(dirname "$(readlink -f "$(command -v rt)")")")
toolchain=$kit/toolchain
link=$kit/bin/rattle-link
target=x86_64-unknown-linux-gnu
if [ ! -x "$toolchain/bin/clang" ] || [ ! -x "$link" ]; then
    echo "the kit that holds rt has no compiler or linker" >&2
    exit 1
fi
freestanding=$(cd "$(dirname "${BASH_SOURCE[0]}")" && pwd)/freestanding

# compile_c SOURCE OBJECT [OPTION...]
compile_c() {
    "$toolchain/bin/clang" --target="$target" -std=c11 -O3 -ffreestanding \
        -Wall -Wextra -Wpedantic -Wshadow -Wconversion -Werror \
        -I "$freestanding" "${@:3}" -c "$1" -o "$2"
}
