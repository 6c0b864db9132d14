# Sourced by the scripts beside it: `emulator` is what an x86-64 Linux program is run by, nothing on x86-64 and the machine's own
# qemu-x86_64 elsewhere.
emulator=()
if [ "$(uname -m)" != x86_64 ]; then
    . "$(dirname "${BASH_SOURCE[0]}")/kit.bash"
    emulator=(qemu-x86_64 "$toolchain/lib/ld-linux-x86-64.so.2" --library-path "$toolchain/lib")
fi
