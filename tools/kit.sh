# Where the Rattle kit lies: sets kit, its folder, toolchain, its compiler and C library, and emulator, what runs x86-64
# programs here (empty on x86-64, or where the kit has none). The kit is at RATTLE_HOME, or where rt lies. To be sourced.
kit=${RATTLE_HOME:-$(dirname "$(dirname "$(readlink -f "$(command -v rt)")")")}
toolchain=$kit/toolchain
emulator=$toolchain/bin/qemu-x86_64
[ -x "$emulator" ] || emulator=
