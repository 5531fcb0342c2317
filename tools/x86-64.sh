# For scripts that build C hosts: sets CC and CFLAGS, a compiler of static x86-64 programs, and RUN, what runs them
# (nothing on x86-64, an emulator on Arm). Installs a missing compiler. To be sourced in the repository's root.
. tools/kit.sh

# Installs Debian packages, quietly; says so if that fails.
install_packages() {
    local log
    log=$(mktemp)
    if ! { apt-get update && DEBIAN_FRONTEND=noninteractive apt-get install -y --no-install-recommends "$@"; } \
        > "$log" 2>&1; then
        cat "$log" >&2
        echo "could not install: $*" >&2
        return 1
    fi
    rm -f "$log"
}

if [ "$(uname -m)" = x86_64 ]; then
    CC=gcc
    RUN=
    command -v gcc > /dev/null || install_packages gcc libc6-dev
else
    CC=x86_64-linux-gnu-gcc
    command -v "$CC" > /dev/null || install_packages gcc-x86-64-linux-gnu libc6-dev-amd64-cross
    if [ -z "$emulator" ]; then
        command -v qemu-x86_64 > /dev/null || install_packages qemu-user
        emulator=$(command -v qemu-x86_64)
    fi
    RUN=$emulator
fi
CFLAGS="-std=gnu11 -O3 -Wall -Wextra -Werror -static"
