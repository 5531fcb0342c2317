# For scripts that link the proved library: sets LIB, its archive, unless the caller has set it. The archive is made
# anew, so that it is never an old one. To be sourced in the repository's root.
if [ -z "${LIB:-}" ]; then
    tools/library >&2
    LIB=target/liblastarunc.a
fi
if [ ! -f "$LIB" ]; then
    echo "there is no library archive at $LIB" >&2
    exit 1
fi
