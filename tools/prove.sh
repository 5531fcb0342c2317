# For scripts that need something proved and built: shows how far that is, on standard error. To be sourced in the
# repository's root.

# Is a file there, and none of these files and folders newer, what rt has made in out/ aside?  is_current FILE OTHER ..
is_current() {
    local made=$1
    shift
    [ -e "$made" ] && [ -z "$(find "$@" -name out -prune -o ! -type d -newer "$made" -print -quit)" ]
}

# How many crates some crates need, themselves counted.
crates_needed() {
    awk -v wanted="$*" '
        function visit(name, parts, k, count) {
            if (!(name in needs) || seen[name]++) return 0
            count = 1
            for (k = split(needs[name], parts, " "); k > 0; k--) count += visit(parts[k])
            return count
        }
        { sub(/#.*/, "") }
        i = index($0, ":") { name = substr($0, 1, i - 1); sub(/ .*/, "", name); needs[name] = substr($0, i + 1) }
        END {
            for (k = split(wanted, names, " "); k > 0; k--) count += visit(names[k])
            print count
        }' crates.txt
}

# Reads what rt prints, and says how many crates of so many are proved: on a terminal in one line that is written anew,
# otherwise in a line every ten seconds.
show_progress() {
    local total=$1 proved=0 said=-10 line name
    while IFS= read -r line; do
        [[ $line =~ ^crate\ ([a-z0-9_]+):\ modules ]] || continue
        name=${BASH_REMATCH[1]}
        proved=$((proved + 1))
        if [ -t 2 ]; then
            printf '\r\033[Kproved crate %d of %d (%s)' $proved "$total" "$name" >&2
        elif [ $((SECONDS - said)) -ge 10 ] || [ $proved = "$total" ]; then
            said=$SECONDS
            echo "proved crate $proved of $total ($name)" >&2
        fi
    done
    if [ -t 2 ]; then echo >&2; fi
}

# Ends the script: a command failed, and this is its log.
failed_with_log() {
    echo "that failed; the whole of it is in $PWD/$1, which ends with:" >&2
    tail -n 20 "$1" >&2
    exit 1
}

# Says how much there is to prove, and runs a command that proves it, with how far that is.  prove LOG CRATES COMMAND ..
prove() {
    local log=target/$1.log total
    command -v rt > /dev/null || { echo "the Rattle toolchain is wanted, and there is no rt" >&2 && exit 1; }
    total=$(crates_needed $2)
    mkdir -p target
    if [ ! -e crates/terms/out/rlib ]; then
        echo "first use: up to $total crates are proved and built, which takes a while" >&2
    else
        echo "the crates have changed, or were not all proved: proving what is new of $total" >&2
    fi
    "${@:3}" < /dev/null 2>&1 | tee "$log" | show_progress "$total" || failed_with_log "$log"
}

# Proves the library and makes its archive.
prove_library() {
    . tools/members.sh
    prove prove-library "$members" tools/library
}

# Proves and builds a program, for every x86-64 processor, and runs it on no input, as rt has no command that only
# builds one.
build_program() {
    (cd "crates/$1" && rt run --cpu x86-64)
}

# Proves and builds a program, target/bin/NAME, and its object, target/obj/NAME.o, if it is absent or older than its
# sources.
prove_program() {
    if ! is_current "target/bin/$1" crates crates.txt; then
        prove "prove-$1" "$1" build_program "$1"
        mkdir -p target/bin target/obj
        cp "crates/$1/out/$1.o" target/obj
        cp "crates/$1/out/$1" target/bin
    fi
}
