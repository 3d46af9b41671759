# For a command of bin/ that has set `name`: where its repository is, and `ready`, which sets `program`. That is compiled from
# portable/c, the C of what was proved, at its first use. The toolchain's build, which is proved and built where it is not there or a
# source is newer, answers where DARTELM_NATIVE is 1 and where a source is newer than portable/c. A release for x86-64 has its
# programs built.
home="$(dirname "$(dirname "$(readlink -f -- "$0")")")"
native="$home/target/bin/$name"
compiled="$home/target/portable/$name"

fail() {
    echo "$name: $1" >&2
    exit 3
}

ready() {
    program="$native"
    if [ ! -f "$home/portable/c/$name.c" ] || [ "${DARTELM_NATIVE-}" = 1 ]; then
        is_built || build
    elif [ -d "$home/crates" ] || [ ! -x "$native" ] || [ "$(uname -m)" != x86_64 ]; then
        program="$compiled"
        is_compiled || compile
    fi
}

# Which program answers.
version() {
    ready
    local number
    number="$(sed -n 's/^#define DARTELM_VERSION \([0-9]*\)$/\1/p' "$home/include/dartelm.h")"
    if [ "$program" = "$compiled" ] || [ ! -d "$home/crates" ]; then
        echo "Dartelm $number, $name compiled from portable/c"
    else
        echo "Dartelm $number, $name as the toolchain built it"
    fi
}

# Whether the toolchain's program is there and no source is newer.
is_built() {
    [ -x "$native" ] || return
    [ -z "$(find "$home"/crates/*/{src,specs,proofs} "$home/crates.txt" -newer "$native" -print -quit 2> /dev/null)" ]
}

# Whether the compiled program is there and neither the C nor a source is newer.
is_compiled() {
    [ -x "$compiled" ] || return
    [ -z "$(find "$home"/crates/*/src "$home"/portable/c "$home/include" -newer "$compiled" -print -quit 2> /dev/null)" ]
}

# The first source that is not the one that portable/c was made from: another sum, or a file that is not listed.
newer_source() {
    local sums=sha256sum
    command -v sha256sum > /dev/null || sums='shasum -a 256'
    (
        cd "$home" || exit
        [ -d crates ] || exit
        $sums --check portable/c/sources.sha256 2> /dev/null | sed -n 's/: FAILED.*//p'
        find crates/*/src -name '*.rt' 2> /dev/null | while read -r file; do
            grep -q "  ${file%/src/*}/src/" portable/c/sources.sha256 || continue
            grep -q "  $file\$" portable/c/sources.sha256 || echo "$file"
        done
    ) | head -n 1
}

# Compiles the C; the program gets the time when that began, and takes its place at once, so that two may do it at one time.
compile() {
    local newer began new log compiler="${CC:-cc}"
    newer="$(newer_source)"
    if [ -n "$newer" ]; then
        command -v rt > /dev/null ||
            fail "$newer is newer than portable/c, and there is no rt (the Rattle toolchain) on the path to prove it"
        echo "$name: $newer is newer than portable/c" >&2
        program="$native"
        is_built || build
        return
    fi
    command -v "${compiler%% *}" > /dev/null || fail "it has to be compiled, and there is no C compiler ($compiler) on the path"
    echo "$name: compiling portable/c/$name.c" >&2
    mkdir -p "$home/target/portable" 2> /dev/null || fail "$home/target cannot be written"
    began="$(mktemp "$home/target/portable/began.XXXXXX")" || fail "$home/target cannot be written"
    new="$began.$name"
    # shellcheck disable=SC2086
    if log="$($compiler -std=c99 -O2 -I"$home/include" -o "$new" "$home/portable/c/$name.c" 2>&1)"; then
        touch -r "$began" "$new" && mv -f "$new" "$compiled" && rm -f "$began" && return
    fi
    rm -f "$began" "$new"
    [ -z "$log" ] || printf '%s\n' "$log" | tail -n 20 >&2
    fail 'it cannot be compiled'
}

# `--help` shows what stands at the head of the command's file.
help() {
    sed -n '2,/^[^#]/s/^# \{0,1\}//p' "$0"
    exit 0
}

# The crates that a program stands on, and the program, in the order in which they are proved. The kit's own have no line.
crates_of() {
    awk -v wanted="$1" -F '[: ]+' '
        !/^#/ { below[$1] = ""; for (i = 2; i <= NF; i++) below[$1] = below[$1] " " $i }
        function list(one, parts, n, i) {
            if (!(one in below) || one in seen) return
            seen[one]
            n = split(below[one], parts, " ")
            for (i = 1; i <= n; i++) list(parts[i])
            print one
        }
        END { list(wanted) }' "$home/crates.txt"
}

# Tells each crate as it is proved, with its place among them, and keeps all that is said.
told() {
    local line crate='' place crates
    mapfile -t crates < <(crates_of "$name")
    while IFS= read -r line; do
        printf '%s\n' "$line" >> "$1"
        if [[ $line =~ ^fn\ ([a-z0-9_]+):: ]]; then
            crate="${BASH_REMATCH[1]}"
        elif [[ $line == logic=proved* ]]; then
            for place in "${!crates[@]}"; do
                [ "${crates[place]}" != "$crate" ] || echo "$name: proved $((place + 1)) of ${#crates[@]}: $crate" >&2
            done
        fi
    done
}

# `rt run` proves what is not proved yet and leaves the program in the crate's out/; its input is empty here. The program gets the time
# when its building began, so that a source that is edited meanwhile is newer.
build() {
    local began log status new="$native.new"
    command -v rt > /dev/null || fail 'it has to be built, and there is no rt (the Rattle toolchain) on the path'
    echo "$name: proving and building it, which can take some minutes" >&2
    began="$(mktemp)" && log="$(mktemp)" || fail "there is no room for a temporary file in ${TMPDIR:-/tmp}"
    { cd "$home/crates/$name" && rt run < /dev/null 2>&1; } | told "$log"
    status=${PIPESTATUS[0]}
    [ "$status" -ne 0 ] || {
        mkdir -p "${native%/*}" && cp "$home/crates/$name/out/$name" "$new" && touch -r "$began" "$new" && mv -f "$new" "$native"
    } 2>> "$log"
    status=$((status + $?))
    [ "$status" -eq 0 ] || tail -n 20 "$log" >&2
    rm -f "$began" "$log"
    [ "$status" -eq 0 ] || fail 'it cannot be built'
}
