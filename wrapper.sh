# What ./tally and ./panel share. Each sets root, the folder that it stands in, and name, its program's name.
#
# Builds the program where it is missing or older than its sources. target/bin/NAME and target/stamp/NAME are
# left once the program is proved and its run wrote what it must, and the stamp is taken away where a build fails.
PATH="$PATH:/opt/rattle/bin"
program=$root/target/bin/$name
stamp=$root/target/stamp/$name
broken_pipe=141 # the status of a program whose reader ended early

fail() {
    echo "$name: $1" >&2
    exit 1
}

# Words for a person: only where standard error is a terminal, so that no script reads them.
hint() {
    [ ! -t 2 ] || echo "$name: $1" >&2
}

# hint_typing WORDS: for a person who types the input.
hint_typing() {
    [ ! -t 0 ] || hint "$1"
}

# What rt itself writes, in crates/NAME/out, is no source.
is_built() {
    [ -x "$program" ] && [ -f "$stamp" ] && [ ! "$root/crates.txt" -nt "$stamp" ] &&
        [ -z "$(find "$root/crates" -mindepth 2 -name out -prune -o -newer "$stamp" -print | head -n 1)" ]
}

# How many crates of the repository the program is made of, itself among them.
crates() {
    awk -F '[: ]+' -v name="$name" '
        !/^#/ { ours[$1] = 1 }
        $1 == name { for (i = 1; i <= NF; i++) used[$i] = 1 }
        END { for (crate in used) count += crate in ours; print count + 0 }' "$root/crates.txt"
}

build() {
    if ! command -v rt >/dev/null; then
        echo "$name: rt is missing (the Rattle toolchain, under /opt/rattle)" >&2
        return 1
    fi
    if ! mkdir -p "$root/target" 2>/dev/null || [ ! -w "$root/target" ]; then
        echo "$name: $root/target cannot be written" >&2
        return 1
    fi
    if [ -x "$program" ]; then
        echo "$name: a file changed since the last check, or that check failed; checking again" >&2
    else
        echo "$name: the first build proves $(crates) crates, printed one by one, which takes some minutes" >&2
    fi
    rm -f "$stamp"
    began=$(date +%s.%N)
    proved && keep "$began"
}

# Proves the program, builds it and runs it on its crate's file stdin. It must write the file stdout.
proved() {
    folder=$root/crates/$name
    ended=$({ { (cd "$folder" && rt run <stdin); echo $? >&5; } | cmp - "$folder/stdout" >&2; } 5>&1) || return 1
    [ "$ended" = 0 ]
}

# keep BEGAN: keeps the program that rt built since then, in one step, so that one that runs is not changed.
# What is edited while rt runs is newer than the build.
keep() {
    mkdir -p "$root/target/bin" "$root/target/stamp" &&
        cp "$root/crates/$name/out/$name" "$program.new" && mv -f "$program.new" "$program" &&
        touch -d "@$1" "$stamp"
}

# prepare USAGE ARGUMENTS..: ends the wrapper where it was given arguments, where standard input or output is
# closed, or where the program cannot be built.
prepare() {
    if [ $# -ne 1 ]; then
        echo "usage: $1" >&2
        exit 2
    fi
    # A closed descriptor cannot be copied.
    (: 3<&0) 2>/dev/null || fail 'standard input is closed'
    (: 3>&1) 2>/dev/null || fail 'standard output is closed'
    is_built || build || fail 'not built'
}
