#!/bin/sh
# Runs ./tally and ./panel as a user does: what they print and their exit status, also where input or output
# fails or the program cannot be built.
# Prints each failure and, last, 'N passed, M failed'.
set -u
cd "$(dirname "$0")/../.." || exit 1
room=$(mktemp -d) || exit 1
trap 'rm -rf "$room"' EXIT
export room
passed=0
failed=0

# check NAME STATUS OUTPUT ERROR COMMAND: runs a command of the shell. Its standard output must be the
# file OUTPUT, and standard error hold the text ERROR, or nothing where that is empty.
check() {
    sh -c "$5" >"$room/out" 2>"$room/err"
    status=$?
    if [ "$status" -eq "$2" ] && cmp -s "$room/out" "$3" &&
        if [ -n "$4" ]; then grep -qF -e "$4" "$room/err"; else [ ! -s "$room/err" ]; fi; then
        passed=$((passed + 1))
    else
        failed=$((failed + 1))
        echo "FAILED $1: status $status; first lines of output and error:"
        head -n 2 "$room/out" "$room/err"
    fi
}

nothing=/dev/null
echo 'refused 14' >"$room/refused"
cat "$room/refused" "$room/refused" >"$room/refused_twice"
printf '(report)\r\n(drop source 0)\r\n' >"$room/crlf"
yes '' | head -c 65536 >"$room/largest"
yes '' | head -c 65537 >"$room/too_large"
sed 's/^/refused 14/' "$room/largest" >"$room/refused_each"
cat "$room/too_large" "$room/too_large" >"$room/longer"
sed 's/^/refused 14/' "$room/longer" >"$room/refused_longer"
yes '(report)' | head -n 7000 >"$room/reports"
echo 'project 0 0 0' >"$room/first_line"
# Copies of the wrappers: beside programs that end badly, and without programs, beside an rt that fails, one
# that leaves a program which prints its input, and one whose run of it writes what its crate does not say.
for copy in bad unbuilt built; do
    for name in tally panel; do
        mkdir -p "$room/$copy/crates/$name" && : >"$room/$copy/crates/$name/stdin" && : >"$room/$copy/crates/$name/stdout"
    done
    cp tally panel wrapper.sh "$room/$copy" && : >"$room/$copy/crates.txt"
done
mkdir -p "$room/bad/target/bin" "$room/bad/target/stamp"
for name in tally panel; do
    printf '#!/bin/sh\ncat; exit 3\n' >"$room/bad/target/bin/$name" && chmod +x "$room/bad/target/bin/$name"
    touch "$room/bad/target/stamp/$name"
done
mkdir "$room/fails" "$room/makes" "$room/writes"
printf '#!/bin/sh\nexit 1\n' >"$room/fails/rt"
cat >"$room/makes/rt" <<'END'
#!/bin/sh
program=out/$(basename "$PWD")
mkdir -p out && printf '#!/bin/sh\ncat\n' >"$program" && chmod +x "$program"
END
sed '$a echo something' "$room/makes/rt" >"$room/writes/rt"
chmod +x "$room/fails/rt" "$room/makes/rt" "$room/writes/rt"
# Writes a line, and the next once the first is answered. At its end the program's input ends too.
cat >"$room/line_by_line" <<'END'
mkfifo "$room/lines" "$room/answers" || exit 1
./panel <"$room/lines" >"$room/answers" &
exec 3>"$room/lines" 4<"$room/answers"
echo '(drop plant 0)' >&3
timeout 10 head -n 1 <&4 || exit 1
echo '(report)' >&3
timeout 10 head -n 4 <&4 || exit 1
exec 3>&-
wait $!
END
printf 'refused 7\nproject 0 0 0\nleakage 0 0 0\nbaseline 0 0 0\nreduction 0\n' >"$room/answered"

for name in tally panel; do
    # The first run may still have to look whether the program is built.
    "./$name" <$nothing >$nothing 2>&1
    check "$name, the example" 0 examples/site.out '' "./$name <examples/site.txt"
    check "$name, the example through a pipe" 0 examples/site.out '' "cat examples/site.txt | ./$name | cat"
    check "$name, an empty input" 0 $nothing '' "./$name </dev/null"
    check "$name, lines that end in CR LF" 0 "$room/refused_twice" '' "./$name <\"\$room/crlf\""
    check "$name, an argument" 2 $nothing "usage: ./$name" "./$name examples/site.txt"
    check "$name, an empty argument" 2 $nothing "usage: ./$name" "./$name '' <examples/site.txt"
    check "$name, a closed input" 1 $nothing 'standard input is closed' "./$name <&-"
    check "$name, a closed output" 1 $nothing 'standard output is closed' "./$name <examples/site.txt >&-"
    check "$name, a program that ends badly" 1 examples/site.txt 'ended with status 3' \
        "\"\$room/bad/$name\" <examples/site.txt"
    check "$name, a build that fails" 1 $nothing 'not built' \
        "PATH=\$room/fails:\$PATH \"\$room/unbuilt/$name\" <examples/site.txt"
    check "$name, a build whose run writes something else" 1 $nothing 'not built' \
        "PATH=\$room/writes:\$PATH \"\$room/unbuilt/$name\" <examples/site.txt"
    check "$name, a build before the run" 0 examples/site.txt 'the first build' \
        "PATH=\$room/makes:\$PATH \"\$room/built/$name\" <examples/site.txt"
    check "$name, a reader that ends early" 0 "$room/first_line" '' \
        "{ ./$name <\"\$room/reports\"; echo \$? >\"\$room/status\"; } | head -n 1; [ \"\$(cat \"\$room/status\")\" -eq 141 ]"
done

check 'tally, the largest input' 0 "$room/refused_each" '' './tally <"$room/largest"'
check 'tally, an input that is too large' 0 "$room/refused" '' './tally <"$room/too_large"'
check 'tally, an input that does not end' 0 "$room/refused" '' 'yes | ./tally'
check 'tally, a directory as input' 1 $nothing 'could not be read' './tally <examples'
check 'tally, an input open for writing only' 1 $nothing 'could not be read' './tally 0>"$room/written"'
check 'tally, a full device' 1 $nothing 'could not be written' './tally <examples/site.txt >/dev/full'
check 'tally, no place for the input' 1 $nothing 'no place' 'TMPDIR=$room/none ./tally <examples/site.txt'
check 'panel, an input of 131,074 bytes' 0 "$room/refused_longer" '' './panel <"$room/longer"'
check 'panel, each line answered at once' 0 "$room/answered" '' 'sh "$room/line_by_line"'

echo "$passed passed, $failed failed"
[ "$failed" -eq 0 ]
