#!/usr/bin/env bash
# Fuzzes the program tally by AFL++ (Debian's package afl++):  bash tests/comparison/fuzz.sh MINUTES [PROGRAM]
#
# Instrumented, so that its branches guide the fuzzer: the plain C program measure/plain_tally.c. tally
# is not: its compiler has no instrumentation of AFL++, and Debian's AFL++ cannot trace other programs.
# So a path that tally alone has is found by chance only. Inputs are changed by bytes, as AFL++ does,
# and by lines (fuzz_mutator.py).
# Compared: on every input that the fuzzer makes, the output and exit status of tally with those of
# the plain C (fuzz_target.c). Then, on each input that it kept (one for each new path, and
# those that differed, crashed or took too long), those of tally with the reference's.
# Ends by itself. Its last line is 'N inputs compared, M differences'; what differs is kept and shown. N
# counts an input again where AFL++ runs it again, M inputs that differ along different paths of the C.
set -eu
minutes=${1:?usage: tests/comparison/fuzz.sh MINUTES [PROGRAM]}
root=$(cd "$(dirname "$0")/../.." && pwd)
program=$(realpath -m "${2:-$root/target/bin/tally}")
cd "$root"
for tool in "$program" afl-fuzz afl-clang-fast python3; do
    command -v "$tool" >/dev/null || { echo "$tool is missing"; exit 1; }
done

room=$(mktemp -d)
failures() { sed -n 's/^[0-9]* passed, \([0-9]*\) failed$/\1/p' "$room/log"; }
afl-clang-fast -std=c11 -O2 -o "$room/target" tests/comparison/fuzz_target.c >"$room/log" 2>&1 || { cat "$room/log"; exit 1; }
python3 -m tests.comparison.generate --fuzz "$room"
# AFL++ passes over an input to start from that crashes.
if ! python3 -m tests.comparison.differential --program "$program" --inputs "$room/inputs" >"$room/log"; then
    cat "$room/log"
    echo "the inputs are in $room/inputs"
    echo "$(find "$room/inputs" -type f | wc -l) inputs compared, $(failures) differences"
    exit 1
fi
export TALLY=$program PYTHONPATH=$root PYTHONDONTWRITEBYTECODE=1 AFL_PYTHON_MODULE=tests.comparison.fuzz_mutator
AFL_NO_UI=1 AFL_NO_AFFINITY=1 AFL_SKIP_CPUFREQ=1 AFL_I_DONT_CARE_ABOUT_MISSING_CRASHES=1 \
    afl-fuzz -V $((minutes * 60)) -t 5000 -G 70000 -i "$room/inputs" -x "$room/words" -o "$room/out" \
    -- "$room/target" >"$room/log" 2>&1 || { tail -n 30 "$room/log"; exit 1; }

figure() { sed -n "s/^$1 *: //p" "$room/out/default/fuzzer_stats"; }
made=$(figure execs_done)
differences=$(figure saved_crashes)
echo "$made inputs made, $(figure corpus_count) kept, $(figure bitmap_cvg) of the instrumented edges met"
echo "tally and the plain C differ, or one crashed, in $differences kept inputs; $(figure saved_hangs) took too long"

# inputs_of FOLDER TO: copies the inputs that AFL++ kept there.
inputs_of() {
    find "$room/out/default/$1" -maxdepth 1 -name 'id*' | while read -r file; do
        cp "$file" "$room/$2/$1-$(basename "$file")"
    done
}
mkdir "$room/kept" "$room/differing"
inputs_of queue kept
inputs_of hangs kept
inputs_of crashes differing
if [ "$differences" -gt 0 ]; then
    python3 -m tests.comparison.differential --program "$program" --inputs "$room/differing" || true
fi
python3 -m tests.comparison.differential --program "$program" --inputs "$room/kept" | tee "$room/log" || true
differences=$((differences + $(failures)))
if [ "$differences" -eq 0 ]; then rm -rf "$room"; else echo "the inputs are in $room/kept and $room/differing"; fi
echo "$made inputs compared, $differences differences"
[ "$made" -gt 0 ] && [ "$differences" -eq 0 ]
