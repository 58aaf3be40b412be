#!/usr/bin/env bash
# Tries the wrong programs that the gate does not:  bash tests/wrong/run.sh [CRATE..]
#
# Each edit of tests/wrong/CRATE/ makes the crate another program, or has it promise what another program
# does, and the prover must refuse it. rt must-fail tries them in a copy of the repository, in place of the
# gate's edits, and begins with what rt check kept. What rt said of each is left in target/wrong.
# The last line is 'N passed, M failed'.
set -u
cd "$(dirname "$0")/../.." || exit 1
PATH="$PATH:/opt/rattle/bin"
crates=${*:-$(cd tests/wrong && ls -d */ | tr -d /)}

copy=$(mktemp -d)
trap 'rm -rf "$copy"' EXIT
tar -c --exclude='crates/*/out' --exclude='crates/*/must-fail' crates crates.txt | tar -x -C "$copy" || exit 1
for crate in $crates; do
    cp -R "tests/wrong/$crate" "$copy/crates/$crate/must-fail" || exit 1
done
edits=$(find "$copy"/crates/*/must-fail -name '*.edit' | wc -l)

mkdir -p target
# shellcheck disable=SC2086
(cd "$copy" && rt must-fail $crates) | tee target/wrong
status=${PIPESTATUS[0]}
passed=$(grep -c ': refused, as it must be' target/wrong)
failed=$((edits - passed))
if [ "$status" -ne 0 ] && [ "$failed" -eq 0 ]; then failed=1; fi
echo "$passed passed, $failed failed"
[ "$failed" -eq 0 ] && [ "$passed" -gt 0 ]
