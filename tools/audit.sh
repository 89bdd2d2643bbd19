#!/usr/bin/env bash
# Audits a saved answer: a derivation or a model, with or without the line `unsat` or `sat` before it.
#
# usage: tools/audit.sh ANSWER SCRIPT [NUMBER]
#
# The file ANSWER has what `get-proof` or `get-model` wrote for the SCRIPT, and nothing after it. A derivation is checked by
# `cosmt --audit` and by tools/check_derivation.py. A model is checked by `cosmt --audit-model` at the check-sat with this NUMBER, by
# default 1; a derivation names its check itself.
#
# The solver is the program that the variable COSMT names, else crates/cosmt/out/cosmt. The status is 0 if the answer is verified, 1 if it
# is not, and 2 if a file or the program is missing.
here=$(cd "$(dirname "$0")" && pwd) || exit 2
solver=${COSMT:-$here/../crates/cosmt/out/cosmt}

if [ "$1" = "--help" ] || [ "$1" = "-h" ]; then
    sed -n '2,/^[^#]/s/^#\( \|$\)//p' "$0"
    exit 0
fi

# missing WHAT: says what is missing, and ends.
missing() {
    echo "audit: $*; --help says more" >&2
    exit 2
}
[ $# = 2 ] || [ $# = 3 ] || missing "two files are needed, an answer and a script"
for file in "$1" "$2"; do
    { [ -r "$file" ] && [ ! -d "$file" ]; } || missing "there is no file '$file'"
done
command -v "$solver" >/dev/null || missing "there is no program $solver"

answer=$(mktemp) || exit 2
trap 'rm -f "$answer"' EXIT
sed -e '1{/^\(un\)\{0,1\}sat\r\{0,1\}$/d' -e '}' "$1" >"$answer"
if grep -q -m 1 '^(*[[:space:]]*(cosmt-derivation ' "$answer"; then
    "$solver" --audit "$answer" "$2" && python3 "$here/check_derivation.py" "$answer" "$2" >/dev/null
else
    "$solver" --audit-model "$answer" --at "${3:-1}" "$2"
fi || exit 1
