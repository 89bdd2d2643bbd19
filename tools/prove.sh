#!/usr/bin/env bash
# Solves a script, stores what shows that each answer is right, and has it checked.
#
# usage: tools/prove.sh [--coq] SCRIPT [FOLDER]
#
# For each check-sat that is unsat the derivation is stored in the FOLDER. `cosmt --audit` checks it against the script, in a process
# of its own, and so does tools/check_derivation.py, if it is there. For each check-sat that is sat the model is stored, and
# `cosmt --audit-model` evaluates the assertions in it. Without FOLDER, the answers for NAME.smt2 go to NAME.answers in the current
# folder.
#
# There is a line for each check and for each command that is refused or unsupported; a script that ends inside a command has that
# command refused. A check with assumptions has a line, but no derivation and no model are stored for it. The last line counts all. If
# some answers are not shown to be right, the line before it counts these: checks that are unknown, checks with assumptions, and
# audits without a verdict, which happen if an answer cannot be read or is too large.
#
# The solver is the program that the variable COSMT names, else crates/cosmt/out/cosmt. The status is 0 if every answer was verified and
# no command was refused or unsupported, 1 if not, and 2 if the script or a program is missing.
here=$(cd "$(dirname "$0")" && pwd) || exit 2
solver=${COSMT:-$here/../crates/cosmt/out/cosmt}
second=$here/check_derivation.py

if [ "$1" = "--help" ] || [ "$1" = "-h" ]; then
    sed -n '2,/^[^#]/s/^#\( \|$\)//p' "$0"
    exit 0
fi

# missing WHAT: says what is missing, and ends.
missing() {
    echo "prove: $*; --help says more" >&2
    exit 2
}
coq=
if [ "$1" = "--coq" ]; then
    coq=$here/../coq
    shift
    command -v coqc >/dev/null || missing "there is no program 'coqc'"
    make -s -C "$coq" >&2 || missing "the folder '$coq' was not built"
fi
[ $# = 1 ] || [ $# = 2 ] || missing "one script is due, and maybe a folder"
[ -e "$1" ] || missing "there is no file '$1'"
[ ! -d "$1" ] || missing "'$1' is a folder, not a script"
[ -r "$1" ] || missing "the file '$1' cannot be read"
command -v "$solver" >/dev/null || missing "there is no program '$solver'"
command -v python3 >/dev/null || missing "there is no program 'python3'"
[ -x "$here/client.py" ] || missing "there is no tool '$here/client.py'"
[ -e "$second" ] || echo "prove: there is no second checker '$second'" >&2
script=$1
folder=${2:-$(basename "$script" .smt2).answers}

checks=0 derivations=0 models=0 verified=0 satisfied=0 refused=0 unsupported=0 unknown=0 assuming=0 unaudited=0

# said LINE STATUS: prints what an audit wrote, and counts it if that is not a verdict.
said() {
    printf '%s' "${1:-none, status $2}"
    case $1 in
    verified | rejected*) ;;
    *) unaudited=$((unaudited + 1)) ;;
    esac
}

# audited FILE: says whether the derivation passes; the status is that of the checkers.
audited() {
    local line status=0 all=0
    line=$("$solver" --audit "$1" "$script") || status=$?
    printf 'audit: '
    said "$line" "$status"
    all=$status
    if [ -e "$second" ]; then
        status=0
        line=$(python3 "$second" "$1" "$script") || status=$?
        printf '; second checker: '
        said "$line" "$status"
    fi
    [ "$all" = 0 ] && [ "$status" = 0 ] && accepted_by_coq "$1"
}

# accepted_by_coq FILE: says whether Coq accepts the theorem of a derivation, if that is wanted. What Coq writes is stored beside it.
accepted_by_coq() {
    [ -n "$coq" ] || return 0
    local name=check_${1##*-}
    name=${name%.derivation}
    if "$here/to_coq.py" "$script" "$1" >"$folder/$name.v" 2>"$folder/$name.log" &&
        (cd "$folder" && coqc -q -Q "$coq" Cosmt "$name.v") >>"$folder/$name.log" 2>&1; then
        printf '; Coq: accepted'
    else
        printf '; Coq: rejected, see %s' "$folder/$name.log"
        return 1
    fi
}

# audited_model FILE NUMBER: says whether the model satisfies the assertions at the check with this number.
audited_model() {
    local line status=0
    line=$("$solver" --audit-model "$1" --at "$2" "$script") || status=$?
    printf 'audit: '
    said "$line" "$status"
    return "$status"
}

while read -r number verdict file; do
    case $number in
    -)
        case $verdict in
        refused) refused=$((refused + 1)) ;;
        unsupported) unsupported=$((unsupported + 1)) ;;
        esac
        printf '%s: %s\n' "$verdict" "$file"
        continue
        ;;
    '?')
        assuming=$((assuming + 1))
        printf 'under assumptions: %s, %s\n' "$verdict" "$file"
        continue
        ;;
    esac
    checks=$((checks + 1))
    printf 'check %s: %s' "$number" "$verdict"
    case $verdict in
    unsat)
        derivations=$((derivations + 1))
        printf ', derivation in %s, ' "$file"
        audited "$file" && verified=$((verified + 1))
        ;;
    sat)
        models=$((models + 1))
        printf ', model in %s, ' "$file"
        audited_model "$file" "$number" && satisfied=$((satisfied + 1))
        ;;
    unknown) unknown=$((unknown + 1)) ;;
    esac
    printf '\n'
done < <("$here/client.py" "$solver" "$script" "$folder")
wait $! || { echo "prove: the dialogue with $solver did not end as it must" >&2; exit 1; }

shown=0
if [ $((unknown + assuming + unaudited)) != 0 ]; then
    echo "not shown: unknown: $unknown, under assumptions: $assuming, audits without a verdict: $unaudited"
    shown=1
fi
echo "checks: $checks; derivations verified: $verified of $derivations; models verified: $satisfied of $models; commands refused: $refused, unsupported: $unsupported"
[ "$shown" = 0 ] && [ "$verified" = "$derivations" ] && [ "$satisfied" = "$models" ] && [ "$refused" = 0 ] && [ "$unsupported" = 0 ]
