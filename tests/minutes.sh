#!/bin/sh
# Where the processor minutes of rt ci go. `minutes.sh FILE` looks every three seconds at the prover's processes in its own session until it is ended, and writes each one's
# seconds, kind and crate to FILE; what a process takes after the last look is not seen, so the sums are a little low. `minutes.sh --told FILE`
# prints the sums.
set -u

# looked: of each process of the prover its number, its processor seconds, the crate, and what it proves.
looked() {
    ps -eo pid=,sid=,cputimes=,args= 2> /dev/null | awk -v session="$session" '
        $2 == session && $4 ~ /rattle$/ && / (build|check) --crate-name / {
            kind = / --test( |$)/ ? "tests" : / check / && !/rt-proved/ ? "wrong" : "crates"
            match($0, /--crate-name [a-z_0-9]+/)
            print $1, $3, substr($0, RSTART + 13, RLENGTH - 13), kind
        }
    '
}

if [ "$1" = --told ]; then
    [ -s "$2" ] || exit 0
    for kind in crates tests wrong; do
        awk -v kind="$kind" '
            $4 == kind { key = $1 " " $3; if ($2 > most[key]) most[key] = $2; crate[key] = $3 }
            END { for (key in most) { each[crate[key]] += most[key] } for (name in each) print each[name], name }
        ' "$2" | sort -rn | awk -v kind="$kind" '
            { sum += $1; text = text (NR > 1 ? ", " : "") $2 " " $1 }
            END { if (NR) printf "%s: %d min of a processor, in seconds: %s\n", (kind == "wrong" ? "wrong bodies" : kind), sum / 60 + 0.5, text }
        '
    done
    exit
fi
: > "$1"
session=$(ps -o sid= -p $$ 2> /dev/null | tr -d ' ')
while :; do
    looked >> "$1"
    sleep 3
done
