# Random programs, listings, contexts, lists of maps, scripts and command lines (tests/trials/fuzz.c). The seeds from 1 on are tried, in as
# many processes as there are processors, for at most a minute. FUZZ_SECONDS gives another time, and no end of the seeds; FUZZ_FIRST
# and FUZZ_LAST give other seeds. What fails is told with its seed; its files are made again in out/fuzz.

compile fuzz
first_seed=${FUZZ_FIRST:-1}
last_seed=${FUZZ_LAST:-${FUZZ_SECONDS:+2000000000}}
last_seed=${last_seed:-3000}
spread fuzz "$first_seed" "$last_seed" "${FUZZ_SECONDS:-60}"
for seed in $(sed -n 's/^FAILED: seed \([0-9]*\):.*/\1/p' [0-9]*/told); do
    rm -rf "$top/out/fuzz/$seed"
    if mkdir -p "$top/out/fuzz/$seed"; then
        (cd "$top/out/fuzz/$seed" && "$work/fuzz/fuzz" "$program" 0 1 "$seed" "$seed" 60 > told)
        echo "  the files of seed $seed are in out/fuzz/$seed"
    fi
done
