# How the benchmarks print what is allowed and what was reached. A script sources it, and ends with `exit "$missed"`.
missed=0

figure() { # NAME ALLOWED REACHED UNIT
    local mark=""
    if awk -v allowed="$2" -v reached="$3" 'BEGIN { exit !(reached > allowed) }'; then
        mark="  MISSED"
        missed=1
    fi
    printf '%-66s allowed %8.2f, reached %8.2f %s%s\n' "$1" "$2" "$3" "$4" "$mark"
}
