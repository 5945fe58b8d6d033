# Completion of datacube for bash, made by scripts/documents.py from what the program says.
_datacube_codes='S1
S2
S3
S4
S5
S6
S7
S8
S9
S10
S11
S12
S13
L1
L2
L3
L4
L5
L6
F1
F2
F3
F4
F5
F6
P1
P2
P3
P4
P5
P6
P7
P8
G1
G2
G3
G4
G5
G6
G7
G8
1
2
3
4
5
6
7
8
9
schema unreadable
feed unreadable
too many feeds
unknown code
no random key
Q1
Q2
Q3
M1
M2
M3
M4
M5
M6
M7
M8
standard input is taken
too many cubes
D1
D2
D3
D4
D5
D6
D7
D8
D9
no columns'

_datacube() {
    local word=${COMP_WORDS[COMP_CWORD]} command=${COMP_WORDS[1]} words IFS=$' \t\n'
    COMPREPLY=()
    case $command in
    table) words='--by --of --ring --shard --max-record --builders --threads --quiet --why --json --aligned --width --where --strict --max-cells -h --help' ;;
    schema) words='--by --of --why -h --help' ;;
    check) words='--why -h --help' ;;
    print) words='--ring --shard --max-record --builders --threads --quiet --why --store --wary --partial --json --aligned --width --where --strict --max-cells -h --help' ;;
    refusals) words='--ring --shard --max-record --builders --threads --quiet --why --store --wary -h --help' ;;
    slice) words='--ring --shard --max-record --builders --threads --quiet --why --store --wary --json --aligned --width --where --strict --max-cells -h --help' ;;
    drill) words='--ring --shard --max-record --builders --threads --quiet --why --store --wary --json --aligned --width --where --strict --max-cells -h --help' ;;
    rollup) words='--ring --shard --max-record --builders --threads --quiet --why --store --wary --json --aligned --width --where --strict --max-cells -h --help' ;;
    live) words='--ring --shard --max-record --threads --quiet --why --store --wary --commit-every -h --help' ;;
    merge) words='--partial --check --quiet --why -h --help' ;;
    explain) words='--why -h --help' ;;
    *) words= ;;
    esac
    if [ "$COMP_CWORD" -eq 1 ]; then
        COMPREPLY=($(compgen -W 'table schema check print refusals slice drill rollup live merge explain -h --help -V --version' -- "$word"))
    elif [[ ${COMP_WORDS[COMP_CWORD - 1]} == @(--builders|--by|--commit-every|--max-cells|--max-record|--of|--ring|--shard|--threads|--where|--width) ]]; then
        compopt +o default
    elif [[ $word == -* ]]; then
        COMPREPLY=($(compgen -W "$words" -- "$word"))
    elif [ "$command" = explain ]; then
        IFS=$'\n'
        COMPREPLY=($(compgen -W "$_datacube_codes" -- "$word"))
        COMPREPLY=("${COMPREPLY[@]// /\\ }")
        compopt +o default
    fi
}
complete -o default -F _datacube datacube
