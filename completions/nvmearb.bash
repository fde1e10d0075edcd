# SPDX-License-Identifier: MIT
# Completions of nvmearb for bash.

_nvmearb() {
    local cur=${COMP_WORDS[COMP_CWORD]} prev=${COMP_WORDS[COMP_CWORD - 1]} words="" files=""
    COMPREPLY=()
    if [ "$COMP_CWORD" = 1 ]; then
        words="demo run trace simulate check audit stats chart lint expand settings once loaded live help --help --version"
    else
        case $prev in
            --workers) words="1 2 3 4 5 6 7 8" ;;
            --format)
                case ${COMP_WORDS[1]} in
                    check | audit) words="text json junit" ;;
                    run) words="text json" ;;
                    *) words="text json csv" ;;
                esac
                ;;
            -o | --output | --log | --trace | --chart) files=any ;;
            --class) words="urgent high medium low" ;;
            --observer) words="bus host" ;;
            --without) words="fetch-beyond-tail fetch-slot slot phase cq-full sqhd" ;;
            --only) words="fetch-closed fetch-beyond-tail fetch-slot post-closed slot phase cq-full cq-wrong life sqhd sqdel-unasked abort-unasked abort-untrue status-foreign status-create status-delete features pick-candidates pick-burst pick-priority pick-credit pick-turn" ;;
            --burst) words="1 2 4 8 16 32 64 none" ;;
            --blocks | --from | --to | --weights | --window | --seed | --commands | --time | --warm-up | --load | --sweep | --seeds | --jobs) return ;;
            *)
                case ${COMP_WORDS[1]} in
                    run) words="--live --workers --summary --format --json --help" files=toml ;;
                    trace) words="--live --workers --output --help" files=toml ;;
                    simulate) words="--seed --commands --time --warm-up --load --sweep --seeds --jobs --points --no-head --class --format --json --bounds --log --trace --chart --output --help" files=toml ;;
                    lint | expand) words="--help" files=toml ;;
                    check) words="--spec --all --quiet --format --json --help" files=any ;;
                    audit) words="--observer --only --without --all --coverage --quiet --format --json --help" files=any ;;
                    chart) words="--from --to --no-admin --output --help" files=any ;;
                    stats) words="--from --to --backlogged --window --format --json --help" files=any ;;
                    loaded | live) words="--workers --help" ;;
                    once) words="--blocks --help" ;;
                    settings) words="--burst --weights --help" ;;
                    help) words="workload simulation run trace simulate check audit stats chart lint expand settings once loaded live" ;;
                esac
                ;;
        esac
    fi
    # Options come where one is begun, files elsewhere.
    if [ -n "$files" ] && [[ $cur != -* ]]; then
        local IFS=$'\n'
        compopt -o filenames
        if [ "$files" = toml ]; then
            COMPREPLY=($(compgen -f -X '!*.toml' -- "$cur") $(compgen -d -- "$cur"))
        else
            COMPREPLY=($(compgen -f -- "$cur"))
        fi
    else
        COMPREPLY=($(compgen -W "$words" -- "$cur"))
    fi
}

complete -F _nvmearb nvmearb
