# Completion of machcheck for bash.
_machcheck() {
    local word=${COMP_WORDS[COMP_CWORD]} before=${COMP_WORDS[COMP_CWORD - 1]}
    local command= options= kind=files i
    if [[ $word == = ]]; then
        word=
    elif [[ $before == = ]]; then
        before=${COMP_WORDS[COMP_CWORD - 2]}
    fi
    for ((i = 1; i < COMP_CWORD; i++)); do
        if [[ ${COMP_WORDS[i]} != -* ]]; then
            command=${COMP_WORDS[i]}
            break
        fi
    done
    COMPREPLY=()
    case $command in
    '') kind=words options='verify mend attack check make explain facts graph slots promises expand replay live mig encode decode help --help --version' ;;
    help) kind=words options='verify mend attack check make explain facts graph slots promises expand replay live mig encode decode ' ;;
    verify)
        options='--wiring --policy --tree --brief --line --waive --format --verbose --help'
        case $before in
        --wiring) kind=file ;;
        --policy) kind=file ;;
        --line) kind=nothing ;;
        --format) kind=words options='text json sarif' ;;
        esac
        ;;
    mend)
        options='--wiring --policy --line --waive --most --format --verbose --help'
        case $before in
        --wiring) kind=file ;;
        --policy) kind=file ;;
        --line) kind=nothing ;;
        --most) kind=nothing ;;
        --format) kind=words options='text json' ;;
        esac
        ;;
    attack)
        options='--wiring --policy --line --waive --most --format --verbose --help'
        case $before in
        --wiring) kind=file ;;
        --policy) kind=file ;;
        --line) kind=nothing ;;
        --most) kind=nothing ;;
        --format) kind=words options='text json' ;;
        esac
        ;;
    check)
        options='--wiring --policy --cert --waive --format --verbose --help'
        case $before in
        --wiring) kind=file ;;
        --policy) kind=file ;;
        --cert) kind=file ;;
        --format) kind=words options='text json' ;;
        esac
        ;;
    make)
        options='--wiring --out --workers --verbose --help'
        case $before in
        --wiring) kind=file ;;
        --out) kind=file ;;
        --workers) kind=nothing ;;
        esac
        ;;
    explain)
        options='--wiring --fact --by --format --verbose --help'
        case $before in
        --wiring) kind=file ;;
        --fact) kind=nothing ;;
        --format) kind=words options='text json' ;;
        esac
        ;;
    facts)
        options='--wiring --cert --task --class --right --format --verbose --help'
        case $before in
        --wiring) kind=file ;;
        --cert) kind=file ;;
        --task) kind=nothing ;;
        --class) kind=nothing ;;
        --right) kind=nothing ;;
        --format) kind=words options='text json' ;;
        esac
        ;;
    graph)
        options='--wiring --cert --policy --fact --task --holds --format --verbose --help'
        case $before in
        --wiring) kind=file ;;
        --cert) kind=file ;;
        --policy) kind=file ;;
        --fact) kind=nothing ;;
        --task) kind=nothing ;;
        --format) kind=words options='text json' ;;
        esac
        ;;
    slots)
        options='--wiring --format --verbose --help'
        case $before in
        --wiring) kind=file ;;
        --format) kind=words options='text json' ;;
        esac
        ;;
    promises)
        options='--wiring --format --verbose --help'
        case $before in
        --wiring) kind=file ;;
        --format) kind=words options='text json' ;;
        esac
        ;;
    expand)
        options='--wiring --verbose --help'
        case $before in
        --wiring) kind=file ;;
        esac
        ;;
    replay)
        options='--wiring --script --format --verbose --help'
        case $before in
        --wiring) kind=file ;;
        --script) kind=file ;;
        --format) kind=words options='text json' ;;
        esac
        ;;
    live)
        options='--wiring --policy --cert --script --format --verbose --help'
        case $before in
        --wiring) kind=file ;;
        --policy) kind=file ;;
        --cert) kind=file ;;
        --script) kind=file ;;
        --format) kind=words options='text json' ;;
        esac
        ;;
    mig)
        options='--out --strict --strict-rights --as-received --format --verbose -I -D -U --help'
        case $before in
        --out) kind=folder ;;
        --format) kind=words options='text json' ;;
        -I) kind=folder ;;
        -D) kind=nothing ;;
        -U) kind=nothing ;;
        esac
        ;;
    encode)
        options='--message --verbose --help'
        case $before in
        --message) kind=nothing ;;
        esac
        ;;
    decode)
        options='--hex --verbose --help'
        case $before in
        --hex) kind=nothing ;;
        esac
        ;;
    *) return ;;
    esac
    case $kind in
    file) compopt -o default ;;
    folder) compopt -o dirnames ;;
    files)
        if [[ $word == -* ]]; then
            mapfile -t COMPREPLY < <(compgen -W "$options" -- "$word")
        else
            compopt -o filenames -o plusdirs
            mapfile -t COMPREPLY < <(compgen -f -X '!*.defs' -- "$word")
        fi
        ;;
    words) mapfile -t COMPREPLY < <(compgen -W "$options" -- "$word") ;;
    esac
} && complete -F _machcheck machcheck
