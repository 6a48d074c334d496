#compdef machcheck
# Completion of machcheck for zsh.
_machcheck() {
    local context state state_descr line
    local -A opt_args
    local -a commands
    commands=(
        'verify:Says whether a forbidden right can be obtained, and how'
        'mend:Looks for changes of a wiring after which no forbidden right can be obtained'
        'attack:Looks for calls that lead to a forbidden right, and runs them on the machine'
        'check:Says whether a certificate shows that no forbidden right can be obtained'
        'make:Makes the least certificate of a wiring'
        'explain:Shows how a fact comes to be in the least certificate of a wiring'
        'facts:Prints the facts of a certificate, or of the least one of a wiring'
        'graph:Draws the facts of a certificate, or of the least one of a wiring'
        'slots:Lists the slots of the messages, and which ports each admits'
        'promises:Prints what to enforce at ports, and to find in the code of trusted tasks'
        'expand:Prints the lines that a wiring of version 4 stands for'
        'replay:Runs a script of calls, and prints the reply to each'
        'live:Checks, and runs a script of calls by tasks as threads'
        'mig:Writes MIG files of a system as files that can be read'
        'encode:Prints the bytes of a message that is said in words'
        'decode:Prints the words of a message by its bytes'
        'help:Print help of a command'
    )
    _arguments -C '(- *)'{-h,--help}'[Print help]' '(- *)'{-V,--version}'[Print version]' \
        '1:command:->command' '*::word:->words'
    case $state in
    command) _describe -t commands command commands ;;
    words)
        case $words[1] in
        help) _describe -t commands command commands ;;
        verify)
            _arguments -s \
                '--wiring=[Tasks, ports and their first rights]:FILE:_files' \
                '--policy=[The forbidden holdings]:FILE:_files' \
                '--tree[Prints the steps from the fact down]' \
                '--brief[Prints the broken lines without their steps]' \
                '--line=[Only this line of the policy]:N:' \
                '--waive[Lets what the policy waives pass, as if it were not forbidden]' \
                '--format=[How the answer is printed\: text, json for one JSON object, or sarif for a code host]:FORMAT:(text json sarif)' \
                '--verbose[Prints the text of each broken line too, and shows where a fault is]' \
                '(- *)'{-h,--help}'[Print help]' \
                '*:MIG file:_files -g "*.defs"'
            ;;
        mend)
            _arguments -s \
                '--wiring=[Tasks, ports and their first rights]:FILE:_files' \
                '--policy=[The forbidden holdings]:FILE:_files' \
                '--line=[Only this line of the policy\: other lines may stay broken]:N:' \
                '--waive[Lets what the policy waives pass, as if it were not forbidden]' \
                '--most=[How many mends are printed, 1 to 1000000\: 10 if it is not given]:N:' \
                '--format=[How the answer is printed\: text, or json for one JSON object]:FORMAT:(text json)' \
                '--verbose[Shows where a fault is, and what may help to mend it]' \
                '(- *)'{-h,--help}'[Print help]' \
                '*:MIG file:_files -g "*.defs"'
            ;;
        attack)
            _arguments -s \
                '--wiring=[Tasks, ports and their first rights]:FILE:_files' \
                '--policy=[The forbidden holdings]:FILE:_files' \
                '--line=[Only this line of the policy\: its calls are printed as a script]:N:' \
                '--waive[Lets what the policy waives pass, as if it were not forbidden]' \
                '--most=[How many chains are played for a line, 1 to 1000000\: 30 if it is not given]:N:' \
                '--format=[How the answer is printed\: text, or json for one JSON object]:FORMAT:(text json)' \
                '--verbose[Shows where a fault is, and what may help to mend it]' \
                '(- *)'{-h,--help}'[Print help]' \
                '*:MIG file:_files -g "*.defs"'
            ;;
        check)
            _arguments -s \
                '--wiring=[Tasks, ports and their first rights]:FILE:_files' \
                '--policy=[The forbidden holdings]:FILE:_files' \
                '--cert=[The certificate\: who may come to hold what]:FILE:_files' \
                '--waive[Lets what the policy waives pass, as if it were not forbidden]' \
                '--format=[How the answer is printed\: text, or json for one JSON object]:FORMAT:(text json)' \
                '--verbose[Says what to do with a certificate of another wiring, and shows where a fault is]' \
                '(- *)'{-h,--help}'[Print help]' \
                '*:MIG file:_files -g "*.defs"'
            ;;
        make)
            _arguments -s \
                '--wiring=[Tasks, ports and their first rights]:FILE:_files' \
                '--out=[The certificate that is written]:FILE:_files' \
                '--workers=[How many threads make it, 1 to 64\: 4 where it is not given]:N:' \
                '--verbose[Shows where a fault is, and what may help to mend it]' \
                '(- *)'{-h,--help}'[Print help]' \
                '*:MIG file:_files -g "*.defs"'
            ;;
        explain)
            _arguments -s \
                '--wiring=[Tasks, ports and their first rights]:FILE:_files' \
                '--fact=[The fact, as it is printed in a NO]:FACT:' \
                '--by[Tells where the steps come from in the files]' \
                '--format=[How the answer is printed\: text, or json for one JSON object]:FORMAT:(text json)' \
                '--verbose[Shows where a fault is, and what may help to mend it]' \
                '(- *)'{-h,--help}'[Print help]' \
                '*:MIG file:_files -g "*.defs"'
            ;;
        facts)
            _arguments -s \
                '--wiring=[Tasks, ports and their first rights]:FILE:_files' \
                '--cert=[The certificate\: the least one where it is not given]:FILE:_files' \
                '--task=[Holdings of this task alone]:TASK:' \
                '--class=[Facts that name this class alone]:CLASS:' \
                '--right=[Facts of this right alone]:RIGHT:' \
                '--format=[How the answer is printed\: text, or json for one JSON object]:FORMAT:(text json)' \
                '--verbose[Shows where a fault is, and what may help to mend it]' \
                '(- *)'{-h,--help}'[Print help]' \
                '*:MIG file:_files -g "*.defs"'
            ;;
        graph)
            _arguments -s \
                '--wiring=[Tasks, ports and their first rights]:FILE:_files' \
                '--cert=[The certificate\: the least one where it is not given]:FILE:_files' \
                '--policy=[The forbidden holdings, which are drawn red]:FILE:_files' \
                '--fact=[Draws the steps to this fact alone]:FACT:' \
                '--task=[Draws the holdings of this task alone]:TASK:' \
                '--holds[Draws holdings alone, and not what is carried where]' \
                '--format=[How the answer is printed\: text, or json for one JSON object]:FORMAT:(text json)' \
                '--verbose[Shows where a fault is, and what may help to mend it]' \
                '(- *)'{-h,--help}'[Print help]' \
                '*:MIG file:_files -g "*.defs"'
            ;;
        slots)
            _arguments -s \
                '--wiring=[Tasks, ports and their first rights]:FILE:_files' \
                '--format=[How the answer is printed\: text, or json for one JSON object]:FORMAT:(text json)' \
                '--verbose[Shows where a fault is, and what may help to mend it]' \
                '(- *)'{-h,--help}'[Print help]' \
                '*:MIG file:_files -g "*.defs"'
            ;;
        promises)
            _arguments -s \
                '--wiring=[Tasks, ports and their first rights]:FILE:_files' \
                '--format=[How the answer is printed\: text, or json for one JSON object]:FORMAT:(text json)' \
                '--verbose[Shows where a fault is, and what may help to mend it]' \
                '(- *)'{-h,--help}'[Print help]' \
                '*:MIG file:_files -g "*.defs"'
            ;;
        expand)
            _arguments -s \
                '--wiring=[Tasks, ports and their first rights]:FILE:_files' \
                '--verbose[Shows where a fault is, and what may help to mend it]' \
                '(- *)'{-h,--help}'[Print help]' \
                '*:MIG file:_files -g "*.defs"'
            ;;
        replay)
            _arguments -s \
                '--wiring=[Tasks, ports and their first rights]:FILE:_files' \
                '--script=[The calls, one a line]:FILE:_files' \
                '--format=[How the answer is printed\: text, or json for one JSON object]:FORMAT:(text json)' \
                '--verbose[Shows where a fault is, and what may help to mend it]' \
                '(- *)'{-h,--help}'[Print help]' \
                '*:MIG file:_files -g "*.defs"'
            ;;
        live)
            _arguments -s \
                '--wiring=[Tasks, ports and their first rights]:FILE:_files' \
                '--policy=[The forbidden holdings]:FILE:_files' \
                '--cert=[The certificate\: who may come to hold what]:FILE:_files' \
                '--script=[The calls, one a line]:FILE:_files' \
                '--format=[How the answer is printed\: text, or json for one JSON object]:FORMAT:(text json)' \
                '--verbose[Shows where a fault is, and what may help to mend it]' \
                '(- *)'{-h,--help}'[Print help]' \
                '*:MIG file:_files -g "*.defs"'
            ;;
        mig)
            _arguments -s \
                '--out=[The folder of the files that are written]:FOLDER:_files -/' \
                '--strict[Writes nothing where a routine is left out]' \
                '--strict-rights[The same as --strict=rights\: writes nothing if one that carries rights is left out]' \
                '--as-received[Takes each right that gives what is received]' \
                '--format=[How the answer is printed\: text, or json for one JSON object]:FORMAT:(text json)' \
                '--verbose[Shows where a fault is, and what may help to mend it]' \
                '-I+[A folder in which files that are included are sought]:FOLDER:_files -/' \
                '-D+[A macro that is defined, as NAME or NAME=TEXT]:MACRO:' \
                '-U+[A macro that is not defined]:NAME:' \
                '(- *)'{-h,--help}'[Print help]' \
                '*:MIG file:_files -g "*.defs"'
            ;;
        encode)
            _arguments -s \
                '--message=[The message in words, between braces]:WORDS:' \
                '--verbose[Shows where a fault is, and what may help to mend it]' \
                '(- *)'{-h,--help}'[Print help]' \
                '*:MIG file:_files -g "*.defs"'
            ;;
        decode)
            _arguments -s \
                '--hex=[The bytes of the message, two digits a byte]:HEX:' \
                '--verbose[Shows where a fault is, and what may help to mend it]' \
                '(- *)'{-h,--help}'[Print help]' \
                '*:MIG file:_files -g "*.defs"'
            ;;
        esac
        ;;
    esac
}
_machcheck "$@"
