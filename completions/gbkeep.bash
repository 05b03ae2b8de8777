# bash completion of gbkeep and its tools, made by packaging/completions.py

# What may follow these words: other words; options, offered and others, each with what its own word is (f: a file, d: a folder, n: nothing that is
# known, -: it takes none); operands, in the same letters (a star: and so on).
_gbkeep_known() {
    local commands='info list step new play frame trace stream new-recording record recorded verify show export import test debug '
    words= options= others= operands=
    case $1 in
        gbkeep) words="$commands help --help --version" options='--help:- --version:-' others='-h:- -V:-' ;;
        'gbkeep info') options='--help:-' others='-h:-' operands='f' ;;
        'gbkeep list') options='--help:-' others='-h:-' operands='fnn' ;;
        'gbkeep step') options='--help:-' others='-h:-' operands='fn' ;;
        'gbkeep new') options='--help:-' others='-h:-' operands='ffn' ;;
        'gbkeep play') options='--help:-' others='-h:-' operands='fff' ;;
        'gbkeep frame') options='--help:-' others='-h:-' operands='fff' ;;
        'gbkeep trace') options='--help:-' others='-h:-' operands='ffn' ;;
        'gbkeep stream') options='--help:-' others='-h:-' operands='ff' ;;
        'gbkeep new-recording') options='--help:-' others='-h:-' operands='ffn' ;;
        'gbkeep record') options='--help:-' others='-h:-' operands='fff' ;;
        'gbkeep recorded') options='--help:-' others='-h:-' operands='ff' ;;
        'gbkeep verify') options='--help:-' others='-h:-' operands='fff' ;;
        'gbkeep show') options='--help:-' others='-h:-' operands='ff' ;;
        'gbkeep export') options='--help:-' others='-h:-' operands='fff' ;;
        'gbkeep import') options='--help:-' others='-h:-' operands='fffn' ;;
        'gbkeep test') options='--help:-' others='-h:-' operands='fnf' ;;
        'gbkeep debug') options='--help:-' others='-h:-' operands='ff' ;;
        'gbkeep help') words="$commands" ;;
        gbkeep-window) options='--gbkeep:f --scale:n --keys:f --palette:n --record:f --import:f --help:-' others='-h:-' operands='ff' ;;
        gbkeep-script) words='own friendly check marks play' options='--help:-' others='-h:-' ;;
        'gbkeep-script own') options='--help:-' others='-h:-' operands='f' ;;
        'gbkeep-script friendly') options='--help:-' others='-h:-' operands='f' ;;
        'gbkeep-script check') options='--help:-' others='-h:-' operands='f' ;;
        'gbkeep-script marks') options='--help:-' others='-h:-' operands='f' ;;
        'gbkeep-script play') options='--record:f --help:-' others='-h:-' operands='fff' ;;
        gbkeep-rest) options='--record:f --help:-' others='-h:-' operands='fff' ;;
        gbkeep-movie) words='script friendly bk2' options='--help:-' others='-h:-' ;;
        'gbkeep-movie script') options='--help:-' others='-h:-' operands='f' ;;
        'gbkeep-movie friendly') options='--help:-' others='-h:-' operands='f' ;;
        'gbkeep-movie bk2') options='--help:-' others='-h:-' operands='fff' ;;
        gbkeep-film) options='--from:n --to:n --inputs:- --help:-' others='-h:-' operands='fff' ;;
        gbkeep-branch) options='--help:-' others='-h:-' operands='ffnff' ;;
        gbkeep-verify) options='--help:-' others='-h:-' operands='fff' ;;
        gbkeep-png) options='--help:-' others='-h:-' operands='ff' ;;
        gbkeep-battery) words='to-mgba to-gambatte from-mgba from-gambatte of-save' options='--help:-' others='-h:-' ;;
        'gbkeep-battery to-mgba') options='--now:- --time:n --help:-' others='-h:-' operands='fff' ;;
        'gbkeep-battery to-gambatte') options='--now:- --time:n --help:-' others='-h:-' operands='fff' ;;
        'gbkeep-battery from-mgba') options='--help:-' others='-h:-' operands='fff' ;;
        'gbkeep-battery from-gambatte') options='--mbc2:- --now:- --time:n --help:-' others='-h:-' operands='fff' ;;
        'gbkeep-battery of-save') options='--help:-' others='-h:-' operands='ff' ;;
        gbkeep-run-tests) options='--frames:n --jobs:n --filter:n --shard:n --out:d --junit:f --json:f --slowest:- --bless:- --gbkeep:f --help:-' others='-j:n -h:-' operands='f*' ;;
        gbkeep-debug) options='--save:f --script:f --do:n --program:f --help:-' others='-c:n -h:-' operands='ff' ;;
        gbkeep-dap) options='--program:f --help:-' others='-h:-' ;;
    esac
}

_gbkeep() {
    local path=${COMP_WORDS[0]##*/} word=${COMP_WORDS[COMP_CWORD]} words options others operands at each kind wanted= dashes= count=0
    COMPREPLY=()
    [ "$word" != = ] || word=
    _gbkeep_known "$path"
    for ((at = 1; at < COMP_CWORD; at++)); do
        each=${COMP_WORDS[at]}
        if [ -n "$wanted" ]; then
            # bash takes a `=` before it as a word, too
            [ "$each" = = ] || wanted=
        elif [ -z "$dashes" ] && [ "$each" = -- ]; then
            dashes=yes
        elif [ -z "$dashes" ] && [[ $each == -?* ]]; then
            for kind in f d n; do
                [[ " $options $others " == *" $each:$kind "* ]] && wanted=$kind
            done
        elif [ -n "$words" ]; then
            path="$path $each"
            _gbkeep_known "$path"
        else
            count=$((count + 1))
        fi
    done
    if [ -z "$wanted" ]; then
        if [ -z "$dashes" ] && [[ $word == -* ]]; then
            COMPREPLY=($(compgen -W "${options//:[fdn-]/}" -- "$word"))
            return
        elif [ -n "$words" ]; then
            COMPREPLY=($(compgen -W "$words" -- "$word"))
            return
        elif [[ $operands == *'*' ]] && [ $count -ge $((${#operands} - 2)) ]; then
            wanted=${operands: -2:1}
        else
            wanted=${operands:count:1}
        fi
    fi
    # with no answer of ours readline completes the names of files, and keeps those with spaces whole
    case $wanted in
        f) compopt -o default 2> /dev/null ;;
        d) compopt -o dirnames 2> /dev/null ;;
    esac
}

complete -F _gbkeep gbkeep gbkeep-window gbkeep-script gbkeep-rest gbkeep-movie gbkeep-film gbkeep-branch gbkeep-verify gbkeep-png gbkeep-battery gbkeep-run-tests gbkeep-debug gbkeep-dap
