# Completion of poke_batch for bash. SPDX-License-Identifier: MIT OR Apache-2.0
# It needs bash alone. To try it in one shell: source poke_batch.bash

# tools/options: the table
# The options of a command.
_poke_batch_options_of() {
    case $1 in
        map) echo '--at --byte --length --inside --endian --limit --whole --max-output --memory --slots --get --spool --progress --rows --header --absent --mode --numbers --chars --elements --faults --why --help' ;;
        show) echo '--at --byte --length --inside --endian --limit --whole --max-output --memory --slots --get --spool --progress --absent --numbers --chars --elements --depth --sizes --bytes --color --help' ;;
        each) echo '--at --byte --length --inside --endian --limit --whole --max-output --memory --slots --get --spool --progress --absent --mode --numbers --chars --elements --faults --why --flush --files0-from --help' ;;
        records) echo '--at --byte --length --endian --limit --memory --slots --get --spool --progress --header --absent --count --omit --any-end --report-end --of --resume --mode --numbers --chars --elements --faults --why --flush --help' ;;
        find) echo '--at --byte --length --endian --memory --slots --get --spool --progress --absent --step --header --apart --count --attempt-limit --limit --mode --numbers --chars --elements --faults --why --flush --help' ;;
        identify) echo '--spool --progress --all --in --byte --length --mode --faults --why --flush --files0-from --help' ;;
        bound) echo '--text --tight --memory --mode --numbers --chars --elements --why --help' ;;
        check) echo '--mode --why --help' ;;
        types) echo '--mode --parts --depth --why --help' ;;
        formats) echo '--mode --help' ;;
        dump) echo '--from --size --skip --length --no-ruler --help' ;;
        '') echo '--help --version' ;;
    esac
}

# Whether an option has a value.
_poke_batch_takes_value_of() {
    [[ $1 =~ ^(--(at|byte|length|endian|limit|max-output|memory|slots|get|spool|rows|absent|count|omit|of|resume|step|attempt-limit|in|mode|numbers|chars|elements|faults|depth|parts|color|files0-from|from|size|skip)|-[sn])$ ]]
}

# The words that an option of a command accepts, if it is a choice.
_poke_batch_words_of() {
    case $1/$2 in
        map/--endian | show/--endian | each/--endian | records/--endian | find/--endian) echo 'big little' ;;
        map/--absent) echo 'fault empty skip' ;;
        show/--absent | each/--absent | records/--absent | find/--absent) echo 'fault empty' ;;
        map/--mode) echo 'flat tree json lines raw' ;;
        records/--mode | bound/--mode) echo 'flat tree json lines' ;;
        find/--mode | each/--mode) echo 'flat json' ;;
        check/--mode | types/--mode | formats/--mode | identify/--mode | map/--faults | each/--faults | records/--faults | find/--faults | identify/--faults) echo 'text json' ;;
        map/--numbers | show/--numbers | each/--numbers | records/--numbers | find/--numbers | bound/--numbers) echo 'decimal hex digits' ;;
        map/--chars | show/--chars | each/--chars | records/--chars | find/--chars | bound/--chars) echo 'numbers text' ;;
        show/--color) echo 'auto always never' ;;
    esac
}

# What the value of another option is.
_poke_batch_kind_of() {
    case $1 in
        --at | --resume | --step | --from | --size) echo 'offset' ;;
        --in | --files0-from) echo 'file' ;;
    esac
}

# What an argument of a command is, by its number.
_poke_batch_place_of() {
    case $1/$2 in
        map/0 | each/0 | records/0 | bound/0 | check/0 | types/0) echo 'pickle' ;;
        map/1 | show/1 | each/1 | records/1 | find/1 | bound/1) echo 'type' ;;
        map/2 | show/2 | each/* | records/2 | find/2 | identify/* | dump/0) echo 'file' ;;
        show/0 | find/0) echo 'pickle_or_file' ;;
        bound/2) echo 'bits' ;;
    esac
}

# The commands.
_poke_batch_commands_of() {
    echo 'map show each records find identify bound check types formats dump help'
}
# tools/options: end

# A word as the program gets it, where it has plain quotes or backslashes.
_poke_batch_plain() {
    local word=$1
    case $word in
        \'*) word=${word#\'} word=${word%\'} ;;
        \"*) word=${word#\"} word=${word%\"} ;;
        *)
            [[ $word == \~/* ]] && word=$HOME/${word#\~/}
            word=${word//\\/}
            ;;
    esac
    printf '%s\n' "$word"
}

# Sets COMPREPLY to the lines of a text that begin as the first argument does.
_poke_batch_reply() {
    local line
    COMPREPLY=()
    while IFS= read -r line; do
        [[ -n $line && $line == "$1"* ]] && COMPREPLY+=("$line")
    done <<<"$2"
}

# The same of words with blanks between them.
_poke_batch_words() {
    _poke_batch_reply "$1" "${2// /$'\n'}"
}

# The files that begin with a text: the folders, and the names with an ending.
_poke_batch_named() {
    local file
    compgen -d -- "$1"
    compgen -f -X "!*$2" -- "$1" | while IFS= read -r file; do
        [[ -d $file ]] || printf '%s\n' "$file"
    done
}

# Sets COMPREPLY to the files that begin with a text and, where one is given, have an ending.
_poke_batch_files() {
    compopt -o filenames 2>/dev/null
    _poke_batch_reply '' "$(_poke_batch_named "$(_poke_batch_plain "$1")" "${2:-}")"
}

# An offset has a number, # and a unit: the units after a number.
_poke_batch_offsets() {
    [[ $1 =~ ^([0-9]+)(#.*)?$ ]] && _poke_batch_words "$1" "${BASH_REMATCH[1]}#b ${BASH_REMATCH[1]}#B"
}

# The pickles: files with an ending, standard input, and the installed ones after a + or where no file is offered.
_poke_batch_pickles() {
    local program
    program=$(_poke_batch_plain "$1")
    _poke_batch_files "$2" "$3"
    if ((${#COMPREPLY[@]} == 0)) && [[ -z $2 || $2 == +* ]]; then
        _poke_batch_reply "$2" "$("$program" formats 2>/dev/null </dev/null | sed 's/^/+/; s/\t.*//')"
    fi
    if [[ -z $2 ]]; then
        COMPREPLY+=(-)
    fi
}

# The types that a pickle declares. Standard input isn't read, nor what isn't a regular file.
_poke_batch_types() {
    local program pickle
    program=$(_poke_batch_plain "$1")
    pickle=$(_poke_batch_plain "$2")
    [[ -f $pickle || $pickle == +* && ! -e $pickle ]] || return
    _poke_batch_reply "$3" "$("$program" types -- "$pickle" 2>/dev/null </dev/null | cut -f 1)"
}

_poke_batch() {
    local current=${COMP_WORDS[COMP_CWORD]} program=${COMP_WORDS[0]} option='' command='' ended='' place=1 word
    local arguments=()
    COMPREPLY=()
    # bash makes three words of --mode=flat
    while ((place < COMP_CWORD)); do
        word=${COMP_WORDS[place]}
        option=''
        place=$((place + 1))
        if [[ -z $ended && $word == -- ]]; then
            ended=yes
        elif [[ -z $ended && $word == -?* ]]; then
            _poke_batch_takes_value_of "$word" || continue
            option=$word
            if ((place < COMP_CWORD)) && [[ ${COMP_WORDS[place]} == = ]]; then
                place=$((place + 1))
            fi
            if ((place < COMP_CWORD)); then
                place=$((place + 1))
                option=''
            fi
        elif [[ -z $command ]]; then
            command=$word
        else
            arguments+=("$word")
        fi
    done
    if [[ $current == = ]] && _poke_batch_takes_value_of "$option"; then
        current=''
    fi
    if [[ -n $option ]]; then
        case $(_poke_batch_kind_of "$option") in
            offset) _poke_batch_offsets "$current" ;;
            file) _poke_batch_files "$current" ;;
            *) _poke_batch_words "$current" "$(_poke_batch_words_of "$command" "$option")" ;;
        esac
        return
    fi
    if [[ -z $ended && $current == -* ]]; then
        _poke_batch_words "$current" "$(_poke_batch_options_of "$command")"
        return
    fi
    case $command/${#arguments[@]} in
        /* | help/0)
            _poke_batch_words "$current" "$(_poke_batch_commands_of)"
            return
            ;;
    esac
    case $(_poke_batch_place_of "$command" "${#arguments[@]}") in
        pickle) _poke_batch_pickles "$program" "$current" .pk ;;
        pickle_or_file) _poke_batch_pickles "$program" "$current" '' ;;
        type) _poke_batch_types "$program" "${arguments[0]}" "$current" ;;
        file) _poke_batch_files "$current" ;;
    esac
}

complete -F _poke_batch poke_batch
