# Completion of idlc @VERSION@ for bash, made by tools/manual from the program's help.

# What a command has: options, the kinds of their values, the kinds of its words in order. By instead='--text=4' the
# option isn't given beside the word in place 4, the fifth.
_idlc_command() {
    options='' valued='' places=() instead=''
    case $1 in
@COMMANDS@
        *) return 1 ;;
    esac
}

# The words up to the cursor as the program gets them: bash splits them at the characters of COMP_WORDBREAKS too.
_idlc_words() {
    local rest=${COMP_LINE:0:COMP_POINT} word i
    words=()
    for ((i = 0; i <= COMP_CWORD; i++)); do
        word=${COMP_WORDS[i]}
        ((i < COMP_CWORD)) || word=${rest#"${rest%%[![:space:]]*}"}
        if ((i > 0)) && [[ $rest != [[:space:]]* ]]; then
            words[${#words[@]}-1]+=$word
        else
            words+=("$word")
        fi
        rest=${rest#*"$word"}
    done
}

# The kind of an option's value; none where it has no value.
_idlc_kind() {
    kind=''
    if [[ " $valued" == *" $1="* ]]; then
        kind=" $valued"
        kind=${kind#*" $1="}
        kind=${kind%% *}
    fi
}

# Reads the words between the command and the cursor: the options that they give, how many other words there are,
# and the kind of a value that has to follow.
_idlc_read() {
    local word
    for word in "${words[@]:2:${#words[@]}-3}"; do
        if [[ $kind ]]; then
            kind=''
        elif [[ $closed || $word != -?* ]]; then
            ((place += 1))
        elif [[ $word == -- ]]; then
            closed=yes
        elif [[ $word == --* ]]; then
            given+=" ${word%%=*} "
            [[ $word == *=* ]] || _idlc_kind "$word"
        else
            given+=" ${word:0:2} "
            [[ $word != -? ]] || _idlc_kind "$word"
        fi
    done
}

# Adds the names of files that begin so, behind what stands before them in their word.
_idlc_files() {
    local name
    compopt -o filenames 2>/dev/null
    while IFS= read -r name; do
        # bash puts the slash behind a name that is a word
        if [[ $2 && -d $name ]]; then
            name+=/
            compopt -o nospace 2>/dev/null
        fi
        COMPREPLY+=("$2$name")
    done < <(compgen -f -- "$1")
}

# Adds what is of a kind and begins with a word, behind what stands before it.
_idlc_offer() {
    local name
    case $1 in
        none) ;;
        # the shell leaves a ~ behind @ as it stands
        at) [[ $2 != @* || $2 == @~* ]] || _idlc_files "${2#@}" "$3@" ;;
        files)
            _idlc_files "$2" "$3"
            # names in quotes are left to bash
            compopt -o default 2>/dev/null
            ;;
        table)
            _idlc_offer files "$2" "$3"
            [[ builtin != "$2"* ]] || COMPREPLY+=("${3}builtin")
            ;;
        *)
            for name in ${1//,/ }; do
                [[ $name != "$2"* ]] || COMPREPLY+=("$3$name")
            done
            ;;
    esac
}

# The options that may still be given.
_idlc_options() {
    local name
    left=''
    for name in $options; do
        if [[ "$given " != *" $name "* && $name != "$except" ]]; then
            left+=",$name"
        fi
    done
    left=${left#,}
}

_idlc() {
    local words=() options valued places instead kind='' place=0 given='' closed='' left except=''
    _idlc_words
    local word=${words[${#words[@]}-1]}
    COMPREPLY=()
    if ((${#words[@]} == 2)); then
        [[ $word == -* ]] && left=@OPTIONS@ || left=@NAMES@
        _idlc_offer "$left" "$word" ''
    elif _idlc_command "${words[1]}"; then
        _idlc_read
        [[ $instead && $place -gt ${instead#*=} ]] && except=${instead%=*}
        _idlc_options
        if [[ $kind ]]; then
            _idlc_offer "$kind" "$word" ''
        elif [[ ! $closed && $word == --*=* ]]; then
            _idlc_kind "${word%%=*}"
            _idlc_offer "${kind:-none}" "${word#*=}" "${word%%=*}="
        elif [[ ! $closed && ($word == -* || $place -ge ${#places[@]}) ]]; then
            _idlc_offer "${left:-none}" "$word" ''
        else
            _idlc_offer "${places[place]:-none}" "$word" ''
        fi
    fi
    # bash replaces only what it hands as the second argument
    COMPREPLY=("${COMPREPLY[@]#"${word%"$2"}"}")
}

complete -F _idlc idlc
