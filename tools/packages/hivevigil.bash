# Completions of the program hivevigil for bash: commands, the options of each, questions, and files.
_hivevigil() {
    local current=${COMP_WORDS[COMP_CWORD]} before=${COMP_WORDS[COMP_CWORD - 1]} command=${COMP_WORDS[1]} words=
    # --to=FILE comes in three words
    if [ "$current" = = ]; then current=; elif [ "$before" = = ]; then before=${COMP_WORDS[COMP_CWORD - 2]}; fi
    COMPREPLY=()
    case $before in
    --to) return ;; # a file, as bash completes it
    --nulls) words="first last" ;;
    --type)
        words="u8 u16 u32 u64 i8 i16 i32 i64 bool utf8 binary float16 float32 float64 date"
        ;;
    --by | --column | --count | --from | --limit | --max | --mean | --min | --rows | --separator | --sort | --sum | --where)
        compopt +o default 2>/dev/null
        return
        ;;
    *)
        case $COMP_CWORD:$command:$current in
        1:*) words="report convert show head query --help --version" ;;
        3:query:[!-]* | 3:query:) words="count sum mean min max filter" ;;
        *:report:-*) words="--separator --help" ;;
        *:convert:-*) words="--column --to --type --separator --differences --sort --nulls --limit --help" ;;
        *:show:-*) words="--column --rows --from --runs --sort --nulls --limit --help" ;;
        *:head:-*) words="--column --rows --sort --nulls --limit --help" ;;
        *:query:-*)
            words="--column --where --count --sum --mean --min --max --by --sort --nulls --to --differences --limit --help"
            ;;
        esac
        ;;
    esac
    # no word has a space or a character that the shell would replace
    # shellcheck disable=SC2207
    [ ! "$words" ] || COMPREPLY=($(compgen -W "$words" -- "$current"))
}
complete -o default -F _hivevigil hivevigil
