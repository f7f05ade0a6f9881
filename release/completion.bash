# Completion of the words of rast, rast_core, rast_lex, rast_page and rast_steps, for bash.

_rast_editions='2015 2018 2021 2024'
_rast_entries='SourceFile MacroItems MacroStmts Pattern Type Expr MetaItem'
_rast_prefixes='Vis Block Stmt Pat PatTop Ty Expr Path Item MetaItem'

# What the word at a place may be: words, or `FILE`. The arguments are the program's words up to that place.
_rast_choices() {
    case ${1##*/}:$#:${2-} in
        rast:2:*) echo "$_rast_editions" ;;
        rast_core:2:* | rast_page:2:* | rast_lex:2:*) echo "$_rast_editions --help --version" ;;
        rast:3:* | rast_page:3:*) echo "$_rast_entries" ;;
        rast:4:* | rast_page:4:* | rast_lex:3:* | rast_core:[3-9]:* | rast_core:[1-9][0-9]*:*) echo FILE ;;
        rast:5:*) echo ranges ;;
        rast_lex:4:*) echo input single script ;;
        rast_steps:2:*) echo --steps --prefix --reparse --help --version ;;
        rast_steps:3:--steps) echo "$_rast_entries" ;;
        rast_steps:3:--prefix) echo "$_rast_prefixes" ;;
        rast_steps:4:--steps | rast_steps:4:--prefix | rast_steps:6:--reparse) echo "$_rast_editions" ;;
        rast_steps:5:--steps | rast_steps:5:--prefix | rast_steps:7:--reparse) echo FILE ;;
    esac
}

_rast() {
    local choices current=${COMP_WORDS[COMP_CWORD]}
    choices=$(_rast_choices "${COMP_WORDS[@]:0:COMP_CWORD+1}")
    COMPREPLY=()
    if [[ $choices == FILE ]]; then
        compopt -o filenames 2>/dev/null
        mapfile -t COMPREPLY < <(compgen -f -- "$current")
    elif [[ -n $choices ]]; then
        mapfile -t COMPREPLY < <(compgen -W "$choices" -- "$current")
    fi
}

complete -F _rast rast rast_core rast_page rast_lex rast_steps
