# Completion for bash of ccbase and ct.py: source this file. Made by tools/write_command_docs.py from tools/command_table.py.

_ccbase_names="mkview rmview setcs catcs mkelem mkdir checkout save checkin uncheckout rmname mv rm mkbrtype
              mkbranch mklbtype mklabel rmlabel mkarrow findmerge ls cat describe lsvtree lshistory
              clearmake lsdo catcr diffcr covers rmdo scrub"

# The options of a command.
_ccbase_options() {
    case $1 in
        rmview) echo '-force' ;;
        mkelem) echo '-nco' ;;
        mkdir) echo '-nco' ;;
        checkout) echo '-unreserved' ;;
        checkin) echo '-identical' ;;
        mkbranch) echo '-nco' ;;
        mklabel) echo '-replace -config' ;;
        findmerge) echo '-fversion' ;;
        clearmake) echo '-f -J -k -u -V' ;;
    esac
}

# ccbase FILE run, ccbase FILE verify, ccbase FILE big SEED SIZE, ccbase FILE sites
_ccbase() {
    local word=${COMP_WORDS[COMP_CWORD]}
    case $COMP_CWORD in
        1) COMPREPLY=($(compgen -f -- "$word") $(compgen -W '--help --version' -- "$word")) ;;
        2) COMPREPLY=($(compgen -W 'run verify big sites' -- "$word")) ;;
        *) COMPREPLY=() ;;
    esac
}

# The first word that names a command, and behind it that command's options or a file.
_ccbase_command() {
    local word=${COMP_WORDS[COMP_CWORD]} given
    for given in "${COMP_WORDS[@]:1:COMP_CWORD-1}"; do
        if [[ " ${_ccbase_names//$'\n'/ } " == *" $given "* ]]; then
            COMPREPLY=($(compgen -W "$(_ccbase_options "$given")" -- "$word") $(compgen -f -- "$word"))
            return
        fi
    done
    COMPREPLY=($(compgen -W "$_ccbase_names" -- "$word") $(compgen -f -- "$word"))
}

complete -F _ccbase ccbase
complete -F _ccbase_command ct.py
