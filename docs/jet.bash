# Completion of jet's words for bash: its commands, each one's options, and files; and of the kit's commands. ./install puts it as
# PREFIX/share/bash-completion/completions/jet, and links to it for the kit's commands beside it, where bash-completion
# finds it; `source docs/jet.bash` serves too.
_jet() {
    local word=${COMP_WORDS[COMP_CWORD]} before=${COMP_WORDS[COMP_CWORD - 1]} options=
    COMPREPLY=()
    if [ "$COMP_CWORD" = 1 ]; then
        mapfile -t COMPREPLY < <(compgen -W 'query record replay calls input output stack convert core influence queries decisions show path page bench' -- "$word")
        return
    fi
    case ${COMP_WORDS[1]} in
    query | influence | queries | show | path | page | bench) options='--epoch --workers --link' ;;
    record) options='--pages --piece --steps' ;;
    esac
    case $before in
    --*) return ;; # a number
    esac
    case $word in
    -*) mapfile -t COMPREPLY < <(compgen -W "$options" -- "$word") ;;
    *)
        case ${COMP_WORDS[1]}:$COMP_CWORD in
        bench:* | core:4 | stack:[4-9] | stack:[1-9][0-9]*) return ;; # a number
        esac
        mapfile -t COMPREPLY < <(compgen -f -- "$word")
        ;;
    esac
}
complete -o filenames -F _jet jet

# jet-gdb and the kit's commands: files, and jet-run's options, jet-ask's rules and commands, jet-why's rules.
_jet_kit() {
    local word=${COMP_WORDS[COMP_CWORD]} words=
    COMPREPLY=()
    case ${COMP_WORDS[0]##*/}:$COMP_CWORD in
    jet-run:*) case $word in -*) words='--pages --piece --steps --file --env --out --replace --' ;; esac ;;
    jet-ask:3 | jet-why:5) words='copy keep compute index' ;;
    jet-ask:[45]) words='all' ;;
    jet-ask:6) words='show query influence path decisions' ;;
    jet-why:[34] | jet-core:3 | jet-debug:3 | jet-gdb:3) return ;; # a number
    esac
    if [ -n "$words" ]; then
        mapfile -t COMPREPLY < <(compgen -W "$words" -- "$word")
    else
        mapfile -t COMPREPLY < <(compgen -f -- "$word")
    fi
}
complete -o filenames -F _jet_kit jet-gdb jet-run jet-ask jet-lines jet-why jet-core jet-debug
