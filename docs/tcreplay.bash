# Completion of tcreplay's words in bash, and of the model's, which are the same: source docs/tcreplay.bash

# The options of each command, and what stands behind an option: a file, one of some words, a number, or nothing.
declare -gA _tcreplay_options=(
    [serial]='--classes --rows --sample'
    [order]='--classes --order --rows --sample'
    [workers]='--classes --locks --rows --sample'
    [perthread]='--classes --order --workers --rows'
    [numa]='--classes --nodes --order --workers --rows'
    [gen]='--classes --seed --calls --threads'
    [audit]='--classes --journal'
)
declare -gA _tcreplay_values=(
    [--classes]=FILE [--order]=FILE [--journal]=FILE [--locks]='one parts'
    [--nodes]=NUMBER [--sample]=NUMBER [--seed]=NUMBER [--calls]=NUMBER [--threads]=NUMBER
)

_tcreplay() {
    local word=${COMP_WORDS[COMP_CWORD]} before=${COMP_WORDS[COMP_CWORD-1]} options given
    COMPREPLY=()
    if ((COMP_CWORD == 1)); then
        mapfile -t COMPREPLY < <(compgen -W "${!_tcreplay_options[*]}" -- "$word")
        return
    fi
    case ${_tcreplay_values[${before:- }]-} in
    '') ;;
    NUMBER) return ;;
    FILE)
        compopt -o filenames 2>/dev/null
        mapfile -t COMPREPLY < <(compgen -f -- "$word")
        return
        ;;
    *)
        mapfile -t COMPREPLY < <(compgen -W "${_tcreplay_values[$before]}" -- "$word")
        return
        ;;
    esac
    options=${_tcreplay_options[${COMP_WORDS[1]:- }]-}
    for given in "${COMP_WORDS[@]:2:COMP_CWORD-2}"; do      # each comes once
        options=" $options "
        options=${options/ $given / }
    done
    mapfile -t COMPREPLY < <(compgen -W "$options" -- "$word")
}

complete -F _tcreplay tcreplay ./tcreplay ./model
