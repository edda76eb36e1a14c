# Completion of the words of sgm, of sgm_series and of the tools for bash. Needs nothing but bash.
# shellcheck shell=bash

# Sets COMPREPLY to the files that go on with what was typed, those of the endings given and folders.
_sgm_files() {
    local file ending
    COMPREPLY=()
    while IFS= read -r file; do
        [ -d "$file" ] && COMPREPLY+=("$file/") && continue
        [ $# = 0 ] && COMPREPLY+=("$file")
        for ending; do [[ $file = *"$ending" ]] && COMPREPLY+=("$file"); done
    done < <(compgen -f -- "$typed")
    compopt -o nospace -o filenames 2>/dev/null
    if [ ${#COMPREPLY[@]} = 1 ] && [ ! -d "${COMPREPLY[0]}" ]; then compopt +o nospace 2>/dev/null; fi
}

_sgm_words() { mapfile -t COMPREPLY < <(compgen -W "$1" -- "$typed"); }

# The options of match and demo that don't stand yet.
_sgm_options() {
    local name word left=()
    # Bash cuts words at `=`, and behind one comes a number.
    [[ $typed = "=" || ${COMP_WORDS[COMP_CWORD - 1]} = "=" ]] && return
    for name in strips workers peak fill; do
        for word in "${COMP_WORDS[@]:1:COMP_CWORD-1}"; do [[ $word = "$name" || $word = "$name="* ]] && continue 2; done
        left+=("$name=")
    done
    _sgm_words "${left[*]}"
    compopt -o nospace 2>/dev/null
}

_sgm() {
    local typed=${COMP_WORDS[COMP_CWORD]} command=${COMP_WORDS[1]-}
    COMPREPLY=()
    [ "$COMP_CWORD" = 1 ] && _sgm_words "match trace change merge demo --help --version" && return
    case $command,$COMP_CWORD in
    match,[23] | trace,[23]) _sgm_files .pgm ;;
    match,4 | trace,4 | merge,3) _sgm_files .json ;;
    trace,5) _sgm_words "right left down downright downleft up upright upleft" ;;
    change,[23]) _sgm_files .asc ;;
    match,5 | change,4 | merge,[24]) _sgm_files ;;
    match,* | demo,[3-9] | demo,??) _sgm_options ;;
    esac
}

_sgm_series() {
    local typed=${COMP_WORDS[COMP_CWORD]}
    COMPREPLY=()
    case $COMP_CWORD,$typed in
    1,-*) _sgm_words "--help --version" ;;
    1,*) _sgm_files ;;
    2,*) _sgm_words "workers=1 workers=2" ;;
    [34],*)
        # Bash cuts words at `=`, so the number is a word of its own.
        [[ ${COMP_WORDS[2]} = workers && ${COMP_WORDS[3]} = "=" ]] || return
        typed=${typed#=}
        _sgm_words "1 2"
        ;;
    esac
}

# The tools say in their --help which options they have.
_sgm_tool() {
    local typed=${COMP_WORDS[COMP_CWORD]}
    COMPREPLY=()
    if [[ $typed = -* ]]; then
        _sgm_words "$("$1" --help 2>/dev/null | grep -oE '(^|[ [])--[a-z0-9-]+' | tr -d ' [' | sort -u)"
    else
        _sgm_files
    fi
}

complete -F _sgm sgm
complete -F _sgm_series sgm_series
complete -F _sgm_tool sgm-calibrate sgm-calibration sgm-middlebury sgm-photo sgm-page sgm-heights sgm-stretch sgm-cubic-metres \
    sgm-site-pose sgm-export-grid sgm-export-points sgm-change-volumes sgm-cell-pixels sgm-check-trace sgm-explain-pixel sgm-series-left \
    sgm-merge-check
