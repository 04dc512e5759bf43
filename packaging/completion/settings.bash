# Completion of `settings` and `settingsctl` for bash.

_settings() {
    local word=${COMP_WORDS[COMP_CWORD]}
    if [ "$COMP_CWORD" -eq 1 ]; then
        COMPREPLY=($(compgen -W 'init serve set get apply verify check migrate prune generate user-data dump restore forget load --help --version' -- "$word"))
        return
    fi
    case ${COMP_WORDS[1]} in
        init) COMPREPLY=($(compgen -W '--version' -- "$word")) ;;
        serve) COMPREPLY=($(compgen -W '--boot --slice --while-idle --connections --quiet' -- "$word")) ;;
        apply) COMPREPLY=($(compgen -W '--all' -- "$word")) ;;
        check) COMPREPLY=($(compgen -W '--store' -- "$word")) ;;
        migrate) COMPREPLY=($(compgen -W '--to' -- "$word")) ;;
        user-data | restore) COMPREPLY=($(compgen -f -- "$word")) ;;
    esac
}

# Asks the server in the folder of the words, or by default that of a verb.
_settingsctl_asked() {
    local folder=.
    [ -S api.sock ] || folder=/var/lib/settings
    [ "${COMP_WORDS[1]}" = -C ] && folder=${COMP_WORDS[2]}
    settingsctl -C "$folder" "$@" 2>/dev/null
}

# The keys that have a value, live or pending.
_settingsctl_keys() {
    _settingsctl_asked GET /store | grep -oE '\["settings\.([^"\\]|\\.)*"' | sed 's/^\["//; s/"$//; s/\\"/"/g' | sort -u
}

_settingsctl() {
    local word=${COMP_WORDS[COMP_CWORD]} first=1 choices=
    local targets='/settings /set /plan /plan/file /store /verify /services /configuration-files /metadata/affected-services /os /tx /tx/list /tx/commit /tx/apply /tx/commit_and_apply /job'
    [ "${COMP_WORDS[1]}" = -C ] && first=3
    if [ "$COMP_CWORD" -eq 2 ] && [ "$first" -eq 3 ]; then
        COMPREPLY=($(compgen -d -- "$word"))
        return
    fi
    case $((COMP_CWORD - first)),${COMP_WORDS[first]} in
        0,*) choices='get set unset edit pending drop transactions commit plan show apply wait status verify GET PATCH POST DELETE -C --help --version' ;;
        1,[A-Z]*) choices=$targets ;;
        1,edit | 1,pending | 1,drop | 1,commit | 2,show) choices=$(_settingsctl_asked transactions | tr -d '[]"' | tr , ' ') ;;
        1,plan) choices="$(_settingsctl_asked transactions | tr -d '[]"' | tr , ' ') $(_settingsctl_keys)" ;;
        1,show) choices=$(_settingsctl_asked verify | cut -d' ' -f1) ;;
        1,apply) choices=--all ;;
        *,get | *,unset | *,set | *,edit | *,plan) choices="$(_settingsctl_keys)" ;;
    esac
    local IFS=$' \n'
    COMPREPLY=($(compgen -W "${choices//\"/\\\"}" -- "$word"))
}

complete -F _settings settings
complete -F _settingsctl settingsctl
