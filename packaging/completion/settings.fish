# Completion of `settings` and `settingsctl` for fish.

set -l commands init serve set get apply verify check migrate prune generate user-data dump restore forget load
complete -c settings -f
complete -c settings -n "not __fish_seen_subcommand_from $commands" -a "$commands --help --version"
complete -c settings -n '__fish_seen_subcommand_from init' -a --version
complete -c settings -n '__fish_seen_subcommand_from serve' -a '--boot --slice --while-idle --connections --quiet'
complete -c settings -n '__fish_seen_subcommand_from apply' -a --all
complete -c settings -n '__fish_seen_subcommand_from check' -a --store
complete -c settings -n '__fish_seen_subcommand_from migrate' -a --to
complete -c settings -n '__fish_seen_subcommand_from user-data restore' -F

# Asks the server in the folder of a verb.
function __settingsctl_asked
    set -l folder .
    test -S api.sock; or set folder /var/lib/settings
    set -l words (commandline -opc)
    test "$words[2]" = -C; and set folder $words[3]
    settingsctl -C $folder $argv 2>/dev/null
end

# The keys that have a value, live or pending.
function __settingsctl_keys
    __settingsctl_asked GET /store | grep -oE '\["settings\.([^"\\\\]|\\\\.)*"' | sed 's/^\["//; s/"$//; s/\\\\"/"/g' | sort -u
end

function __settingsctl_transactions
    __settingsctl_asked transactions | tr -d '[]"' | tr , '\n'
end

set -l verbs get set unset edit pending drop transactions commit plan show apply wait status verify
set -l targets /settings /set /plan /plan/file /store /verify /services /configuration-files /metadata/affected-services /os /tx /tx/list /tx/commit /tx/apply /tx/commit_and_apply /job
complete -c settingsctl -f
complete -c settingsctl -n "not __fish_seen_subcommand_from $verbs GET PATCH POST DELETE" -a "$verbs GET PATCH POST DELETE -C --help --version"
complete -c settingsctl -n '__fish_seen_subcommand_from GET PATCH POST DELETE' -a "$targets"
complete -c settingsctl -n '__fish_seen_subcommand_from get set unset edit plan' -a '(__settingsctl_keys)'
complete -c settingsctl -n '__fish_seen_subcommand_from edit pending drop commit plan show' -a '(__settingsctl_transactions)'
complete -c settingsctl -n '__fish_seen_subcommand_from show' -a "(__settingsctl_asked verify | cut -d' ' -f1)"
complete -c settingsctl -n '__fish_seen_subcommand_from apply' -a --all
