# Completion of docportal-client for bash:
#   install -D -m644 docportal-client.bash ~/.local/share/bash-completion/completions/docportal-client
# Documents are asked of the service, by one request that costs 128 bytes of its history.

_docportal_client_options() {
    local options='--as --sockets --root --json --timeout --help'
    case $1 in
    '') options+=' --version' ;;
    documents | ls) options+=' --short' ;;
    export)
        options+=' --app --read --write --grant --delete --persistent --strict --unique --noexist'
        options+=' --folder'
        ;;
    permission-set) options+=' --data --type' ;;
    permission-show) options+=' --table' ;;
    permission-reset) options+=' --all --table' ;;
    watch) options+=' --every' ;;
    put) options+=' --name' ;;
    esac
    echo "$options"
}

_docportal_client() {
    local verbs='documents export unexport info lookup grant revoke tables permissions
        permission-show permission-set permission-remove permission-reset watch ls cat put stat edit'
    local tables='background desktop-used-apps devices flatpak gamemode inhibit location
        notifications realtime remote-desktop screencast screenshot usb wallpaper webextensions'
    local cur=${COMP_WORDS[COMP_CWORD]} prev=${COMP_WORDS[COMP_CWORD - 1]}
    local sockets=${DOCPORTAL_SOCKETS:-${XDG_RUNTIME_DIR:-/run/user/$UID}/docportal}
    local verb='' place=-1 word as='' at common=() file
    COMPREPLY=()
    # The verb, which of its words the cursor is at, and the options that say where the service is.
    for ((at = 1; at < COMP_CWORD; at++)); do
        word=${COMP_WORDS[at]}
        case $word in
        --as | --sockets | --root | --timeout)
            ((at + 1 < COMP_CWORD)) || break
            common+=("$word" "${COMP_WORDS[at + 1]}")
            [[ $word == --sockets ]] && sockets=${COMP_WORDS[at + 1]}
            [[ $word == --as ]] && as=${COMP_WORDS[at + 1]}
            ((at++))
            ;;
        --app | -a | --table | --data | --type | --every | --name) ((at++)) ;;
        -*) ;;
        *)
            if [[ -z $verb ]]; then verb=$word; fi
            ((place++))
            ;;
        esac
    done
    local apps='' documents=''
    case $prev in
    --as | --app | -a) verb=grant place=1 ;;
    --sockets | --root)
        mapfile -t COMPREPLY < <(compgen -d -- "$cur")
        return
        ;;
    --table) verb=tables place=0 ;;
    --timeout | --every | --data | --type | --name) return ;;
    *)
        if [[ $cur == -* ]]; then
            mapfile -t COMPREPLY < <(compgen -W "$(_docportal_client_options "$verb")" -- "$cur")
            return
        fi
        ;;
    esac
    case $verb:$place in
    :*) mapfile -t COMPREPLY < <(compgen -W "$verbs" -- "$cur") ;;
    export:0 | lookup:0 | put:1) mapfile -t COMPREPLY < <(compgen -f -- "$cur") ;;
    unexport:0 | info:0 | grant:0 | revoke:0 | ls:0 | cat:0 | put:0 | stat:0 | edit:0)
        local list=(documents --short)
        [[ -n $as ]] && list=(ls --short)
        documents=$("${COMP_WORDS[0]}" "${common[@]}" "${list[@]}" 2>/dev/null)
        mapfile -t COMPREPLY < <(compgen -W "$documents" -- "$cur")
        ;;
    documents:0 | grant:1 | revoke:1 | permission-show:0 | permission-reset:0 | permission-set:2 | \
        permission-remove:2)
        for file in "$sockets"/app.*.bus; do
            # (compgen -W would run what stands in a name)
            [[ -S $file ]] && file=${file##*/app.} && file=${file%.bus} &&
                [[ $file =~ ^[A-Za-z0-9._-]+$ ]] && apps+=" $file"
        done
        mapfile -t COMPREPLY < <(compgen -W "$apps" -- "$cur")
        ;;
    tables:* | permissions:0 | permission-set:0 | permission-remove:0 | watch:0)
        mapfile -t COMPREPLY < <(compgen -W "$tables" -- "$cur")
        ;;
    grant:* | revoke:*)
        mapfile -t COMPREPLY < <(compgen -W 'read write grant-permissions delete' -- "$cur")
        ;;
    esac
}

complete -o filenames -F _docportal_client docportal-client
