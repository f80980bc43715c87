# Completion of nfs3d for bash.
_nfs3d() {
    local word=${COMP_WORDS[COMP_CWORD]} before=${COMP_WORDS[COMP_CWORD - 1]}
    if [ "$COMP_CWORD" -eq 1 ]; then
        COMPREPLY=($(compgen -W "describe extract check why exports replay serve control journal self help --help --version" -- "$word"))
        return
    fi
    case $before in
    --audit | --save | --control | --journal) COMPREPLY=($(compgen -f -- "$word")) && return ;;
    --listen) COMPREPLY=($(compgen -W "127.0.0.1 0.0.0.0 ::" -- "$word")) && return ;;
    --audit-failed) COMPREPLY=($(compgen -W "refuse count" -- "$word")) && return ;;
    --journal-sync) COMPREPLY=($(compgen -W "round never" -- "$word")) && return ;;
    --port | --connections | --clients | --idle | --cache | --mount | --export | --bytes | --files | --key | --save-every | --metrics | --audit-skip) COMPREPLY=() && return ;;
    esac
    if [ "${COMP_WORDS[1]}" = why ] && [ "$COMP_CWORD" -eq 5 ]; then
        COMPREPLY=($(compgen -W "stat access read write create remove mkdir rmdir rename link symlink readlink mknod lookup list readdirplus chmod chown chgrp truncate touch utime commit df fsinfo pathconf mount" -- "$word"))
        return
    fi
    if [ "${COMP_WORDS[1]}" = control ] && [ "$COMP_CWORD" -eq 3 ]; then
        COMPREPLY=($(compgen -W "status clients mounts denied metrics reload save stop" -- "$word"))
        return
    fi
    if [ "${COMP_WORDS[1]}" = journal ] && [ "$COMP_CWORD" -eq 2 ]; then
        COMPREPLY=($(compgen -W "check cut compact --help" -- "$word"))
        return
    fi
    case ${COMP_WORDS[1]}:$word in
    check:-*) COMPREPLY=($(compgen -W "--mount --export --bytes --files --chown --strict --all --help" -- "$word")) ;;
    serve:-*) COMPREPLY=($(compgen -W "--mount --export --bytes --files --chown --strict --listen --port --register --connections --clients --idle --cache --audit --audit-failed --audit-skip --times --names --save --save-every --key --journal --journal-sync --control --watch --metrics --verbose --help" -- "$word")) ;;
    describe:-*) COMPREPLY=($(compgen -W "--mount --export --bytes --files --chown --times --strict --key --help" -- "$word")) ;;
    replay:-*) COMPREPLY=($(compgen -W "--mount --export --bytes --files --chown --journal --cache --save --key --decode --names --port --host --help" -- "$word")) ;;
    control:-*) COMPREPLY=($(compgen -W "--save --help" -- "$word")) ;;
    journal:-*) COMPREPLY=($(compgen -W "--key --help" -- "$word")) ;;
    why:-*) COMPREPLY=($(compgen -W "--mount --export --bytes --files --chown --quiet --help" -- "$word")) ;;
    exports:-* | extract:-*) COMPREPLY=($(compgen -W "--mount --export --bytes --files --chown --help" -- "$word")) ;;
    *:-*) COMPREPLY=($(compgen -W "--help" -- "$word")) ;;
    *) COMPREPLY=($(compgen -f -- "$word")) ;;
    esac
}
complete -F _nfs3d nfs3d
