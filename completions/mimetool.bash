# bash completion for mimetool(1)

_mimetool_options() {
    local options=''
    case $1 in
        edit) options='--from --in-place --wait --tempfail -n --each --rfc4155 --mbox --unquote -j --all --eol --explain -e -h --help' ;;
        undo) options='--from --in-place --wait --tempfail -j --all --explain -h --help' ;;
        redo) options='--from --in-place --wait --tempfail -j --all --explain -h --help' ;;
        journal) options='-j --explain -h --help' ;;
        sections) options='--from -n --each --rfc4155 --mbox --unquote --json -H --utf8 --explain -h --help' ;;
        extract) options='--from -n --each --rfc4155 --mbox --unquote -s --raw --head --prefix --utf8 --explain -h --help' ;;
        unpack) options='--from -n --each --rfc4155 --mbox --unquote -f --number -t --messages --prefix -s --silent --paths --utf8 --content-id -C --explain -h --help' ;;
        pack) options='-b -m --inline --charset --eol --forward --part --utf8 --explain -h --help' ;;
        field) options='--from --in-place --wait --tempfail -p --prepend --sub --drop --keep --keep-only --rename -a -A -i -I -u -U -x -X -H --unfold --decode --addresses --encode --eol --refused-ok -j -D -s --each --rfc4155 --mbox --explain -h --help' ;;
        reply) options='--from -n --rfc4155 --mbox --explain -h --help' ;;
        check) options='--from --json -H -n --rfc4155 --mbox --explain -h --help' ;;
        messages) options='--from --unique --json -H --rfc4155 --mbox -h --help' ;;
        split) options='--from --name -f --silent --maildir --bare --unquote -C --rfc4155 --mbox --explain -h --help' ;;
        help) options='' ;;
        '') options='-h --help -V --version' ;;
    esac
    printf '%s' "$options"
}

_mimetool() {
    local cur=${COMP_WORDS[COMP_CWORD]} prev=${COMP_WORDS[COMP_CWORD - 1]} command='' word
    local commands='edit undo redo journal sections extract unpack pack field reply check messages split help'
    COMPREPLY=()
    for word in "${COMP_WORDS[@]:1:COMP_CWORD-1}"; do
        case $word in
            -*) ;;
            *) command=$word; break ;;
        esac
    done
    compopt -o filenames 2>/dev/null
    case $command:$prev in
        edit:-j | undo:-j | redo:-j | journal:-j | field:-j | field:-D | *:--from | *:--in-place | pack:--forward)
            mapfile -t COMPREPLY < <(compgen -f -- "$cur")
            return ;;
        unpack:-C | split:-C)
            mapfile -t COMPREPLY < <(compgen -d -- "$cur")
            return ;;
        *:--mbox)
            mapfile -t COMPREPLY < <(compgen -W 'any date field' -- "$cur")
            return ;;
        edit:-e | *:-n | extract:-s | unpack:-s | pack:-b | pack:-m | pack:--charset | split:--name | field:--prepend | field:--sub | field:--drop | field:--keep | field:--keep-only | field:--rename | field:-[aAiIpuUxX])
            return ;;
    esac
    if [[ $cur == -* ]]; then
        compopt +o filenames 2>/dev/null
        mapfile -t COMPREPLY < <(compgen -W "$(_mimetool_options "$command")" -- "$cur")
        return
    fi
    case $command in
        '')
            compopt +o filenames 2>/dev/null
            mapfile -t COMPREPLY < <(compgen -W "$commands" -- "$cur") ;;
        help)
            compopt +o filenames 2>/dev/null
            mapfile -t COMPREPLY < <(compgen -W "$commands" -- "$cur") ;;
        edit | field | sections | extract | unpack | check | messages)
            mapfile -t COMPREPLY < <(compgen -f -- "$cur") ;;
        pack)
            # FILE or TYPE:FILE. The shell cuts words at a colon, so what is completed is FILE.
            if [[ $cur == : ]]; then
                mapfile -t COMPREPLY < <(compgen -f)
            else
                mapfile -t COMPREPLY < <(compgen -f -- "$cur")
            fi ;;
    esac
}

complete -F _mimetool mimetool
