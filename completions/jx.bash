# Completions of jx for bash. Made by tools/words.py.
_jx() {
    local word=${COMP_WORDS[COMP_CWORD]} before=${COMP_WORDS[COMP_CWORD - 1]} command='' at
    COMPREPLY=()
    for ((at = 1; at < COMP_CWORD; at++)); do
        case ${COMP_WORDS[at]} in
        check | explain | index | at | get | each | keys | count | seq | lines | texts | save | split | part | join | whole | help)
            command=${COMP_WORDS[at]}
            break
            ;;
        esac
    done
    case $before in
    --bad | --file | --index | --pointers)
        compopt -o filenames 2>/dev/null
        mapfile -t COMPREPLY < <(compgen -f -- "$word")
        return
        ;;
    --color | --progress)
        mapfile -t COMPREPLY < <(compgen -W 'auto always never' -- "$word")
        return
        ;;
    --format)
        mapfile -t COMPREPLY < <(compgen -W 'plain gnu json' -- "$word")
        return
        ;;
    --workers)
        mapfile -t COMPREPLY < <(compgen -W 'auto' -- "$word")
        return
        ;;
    --chunk | --depth | --from | --max | --null | --parts | --piece | --to) return ;;
    esac
    case $command in
    check | explain | index | each | keys | count | seq | lines | texts | save)
        if [[ $word != -* ]]; then
            compopt -o filenames 2>/dev/null
            mapfile -t COMPREPLY < <(compgen -f -- "$word")
            return
        fi
        ;;
    esac
    case $command in
    '') mapfile -t COMPREPLY < <(compgen -W 'check explain index at get each keys count seq lines texts save split part join whole help -h --help -V --version' -- "$word") ;;
    help) mapfile -t COMPREPLY < <(compgen -W 'check explain index at get each keys count seq lines texts save split part join whole' -- "$word") ;;
    check) mapfile -t COMPREPLY < <(compgen -W '-f --file --depth --workers --piece --ignore-bom --unique-names -H --with-filename -q --quiet -l --list --format --progress -h --help' -- "$word") ;;
    explain) mapfile -t COMPREPLY < <(compgen -W '-f --file --depth --workers --piece --ignore-bom --unique-names --color -v --verbose --refused -h --help' -- "$word") ;;
    index) mapfile -t COMPREPLY < <(compgen -W '-f --file --depth --workers --piece --ignore-bom --unique-names -h --help' -- "$word") ;;
    at) mapfile -t COMPREPLY < <(compgen -W '-f --file --depth --workers --piece --ignore-bom --unique-names --pointers --index -h --help' -- "$word") ;;
    get) mapfile -t COMPREPLY < <(compgen -W '-f --file --depth --workers --piece --ignore-bom --unique-names --pointers -c --compact -r --raw --lines --skip-blank --format --header --null --index -h --help' -- "$word") ;;
    each) mapfile -t COMPREPLY < <(compgen -W '--names -f --file --depth --workers --piece --ignore-bom --progress -h --help' -- "$word") ;;
    keys) mapfile -t COMPREPLY < <(compgen -W '-r --raw -f --file --depth --workers --piece --ignore-bom -h --help' -- "$word") ;;
    count) mapfile -t COMPREPLY < <(compgen -W '-f --file --depth --workers --piece --ignore-bom -h --help' -- "$word") ;;
    seq) mapfile -t COMPREPLY < <(compgen -W '-f --file --depth --workers --piece --ignore-bom --unique-names --live -H --with-filename -q --quiet -h --help' -- "$word") ;;
    lines) mapfile -t COMPREPLY < <(compgen -W '-f --file --depth --workers --piece --ignore-bom --skip-blank -H --with-filename -q --quiet --pass --bad --max -l --list --format -h --help' -- "$word") ;;
    texts) mapfile -t COMPREPLY < <(compgen -W '-f --file --depth -H --with-filename -q --quiet -h --help' -- "$word") ;;
    save) mapfile -t COMPREPLY < <(compgen -W '-f --file --depth --workers --chunk --names --ignore-bom --unique-names --progress -h --help' -- "$word") ;;
    split) mapfile -t COMPREPLY < <(compgen -W '--index -f --file --parts -h --help' -- "$word") ;;
    part) mapfile -t COMPREPLY < <(compgen -W '-f --file --from --depth -h --help' -- "$word") ;;
    join) mapfile -t COMPREPLY < <(compgen -W '-f --file --depth -h --help' -- "$word") ;;
    whole) mapfile -t COMPREPLY < <(compgen -W '-f --file --to --from --depth -q --quiet -h --help' -- "$word") ;;
    esac
}
complete -F _jx jx
