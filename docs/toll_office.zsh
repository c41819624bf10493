#compdef toll_office toll_serve
# Completion for zsh: of the commands and options of toll_office, and the options of toll_serve.
# Put it as `_toll_office` into a folder of `fpath`, before `compinit` runs. Behind `<` and `>` zsh completes names of files.

# Offers the given words, but those that are on the line already; nothing where an option's value stands.
_toll_offer() {
    local it before=$words[CURRENT-1]
    local -a offered
    [[ $before == --* && $before != --any-order ]] && return 1
    for it in $=1; do
        (( $words[(Ie)$it] && $words[(Ie)$it] < CURRENT )) || offered+=($it)
    done
    compadd -a offered
}

_toll_office() {
    local options=
    if [[ $service == toll_serve ]]; then
        options="--sessions --readers"
    elif (( CURRENT == 2 )); then
        options="answers import check validate audit past renew day vehicle accidents export tariff tariffs generate rehearse days charges"
    else
        case $words[2] in
        answers | import) options="--late --workers --turns --backlog" ;;
        check | validate | accidents) options="--late" ;;
        audit) options="--late --shards --workers --show --any-order" ;;
        renew) options="--drop" ;;
        generate) options="--vehicles --minutes --xways --crashes" ;;
        rehearse) options="--vehicles --minutes --xways --crashes --late --workers --turns --backlog" ;;
        esac
        options+=" --wait"
    fi
    _toll_offer "$options"
}

_toll_office "$@"
