# Completion for bash: of the commands and options of toll_office, and the options of toll_serve.
# Use it by `source docs/toll_office.bash`. Behind `<` and `>` it completes names of files.

# Offers the given words, but those that are on the line already; nothing where an option's value stands.
_toll_offer() {
    local it word=${COMP_WORDS[COMP_CWORD]} before=${COMP_WORDS[COMP_CWORD - 1]}
    COMPREPLY=()
    case $before in
    *[\<\>]*) return ;;
    esac
    compopt +o default 2> /dev/null
    case $before in
    --any-order) ;;
    --* | =) return ;;
    esac
    for it in $1; do
        [[ " ${COMP_WORDS[*]:0:COMP_CWORD} " == *" $it "* || $it != "$word"* ]] || COMPREPLY+=("$it")
    done
}

_toll_office() {
    local words=
    if [ "$COMP_CWORD" -eq 1 ]; then
        words="answers import check validate audit past renew day vehicle accidents export tariff tariffs generate rehearse days charges"
    else
        case ${COMP_WORDS[1]} in
        answers | import) words="--late --workers --turns --backlog" ;;
        check | validate | accidents) words="--late" ;;
        audit) words="--late --shards --workers --show --any-order" ;;
        renew) words="--drop" ;;
        generate) words="--vehicles --minutes --xways --crashes" ;;
        rehearse) words="--vehicles --minutes --xways --crashes --late --workers --turns --backlog" ;;
        esac
        words+=" --wait"
    fi
    _toll_offer "$words"
}

_toll_serve() {
    _toll_offer "--sessions --readers"
}

complete -o default -F _toll_office toll_office
complete -o default -F _toll_serve toll_serve
