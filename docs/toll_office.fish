# Completion for fish: of the commands and options of toll_office, and the options of toll_serve.
# Put it as `toll_office.fish` and `toll_serve.fish` into ~/.config/fish/completions. Behind `<` and `>` fish completes files.

# The words to offer, but those that are on the line already; nothing where an option's value stands.
function __toll_words
    set -l given (commandline -opc)
    set -l words
    if string match -q -- '--*' $given[-1]; and test $given[-1] != --any-order
        return
    end
    if string match -q -- '*toll_serve' $given[1]
        set words --sessions --readers
    else if test (count $given) -eq 1
        set words answers import check validate audit past renew day vehicle accidents export tariff tariffs generate rehearse days charges
    else
        switch $given[2]
            case answers import
                set words --late --workers --turns --backlog
            case check validate accidents
                set words --late
            case audit
                set words --late --shards --workers --show --any-order
            case renew
                set words --drop
            case generate
                set words --vehicles --minutes --xways --crashes
            case rehearse
                set words --vehicles --minutes --xways --crashes --late --workers --turns --backlog
        end
        set words $words --wait
    end
    for word in $words
        contains -- $word $given; or echo $word
    end
end

complete -c toll_office -f -a '(__toll_words)'
complete -c toll_serve -f -a '(__toll_words)'
