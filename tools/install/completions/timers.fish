# Completes the arguments of timers(1) in fish: commands and options come from its help.
function __timers_commands
    timers -h 2> /dev/null | sed -nE '/^Commands:/,/^$/s/^  ([a-z]+) +(.*)/\1\t\2/p'
end

function __timers_options
    set -l command (commandline -opc)[2]
    timers $command -h 2> /dev/null | sed -nE 's/^ +(-., )?(--[a-z-]+)( <[A-Z]+>)? +([^[]*).*/\2\t\4/p'
end

# The values of the option before the cursor, if its help lists them; fails if it takes none.
function __timers_values
    set -l words (commandline -opc)
    set -l help (timers $words[2] -h 2> /dev/null | string match -r -- "^ +$words[-1] <.*")
    or return
    string match -rg '\[possible values: (.*)\]' -- $help | string split ', '
    true
end

complete -c timers -f
complete -c timers -n 'not __fish_seen_subcommand_from help threads; and not __timers_values > /dev/null' -F
complete -c timers -n __fish_use_subcommand -a '(__timers_commands)'
complete -c timers -n '__fish_seen_subcommand_from help' -a '(__timers_commands)'
complete -c timers -n 'not __timers_values > /dev/null' -a '(__timers_options)'
complete -c timers -n '__timers_values > /dev/null' -a '(__timers_values)'
