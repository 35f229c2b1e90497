# Completion of the words of harmony-changes in fish: --most and its number in front of --, and the names of six files.

# The words before the cursor that are names, and behind them `number` where the number of --most comes next.
function __harmony_changes_names
    set -l ended
    set -l number
    for word in (commandline -opc)[2..]
        if set -q number[1]
            set -e number[1]
        else if set -q ended[1]
            echo name
        else if test "$word" = --
            set ended yes
        else if test "$word" = --most
            set number yes
        else if not string match -q -- '--most=*' "$word"
            echo name
        end
    end
    set -q number[1]; and echo number
end

# Whether a flag is begun: in front of the first -- no word but a flag begins so.
function __harmony_changes_begins_flag
    string match -q -- '-*' (commandline -ct); and not contains -- -- (commandline -opc)
end

function __harmony_changes_wants_most
    not string match -q -- '--most*' (commandline -opc); and not contains -- -- (commandline -opc)
end

# Whether a file comes next, of which there are six.
function __harmony_changes_wants_file
    set -l names (__harmony_changes_names)
    test (count $names) -lt 6; and not contains number $names; and not __harmony_changes_begins_flag
end

complete -c harmony-changes -f
complete -c harmony-changes -n __harmony_changes_wants_most -l most -d 'End with 7 where more entries would be deleted'
complete -c harmony-changes -n __harmony_changes_wants_file -F
