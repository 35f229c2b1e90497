# Completion of the words of harmony in fish: its commands, --quiet in front of --, and files where a command has them.

# The words before the cursor that are no flags, without the name of the program and the first --.
function __harmony_names
    set -l ended
    for word in (commandline -opc)[2..]
        if not set -q ended[1]; and test "$word" = --
            set ended yes
        else if set -q ended[1]; or test "$word" != --quiet
            echo $word
        end
    end
end

# Whether a flag is begun: in front of the first -- no word but a flag begins so.
function __harmony_begins_flag
    string match -q -- '-*' (commandline -ct); and not contains -- -- (commandline -opc)
end

function __harmony_wants_quiet
    not contains -- --quiet (commandline -opc); and not contains -- -- (commandline -opc)
end

function __harmony_wants_command
    test (count (__harmony_names)) = 0; and not __harmony_begins_flag
end

# Whether a file comes next: so many has a command, and gen has a number.
function __harmony_wants_file
    set -l names (__harmony_names)
    set -l most 0
    switch "$names[1]"
        case sync plan
            set most 6
        case view
            set most 2
        case check
            set most 1
    end
    test (count $names) -gt 0; and test (count $names) -le $most; and not __harmony_begins_flag
end

complete -c harmony -f
complete -c harmony -n __harmony_wants_quiet -l quiet -d 'Leave the lines of conflicts out of a report'
complete -c harmony -n __harmony_wants_command -a sync -d 'Bring two files together again'
complete -c harmony -n __harmony_wants_command -a plan -d 'Say what sync would say, without writes'
complete -c harmony -n __harmony_wants_command -a check -d 'Print the schema of what a lens file shows'
complete -c harmony -n __harmony_wants_command -a view -d 'Print what a lens file shows of a file'
complete -c harmony -n __harmony_wants_command -a gen -d 'Merge made-up address books in memory'
complete -c harmony -n __harmony_wants_file -F
