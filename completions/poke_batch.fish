# Completion of poke_batch for fish. SPDX-License-Identifier: MIT OR Apache-2.0

# tools/options: options with a value
# Whether an option has a value.
function __poke_batch_takes_value
    contains -- $argv[1] --at --byte --length --endian --limit --max-output --memory --slots --get --spool --rows --absent --count --omit --of --resume --step --attempt-limit --in --mode --numbers --chars --elements --faults --depth --parts --color --files0-from --from --size --skip -s -n
end
# tools/options: end

# The arguments before the cursor that are no options and no values of options: the command first.
function __poke_batch_arguments
    set -l value
    set -l ended
    for it in (commandline -opc)[2..-1]
        if set -q value[1]
            set -e value
        else if set -q ended[1]; or not string match -qr -- '^-.' $it
            printf '%s\n' $it
        else if test $it = --
            set ended yes
        else if __poke_batch_takes_value $it
            set value yes
        end
    end
end

# Whether the command is one of the given.
function __poke_batch_is
    set -l arguments (__poke_batch_arguments)
    set -q arguments[1]; and contains -- $arguments[1] $argv
end

# Whether so many arguments are before the cursor, or more after a sign +, and the command is one of the others given.
function __poke_batch_has
    set -l arguments (__poke_batch_arguments)
    set -l count (count $arguments)
    if string match -q '*+' -- $argv[1]
        test $count -ge (string trim -rc + -- $argv[1]); or return
    else
        test $count -eq $argv[1]; or return
    end
    test (count $argv) -eq 1; or contains -- $arguments[1] $argv[2..-1]
end

# The pickles: files, standard input, and the installed ones after a + or where no file is offered.
function __poke_batch_pickles
    set -l word (commandline -ct)
    set -l files (__fish_complete_suffix .pk | string match -r '.*(?:/|\.pk)(?:\t.*)?$')
    if set -q files[1]
        printf '%s\n' $files
    else if string match -qr '^(\+|$)' -- $word
        set -l program (commandline -opc)[1]
        $program formats 2>/dev/null </dev/null | string replace -r '^([^\t]*)\t[^\t]*\t[^\t]*\t' '+$1\t' | string match -- "$word*"
    end
    printf '%s\t%s\n' - 'standard input'
end

# The types that the pickle declares. Standard input isn't read, nor what isn't a regular file.
function __poke_batch_types
    set -l program (commandline -opc)[1]
    set -l arguments (__poke_batch_arguments)
    set -l pickle (string replace -r '^~/' "$HOME/" -- $arguments[2])
    if not test -f "$pickle"
        string match -q -- '+*' $pickle; and not test -e "$pickle"; or return
    end
    $program types -- $pickle 2>/dev/null </dev/null | cut -f 1,2
end

# An offset has a number, # and a unit: the units after a number.
function __poke_batch_offsets
    set -l number (commandline -ct | string replace -r '^--[a-z]+=' '' | string match -r '^[0-9]+')
    and printf '%s\t%s\n' "$number#b" bits "$number#B" bytes
end

complete -c poke_batch -f
complete -c poke_batch -n '__poke_batch_has 0' -l version -s V -d 'Print the version'
complete -c poke_batch -n 'not __poke_batch_is help' -l help -s h -d 'Print the help'

# tools/options: commands, options and arguments
complete -c poke_batch -n '__poke_batch_has 0' -a map -d 'Maps a type over a file and prints the value'
complete -c poke_batch -n '__poke_batch_has 0' -a show -d 'Maps a type over a file and shows the value, or what a fault is about, to the eye'
complete -c poke_batch -n '__poke_batch_has 0' -a each -d 'Maps a type over many files, one after the other, and prints a line for each'
complete -c poke_batch -n '__poke_batch_has 0' -a records -d 'Maps a type again and again, each time from the end of the value before, and prints each value'
complete -c poke_batch -n '__poke_batch_has 0' -a find -d 'Tries a type at each byte of a file, and prints where it has a value'
complete -c poke_batch -n '__poke_batch_has 0' -a identify -d 'Finds the formats of files by the pickles that are installed, and prints a line for each file'
complete -c poke_batch -n '__poke_batch_has 0' -a bound -d 'Prints the most steps and slots that mapping a type over so many bits takes'
complete -c poke_batch -n '__poke_batch_has 0' -a check -d 'Checks a pickle and prints the number of its types'
complete -c poke_batch -n '__poke_batch_has 0' -a types -d 'Prints the name, the kind and the least width of each type of a pickle'
complete -c poke_batch -n '__poke_batch_has 0' -a formats -d 'Prints the name, the type, the options and a sentence of each pickle that is installed'
complete -c poke_batch -n '__poke_batch_has 0' -a dump -d 'Prints the bytes of a file in hexadecimal digits and as text'
complete -c poke_batch -n '__poke_batch_has 0' -a help -d 'Print the help of the program or of a command'
complete -c poke_batch -n '__poke_batch_has 1 help' -a 'map show each records find identify bound check types formats dump help'

complete -c poke_batch -n '__poke_batch_is map show each records' -l at -xa '(__poke_batch_offsets)' -d 'Where the value begins in FILE'
complete -c poke_batch -n '__poke_batch_is map show each records' -l byte -x -d 'The byte where the value begins'
complete -c poke_batch -n '__poke_batch_is find' -l at -xa '(__poke_batch_offsets)' -d 'Where the search begins in FILE'
complete -c poke_batch -n '__poke_batch_is find' -l byte -x -d 'The byte where the search begins'
complete -c poke_batch -n '__poke_batch_is map show each records find' -l length -x -d 'After how many bytes from there FILE ends'
complete -c poke_batch -n '__poke_batch_is map show each' -l inside -d 'Map the type of +NAME for the format inside other bytes'
complete -c poke_batch -n '__poke_batch_is map show each records find' -l endian -xa 'big little' -d 'The byte order'
complete -c poke_batch -n '__poke_batch_is map show each' -l limit -x -d 'The most steps of the mapping'
complete -c poke_batch -n '__poke_batch_is records' -l limit -x -d 'The most steps of all records together'
complete -c poke_batch -n '__poke_batch_is map show each' -l whole -d 'Accept only a value that ends where FILE does'
complete -c poke_batch -n '__poke_batch_is map show each' -l max-output -x -d 'The most bytes of the printed value'
complete -c poke_batch -n '__poke_batch_is map show each records' -l memory -x -d 'The most bytes that stored values may take'
complete -c poke_batch -n '__poke_batch_is find' -l memory -x -d 'The most bytes that stored values of one attempt may take'
complete -c poke_batch -n '__poke_batch_is map show each records find' -l slots -x -d 'The most slots of each kind'
complete -c poke_batch -n '__poke_batch_is map show' -l get -x -d 'Print parts of the value'
complete -c poke_batch -n '__poke_batch_is each records' -l get -x -d 'Print a part of the value'
complete -c poke_batch -n '__poke_batch_is find' -l get -x -d 'Print a part of the value after its place and size'
complete -c poke_batch -n '__poke_batch_is map show each records find identify' -l spool -x -d 'Read a FILE without a length'
complete -c poke_batch -n '__poke_batch_is map show each records find identify' -l progress -d 'Show how much is done'
complete -c poke_batch -n '__poke_batch_is map' -l rows -x -d 'Print a line for each part that PATTERN leads to'
complete -c poke_batch -n '__poke_batch_is records' -l header -d 'Print the names of the columns first'
complete -c poke_batch -n '__poke_batch_is map' -l header -d 'Print the names of the columns first, with --rows'
complete -c poke_batch -n '__poke_batch_is map' -l absent -xa 'fault empty skip' -d 'What a part that isn\'t there is'
complete -c poke_batch -n '__poke_batch_is show each records find' -l absent -xa 'fault empty' -d 'What a part that isn\'t there is'
complete -c poke_batch -n '__poke_batch_is records' -l count -x -d 'Stop after the lines of N records'
complete -c poke_batch -n '__poke_batch_is records' -l omit -x -d 'How many records are mapped first'
complete -c poke_batch -n '__poke_batch_is records' -l any-end -d 'Accept a list that ends before FILE does'
complete -c poke_batch -n '__poke_batch_is records' -l report-end -d 'Print at last where the next record would begin'
complete -c poke_batch -n '__poke_batch_is records' -l of -x -d 'The records are those of the array at PATH in TYPE'
complete -c poke_batch -n '__poke_batch_is records' -l resume -xa '(__poke_batch_offsets)' -d 'Where in FILE the list goes on, with --of'
complete -c poke_batch -n '__poke_batch_is find' -l step -xa '(__poke_batch_offsets)' -d 'How far each start is from the one before'
complete -c poke_batch -n '__poke_batch_is find' -l header -d 'Print the names of the columns first'
complete -c poke_batch -n '__poke_batch_is find' -l apart -d 'After a value go on at or after its end'
complete -c poke_batch -n '__poke_batch_is find' -l count -x -d 'Stop after the lines of N values'
complete -c poke_batch -n '__poke_batch_is find' -l attempt-limit -x -d 'The most steps of the attempt at one start'
complete -c poke_batch -n '__poke_batch_is find' -l limit -x -d 'The most steps of all attempts together'
complete -c poke_batch -n '__poke_batch_is identify' -l all -d 'Print all formats that fit'
complete -c poke_batch -n '__poke_batch_is identify' -l in -rF -d 'Try the pickles in FOLDER'
complete -c poke_batch -n '__poke_batch_is identify' -l byte -x -d 'The byte where the format begins'
complete -c poke_batch -n '__poke_batch_is identify' -l length -x -d 'After how many bytes from there FILE ends'
complete -c poke_batch -n '__poke_batch_is bound' -l text -d 'Print the most bytes of the printed value too'
complete -c poke_batch -n '__poke_batch_is bound' -l tight -d 'Print tighter bounds on the steps and slots too'
complete -c poke_batch -n '__poke_batch_is bound' -l memory -d 'Print the most bytes that stored values take too'
complete -c poke_batch -n '__poke_batch_is map' -l mode -xa 'flat tree json lines raw' -d 'How the value is printed'
complete -c poke_batch -n '__poke_batch_is records' -l mode -xa 'flat tree json lines' -d 'How each value is printed'
complete -c poke_batch -n '__poke_batch_is find' -l mode -xa 'flat json' -d 'How the line of a value is printed'
complete -c poke_batch -n '__poke_batch_is each' -l mode -xa 'flat json' -d 'How the value is printed'
complete -c poke_batch -n '__poke_batch_is bound' -l mode -xa 'flat tree json lines' -d 'In this mode alone, with --text'
complete -c poke_batch -n '__poke_batch_is check types formats' -l mode -xa 'text json' -d 'How the answer is printed'
complete -c poke_batch -n '__poke_batch_is identify' -l mode -xa 'text json' -d 'How the answer is printed'
complete -c poke_batch -n '__poke_batch_is map show each records find' -l numbers -xa 'decimal hex digits' -d 'How numbers are printed'
complete -c poke_batch -n '__poke_batch_is bound' -l numbers -xa 'decimal hex digits' -d 'For numbers in this form, with --text'
complete -c poke_batch -n '__poke_batch_is map show each records find' -l chars -xa 'numbers text' -d 'How arrays of char are printed'
complete -c poke_batch -n '__poke_batch_is bound' -l chars -xa 'numbers text' -d 'For arrays of char in this form, with --text'
complete -c poke_batch -n '__poke_batch_is map show each records find' -l elements -x -d 'The most elements that are printed of an array'
complete -c poke_batch -n '__poke_batch_is bound' -l elements -x -d 'For so many elements of an array, with --text'
complete -c poke_batch -n '__poke_batch_is map each records find identify' -l faults -xa 'text json' -d 'How a refusal or a fault is printed'
complete -c poke_batch -n '__poke_batch_is show' -l depth -x -d 'The most levels of parts below the value that are shown'
complete -c poke_batch -n '__poke_batch_is types' -l parts -x -d 'List the parts that values of the type NAME can have'
complete -c poke_batch -n '__poke_batch_is types' -l depth -x -d 'The most levels of parts below the value that are listed'
complete -c poke_batch -n '__poke_batch_is show' -l sizes -d 'Show the size of each part after its place'
complete -c poke_batch -n '__poke_batch_is show' -l bytes -d 'Show the first bytes of each part after its place'
complete -c poke_batch -n '__poke_batch_is show' -l color -xa 'auto always never' -d 'When colors are printed'
complete -c poke_batch -n '__poke_batch_is map each records' -l why -d 'Explain why the pickle or TYPE is refused'
complete -c poke_batch -n '__poke_batch_is find bound types' -l why -d 'Explain why the pickle or TYPE is refused'
complete -c poke_batch -n '__poke_batch_is check' -l why -d 'Explain why the pickle is refused'
complete -c poke_batch -n '__poke_batch_is identify' -l why -d 'Explain why FILE or the pickles aren\'t opened'
complete -c poke_batch -n '__poke_batch_is each identify' -l flush -d 'Write the line of a file before the next file is read'
complete -c poke_batch -n '__poke_batch_is records' -l flush -d 'Write each record before the next one is mapped'
complete -c poke_batch -n '__poke_batch_is find' -l flush -d 'Write each line before the search goes on'
complete -c poke_batch -n '__poke_batch_is each identify' -l files0-from -rF -d 'Read names of files from PATH'
complete -c poke_batch -n '__poke_batch_is dump' -l from -xa '(__poke_batch_offsets)' -d 'The first byte'
complete -c poke_batch -n '__poke_batch_is dump' -l size -xa '(__poke_batch_offsets)' -d 'How much to dump at most'
complete -c poke_batch -n '__poke_batch_is dump' -l skip -s s -x -d 'The first byte'
complete -c poke_batch -n '__poke_batch_is dump' -l length -s n -x -d 'How many bytes to dump at most'
complete -c poke_batch -n '__poke_batch_is dump' -l no-ruler -d 'Leave out the line above the bytes'

complete -c poke_batch -n '__poke_batch_has 1 map show each records find bound check types' -a '(__poke_batch_pickles)'
complete -c poke_batch -n '__poke_batch_has 2 map show each records find bound' -a '(__poke_batch_types)'
complete -c poke_batch -n '__poke_batch_has 3 map show records find; or __poke_batch_has 1 show find dump; or __poke_batch_has 3+ each; or __poke_batch_has 1+ identify' -F
# tools/options: end
