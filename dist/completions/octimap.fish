# Completion of octimap in fish. Made by dist/commands from the program's help; not to be changed by hand.

# Whether the word that is written is operand PLACE of COMMAND: those before it, without options and their values.
function __octimap_at -a command place
    set -l words (commandline -opc)
    __octimap_in $command; or return 1
    set -l here 1
    set -l is_value 0
    set -e words[1..2]
    for word in $words
        if test $is_value = 1
            set is_value 0
        else if contains -- $word --edits --page --set --settings
            set is_value 1
        else if not string match -q -- '-*' $word
            set here (math $here + 1)
        end
    end
    test $is_value = 0 -a $here = $place
end

# Whether it is a word of COMMAND.
function __octimap_in -a command
    set -l words (commandline -opc)
    test (count $words) -ge 2; and test "$words[2]" = $command
end

# The files with an ending and the folders; or all files, where there is none of them.
function __octimap_files -a ending
    set -l files (__fish_complete_path (commandline -ct))
    string match -r -- ".*(?:\.$ending|/)(?:\t.*)?\$" $files
    or printf '%s\n' $files
end

complete -c octimap -f
complete -c octimap -s h -l help -d 'Print help'
complete -c octimap -s V -l version -d 'Print version'
complete -c octimap -n 'test (count (commandline -opc)) -eq 1' -a map -d 'Make the map of a feed, and a certificate that its line orders cost least'
complete -c octimap -n 'test (count (commandline -opc)) -eq 1' -a make -d 'Make the map of a feed with plainer settings than `map`'
complete -c octimap -n 'test (count (commandline -opc)) -eq 1' -a improve -d 'Make the map of a feed, and its drawing straighter'
complete -c octimap -n 'test (count (commandline -opc)) -eq 1' -a check -d 'Check a map and its certificate against a feed'
complete -c octimap -n 'test (count (commandline -opc)) -eq 1' -a labels -d 'Write the map of a certificate with each name where it fits'
complete -c octimap -n 'test (count (commandline -opc)) -eq 1' -a geo -d 'Write the map of a certificate as its lines run on the ground'
complete -c octimap -n 'test (count (commandline -opc)) -eq 1' -a poster -d 'Write the map of a certificate as a poster, to print'
complete -c octimap -n 'test (count (commandline -opc)) -eq 1' -a session -d 'Run a script of edits and draws'
complete -c octimap -n 'test (count (commandline -opc)) -eq 1' -a graph -d 'Print the line graph of a feed: what a map of it shows'
complete -c octimap -n 'test (count (commandline -opc)) -eq 1' -a export -d 'Write the line graph of a feed as GeoJSON'
complete -c octimap -n 'test (count (commandline -opc)) -eq 1' -a import -d 'Make the map of a graph file, and its certificate'
complete -c octimap -n 'test (count (commandline -opc)) -eq 1' -a stations -d 'Print each station of a feed: its place and its id'
complete -c octimap -n 'test (count (commandline -opc)) -eq 1' -a page -d 'Make a page of a map or of a poster, for a browser'
complete -c octimap -n 'test (count (commandline -opc)) -eq 1' -a trial -d 'Make the map of a built-in random feed, and print its numbers'
complete -c octimap -n 'test (count (commandline -opc)) -eq 1' -a help -d 'Print the help of a command'
complete -c octimap -n '__octimap_at help 1' -a 'map make improve check labels geo poster session graph export import stations page trial'
complete -c octimap -n '__octimap_in map' -s q -l quiet -d 'Write nothing to standard error'
complete -c octimap -n '__octimap_in map' -l settings -r -F -d 'A file of settings in TOML, such as examples/settings.toml'
complete -c octimap -n '__octimap_in map' -l set -r -d 'A key of the settings in place of that of the file, as often as wanted, such as near=400'
complete -c octimap -n '__octimap_in map' -l edits -r -F -d 'A file of edits, one a line, such as examples/edits.txt; they change what is read, not the feed'
complete -c octimap -n '__octimap_in map' -l page -r -a '(__octimap_files html)' -d 'The file that a page of the poster is written to, for a browser'
complete -c octimap -n '__octimap_at map 1' -a '(__fish_complete_directories (commandline -ct))'
complete -c octimap -n '__octimap_at map 2' -a '(__octimap_files svg)'
complete -c octimap -n '__octimap_at map 3' -F
complete -c octimap -n '__octimap_in make' -s q -l quiet -d 'Write nothing to standard error'
complete -c octimap -n '__octimap_in make' -l settings -r -F -d 'A file of settings in TOML, such as examples/settings.toml'
complete -c octimap -n '__octimap_in make' -l set -r -d 'A key of the settings in place of that of the file, as often as wanted, such as near=400'
complete -c octimap -n '__octimap_in make' -l edits -r -F -d 'A file of edits, one a line, such as examples/edits.txt; they change what is read, not the feed'
complete -c octimap -n '__octimap_in make' -l page -r -a '(__octimap_files html)' -d 'The file that a page of the poster is written to, for a browser'
complete -c octimap -n '__octimap_at make 1' -a '(__fish_complete_directories (commandline -ct))'
complete -c octimap -n '__octimap_at make 2' -a '(__octimap_files svg)'
complete -c octimap -n '__octimap_at make 3' -F
complete -c octimap -n '__octimap_in improve' -s q -l quiet -d 'Write nothing to standard error'
complete -c octimap -n '__octimap_in improve' -l settings -r -F -d 'A file of settings in TOML, such as examples/settings.toml'
complete -c octimap -n '__octimap_in improve' -l set -r -d 'A key of the settings in place of that of the file, as often as wanted, such as near=400'
complete -c octimap -n '__octimap_in improve' -l edits -r -F -d 'A file of edits, one a line, such as examples/edits.txt; they change what is read, not the feed'
complete -c octimap -n '__octimap_at improve 1' -a '(__fish_complete_directories (commandline -ct))'
complete -c octimap -n '__octimap_at improve 2' -a '(__octimap_files svg)'
complete -c octimap -n '__octimap_at improve 3' -F
complete -c octimap -n '__octimap_in check' -s q -l quiet -d 'Write nothing to standard error'
complete -c octimap -n '__octimap_in check' -l settings -r -F -d 'A file of settings in TOML, such as examples/settings.toml'
complete -c octimap -n '__octimap_in check' -l set -r -d 'A key of the settings in place of that of the file, as often as wanted, such as near=400'
complete -c octimap -n '__octimap_in check' -l edits -r -F -d 'A file of edits, one a line, such as examples/edits.txt; they change what is read, not the feed'
complete -c octimap -n '__octimap_at check 1' -a '(__fish_complete_directories (commandline -ct))'
complete -c octimap -n '__octimap_at check 2' -a '(__octimap_files svg)'
complete -c octimap -n '__octimap_at check 3' -F
complete -c octimap -n '__octimap_in labels' -s q -l quiet -d 'Write nothing to standard error'
complete -c octimap -n '__octimap_in labels' -l settings -r -F -d 'A file of settings in TOML, such as examples/settings.toml'
complete -c octimap -n '__octimap_in labels' -l set -r -d 'A key of the settings in place of that of the file, as often as wanted, such as near=400'
complete -c octimap -n '__octimap_in labels' -l edits -r -F -d 'A file of edits, one a line, such as examples/edits.txt; they change what is read, not the feed'
complete -c octimap -n '__octimap_at labels 1' -a '(__fish_complete_directories (commandline -ct))'
complete -c octimap -n '__octimap_at labels 2' -F
complete -c octimap -n '__octimap_at labels 3' -F
complete -c octimap -n '__octimap_in geo' -s q -l quiet -d 'Write nothing to standard error'
complete -c octimap -n '__octimap_in geo' -l settings -r -F -d 'A file of settings in TOML, such as examples/settings.toml'
complete -c octimap -n '__octimap_in geo' -l set -r -d 'A key of the settings in place of that of the file, as often as wanted, such as near=400'
complete -c octimap -n '__octimap_in geo' -l edits -r -F -d 'A file of edits, one a line, such as examples/edits.txt; they change what is read, not the feed'
complete -c octimap -n '__octimap_at geo 1' -a '(__fish_complete_directories (commandline -ct))'
complete -c octimap -n '__octimap_at geo 2' -F
complete -c octimap -n '__octimap_at geo 3' -F
complete -c octimap -n '__octimap_in poster' -s q -l quiet -d 'Write nothing to standard error'
complete -c octimap -n '__octimap_in poster' -l settings -r -F -d 'A file of settings in TOML, such as examples/settings.toml'
complete -c octimap -n '__octimap_in poster' -l set -r -d 'A key of the settings in place of that of the file, as often as wanted, such as near=400'
complete -c octimap -n '__octimap_in poster' -l edits -r -F -d 'A file of edits, one a line, such as examples/edits.txt; they change what is read, not the feed'
complete -c octimap -n '__octimap_at poster 1' -a '(__fish_complete_directories (commandline -ct))'
complete -c octimap -n '__octimap_at poster 2' -F
complete -c octimap -n '__octimap_at poster 3' -F
complete -c octimap -n '__octimap_in session' -s q -l quiet -d 'Write nothing to standard error'
complete -c octimap -n '__octimap_in session' -l settings -r -F -d 'A file of settings in TOML, such as examples/settings.toml'
complete -c octimap -n '__octimap_in session' -l set -r -d 'A key of the settings in place of that of the file, as often as wanted, such as near=400'
complete -c octimap -n '__octimap_at session 1' -a '(__fish_complete_directories (commandline -ct))'
complete -c octimap -n '__octimap_at session 2' -F
complete -c octimap -n '__octimap_at session 3' -F
complete -c octimap -n '__octimap_in graph' -s q -l quiet -d 'Write nothing to standard error'
complete -c octimap -n '__octimap_in graph' -l settings -r -F -d 'A file of settings in TOML, such as examples/settings.toml'
complete -c octimap -n '__octimap_in graph' -l set -r -d 'A key of the settings in place of that of the file, as often as wanted, such as near=400'
complete -c octimap -n '__octimap_in graph' -l edits -r -F -d 'A file of edits, one a line, such as examples/edits.txt; they change what is read, not the feed'
complete -c octimap -n '__octimap_at graph 1' -a '(__fish_complete_directories (commandline -ct))'
complete -c octimap -n '__octimap_in export' -s q -l quiet -d 'Write nothing to standard error'
complete -c octimap -n '__octimap_in export' -l settings -r -F -d 'A file of settings in TOML, such as examples/settings.toml'
complete -c octimap -n '__octimap_in export' -l set -r -d 'A key of the settings in place of that of the file, as often as wanted, such as near=400'
complete -c octimap -n '__octimap_in export' -l edits -r -F -d 'A file of edits, one a line, such as examples/edits.txt; they change what is read, not the feed'
complete -c octimap -n '__octimap_at export 1' -a '(__fish_complete_directories (commandline -ct))'
complete -c octimap -n '__octimap_at export 2' -F
complete -c octimap -n '__octimap_in import' -s q -l quiet -d 'Write nothing to standard error'
complete -c octimap -n '__octimap_in import' -l settings -r -F -d 'A file of settings in TOML, such as examples/settings.toml'
complete -c octimap -n '__octimap_in import' -l set -r -d 'A key of the settings in place of that of the file, as often as wanted, such as near=400'
complete -c octimap -n '__octimap_at import 1' -a '(__octimap_files json)'
complete -c octimap -n '__octimap_at import 2' -a '(__octimap_files svg)'
complete -c octimap -n '__octimap_at import 3' -F
complete -c octimap -n '__octimap_in stations' -s q -l quiet -d 'Write nothing to standard error'
complete -c octimap -n '__octimap_at stations 1' -a '(__fish_complete_directories (commandline -ct))'
complete -c octimap -n '__octimap_in page' -s q -l quiet -d 'Write nothing to standard error'
complete -c octimap -n '__octimap_at page 1' -a '(__octimap_files svg)'
complete -c octimap -n '__octimap_at page 2' -a '(__octimap_files html)'
complete -c octimap -n '__octimap_in trial' -s q -l quiet -d 'Write nothing to standard error'
