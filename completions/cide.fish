# Completion of cide's words in fish: put this file into ~/.config/fish/completions.

# the features that the project behind `export` names in one line, each behind what the word has up to its last comma
function __cide_names
    set -l words (commandline -opc)
    set -l given (commandline -ct | string match -r '^.*,')
    set -l features (sed -n 's/^[[:space:]]*features[[:space:]]\{1,\}\([^;]*\);.*/\1/p' $words[3] 2>/dev/null | tr -d ' \t' | string split ,)
    test -n "$given"; or echo .
    for feature in $features
        echo "$given"$feature
    end
end

# whether so many words stand before the one that is completed, the second of them this command
function __cide_at
    set -l words (commandline -opc)
    test (count $words) -eq $argv[2]; and test "$words[2]" = $argv[1]
end

complete -c cide -n 'test (count (commandline -opc)) -eq 1' -f -a check -d 'check that the variant of every valid selection is well typed'
complete -c cide -n 'test (count (commandline -opc)) -eq 1' -f -a export -d 'print the variant of a valid selection'
complete -c cide -n '__fish_seen_subcommand_from check; and not __fish_contains_opt migrate' -l budget -x -d 'try at most so many selections, 1 to 20000'
complete -c cide -n '__fish_seen_subcommand_from check; and not __fish_contains_opt budget' -l migrate -d 'print the project as one of format two'
complete -c cide -n '__fish_seen_subcommand_from export; and not __cide_at export 2' -f
complete -c cide -n '__cide_at export 3' -f -a '(__cide_names)'
