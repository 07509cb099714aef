# Completion of mpslp for fish.

# The arguments after the name of the program, without `--` and without the one being written.
function __mpslp_arguments
    set -l words (commandline -opc)
    set -e words[1]
    if set -l dashes (contains -i -- -- $words)
        set -e words[$dashes]
    end
    string join \n -- $words
end

# How many these are.
function __mpslp_words
    count (__mpslp_arguments)
end

function __mpslp_at
    set -l words (__mpslp_arguments)
    test (count $words) -ge 1; and test $words[1] = $argv[1]; and contains -- (count $words) $argv[2..]
end

# All files, first those whose extension is the format that the last argument or, for canon, the one before it names.
function __mpslp_files
    set -l words (__mpslp_arguments)
    if test $words[1] = canon
        __fish_complete_suffix .$words[2]
    else
        __fish_complete_suffix .$words[-1]
    end
end

complete -c mpslp -f
complete -c mpslp -n 'test (__mpslp_words) = 0' -a canon -d 'Write the canonical text of a model file'
complete -c mpslp -n 'test (__mpslp_words) = 0' -a same -d 'Compare two model files'
complete -c mpslp -n 'test (__mpslp_words) = 0' -a show -d 'Print the model of a file'
complete -c mpslp -n 'test (__mpslp_words) = 0' -a help -d 'Print help'
complete -c mpslp -n 'test (__mpslp_words) = 0' -s h -l help -d 'Print help'
complete -c mpslp -n 'test (__mpslp_words) = 0' -s V -l version -d 'Print the version'
complete -c mpslp -n '__mpslp_at canon 1; or __mpslp_at same 1; or __mpslp_at show 1' -l help -d 'Print help'
complete -c mpslp -n '__mpslp_at canon 1 2; or __mpslp_at same 1 3; or __mpslp_at show 1' -a 'mps lp'
complete -c mpslp -n '__mpslp_at canon 3; or __mpslp_at same 2 4; or __mpslp_at show 2' -k -a '(__mpslp_files)'
complete -c mpslp -n '__mpslp_at help 1' -a 'canon same show'
