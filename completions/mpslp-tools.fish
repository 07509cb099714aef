# Completion of mpslp-tools for fish. Made by python/pages.py.

function __mpslp_tools_at
    set -l words (commandline -opc)
    test (count $words) -ge 2; and contains -- $words[2] $argv
end

function __mpslp_tools_first
    test (count (commandline -opc)) = 1
end

complete -c mpslp-tools -f
complete -c mpslp-tools -n __mpslp_tools_first -a canon -d 'Write the canonical text of model files'
complete -c mpslp-tools -n __mpslp_tools_first -a fmt -d 'Format files, and keep comments and order'
complete -c mpslp-tools -n __mpslp_tools_first -a check -d 'Print which files are not canonical'
complete -c mpslp-tools -n __mpslp_tools_first -a same -d 'Say whether two files define the same model'
complete -c mpslp-tools -n __mpslp_tools_first -a diff -d 'Print the differences of two models'
complete -c mpslp-tools -n __mpslp_tools_first -a merge -d 'Merge two models that were made of one'
complete -c mpslp-tools -n __mpslp_tools_first -a setup-git -d 'Make git diff and merge models'
complete -c mpslp-tools -n __mpslp_tools_first -a show -d 'Print the model of a file'
complete -c mpslp-tools -n __mpslp_tools_first -a digest -d 'Print a checksum of the model of each file'
complete -c mpslp-tools -n __mpslp_tools_first -a explain -d 'Explain a kind of error'
complete -c mpslp-tools -n __mpslp_tools_first -a adapt -d 'Rewrite files of another dialect'
complete -c mpslp-tools -n __mpslp_tools_first -a survey -d 'Make a table of a collection of models'
complete -c mpslp-tools -n __mpslp_tools_first -a report -d 'Make a page about a model'
complete -c mpslp-tools -n __mpslp_tools_first -s V -l version -d 'Print the version'
complete -c mpslp-tools -n '__mpslp_tools_at canon fmt check same diff merge show digest adapt survey report' -F
complete -c mpslp-tools -n '__mpslp_tools_at explain' -a '(mpslp-tools explain 2> /dev/null)'
complete -c mpslp-tools -s h -l help -d 'Print this help'
complete -c mpslp-tools -n '__mpslp_tools_at canon fmt check same diff merge show digest explain adapt survey report' -s f -l format -xa 'mps lp' -d 'The format, if the extension does not say it: mps or lp'
complete -c mpslp-tools -n '__mpslp_tools_at canon fmt merge adapt report' -s o -l output -rF -d 'Write to FILE instead of standard output'
complete -c mpslp-tools -n '__mpslp_tools_at canon adapt report' -l out-dir -xa '(__fish_complete_directories)' -d 'Write all files below DIR, in the same directories'
complete -c mpslp-tools -n '__mpslp_tools_at canon fmt adapt' -s i -l in-place -d 'Rewrite the files, and print their paths'
complete -c mpslp-tools -n '__mpslp_tools_at canon fmt adapt' -l diff -d 'Print what -i would change, as diff -u does'
complete -c mpslp-tools -n '__mpslp_tools_at canon' -s t -l to -xa 'mps lp glp' -d 'Write mps or lp; with --for glpsol also glp'
complete -c mpslp-tools -n '__mpslp_tools_at canon' -l for -xa 'glpsol clp cbc lp_solve esolver highs scip portable' -d 'Write what a solver reads: cbc, highs, .. or portable'
complete -c mpslp-tools -n '__mpslp_tools_at canon' -l rename -d 'With -t lp, give names that LP does not have legal ones'
complete -c mpslp-tools -n '__mpslp_tools_at canon same adapt' -l map -rF -d 'Write the names given and written, as JSON'
complete -c mpslp-tools -n '__mpslp_tools_at canon adapt' -l names-back -d 'Write a model or a solution with the names given'
complete -c mpslp-tools -n '__mpslp_tools_at canon merge' -l git-path -x -d 'The file\'s path in git, for messages and the format'
complete -c mpslp-tools -n '__mpslp_tools_at canon' -l force -d 'With -i, also if the sense is in a comment only'
complete -c mpslp-tools -n '__mpslp_tools_at canon fmt check digest adapt survey report' -s j -l jobs -x -d 'Work in N processes (default: all processors)'
complete -c mpslp-tools -n '__mpslp_tools_at canon fmt check same diff merge setup-git show digest adapt survey report' -s q -l quiet -d 'Print errors only; the exit status says the rest'
complete -c mpslp-tools -n '__mpslp_tools_at canon check same diff' -l no-warnings -d 'Print no warnings'
complete -c mpslp-tools -n '__mpslp_tools_at canon check same diff' -s W -x -d '-Werror[=KIND] rejects warnings, -Wno-KIND hides them'
complete -c mpslp-tools -n '__mpslp_tools_at fmt' -l check -d 'Print the files that are not formatted'
complete -c mpslp-tools -n '__mpslp_tools_at fmt check same diff merge digest adapt survey report' -l json -d 'Print JSON, also about files that are rejected'
complete -c mpslp-tools -n '__mpslp_tools_at check' -l portable -d 'Print what other programs may read differently'
complete -c mpslp-tools -n '__mpslp_tools_at check' -l target -xa 'glpsol clp cbc lp_solve esolver coinutils highs scip' -d 'With --portable, only what concerns glpsol, clp, cbc, lp_solve, esolver, coinutils, highs or scip'
complete -c mpslp-tools -n '__mpslp_tools_at check diff' -l all -d 'Leave out no line, kind or coefficient'
complete -c mpslp-tools -n '__mpslp_tools_at check' -l ignore -xa 'sense-in-comment objsense no-name no-rhs-section further-n-row empty-markers short-fields marked-without-bound marked-with-lower-bound objective-rhs range-on-equation upper-zero large-limit text-after-end name-like-arithmetic number-not-held coefficient-size semi-continuous-bound near-whole-bound constant-in-comment objective-constant ranged-row row-after-side joined-tokens spaced-side integer-section short-keyword several-signs fixed-bound name-in-dialects' -d 'With --portable, leave out a kind; may be repeated'
complete -c mpslp-tools -n '__mpslp_tools_at same diff digest' -l any-names -d 'Names do not count'
complete -c mpslp-tools -n '__mpslp_tools_at diff' -l ignore-objective-name -d 'The name of the objective does not count'
complete -c mpslp-tools -n '__mpslp_tools_at diff report' -l digits -x -d 'Numbers are equal if N significant digits are'
complete -c mpslp-tools -n '__mpslp_tools_at diff report' -l by-position -d 'Compare by position, not by name'
complete -c mpslp-tools -n '__mpslp_tools_at merge' -l canonical -d 'Write canonical text, without comments'
complete -c mpslp-tools -n '__mpslp_tools_at merge' -l marker-size -x -d 'The length of the markers of conflicts (default: 7)'
complete -c mpslp-tools -n '__mpslp_tools_at setup-git' -l global -d 'Write it for all repositories of the user'
complete -c mpslp-tools -n '__mpslp_tools_at adapt' -l dry-run -d 'Only report the changes'
complete -c mpslp-tools -n '__mpslp_tools_at adapt survey' -l from -xa 'coinutils glpsol lp_solve pulp qsopt none' -d 'The program that wrote the file: coinutils, glpsol, lp_solve, pulp, qsopt; none ignores its header'
complete -c mpslp-tools -n '__mpslp_tools_at adapt' -l summary -d 'Print how many changes of each kind there are'
complete -c mpslp-tools -n '__mpslp_tools_at adapt' -l strict -x -d 'Leave files that need such a change; repeatable'
complete -c mpslp-tools -n '__mpslp_tools_at survey' -l csv -d 'Print comma-separated values, a line for each file'
