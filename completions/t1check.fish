# Completions of t1check, t1check-all, t1draw and t1explain for fish.

# What t1explain lists; it stands beside a tool that is named by its path.
function __t1check_codes
    set -l explain (string replace -r 't1[a-z-]*$' t1explain -- (commandline -opc)[1])
    command $explain 2>/dev/null | string replace ' ' \t
end

# Rules, by their codes or their letters.
function __t1check_rules
    set -l rules (__t1check_codes | string match -v 'E*')
    printf '%s\n' $rules
    string replace -r '[0-9].*' '' -- $rules | sort -u
end

function __t1check_fonts
    __fish_complete_path (commandline -ct) | string match -ri '.*(?:/|\.pf[ab]|\.t1)(?:\t.*)?$'
end

complete -c t1check -f -a '(__t1check_fonts)'
complete -c t1check -l after -x -d 'Leave the first lines of the report out'
complete -c t1check -l max -x -d 'Write at most so many of the other lines'
complete -c t1check -l trace -x -d 'Write the steps of a glyph'
complete -c t1check -l edition -x -a '1 2 3 4' -d 'Check by this edition of the rule book'
complete -c t1check -l waive -r -F -d 'Leave out what this file waives'
complete -c t1check -s h -l help -d 'Print help'

complete -c t1check-all -f -n 'not __fish_contains_opt explain' -a '(__t1check_fonts)'
complete -c t1check-all -f -n '__fish_contains_opt explain' -a '(__t1check_codes)'
complete -c t1check-all -s q -d 'Write no summary and no progress'
complete -c t1check-all -l edition -x -a '1 2 3 4' -d 'Check by this edition of the rule book'
complete -c t1check-all -l only -x -a '(__fish_complete_list , __t1check_rules)' -d 'Tell these rules alone'
complete -c t1check-all -l except -x -a '(__fish_complete_list , __t1check_rules)' -d 'Tell all rules but these'
complete -c t1check-all -l level -x -a 'must should tidy' -d 'Tell rules of these levels alone'
complete -c t1check-all -l fail-on -x -a 'must should tidy' -d 'Let lines of these levels alone make the status 1'
complete -c t1check-all -l no-waivers -d 'Leave waivers aside'
complete -c t1check-all -l write-waivers -d 'Write NAME.waivers, which waives each line of a glyph'
complete -c t1check-all -l force -d 'Overwrite waivers'
complete -c t1check-all -l baseline -r -F -d 'Tell only what goes beyond known faults'
complete -c t1check-all -l update-baseline -d 'Make what is found the known faults'
complete -c t1check-all -l files-from -r -F -d 'Check what this file names too'
complete -c t1check-all -l exclude -x -d 'Omit fonts whose names match'
complete -c t1check-all -l shard -x -d 'Check part I of N of the list'
complete -c t1check-all -l format -x -a 'jsonl sarif github junit' -d 'Write lines in a form for other programs'
complete -c t1check-all -l docs -x -d 'Name the page of each rule below this URL'
complete -c t1check-all -l clean -d 'Let jsonl name fonts without lines too'
complete -c t1check-all -l columns -x -d 'Write a line for each font and rule, cut to so many columns'
complete -c t1check-all -l colour -d 'Colour these by level'
complete -c t1check-all -l long -d 'Write each line of a report, also on a terminal'
complete -c t1check-all -l reasons -d 'Tell with each line why it is there'
complete -c t1check-all -l no-reasons -d 'Leave reasons out, also on a terminal'
complete -c t1check-all -l no-settings -d 'Leave the settings file aside'
complete -c t1check-all -l explain -d 'Print the pages of rules and refusals'
complete -c t1check-all -s h -l help -d 'Print help'
complete -c t1check-all -l version -d 'Print version and commit'

complete -c t1draw -f -a '(__t1check_fonts)'
complete -c t1draw -l edition -x -a '1 2 3 4' -d 'Find faults by this edition of the rule book'
complete -c t1draw -l waive -r -F -d 'Leave out what this file waives'
complete -c t1draw -l step -x -d 'Draw no further than this step'
complete -c t1draw -l fault -x -d 'Draw this fault of the report alone'
complete -c t1draw -l faulty -d 'Draw each glyph that has faults, into a folder'
complete -c t1draw -s o -r -F -d 'The folder that --faulty writes to'
complete -c t1draw -s h -l help -d 'Print help'

complete -c t1explain -f -a '(__t1check_codes)'
complete -c t1explain -s h -l help -d 'Print help'
