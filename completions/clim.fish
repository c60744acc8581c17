# Completions of clim for fish.

set -l readers root info check show types outline refs resources strings token where rewrite embed digest compare
set -l lists root info check show types outline refs resources strings where digest
set -l subcommands $readers explain help

# Each column as TABLE.COLUMN, from the help of `show`. A long list of columns has a second line.
function __clim_columns
    clim show --help 2>/dev/null | awk '
        /^  [0-9A-F][0-9A-F] [A-Za-z]+: / { table = substr($2, 1, length($2) - 1); for (i = 3; i <= NF; i++) print table "." $i }
        /^     [A-Z]/ { for (i = 1; i <= NF; i++) print table "." $i }'
end

# Whether the tokens of `clim token FILE` come next, which are no files.
function __clim_at_token
    set -l words (commandline -opc | string match -v -- '-*')
    test (count $words) -ge 3; and test $words[2] = token
end

complete -c clim -f
complete -c clim -s h -l help -d 'Print help'
complete -c clim -n "not __fish_seen_subcommand_from $subcommands" -s V -l version -d 'Print version'
complete -c clim -n "not __fish_seen_subcommand_from $subcommands" -a root -d 'Print the CLI header, the version and the stream headers'
complete -c clim -n "not __fish_seen_subcommand_from $subcommands" -a info -d 'Print what an assembly is: its identity, headers and references'
complete -c clim -n "not __fish_seen_subcommand_from $subcommands" -a check -d 'Check files against the rules of the standard'
complete -c clim -n "not __fish_seen_subcommand_from $subcommands" -a show -d 'Print the rows of all tables, or of one'
complete -c clim -n "not __fish_seen_subcommand_from $subcommands" -a types -d 'Print the types, with the number of their fields and methods'
complete -c clim -n "not __fish_seen_subcommand_from $subcommands" -a outline -d 'Print the declarations of the assembly, or of one type'
complete -c clim -n "not __fish_seen_subcommand_from $subcommands" -a refs -d 'Print what the assembly refers to in other modules'
complete -c clim -n "not __fish_seen_subcommand_from $subcommands" -a resources -d 'Print where the resources are, or write the content of one'
complete -c clim -n "not __fish_seen_subcommand_from $subcommands" -a strings -d 'Print the user strings, with their tokens'
complete -c clim -n "not __fish_seen_subcommand_from $subcommands" -a token -d 'Print the row or the user string of each token'
complete -c clim -n "not __fish_seen_subcommand_from $subcommands" -a where -d 'Print which header, stream or cell contains the byte at an offset'
complete -c clim -n "not __fish_seen_subcommand_from $subcommands" -a rewrite -d 'Write the canonical metadata root of a file'
complete -c clim -n "not __fish_seen_subcommand_from $subcommands" -a embed -d 'Write a copy of a file with its canonical root, or with another'
complete -c clim -n "not __fish_seen_subcommand_from $subcommands" -a digest -d 'Print the SHA-256 digest of the canonical root of each file'
complete -c clim -n "not __fish_seen_subcommand_from $subcommands" -a compare -d 'Compare the metadata of two files'
complete -c clim -n "not __fish_seen_subcommand_from $subcommands" -a explain -d 'Explain faults, or list all'
complete -c clim -n "not __fish_seen_subcommand_from $subcommands" -a help -d 'Print this message or the help of the given subcommand(s)'
complete -c clim -n "__fish_seen_subcommand_from $readers; and not __clim_at_token" -F
complete -c clim -n "__fish_seen_subcommand_from root info check show types outline refs strings token where rewrite digest compare" -l bare -d 'FILE is a metadata root, not a PE file'
complete -c clim -n "__fish_seen_subcommand_from root info check show types outline refs resources strings token where embed digest compare explain" -l json -d 'Print a JSON value on each line'
complete -c clim -n "__fish_seen_subcommand_from info check show types outline refs resources strings token where rewrite digest compare" -l budget -x -d 'Check at most N bytes of texts and signatures'
complete -c clim -n "__fish_seen_subcommand_from $lists" -l files-from -r -F -d 'Read file names from a file, one on each line'
complete -c clim -n "__fish_seen_subcommand_from $lists" -s 0 -d 'Each name ends with NUL'
complete -c clim -n "__fish_seen_subcommand_from $lists" -s r -l recursive -d 'Read the PE files in each FILE that is a directory'
complete -c clim -n "__fish_seen_subcommand_from check" -s q -l quiet -d 'Print no faults; only the exit status reports them'
complete -c clim -n "__fish_seen_subcommand_from compare" -s q -l quiet -d 'Print nothing; the exit status is the answer'
complete -c clim -n "__fish_seen_subcommand_from outline" -l no-tokens -d 'Leave the comment with the token away'
complete -c clim -n "__fish_seen_subcommand_from outline" -l public -d 'Print only what is visible outside of the assembly'
complete -c clim -n "__fish_seen_subcommand_from outline" -l sorted -d 'Print in the order of names, not of rows'
complete -c clim -n "__fish_seen_subcommand_from root" -l until-fault -d 'Print what can be read before a fault, then the fault'
complete -c clim -n "__fish_seen_subcommand_from check" -l where -d 'Print what contains the byte at a fault; explain it'
complete -c clim -n "__fish_seen_subcommand_from show" -a "(__clim_columns | string replace -r '\\..*' '' | uniq)" -d 'Table'
complete -c clim -n "__fish_seen_subcommand_from show" -l names -d 'Print the name of each column before its cell'
complete -c clim -n "__fish_seen_subcommand_from show" -l until-fault -d 'Print the rows before the first fault, then the fault'
complete -c clim -n "__fish_seen_subcommand_from resources" -l extract -x -d 'Write the content of this resource alone'
complete -c clim -n "__fish_seen_subcommand_from embed" -l root -r -F -d 'A metadata root to take instead of the canonical one'
complete -c clim -n "__fish_seen_subcommand_from embed" -l unsigned -d 'Clear the strong name: its flag and its directory'
complete -c clim -n "__fish_seen_subcommand_from compare" -l ignore -x -a "(__clim_columns)" -d 'Do not compare the cells of this column'
complete -c clim -n "__fish_seen_subcommand_from explain" -a "(clim explain | string replace -r '^(\d+)[ :]+' '\$1\t')"
complete -c clim -n "__fish_seen_subcommand_from help" -a "$readers explain help"
