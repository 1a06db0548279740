# Completions of the program mmdb for fish.

# Whether no command stands on the line yet.
function __mmdb_no_command
    set -l words (commandline -opc)
    test (count $words) -eq 1
end

# Whether the line has this command.
function __mmdb_is
    set -l words (commandline -opc)
    test (count $words) -ge 2; and test "$words[2]" = $argv[1]
end

# Whether the line has this command, with fewer arguments after it than this. The value of an option, of those that are
# given here, is none.
function __mmdb_wants_file
    set -l words (commandline -opc)
    test (count $words) -ge 2; and test "$words[2]" = $argv[1]; or return 1
    set -l value no
    set -l arguments 0
    for word in $words[3..-1]
        if test $value = yes
            set value no
        else if contains -- $word $argv[3..-1]
            set value yes
        else if not string match -q -- '-*' $word
            set arguments (math $arguments + 1)
        end
    end
    test $arguments -lt $argv[2]
end

complete -c mmdb -f

# Made by scripts/completions.
complete -c mmdb -n __mmdb_no_command -a show -d 'Show the records of addresses as JSON'
complete -c mmdb -n __mmdb_no_command -a info -d 'Show what a database says of itself'
complete -c mmdb -n __mmdb_no_command -a enrich -d 'Copy lines from standard input, with fields of the address\'s record behind each'
complete -c mmdb -n __mmdb_no_command -a export -d 'Write every network that has data, with its record or fields of it'
complete -c mmdb -n __mmdb_no_command -a diff -d 'Write what changed between two files'
complete -c mmdb -n __mmdb_no_command -a verify -d 'Check whether files are whole and all their records can be read'
complete -c mmdb -n __mmdb_no_command -a install -d 'Put a file in the place of another one, after it was checked'
complete -c mmdb -n __mmdb_no_command -a build -d 'Make a MaxMind DB file of lines of JSON, CSV or TSV'
complete -c mmdb -n __mmdb_no_command -a help -d 'Print this message or the help of the given subcommand(s)'
complete -c mmdb -n __mmdb_no_command -s h -l help -d 'Print help'
complete -c mmdb -n __mmdb_no_command -s V -l version -d 'Print version'
complete -c mmdb -n '__mmdb_is show' -l field -x -d 'Only the value at a path, as country.iso_code, or NAME=PATH'
complete -c mmdb -n '__mmdb_is show' -l lines -d 'One line each, as where standard output is no terminal'
complete -c mmdb -n '__mmdb_is show' -s h -l help -d 'Print help'
complete -c mmdb -n '__mmdb_wants_file show 1 --field' -F
complete -c mmdb -n '__mmdb_is info' -l json -d 'As JSON'
complete -c mmdb -n '__mmdb_is info' -l fields -d 'Also the paths of its records, with types and how many records have them'
complete -c mmdb -n '__mmdb_is info' -s h -l help -d 'Print help'
complete -c mmdb -n '__mmdb_wants_file info 9 ' -F
complete -c mmdb -n '__mmdb_is enrich' -l column -x -d 'The column of the address: its number, from 1, or with --header its name'
complete -c mmdb -n '__mmdb_is enrich' -l delimiter -x -d 'What stands between columns, a tab if not given; any other means CSV'
complete -c mmdb -n '__mmdb_is enrich' -l field -x -d 'A field to add, or NAME=PATH; needed in rows unless with --network'
complete -c mmdb -n '__mmdb_is enrich' -l network -d 'Also the network of the address, before the fields'
complete -c mmdb -n '__mmdb_is enrich' -l header -d 'The first line names the columns; the fields\' names are added to it'
complete -c mmdb -n '__mmdb_is enrich' -l json -x -d 'Lines are JSON: the path of the address in an object, as client.ip'
complete -c mmdb -n '__mmdb_is enrich' -l into -x -d 'With --json: the name of the member that is added, geo if not given'
complete -c mmdb -n '__mmdb_is enrich' -l nulls -d 'With --json: lines without a record get the member too, with nulls'
complete -c mmdb -n '__mmdb_is enrich' -l hop -x -a 'first last' -d 'Of addresses with commas between them, as in X-Forwarded-For, or anywhere, this one'
complete -c mmdb -n '__mmdb_is enrich' -l anywhere -d 'The address may stand anywhere in the line; the first, unless with --hop last'
complete -c mmdb -n '__mmdb_is enrich' -l exact -d 'An address counts only where the cell holds nothing else'
complete -c mmdb -n '__mmdb_is enrich' -l no-quotes -d 'With --delimiter: quotes mean nothing, and each line is a row'
complete -c mmdb -n '__mmdb_is enrich' -l strict -d 'Status 1 where a line got no answer, or something was warned of'
complete -c mmdb -n '__mmdb_is enrich' -l quiet -d 'No notes on standard error but of what sets the status'
complete -c mmdb -n '__mmdb_is enrich' -l reload -d 'Use a database that is replaced meanwhile, within a second'
complete -c mmdb -n '__mmdb_is enrich' -l output -r -F -d 'Write to this file, which is replaced when all is done, and else stays as it was'
complete -c mmdb -n '__mmdb_is enrich' -s h -l help -d 'Print help'
complete -c mmdb -n '__mmdb_wants_file enrich 9 --column --delimiter --field --json --into --hop --output' -F
complete -c mmdb -n '__mmdb_is export' -l field -x -d 'Only the value at a path, as country.iso_code, or NAME=PATH'
complete -c mmdb -n '__mmdb_is export' -l format -x -a 'jsonl csv cidr nft ipset iptables nginx haproxy pf' -d 'csv needs a --field'
complete -c mmdb -n '__mmdb_is export' -l where -x -d 'Only networks with this value at the path, or one of PATH=@FILE'
complete -c mmdb -n '__mmdb_is export' -l where-not -x -d 'No networks with this value at the path, nor one of PATH=@FILE'
complete -c mmdb -n '__mmdb_is export' -l where-contains -x -d 'Only networks with a text at the path that has TEXT in it'
complete -c mmdb -n '__mmdb_is export' -l where-has -x -d 'Only networks with any value at the path'
complete -c mmdb -n '__mmdb_is export' -l where-above -x -d 'Only networks with a greater number at the path'
complete -c mmdb -n '__mmdb_is export' -l where-below -x -d 'Only networks with a smaller number at the path'
complete -c mmdb -n '__mmdb_is export' -l also -r -F -d 'Blocks that a list has too, - for standard input'
complete -c mmdb -n '__mmdb_is export' -l except -r -F -d 'Blocks that a list has not, - for standard input'
complete -c mmdb -n '__mmdb_is export' -l ipv4 -d 'Only IPv4 networks'
complete -c mmdb -n '__mmdb_is export' -l ipv6 -d 'Only IPv6 networks'
complete -c mmdb -n '__mmdb_is export' -l name -x -d 'How the sets of nft and ipset begin, or a chain\'s or a variable\'s name, mmdb if not given'
complete -c mmdb -n '__mmdb_is export' -l table -x -d 'The table of nft that has the sets, mmdb if not given'
complete -c mmdb -n '__mmdb_is export' -l family -x -a 'inet ip ip6 bridge netdev' -d 'The family of that table, inet if not given'
complete -c mmdb -n '__mmdb_is export' -l jump -x -d 'The target of the rules of iptables, DROP if not given'
complete -c mmdb -n '__mmdb_is export' -l value -x -d 'The value of each network for nginx and haproxy, 1 if not given'
complete -c mmdb -n '__mmdb_is export' -l allow-empty -d 'Write a list of networks even where it has none'
complete -c mmdb -n '__mmdb_is export' -l allow-missing -d 'Write a list even where no network has a value of a condition'
complete -c mmdb -n '__mmdb_is export' -l output -r -F -d 'Write to this file, which is replaced when all is done, and else stays as it was'
complete -c mmdb -n '__mmdb_is export' -s h -l help -d 'Print help'
complete -c mmdb -n '__mmdb_wants_file export 1 --field --format --where --where-not --where-contains --where-has --where-above --where-below --also --except --name --table --family --jump --value --output' -F
complete -c mmdb -n '__mmdb_is diff' -l field -x -d 'Only the value at a path, as country.iso_code, or NAME=PATH'
complete -c mmdb -n '__mmdb_is diff' -l format -x -a 'jsonl csv cidr nft ipset' -d 'csv needs a --field'
complete -c mmdb -n '__mmdb_is diff' -l where -x -d 'Only networks with this value at the path, or one of PATH=@FILE'
complete -c mmdb -n '__mmdb_is diff' -l where-not -x -d 'No networks with this value at the path, nor one of PATH=@FILE'
complete -c mmdb -n '__mmdb_is diff' -l where-contains -x -d 'Only networks with a text at the path that has TEXT in it'
complete -c mmdb -n '__mmdb_is diff' -l where-has -x -d 'Only networks with any value at the path'
complete -c mmdb -n '__mmdb_is diff' -l where-above -x -d 'Only networks with a greater number at the path'
complete -c mmdb -n '__mmdb_is diff' -l where-below -x -d 'Only networks with a smaller number at the path'
complete -c mmdb -n '__mmdb_is diff' -l also -r -F -d 'Blocks that a list has too, - for standard input'
complete -c mmdb -n '__mmdb_is diff' -l except -r -F -d 'Blocks that a list has not, - for standard input'
complete -c mmdb -n '__mmdb_is diff' -l ipv4 -d 'Only IPv4 networks'
complete -c mmdb -n '__mmdb_is diff' -l ipv6 -d 'Only IPv6 networks'
complete -c mmdb -n '__mmdb_is diff' -l name -x -d 'How the sets of nft and ipset begin, or a chain\'s or a variable\'s name, mmdb if not given'
complete -c mmdb -n '__mmdb_is diff' -l table -x -d 'The table of nft that has the sets, mmdb if not given'
complete -c mmdb -n '__mmdb_is diff' -l family -x -a 'inet ip ip6 bridge netdev' -d 'The family of that table, inet if not given'
complete -c mmdb -n '__mmdb_is diff' -l allow-empty -d 'Write a list of networks even where it has none'
complete -c mmdb -n '__mmdb_is diff' -l allow-missing -d 'Write a list even where no network has a value of a condition'
complete -c mmdb -n '__mmdb_is diff' -l exit-code -d 'Status 7 where something differs'
complete -c mmdb -n '__mmdb_is diff' -l output -r -F -d 'Write to this file, which is replaced when all is done, and else stays as it was'
complete -c mmdb -n '__mmdb_is diff' -s h -l help -d 'Print help'
complete -c mmdb -n '__mmdb_wants_file diff 2 --field --format --where --where-not --where-contains --where-has --where-above --where-below --also --except --name --table --family --output' -F
complete -c mmdb -n '__mmdb_is verify' -l whole -d 'Only whether files are whole'
complete -c mmdb -n '__mmdb_is verify' -l database-type -x -d 'The type that each file has to have; a * at an end, and nowhere else, is any text'
complete -c mmdb -n '__mmdb_is verify' -l newer-than -r -F -d 'The MaxMind DB file after which each file has to be built'
complete -c mmdb -n '__mmdb_is verify' -l max-age -x -d 'How many days ago each file may be built at most'
complete -c mmdb -n '__mmdb_is verify' -l json -d 'An object for each file'
complete -c mmdb -n '__mmdb_is verify' -l quiet -d 'No output, only the status; errors are still said'
complete -c mmdb -n '__mmdb_is verify' -s h -l help -d 'Print help'
complete -c mmdb -n '__mmdb_wants_file verify 9 --database-type --newer-than --max-age' -F
complete -c mmdb -n '__mmdb_is install' -l max-change -x -d 'No more of the IPv4 addresses, or of the IPv6 /48s, than this may have changed'
complete -c mmdb -n '__mmdb_is install' -l database-type -x -d 'The type that NEW has to have; a * at an end, and nowhere else, is any text'
complete -c mmdb -n '__mmdb_is install' -l allow-older -d 'NEW may be older than DEST'
complete -c mmdb -n '__mmdb_is install' -l allow-broken -d 'DEST may be empty or no MaxMind DB file'
complete -c mmdb -n '__mmdb_is install' -l dry-run -d 'Only say what would be done'
complete -c mmdb -n '__mmdb_is install' -l quiet -d 'No output and no notes but what could not be kept'
complete -c mmdb -n '__mmdb_is install' -s h -l help -d 'Print help'
complete -c mmdb -n '__mmdb_wants_file install 2 --max-change --database-type' -F
complete -c mmdb -n '__mmdb_is build' -l from -r -F -d 'Where the lines are, - for standard input'
complete -c mmdb -n '__mmdb_is build' -l format -x -a 'jsonl csv tsv' -d 'What the lines are'
complete -c mmdb -n '__mmdb_is build' -l network-column -x -d 'The column or member of the network, network if not given'
complete -c mmdb -n '__mmdb_is build' -l range-columns -x -d 'The columns or members of the first address and the last one'
complete -c mmdb -n '__mmdb_is build' -l type -x -d 'The type of the values at a path, which a row has to have'
complete -c mmdb -n '__mmdb_is build' -l types-like -r -F -d 'The types are those of the values at the same paths of this MaxMind DB file'
complete -c mmdb -n '__mmdb_is build' -l equal -x -a 'last error' -d 'Of equal networks the last counts, or they are an error'
complete -c mmdb -n '__mmdb_is build' -l database-type -x -d 'The type of the database'
complete -c mmdb -n '__mmdb_is build' -l description -x -d 'A description in a language, en and the type if not given'
complete -c mmdb -n '__mmdb_is build' -l language -x -d 'A language in which records have names'
complete -c mmdb -n '__mmdb_is build' -l build-epoch -x -d 'When the file was built, in seconds since 1970, now if not given'
complete -c mmdb -n '__mmdb_is build' -l ip-version -x -a '6 4' -d '6 for IPv4 and IPv6, 4 for IPv4 alone'
complete -c mmdb -n '__mmdb_is build' -l record-size -x -a '24 28 32' -d 'The size of the tree\'s records, the least that serves if not given'
complete -c mmdb -n '__mmdb_is build' -l reserved -x -a 'keep skip error' -d 'Networks in reserved ones are kept, skipped, or an error'
complete -c mmdb -n '__mmdb_is build' -l skip-bad -d 'Leave out lines that are wrong, and count them'
complete -c mmdb -n '__mmdb_is build' -l check -d 'Read the file back, and compare every network with the lines'
complete -c mmdb -n '__mmdb_is build' -s h -l help -d 'Print help'
complete -c mmdb -n '__mmdb_wants_file build 1 --from --format --network-column --range-columns --type --types-like --equal --database-type --description --language --build-epoch --ip-version --record-size --reserved' -F
complete -c mmdb -n '__mmdb_is help' -a 'show info enrich export diff verify install build help'
# Made so far.
