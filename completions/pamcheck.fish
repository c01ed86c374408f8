# Completion of pamcheck for fish. It never runs pamcheck itself, whose launcher may compile.

# Whether the command is one of these.
function __pamcheck_in
    set -l words (commandline -opc)
    contains -- "$words[2]" $argv
end

# Whether there is no command yet.
function __pamcheck_no_command
    test (count (commandline -opc)) = 1
end

# Whether this word is at one of the places from the first number to the second, counted from 1 after the command without
# options, and the command one of the others.
function __pamcheck_at
    set -l words (commandline -opc)
    contains -- "$words[2]" $argv[3..]
    or return
    set -l place 1
    set -l value no
    for word in $words[3..]
        if test $value = yes
            set value no
        else if string match -q -- '--*=*' $word; or contains -- $word $__pamcheck_flags
        else if contains -- "$words[2] $word" $__pamcheck_flags
        else if string match -q -- '--*' $word
            set value yes
        else
            set place (math $place + 1)
        end
    end
    test $place -ge $argv[1] -a $place -le $argv[2]
end

# The value of an option among the words.
function __pamcheck_value
    set -l before ''
    for word in (commandline -opc)
        if test "$before" = $argv[1]
            string replace -r '^~/' $HOME/ -- $word
            return
        end
        string replace -f -- $argv[1]= '' $word
        set before $word
    end
end

# The services of the source that the words name, or of the running system.
function __pamcheck_services
    set -l words (commandline -opc)
    # A service of check with a slash is the path of its file.
    if string match -q '*/*' -- (commandline -ct)
        and test "$words[2]" = check
        __fish_complete_path (commandline -ct)
        return
    end
    set -l conf (__pamcheck_value --conf)
    set -l dirs (__pamcheck_value --dir) (__pamcheck_value --vendor-dir)
    # The first word of a comparison is a folder.
    if test "$words[2]" = compare
        set conf
        set dirs (string replace -r '^~/' $HOME/ -- "$words[3]")
    end
    if test -n "$conf"
        test -f "$conf"
        and awk '!/^[ \t]*(#|$)/ && !/^[ \t]*~/ { print $1 }' <$conf 2>/dev/null
        return
    end
    if test -z "$dirs"
        set -l root (string trim -r -c / -- (__pamcheck_value --root))
        set dirs $root/etc/pam.d $root/usr/lib/pam.d
    end
    # A completion is a line, up to a tab, and a tilde at its beginning is not quoted, so no such name is offered.
    for file in $dirs/*
        test -f $file
        and not string match -qr '[\t\n]|/~[^/]*$' -- $file
        and string replace -r '.*/' '' -- $file
    end
end

# Candidates: the name of a file, `=`, and the file that is read in its place.
function __pamcheck_candidates
    set -l parts (string replace -r -- '^--with=' '' (commandline -ct) | string split -m 1 =)
    if test (count $parts) = 2
        printf '%s\n' $parts[1]=(__fish_complete_path "$parts[2]")
    else
        printf '%s=\n' (__pamcheck_services)
    end
end

# A set of codes: `any`, or names with commas between them, with `but:` before them or not.
function __pamcheck_set
    set -l before (string match -r -- '^(?:--decision=)?((?:but:)?(?:[a-z_]+,)*)' (commandline -ct))[2]
    test -n "$before"
    or printf '%s\n' any but:
    printf '%s\n' $before$__pamcheck_codes
end

# What a module can return: its name, number or FILE:LINE, `=`, and a set of codes.
function __pamcheck_settings
    set -l parts (string replace -r -- '^--set=' '' (commandline -ct) | string split -m 1 =)
    test (count $parts) = 2
    or return
    set -l before (string match -r -- '^((?:but:)?(?:[a-z_]+,)*)' "$parts[2]")[2]
    test -n "$before"
    or printf '%s\n' $parts[1]=any $parts[1]=but:
    printf '%s\n' $parts[1]=$before$__pamcheck_codes
end

complete -c pamcheck -f
complete -c pamcheck -s h -l help -d 'Print help'
complete -c pamcheck -n __pamcheck_no_command -s V -l version -d 'Print version'

complete -c pamcheck -n '__pamcheck_at 1 1 help' -a '$__pamcheck_commands'

# Made by completions/make, up to the next mark: do not edit.
set -g __pamcheck_commands check compare policy show decide paths outcomes graph needs access time explain facts version lsp help
set -g __pamcheck_codes success open_err symbol_err service_err system_err buf_err perm_denied auth_err cred_insufficient \
    authinfo_unavail user_unknown maxtries new_authtok_reqd acct_expired session_err cred_unavail \
    cred_expired cred_err no_module_data conv_err authtok_err authtok_recover_err authtok_lock_busy \
    authtok_disable_aging try_again ignore abort authtok_expired module_unknown bad_item conv_again
set -g __pamcheck_numbers E1 E2 E3 E4 E5 E6 E7 E8 E9 E10 E11 E12 E13 E14 E15 E16 E17 E18 E19 DE1 TE1 TE2 TE3 TE4 TE5 TE6 TE7 \
    TE8 TE9 TE10 TE11 TE12 TE13 TE14 TE15 TE16 TE17 TE18 TE19 TE20 TE21 TE22 TE23 TE24 C1 C2 C3 C4 M1 M2 \
    M4 U1 U2 U3 U4 U5 U6 U7 U8 U9 U10 U11 U12 U13 U14 U15 U16 U17 U18 U19 U20 V1 V2 L1 L2 L3 L4 L5 L6 L7 \
    L8 L9 L10 A1 A2 A3 A4 A5 A6 A7 T1 T2 T3 T4 S1 S2 S3 S4 S5 S6 S7 S8 S9 S10 S11 S12 S13 S14 S15 S16 \
    S17 S18 S19 S20 S21 S22 S23 S24 S25 S26 S27 P1 P2 P3 P4 P5 P6 P7
# The options without a value: those of each command, and those of one.
set -g __pamcheck_flags --json 'compare --conf' 'compare --root'

complete -c pamcheck -n '__pamcheck_no_command' -a check \
    -d 'Checks all services for faults, and for stacks that let nobody or anybody in'
complete -c pamcheck -n '__pamcheck_no_command' -a compare \
    -d 'Compares what two configurations decide'
complete -c pamcheck -n '__pamcheck_no_command' -a policy \
    -d 'Proves the rules of policies, or shows the run that breaks them'
complete -c pamcheck -n '__pamcheck_no_command' -a show -d 'Shows the modules of a stack'
complete -c pamcheck -n '__pamcheck_no_command' -a decide -d 'Runs a stack with given return codes'
complete -c pamcheck -n '__pamcheck_no_command' -a paths -d 'Lists the paths through a stack'
complete -c pamcheck -n '__pamcheck_no_command' -a outcomes \
    -d 'Counts the paths through a stack by their decisions'
complete -c pamcheck -n '__pamcheck_no_command' -a graph -d 'Draws the graph of a stack'
complete -c pamcheck -n '__pamcheck_no_command' -a needs \
    -d 'Lists the rules that hold of a stack, as a policy'
complete -c pamcheck -n '__pamcheck_no_command' -a access -d 'Looks a login up in access tables'
complete -c pamcheck -n '__pamcheck_no_command' -a time -d 'Looks a login up in a time table'
complete -c pamcheck -n '__pamcheck_no_command' -a explain \
    -d 'Explains a fault or finding, and how to mend it'
complete -c pamcheck -n '__pamcheck_no_command' -a facts -d 'Lists what is known of modules'
complete -c pamcheck -n '__pamcheck_no_command' -a version -d 'Shows the version of the program'
complete -c pamcheck -n '__pamcheck_no_command' -a lsp \
    -d 'Answers an editor over standard input and output'
complete -c pamcheck -n '__pamcheck_no_command' -a help -d 'Prints the help of a command'

# The words that are no options, by their places from 1.
complete -c pamcheck -n '__pamcheck_at 1 999 check' -a '(__pamcheck_services)' -d 'Service'
complete -c pamcheck -n '__pamcheck_at 1 1 compare' -F -d 'Old'
complete -c pamcheck -n '__pamcheck_at 2 2 compare' -F -d 'New'
complete -c pamcheck -n '__pamcheck_at 3 3 compare' -a '(__pamcheck_services)' -d 'Service'
complete -c pamcheck -n '__pamcheck_at 4 4 compare' -a 'auth account password session' -d 'Kind'
complete -c pamcheck -n '__pamcheck_at 1 999 policy' -F -d 'Policy'
complete -c pamcheck -n '__pamcheck_at 1 1 show decide paths outcomes graph needs access time' -a '(__pamcheck_services)' \
    -d 'Service'
complete -c pamcheck -n '__pamcheck_at 2 2 show decide paths outcomes graph needs' -a 'auth account password session' \
    -d 'Kind'
complete -c pamcheck -n '__pamcheck_at 3 999 decide' -a '$__pamcheck_codes' -d 'Code'
complete -c pamcheck -n '__pamcheck_at 2 999 access' -a 'fieldsep= listsep= nodefgroup' \
    -d 'Argument'
complete -c pamcheck -n '__pamcheck_at 1 1 explain' -a '$__pamcheck_numbers' -d 'Number'

# The options, each after the commands that have it.
complete -c pamcheck -n '__pamcheck_in check policy show decide paths outcomes graph needs' -l dir -x -a '(__fish_complete_directories)' \
    -d 'The folder with a file for each service'
complete -c pamcheck -n '__pamcheck_in check policy show decide paths outcomes graph needs' -l vendor-dir -x -a '(__fish_complete_directories)' \
    -d 'The folder for services that --dir lacks'
complete -c pamcheck -n '__pamcheck_in check policy show decide paths outcomes graph needs' -l conf -r -F \
    -d 'The file for all services'
complete -c pamcheck -n '__pamcheck_in check policy show decide paths outcomes graph needs' -l root -x -a '(__fish_complete_directories)' \
    -d 'The root folder of a system'
complete -c pamcheck -n '__pamcheck_in check policy show decide paths outcomes graph needs' -l with -x -a '(__pamcheck_candidates)' \
    -d 'A file to read in place of the file NAME of the folder; may be repeated'
complete -c pamcheck -n '__pamcheck_in check compare policy paths outcomes graph needs' -l modules -x -a '(__fish_complete_directories)' \
    -d 'A folder of modules, in which each module is looked for; may be repeated'
complete -c pamcheck -n '__pamcheck_in check' -l access -r -F \
    -d 'An access table of pam_access.so, in place of those of the root; may be repeated'
complete -c pamcheck -n '__pamcheck_in check' -l time -r -F \
    -d 'The time table of pam_time.so, in place of that of the root'
complete -c pamcheck -n '__pamcheck_in check policy paths outcomes graph needs access' -l group -r -F \
    -d 'The group file'
complete -c pamcheck -n '__pamcheck_in check compare policy outcomes graph needs' -l facts -r -F \
    -d 'What is known of more modules, a line for each; see pamcheck facts'
complete -c pamcheck -n '__pamcheck_in check' -l accept -r -F \
    -d 'The findings that are meant to be, a line for each, as S2 SERVICE auth'
complete -c pamcheck -n '__pamcheck_in check policy' -l fail-on -x -a 'error warning note' \
    -d 'error, warning or note: the least level that fails; warning if left out'
complete -c pamcheck -n '__pamcheck_in check' -l format -x -a 'short full json sarif patch' \
    -d 'short (for people), full (with the lines of files), json (as --json), sarif (for code scanning) or patch (a diff that mends); short if left out'
complete -c pamcheck -n '__pamcheck_in check compare policy show decide paths outcomes needs access time' -l json \
    -d 'Answer in JSON Lines'
complete -c pamcheck -n '__pamcheck_in compare' -l conf -d 'OLD and NEW are files for all services'
complete -c pamcheck -n '__pamcheck_in compare' -l root \
    -d 'OLD and NEW are root folders of systems'
complete -c pamcheck -n '__pamcheck_in compare policy paths outcomes graph needs' -l returns -r -F \
    -d 'The codes that other modules can return'
complete -c pamcheck -n '__pamcheck_in compare policy needs' -l set -x -a '(__pamcheck_settings)' \
    -d 'The codes that all modules of this name can return; may be repeated'
complete -c pamcheck -n '__pamcheck_in policy paths outcomes graph needs' -l user -x -a '(__fish_complete_users)' \
    -d 'The user'
complete -c pamcheck -n '__pamcheck_in policy paths outcomes graph needs access' -l rhost -x -a '(__fish_print_hostnames)' \
    -d 'The remote host'
complete -c pamcheck -n '__pamcheck_in policy paths outcomes graph needs access time' -l tty -x \
    -d 'The terminal'
complete -c pamcheck -n '__pamcheck_in policy paths outcomes graph needs' -l access -r -F \
    -d 'An access table of pam_access.so; needs --user; may be repeated'
complete -c pamcheck -n '__pamcheck_in policy paths outcomes graph needs' -l time -r -F \
    -d 'The time table of pam_time.so; needs --user and a moment'
complete -c pamcheck -n '__pamcheck_in policy paths outcomes graph needs access' -l passwd -r -F \
    -d 'The passwd file, whose users are also in their primary groups'
complete -c pamcheck -n '__pamcheck_in policy paths outcomes graph needs time' -l at -x \
    -d 'The moment, as 2024-05-06T10:00'
complete -c pamcheck -n '__pamcheck_in policy paths outcomes graph needs time' -l at-unix -x \
    -d 'The moment, in seconds since 1970'
complete -c pamcheck -n '__pamcheck_in policy paths outcomes graph needs time' -l zone -x \
    -d 'The POSIX zone rule of --at-unix; UTC0 if left out'
complete -c pamcheck -n '__pamcheck_in show' -l as -x -a 'linux-pam-1.5 linux-pam-1.7' \
    -d 'linux-pam-1.5 or linux-pam-1.7: the rules of the file of the service, as this release reads them'
complete -c pamcheck -n '__pamcheck_in paths' -l limit -x \
    -d 'The most paths to list, 1 to 1000000; 1000 if left out'
complete -c pamcheck -n '__pamcheck_in paths' -l after -x -d 'Lists the paths after this cursor'
complete -c pamcheck -n '__pamcheck_in paths' -l before -x \
    -d 'Lists the paths before this cursor, the last first'
complete -c pamcheck -n '__pamcheck_in paths' -l decision -x -a '(__pamcheck_set)' \
    -d 'Lists the paths that end in one of these codes'
complete -c pamcheck -n '__pamcheck_in paths' -l asks -x -d 'Lists the paths that ask module N'
complete -c pamcheck -n '__pamcheck_in paths outcomes graph' -l set -x -a '(__pamcheck_settings)' \
    -d 'The codes that a module can return, named by its name, its number or FILE:LINE; may be repeated'
complete -c pamcheck -n '__pamcheck_in outcomes graph' -l answers -x -a 'any possible' \
    -d 'any or possible: what modules can return of which nothing else tells; possible if left out'
complete -c pamcheck -n '__pamcheck_in graph' -l format -x -a 'dot mermaid svg' \
    -d 'dot (for Graphviz), mermaid or svg; dot if left out'
complete -c pamcheck -n '__pamcheck_in access' -l access -r -F \
    -d 'A table; may be repeated: they are read in turn until a line matches'
complete -c pamcheck -n '__pamcheck_in access time' -l user -x -a '(__fish_complete_users)' \
    -d 'The user'
complete -c pamcheck -n '__pamcheck_in time' -l time -r -F -d 'The table'
# The end of what is made.
