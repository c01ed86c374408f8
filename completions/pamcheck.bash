# Completion of pamcheck for bash, by the package bash-completion. It never runs pamcheck itself, whose launcher may compile.

# Made by completions/make, up to the next mark: do not edit.
_pamcheck_commands='check compare policy show decide paths outcomes graph needs access time explain facts version lsp help'
_pamcheck_codes='success open_err symbol_err service_err system_err buf_err perm_denied auth_err cred_insufficient
    authinfo_unavail user_unknown maxtries new_authtok_reqd acct_expired session_err cred_unavail
    cred_expired cred_err no_module_data conv_err authtok_err authtok_recover_err authtok_lock_busy
    authtok_disable_aging try_again ignore abort authtok_expired module_unknown bad_item conv_again'
_pamcheck_numbers='E1 E2 E3 E4 E5 E6 E7 E8 E9 E10 E11 E12 E13 E14 E15 E16 E17 E18 E19 DE1 TE1 TE2 TE3 TE4 TE5 TE6 TE7
    TE8 TE9 TE10 TE11 TE12 TE13 TE14 TE15 TE16 TE17 TE18 TE19 TE20 TE21 TE22 TE23 TE24 C1 C2 C3 C4 M1 M2
    M4 U1 U2 U3 U4 U5 U6 U7 U8 U9 U10 U11 U12 U13 U14 U15 U16 U17 U18 U19 U20 V1 V2 L1 L2 L3 L4 L5 L6 L7
    L8 L9 L10 A1 A2 A3 A4 A5 A6 A7 T1 T2 T3 T4 S1 S2 S3 S4 S5 S6 S7 S8 S9 S10 S11 S12 S13 S14 S15 S16
    S17 S18 S19 S20 S21 S22 S23 S24 S25 S26 S27 P1 P2 P3 P4 P5 P6 P7'

# The options of a command.
_pamcheck_options() {
    case $1 in
        check) echo '--dir --vendor-dir --conf --root --with --modules --access --time --group --facts --accept --fail-on
            --format --json --help' ;;
        compare) echo '--conf --root --json --modules --facts --returns --set --help' ;;
        policy) echo '--dir --vendor-dir --conf --root --with --json --fail-on --facts --modules --user --rhost --tty
            --access --time --group --passwd --returns --set --at --at-unix --zone --help' ;;
        show) echo '--dir --vendor-dir --conf --root --with --as --json --help' ;;
        decide) echo '--dir --vendor-dir --conf --root --with --json --help' ;;
        paths) echo '--dir --vendor-dir --conf --root --with --json --limit --after --before --decision --asks --modules
            --user --rhost --tty --access --time --group --passwd --returns --set --at --at-unix --zone --help' ;;
        outcomes) echo '--dir --vendor-dir --conf --root --with --json --answers --facts --modules --user --rhost --tty
            --access --time --group --passwd --returns --set --at --at-unix --zone --help' ;;
        graph) echo '--dir --vendor-dir --conf --root --with --format --answers --facts --modules --user --rhost --tty
            --access --time --group --passwd --returns --set --at --at-unix --zone --help' ;;
        needs) echo '--dir --vendor-dir --conf --root --with --json --facts --modules --user --rhost --tty --access
            --time --group --passwd --returns --set --at --at-unix --zone --help' ;;
        access) echo '--access --user --tty --group --passwd --rhost --json --help' ;;
        time) echo '--time --user --tty --at --at-unix --zone --json --help' ;;
        *) echo --help ;;
    esac
}

# Sets `takes` to how the value of an option of a command, or the word at a place of it, is completed.
_pamcheck_takes() {
    takes=nothing
    case $1:$2 in
        compare:--conf | compare:--root | *:--json) takes=nothing ;;
        *:--dir | *:--vendor-dir | *:--root | *:--modules) takes=folder ;;
        *:--conf | *:--access | *:--time | *:--group | *:--facts | *:--accept | *:--returns | *:--passwd) takes=file ;;
        *:--with) takes=candidate ;;
        *:--fail-on) takes='error warning note' ;;
        check:--format) takes='short full json sarif patch' ;;
        *:--set) takes=setting ;;
        *:--user) takes=user ;;
        *:--rhost) takes=host ;;
        *:--as) takes='linux-pam-1.5 linux-pam-1.7' ;;
        *:--decision) takes=set ;;
        *:--answers) takes='any possible' ;;
        graph:--format) takes='dot mermaid svg' ;;
        *:--*) takes=text ;;
        compare:0 | compare:1) takes=file ;;
        compare:2 | show:0 | decide:0 | paths:0 | outcomes:0 | graph:0 | needs:0 | access:0 | time:0) takes=service ;;
        compare:3 | show:1 | decide:1 | paths:1 | outcomes:1 | graph:1 | needs:1) takes='auth account password session' ;;
        explain:0) takes=number ;;
        check:*) takes=service ;;
        policy:*) takes=file ;;
        decide:*) takes=code ;;
        access:*) takes='fieldsep= listsep= nodefgroup' ;;
    esac
}
# The end of what is made.

# Sets `plain` to a word without its quotes. Nothing in it is expanded.
_pamcheck_plain() {
    local rest=$1 quote='' first
    plain=''
    while [[ -n $rest ]]; do
        first=${rest:0:1} rest=${rest:1}
        case $quote$first in
            \' | \") quote=$first ;;
            \'\' | \"\") quote='' ;;
            \\ | \"\\) plain+=${rest:0:1} rest=${rest:1} ;;
            *) plain+=$first ;;
        esac
    done
}

# The value of an option among the words that follow it here.
_pamcheck_value() {
    local option=$1 before='' word plain
    shift
    for word in "$@"; do
        _pamcheck_plain "$word"
        if [[ $before == "$option" ]]; then
            printf '%s' "${plain/#\~\//$HOME/}"
            return
        fi
        [[ $word != "$option"=* ]] || printf '%s' "${plain#*=}"
        before=$word
    done
}

# Sets `services` to the services of the source that these words name, or of the running system.
_pamcheck_services() {
    local dir vendor conf root file
    dir=$(_pamcheck_value --dir "$@")
    vendor=$(_pamcheck_value --vendor-dir "$@")
    conf=$(_pamcheck_value --conf "$@")
    root=$(_pamcheck_value --root "$@")
    services=()
    if [[ -n $conf ]]; then
        [[ ! -f $conf ]] || mapfile -t services < <(awk '!/^[ \t]*(#|$)/ { print $1 }' <"$conf" 2>/dev/null)
        return
    fi
    [[ -n $dir ]] || dir=${root%/}/etc/pam.d vendor=${root%/}/usr/lib/pam.d
    for file in "$dir"/* "${vendor:-$dir}"/*; do
        [[ ! -f $file ]] || services+=("${file##*/}")
    done
}

# Offers those of these names that begin with the word, with what follows a name. A name may hold whatever a shell runs, so it is
# never expanded, as `compgen -W` would, and it is offered as it has to be quoted.
_pamcheck_offer() {
    local after=$1 name quoted plain
    shift
    _pamcheck_plain "$cur"
    for name in "$@"; do
        printf -v quoted %q "$name"
        [[ $name == "$plain"* || $quoted == "$cur"* ]] || continue
        case $cur in
            # Within quotes that are open, what cannot stand there is not offered.
            \'*) [[ $name == *\'* ]] || COMPREPLY+=("$name$after") ;;
            \"*) [[ $name != "${quoted//\\ / }" ]] || COMPREPLY+=("$name$after") ;;
            *) COMPREPLY+=("$quoted$after") ;;
        esac
    done
    __ltrim_colon_completions "$cur"
}

# Offers the services of the source that these words name.
_pamcheck_offer_services() {
    local services
    _pamcheck_services "$@"
    _pamcheck_offer '' "${services[@]}"
}

# A candidate: the name of a file, `=`, and the file that is read in its place.
_pamcheck_candidate() {
    local services
    if [[ $cur == *=* ]]; then
        cur=${cur#*=}
        _filedir
    else
        _pamcheck_services "${words[@]:2}"
        _pamcheck_offer = "${services[@]}"
        compopt -o nospace
    fi
}

# A set of codes: `any`, or names with commas between them, with `but:` before them or not.
_pamcheck_set() {
    local before='' last=${1##*[,:]} code
    [[ $1 != *[,:]* ]] || before=${1%"$last"}
    [[ -n $before ]] || COMPREPLY+=($(compgen -W 'any but:' -- "$last"))
    for code in $(compgen -W "$_pamcheck_codes" -- "${last,,}"); do
        COMPREPLY+=("$before$code")
    done
    compopt -o nospace
    __ltrim_colon_completions "$1"
}

# Completes the word as `takes` says.
_pamcheck_complete() {
    case $takes in
        nothing | text) ;;
        folder) _filedir -d ;;
        file) _filedir ;;
        candidate) _pamcheck_candidate ;;
        set) _pamcheck_set "$cur" ;;
        setting) [[ $cur != *=* ]] || _pamcheck_set "${cur#*=}" ;;
        code) COMPREPLY=($(compgen -W "$_pamcheck_codes" -- "$cur")) ;;
        number) COMPREPLY=($(compgen -W "$_pamcheck_numbers" -- "${cur^^}")) ;;
        user) mapfile -t COMPREPLY < <(compgen -u -- "$cur") ;;
        host) _known_hosts_real -- "$cur" ;;
        service)
            if [[ $command == compare ]]; then
                _pamcheck_offer_services --dir "${words[2]}"
            elif [[ $command == check && $cur == */* ]]; then
                # A service with a slash is the path of its file.
                _filedir
            else
                _pamcheck_offer_services "${words[@]:2}"
            fi
            ;;
        *)
            COMPREPLY=($(compgen -W "$takes" -- "$cur"))
            [[ ${COMPREPLY[0]} != *= ]] || compopt -o nospace
            ;;
    esac
}

_pamcheck() {
    local cur prev words cword split
    _init_completion -s -n : || return
    local command=${words[1]} at place=0 takes=nothing
    if ((cword == 1)); then
        COMPREPLY=($(compgen -W "$_pamcheck_commands --help --version" -- "$cur"))
        return
    fi
    if [[ $cword -eq 2 && $command == help ]]; then
        COMPREPLY=($(compgen -W "$_pamcheck_commands" -- "$cur"))
        return
    fi
    [[ $prev != --* || $prev == *=* ]] || _pamcheck_takes "$command" "$prev"
    # The value of an option is no other word.
    if $split || [[ $takes != nothing ]]; then
        _pamcheck_complete
        return
    fi
    if [[ $cur == -* ]]; then
        COMPREPLY=($(compgen -W "$(_pamcheck_options "$command")" -- "$cur"))
        return
    fi
    # The place of this word among those that are neither options nor their values.
    for ((at = 2; at < cword; at++)); do
        case ${words[at]} in
            --*=*) ;;
            --*)
                _pamcheck_takes "$command" "${words[at]}"
                [[ $takes == nothing ]] || at=$((at + 1))
                ;;
            *) place=$((place + 1)) ;;
        esac
    done
    _pamcheck_takes "$command" "$place"
    _pamcheck_complete
} && complete -F _pamcheck pamcheck
