# Generated from lists/commands.txt and the help by make generate.
_odht() {
    local word=${COMP_WORDS[COMP_CWORD]} before=${COMP_WORDS[COMP_CWORD-1]}
    # --hash=fx is three words here
    if [ "$word" = = ]; then word=; elif [ "$before" = = ]; then
        before=${COMP_WORDS[COMP_CWORD-2]}
    fi
    if [ "$COMP_CWORD" = 1 ]; then
        COMPREPLY=($(compgen -W 'info check count get dump keys find order diff build put delete rebuild merge help --help --version' -- "$word"))
        return
    fi
    case $before in
        help) COMPREPLY=($(compgen -W 'info check count get dump keys find order diff build put delete rebuild merge' -- "$word")); return;;
        --at) COMPREPLY=(); return;;
        --hash) COMPREPLY=($(compgen -W 'fx unhash xxh64' -- "$word")); return;;
        --key) COMPREPLY=($(compgen -W 'u32 u64 i32 i64 u32be u64be hex bytes: text:' -- "$word")); return;;
        --value) COMPREPLY=($(compgen -W 'u32 u64 i32 i64 u32be u64be none hex bytes: text:' -- "$word")); return;;
        --duplicates) COMPREPLY=($(compgen -W 'last first error' -- "$word")); return;;
        --delimiter) COMPREPLY=(); return;;
        --percent) COMPREPLY=(); return;;
        --capacity) COMPREPLY=(); return;;
    esac
    case ${COMP_WORDS[1]}:$word in
        info:-*) COMPREPLY=($(compgen -W '--help --whole --json --at' -- "$word"));;
        check:-*) COMPREPLY=($(compgen -W '--help --whole --json --hash --at' -- "$word"));;
        count:-*) COMPREPLY=($(compgen -W '--help --check --whole --hash --at' -- "$word"));;
        get:-*) COMPREPLY=($(compgen -W '--help --values --json --null --key --value --whole --hash --at' -- "$word"));;
        dump:-*) COMPREPLY=($(compgen -W '--help --slots --values --json --null --key --value --whole --hash --at' -- "$word"));;
        keys:-*) COMPREPLY=($(compgen -W '--help --json --null --key --hash --at' -- "$word"));;
        find:-*) COMPREPLY=($(compgen -W '--help --whole --json' -- "$word"));;
        order:-*) COMPREPLY=($(compgen -W '--help --whole --key --value --hash --at' -- "$word"));;
        diff:-*) COMPREPLY=($(compgen -W '--help --whole --key --value --hash' -- "$word"));;
        build:-*) COMPREPLY=($(compgen -W '--help --key --value --duplicates --delimiter --null --check-only --hash --percent --capacity --progress --break-links --force' -- "$word"));;
        put:-*) COMPREPLY=($(compgen -W '--help --duplicates --delimiter --null --key --value --whole --hash --progress --break-links' -- "$word"));;
        delete:-*) COMPREPLY=($(compgen -W '--help --null --key --whole --hash --progress --break-links' -- "$word"));;
        rebuild:-*) COMPREPLY=($(compgen -W '--help --percent --whole --hash --progress --break-links' -- "$word"));;
        merge:-*) COMPREPLY=($(compgen -W '--help --duplicates --key --value --whole --hash --percent --progress --break-links --force' -- "$word"));;
        *) mapfile -t COMPREPLY < <(compgen -f -- "$word");;
    esac
}
complete -o filenames -F _odht odht
