# Completion of flux for bash. The words come from `flux help`, so that they are those of the program that is installed.
_flux()
{
    local word=${COMP_WORDS[COMP_CWORD]} verb=${COMP_WORDS[1]} at=2 part usage options="" valued="" before numbers=""
    # The words of options, where the command's page has some: they may stand before the format, each once.
    if [ "$COMP_CWORD" -ge 2 ] && [ "$verb" != help ]; then
        usage=$(flux help "$verb" 2> /dev/null | sed -n '1p')
        options=$(grep -o -e '\[--[a-z-]*' <<< "$usage" | tr -d '[' | tr '\n' ' ')
        valued=$(grep -o -e '\[--[a-z-]* [A-Z]' <<< "$usage" | tr -d '[' | sed 's/ .*//' | tr '\n' ' ')
    fi
    while [ "$COMP_CWORD" -gt "$at" ]; do
        before=${COMP_WORDS[at]}
        case " $options" in
            *" $before "*) options=" $options" options=${options/" $before "/ } at=$((at + 1)) ;;
            *) break ;;
        esac
        # Behind this one stands a number or a format.
        case " $valued" in
            *" $before "*) at=$((at + 1)) ;;
        esac
        if [ "$COMP_CWORD" -lt "$at" ]; then
            [ "$before" = --format ] || return
            verb=--format options=""
            break
        fi
    done
    case $((COMP_CWORD - at)),$verb in
        0,help) part='/^Commands:/,/^$/' ;;
        # The disks that emulators keep as G64 files.
        0,to-g64 | 0,from-g64) part='/^   c1541/' ;;
        # Of a disk by its numbers the word's beginning: what follows are the numbers.
        0,* | -1,--format) part='/^Formats:/,/^$/' numbers="mfm-dd- mfm-hd- mfm-hd360- fm-sd- fm-sd8-" ;;
        -1,*) part='/^Commands:/,/^$/' ;;
        *) return ;;
    esac
    if [ "$COMP_CWORD" -ge 2 ] && [ "$verb" != help ] && [ "$verb" != --format ] && ! flux help 2> /dev/null | grep -q "^   $verb FORMAT"; then
        return
    fi
    mapfile -t COMPREPLY < <(compgen -W "$options $numbers $(flux help 2> /dev/null | sed -n "$part"'s/^   \([^ \t,]*\).*/\1/p')" -- "$word")
    case ${#COMPREPLY[@]},${COMPREPLY[0]} in
        1,mfm-*- | 1,fm-*-) compopt -o nospace 2> /dev/null ;;
    esac
}
complete -o default -F _flux flux
