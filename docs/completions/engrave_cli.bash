# made by tools/manual.py from docs/COMMANDS.md: change that, and run it
# bash: source this file, or put it into the folder of completions
_engrave_cli() {
    local line=${COMP_LINE:0:COMP_POINT} name option value options words used
    local -a typed
    read -ra typed <<< "$line"
    [[ $line == *[[:blank:]] ]] && typed+=("")
    local last=$((${#typed[@]} - 1))
    COMPREPLY=()
    if ((last <= 1)); then
        COMPREPLY=($(compgen -W "carve flat strokes check cover moves probe contacts flatten repair trial" -- "${typed[1]}"))
        return
    fi
    case ${typed[1]} in
    carve) options="drawing bit rmax step form units chord snap pixel text height width charspace wordspace linespace justify mirror flip cross limit safe feed pitch pocket over" ;;
    flat) options="drawing bit rmax radius form units chord snap pixel text height width charspace wordspace linespace justify mirror flip cross limit over safe feed pitch pocket" ;;
    strokes) options="drawing bit rmax depth form units chord snap pixel text height width charspace wordspace linespace justify mirror flip cross safe feed pitch" ;;
    check) options="drawing code bit rmax form units chord snap pixel text height width charspace wordspace linespace justify mirror flip cross" ;;
    cover) options="drawing code bit rmax form units chord snap pixel text height width charspace wordspace linespace justify mirror flip cross pitch" ;;
    moves) options="code units" ;;
    probe) options="drawing bit rmax at form units chord snap pixel text height width charspace wordspace linespace justify mirror flip cross limit" ;;
    contacts) options="drawing step rmax form units chord snap pixel text height width charspace wordspace linespace justify mirror flip cross" ;;
    flatten) options="drawing form units chord snap pixel text height width charspace wordspace linespace justify mirror flip cross" ;;
    repair) options="drawing code bit rmax form units chord snap pixel text height width charspace wordspace linespace justify mirror flip cross safe feed" ;;
    trial) options="count" ;;
    *) return ;;
    esac
    if [[ ${typed[last]} == --*=* ]]; then
        option=${typed[last]%%=*} value=${typed[last]#*=}
    elif [[ ${typed[last - 1]} == --* && ${typed[last - 1]} != *=* ]]; then
        option=${typed[last - 1]} value=${typed[last]}
    fi
    case $option in
    --form) COMPREPLY=($(compgen -W "loops dxf cxf pbm" -- "$value")) ;;
    --units) COMPREPLY=($(compgen -W "mm10 mm100 mm1000 in100 in1000" -- "$value")) ;;
    --justify) COMPREPLY=($(compgen -W "left center right" -- "$value")) ;;
    --mirror) COMPREPLY=($(compgen -W "yes no" -- "$value")) ;;
    --flip) COMPREPLY=($(compgen -W "yes no" -- "$value")) ;;
    --cross) COMPREPLY=($(compgen -W "refuse evenodd" -- "$value")) ;;
    --pocket) COMPREPLY=($(compgen -W "none x y both" -- "$value")) ;;
    --drawing|--code) compopt -o filenames; mapfile -t COMPREPLY < <(compgen -f -- "$value") ;;
    '')
        compopt -o nospace
        used=" ${typed[*]:2:last-2} "
        for name in $options; do
            [[ $used == *" --$name="* || $used == *" --$name "* ]] || words+=" --$name="
        done
        COMPREPLY=($(compgen -W "$words" -- "${typed[last]}"))
        ;;
    esac
}
complete -F _engrave_cli engrave_cli
