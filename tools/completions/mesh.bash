# Completion in bash for mesh and try: commands, options, folders and files, as docs/COMMANDS.md has them.
#
# In ~/.bashrc:  . /opt/mesh/tools/completions/mesh.bash

_mesh_options() {
    local moment="--workers --execution-time" again="--restate-model --start --end"
    case $1 in
    '') echo --paths --warehouse ;;
    plan) echo --auto-apply "$moment" "$again" ;;
    apply) echo "$moment" "$again" ;;
    run) echo "$moment" ;;
    evaluate) echo --start --end ;;
    ingest) echo --append ;;
    janitor) echo --execution-time ;;
    demo) echo --workers ;;
    fetchdf | invalidate | migrate | trace | impact | batch) ;;
    esac
}

# The words of the line up to the cursor: bash parts them at `=` and `:` too. The last one is that at the cursor.
_mesh_words() {
    local rest=$COMP_LINE word at
    words=()
    for ((at = 0; at <= COMP_CWORD; at++)); do
        word=${COMP_WORDS[at]}
        if [[ $at = 0 || $rest = [[:space:]]* || -z $word ]]; then words+=("$word"); else words[-1]+=$word; fi
        rest=${rest#"${rest%%[![:space:]]*}"}
        rest=${rest#"$word"}
    done
}

# The files below a folder, or the folders with -d, that begin with a text.
_mesh_files() {
    local kind=$1 folder=$2 begun=$3 it
    local front=${folder:+$folder/}
    compopt -o filenames 2>/dev/null
    while IFS= read -r it; do
        [[ -n $front && -d $it ]] && it+=/ && compopt -o nospace 2>/dev/null
        COMPREPLY+=("${it#"$front"}")
    done < <(compgen "$kind" -- "$front$begun")
}

_mesh() {
    local names="plan apply run evaluate fetchdf ingest invalidate janitor migrate trace impact batch demo"
    local words command='' folder='' given=' ' option='' ended='' places=0 word at it
    _mesh_words
    COMPREPLY=()
    for ((at = 1; at < ${#words[@]} - 1; at++)); do
        word=${words[at]}
        if [[ -n $option ]]; then
            [[ $option = --paths ]] && folder=$word
            option=''
        elif [[ -z $ended && $word = --?* ]]; then
            given+="${word%%=*} "
            [[ $word = --paths=* ]] && folder=${word#*=}
            case $word in *=* | --auto-apply | --append) ;; *) option=$word ;; esac
        elif [[ -n $command && $word = -- ]]; then
            ended=yes
        elif [[ -z $command ]]; then
            command=$word
        else
            places=$((places + 1))
        fi
    done
    word=${words[-1]}
    if [[ -z $option$ended && $word = --*=* ]]; then
        option=${word%%=*} word=${word#*=}
    fi
    case $option in
    --paths) _mesh_files -d '' "$word" ;;
    --warehouse) _mesh_files -f '' "$word" ;;
    ?*) ;;
    *)
        if [[ -z $ended && $word = -* ]]; then
            for it in $(_mesh_options "$command"); do
                [[ $given = *" $it "* || $it != "$word"* ]] || COMPREPLY+=("$it")
            done
        elif [[ -z $command ]]; then
            mapfile -t COMPREPLY < <(compgen -W "$names" -- "$word")
        elif [[ $command,$places = ingest,1 ]]; then
            folder=${folder//[\"\'\\]/}
            folder=${folder/#'~/'/$HOME/}
            [[ $folder = . ]] && folder=''
            _mesh_files -f "${folder%/}" "$word"
        fi
        ;;
    esac
}

complete -F _mesh mesh try
