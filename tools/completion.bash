# Completion of the tools in bash: `. tools/completion.bash`. The options are those that --help lists; `viz` and `scene` have
# commands too, and `examples/run` has samples.

_viz_tools() {
    local tool=${COMP_WORDS[0]} word=${COMP_WORDS[COMP_CWORD]} before=${COMP_WORDS[COMP_CWORD - 1]} words=
    COMPREPLY=()
    if [[ $word == -* ]]; then
        words=$("$tool" --help 2>/dev/null | grep -oE -- ' --?[a-z]+' | sort -u)
        [[ $tool == *viz && " ${COMP_WORDS[*]} " == *" run "* ]] && words="--paced --buffers --pipe"
    elif [[ $tool == */viz && ($COMP_CWORD -eq 1 || ($COMP_CWORD -eq 3 && ${COMP_WORDS[1]} == --viz)) ]]; then
        words="check demo gen hit run step turns"
    elif [[ $tool == */scene && $COMP_CWORD -eq 1 ]]; then
        words="build show"
    elif [[ $tool == *examples/run && $before != --out ]]; then
        words=$(cd "${tool%run}" 2>/dev/null && ls -d */ | tr -d /)
    fi
    [[ $words ]] && mapfile -t COMPREPLY < <(compgen -W "$words" -- "$word")
}

for _viz_tool in tools/{scene,view,story,frames,replay,why,diff,reftest,play,record,reduce,viz,man,test} examples/run examples/{browser,chromium}/run; do
    complete -o default -F _viz_tools "$_viz_tool" "./$_viz_tool"
done
unset _viz_tool
