# How an edit is applied to a copy: what edits/run and oracle/faults share. Sourced by them; work is
# their temporary folder.

# Replaces the one place of a text in a file.
replace() { # FILE OLD NEW
    OLD=$2 NEW=$3 awk '
        { text = text $0 "\n" }
        END {
            old = ENVIRON["OLD"]
            at = old == "" ? 0 : index(text, old)
            if (!at) exit 3
            rest = substr(text, at + length(old))
            if (index(rest, old)) exit 4
            printf "%s%s%s", substr(text, 1, at - 1), ENVIRON["NEW"], rest
        }' "$1" >"$work/edited" || return
    cp "$work/edited" "$1"
}

# Applies an edit to the files of a folder whose names match a pattern; the last argument says in words
# which they are. Says what is wrong with the edit, if anything.
apply() { # EDIT FOLDER PATTERN WORDS
    local folder=$2 pattern=$3 words=$4 line file='' old='' new='' last='' pairs=0
    while IFS= read -r line; do
        case $line in
        'old: '*)
            [[ $last != new ]] || apply_pair || return 0
            [[ $last == old ]] && old+=$'\n'${line#old: } || old=${line#old: }
            last=old
            ;;
        'new:'*)
            line=${line#new:}
            [[ $last == new ]] && new+=$'\n'${line# } || new=${line# }
            last=new
            ;;
        'file: '* | '')
            [[ $last != new ]] || apply_pair || return 0
            [[ $last != old ]] || {
                echo "an 'old:' text has no 'new:' after it"
                return 0
            }
            [[ -z $line ]] || file=${line#file: }
            last=''
            ;;
        esac
    done < <(cat "$1" && echo)
    ((pairs)) || echo "it has no 'old:' and 'new:' pair"
}

# Puts the new text in place of the old one; both are apply's.
apply_pair() {
    local status=0
    if [[ $file != $pattern || $file == *..* || ! -f $folder/$file ]]; then
        echo "'$file' is no file $words"
        return 1
    fi
    replace "$folder/$file" "$old" "$new" || status=$?
    pairs=$((pairs + 1))
    case $status in
    0) return 0 ;;
    4) echo "an 'old:' text is in $file more than once" ;;
    *) echo "an 'old:' text is not in $file" ;;
    esac
    return 1
}
