# link: the words that come of objects, and what is refused of them. The objects are those of tests/program/objects.
. "$parts/linked.sh"

for name in calls maps arrays typed text two extern data point programs; do
    object $name
done

# The table of links. (A row's words are without blanks, quotes and patterns.)
while IFS='|' read -r name asked answer; do
    case $name in '#'*) continue ;; esac
    set -- $asked
    asked=$1 section=${1%%:*} entry='' stub=''
    shift
    changed $name "$@"
    case $asked in *:*) entry=${asked#*:} ;; esac
    case $entry in *:*) stub=${entry#*:} entry=${entry%%:*} ;; esac
    set --
    [ "$section" = - ] || set -- "$@" --section "$section"
    [ -z "$entry" ] || set -- "$@" --entry "$entry"
    [ -z "$stub" ] || set -- "$@" --helper "$stub"
    : > script
    run link "$@" changed.o
    count=$((count + 1))
    set -- $answer
    case $1 in
        E*) has_fault "$1" ;;
        *) maps=$1; shift; has_words "$maps" "$stub" "$@" ;;
    esac || { complain "link of $name| $asked |$answer"; cat found/err; }
done < "$parts/tables/links.txt"
