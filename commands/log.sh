# v30 log FILE [--old] [-o FILE]: the records of a port log; --old: one of document 01's gap rule
take '-o' '--old' "$@"
only_file
readable "$file"
open_out "$file"
needs listlog listlog_old
make_file "listlog${given[--old]:+_old}"
last=$(tail -n 1 "$out")
[ "$last" != 'too long' ] || fail 1 "$file: too long: a log has at most 65536 bytes"
close_out
case $last in
'bad record at '*) exit 3 ;;
esac
