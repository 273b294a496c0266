#!/bin/sh
# each.sh GRAMMAR OUT FILE..: the tree of each file goes into OUT, under the file's own name; of a file that has none, the exit
# status and the name are printed. IPG names the program where it isn't `ipg`.
grammar=$1 out=$2
shift 2
for file; do
  case $file in */*) folder=$out/${file%/*} ;; *) folder=$out ;; esac
  [ -d "$folder" ] || mkdir -p "$folder"
  "${IPG:-ipg}" parse "$grammar" "$file" >"$out/$file" || {
    echo "$? $file"
    rm -f "$out/$file"
  }
done
