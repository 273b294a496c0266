#!/usr/bin/env bash
# Ported crates of the kit do what they are there for: each crate below lists the one that it is to use, and uses it.
set -u
cd "$(dirname "$0")/../.." || exit 1
failed=0
while read -r port crates; do
  for crate in $crates; do
    if ! grep -qE "^$crate( staticlib)?:.* $port( |\$)" crates.txt; then
      echo "ports: crates.txt doesn't list $port for $crate"
      failed=1
    elif ! grep -rqE "^use $port::|$port::" "crates/$crate/src"; then
      echo "ports: $crate lists $port and doesn't use it"
      failed=1
    fi
  done
done <<'PORTS'
clap ipg_app_words
indexmap ipg_names_scope ipg_facts_forms
itoa ipg_ast ipg_cert ipg_proof ipg_tree ipg_app_text ipg_app_tree ipg_app_grammar
hex ipg_tree ipg_app_explain
smallvec ipg_table
thiserror ipg_read_tokens ipg_names ipg_order ipg_proof ipg_store ipg_store_adopt ipg_term
linked_list_allocator ipg_app_tree ipg_app_grammar ipg_c_trees
PORTS
[ "$failed" -eq 0 ] && echo "ports: each stands where it is used"
exit "$failed"
