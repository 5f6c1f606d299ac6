#!/bin/sh
# Counts the places that docs/DESIGN-PASS.md speaks of, by plain patterns over the .rt files. Run at the top of a
# checkout: `sh docs/design-count.sh`, with `-l` for the lines themselves.
show() { # title, pattern, files to leave out
  found=$(grep -rnE --include=*.rt -- "$2" crates/*/src | grep -vE "${3:-^$}" || true)
  printf '%-64s %s\n' "$1" "$(printf '%s' "$found" | grep -c .)"
  [ "$list" = -l ] && [ -n "$found" ] && printf '%s\n' "$found" | sed 's/^/    /'
  return 0
}
list=$1
show '1 own enums in the shape of Option or Result' '^ *(pub )?enum (Checked|Counted|Whole|Described|Sum|Loss|Training|Word|Outcome)\b' '_?vectors/'
show '1 a number that says whether there is a refusal' '-> u32$|-> u32 *\{' '^crates/(estimator|estimator_c|exponential|words)/'
show '1 a refusal handed out through a lent number' '[a-z]+: &mut u32'
show '1 true for "no refusal"' '^\) -> bool$|fn (take_row|take_rows|turn|run_layers|fill_layer|fill_nodes|gather|mark_layers|move_or_leave|add_tested|further_rows_pass)\b.*-> bool' '_cases/'
show '1 a flag with a value beside it (fields)' '^ *pub (some|sound|asked|alike|more|holds|order|descr|shape): bool,'
show '1 numbers of refusal at the C interface' '-> u32$|-> u32 *\{' '^crates/([a-df-z]|e[a-rt-z]|exponential)'
show '3 for loops over a range of numbers' '^ *for \w+ in [^[]*\.\.'
show '3 while loops' '^ *while '
show '5 functions told that a table holds the powers of two' 'Powers table\.now'
show '5 functions told that a mesh is one of its grid' 'Meshed (mesh|\()' 
show '5 functions told that a grid has few intervals' 'grid\.intervals ≤ 250000'
show '5 functions told that a walk may go over widths and model' '(Walkable|Fits|WorkFits|Stands|Predictable|Summable|Markable|StepReady|AddReady) [a-z(]' 'ghost use'
show '6 a lent slice with the length that is used of it beside' '^ *(n|v|count|edges): usize,?$|(outputs|map|xs): &mut \[[a-z0-9]+\], n: usize'
show '6 arrays with a count beside (fields)' '^ *pub (values|widths): \[\w+; [0-9]+\],'
show '6 text appended at a place of lent bytes' 'fn \w+\((out|&?mut out): &mut \[u8\], at: usize|^    at: usize,$' '_cases/'
show '7 a choice by the parity of a layer' '% 2 [!=]= 0'
show '7 flags that say which step to run' '^ *(add|clean|single|first): bool,|single: bool\)'
