" Vim syntax file: code of basin (docs/CODE.md).
if exists('b:current_syntax')
  finish
endif
syntax case match

" Of two matches at one place Vim takes the later line.
syntax match basinError       "\S\+"
syntax match basinNumber      "\(\s\)\@<=-\?[0-9]\+$"
syntax match basinSlot        "\(^slot \|^put \)\@<=[A-Za-z_][A-Za-z0-9_]*\.[A-Za-z_][A-Za-z0-9_]*"
syntax match basinCall        "\(^toelevation \|^tostorage \|^call \)\@<=[A-Za-z_][A-Za-z0-9_]*$"
syntax match basinType        "\(^FUNCTION \|^LOCALS \|^target \)\@<=[-NBDS*0-9,]\+"
syntax match basinType        "\(^FUNCTION [NBDS*0-9]\+ \)\@<=[-NBDS*0-9,]\+$"
syntax match basinBoolean     "\(^bool \)\@<=\(true\|false\)$"
syntax match basinPlain       "^\(now\|add\|sub\|mul\|div\|neg\|shift\|back\|between\|eq\|lt\|le\|deq\|dlt\|dle\|not\)$"
syntax match basinPlain       "^\(read\|known\|month\|day\|year\|append\|item\|length\|next\|yield\)$"
syntax match basinInstruction "^\(num\|bool\|slot\|load\|store\|foreach\|map\|jump\|branch\|invoke\|call\|put\) \@="
syntax match basinInstruction "^\(toelevation\|tostorage\|list\|widen\|target\) \@="
syntax match basinBlock       "^\(CODE 1\|RULE\|END\)$\|^\(FUNCTION\|LOCALS\) \@="

highlight default link basinError       Error
highlight default link basinNumber      Number
highlight default link basinSlot        Identifier
highlight default link basinCall        Function
highlight default link basinType        Type
highlight default link basinBoolean     Boolean
highlight default link basinPlain       Statement
highlight default link basinInstruction Statement
highlight default link basinBlock       Structure

let b:current_syntax = 'basincode'
