" Vim syntax file: rulesets of basin (docs/LANGUAGE.md).
if exists('b:current_syntax')
  finish
endif
syntax case match

" Of two matches at one place Vim takes the later line.
syntax match basinError     "\S"
syntax match basinName      "[A-Za-z_][A-Za-z0-9_]*"
syntax match basinCall      "[A-Za-z_][A-Za-z0-9_]*\ze\s*("
syntax match basinPredef    "\<\(Min\|Max\|Abs\|Clamp\|RoundDown\|Sign\|MulDiv\)\>\ze\s*("
syntax match basinSlot      "[A-Za-z_][A-Za-z0-9_]*\s*\.\s*[A-Za-z_][A-Za-z0-9_]*"
syntax match basinNumber    "[0-9]\+"
syntax match basinOperator  ":=\|<>\|<=\|>=\|[-+*/=<>]"
syntax match basinDelimiter "[;,.(){}[\]]\|:=\@!"
syntax match basinString    "\"[^\"]*\""
syntax match basinUnit      "\"\(m3\|dam3\|Mm3\|mm\|m\|step\|m3/step\|dam3/step\|mm/step\|m3/mm\|kWh\)\?\""
syntax match basinComment   "#.*$" contains=@Spell

syntax keyword basinDeclaration RULE ENDRULE FUNCTION ENDFUNCTION IS
syntax keyword basinConditional IF THEN ELSE ENDIF
syntax keyword basinRepeat      FOR ENDFOR MAP ENDMAP
syntax keyword basinStatement   WITH DO ENDWITH LET IN ENDLET
syntax keyword basinType        NUMERIC BOOLEAN DATETIME SLOT LIST OF
syntax keyword basinWord        AND OR NOT
syntax keyword basinBoolean     TRUE FALSE
syntax keyword basinForm        KNOWN APPEND ITEM LENGTH MONTH DAY YEAR StorageToElevation ElevationToStorage
syntax keyword basinTime        t

highlight default link basinError       Error
highlight default link basinName        Normal
highlight default link basinCall        Function
highlight default link basinPredef      Function
highlight default link basinSlot        Identifier
highlight default link basinNumber      Number
highlight default link basinOperator    Operator
highlight default link basinDelimiter   Delimiter
highlight default link basinString      String
highlight default link basinUnit        Constant
highlight default link basinComment     Comment
highlight default link basinDeclaration Structure
highlight default link basinConditional Conditional
highlight default link basinRepeat      Repeat
highlight default link basinStatement   Statement
highlight default link basinType        Type
highlight default link basinWord        Operator
highlight default link basinBoolean     Boolean
highlight default link basinForm        Function
highlight default link basinTime        Special

let b:current_syntax = 'basinrules'
