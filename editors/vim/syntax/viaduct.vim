" Colours for sources of Viaduct.
if exists("b:current_syntax")
  finish
endif

syntax keyword viaductStructure principals host fun main let var array
syntax keyword viaductControl if else for return
syntax keyword viaductChannel input output to
syntax keyword viaductLabel declassify endorse
syntax keyword viaductType word bool
syntax keyword viaductBuiltin min max mux
syntax keyword viaductConstant true false any none all

syntax match viaductNumber "[0-9]\+"
syntax match viaductName "\<[A-Za-z_][A-Za-z0-9_]*\>"

" Of two that match at the same place the later one counts.
syntax match viaductPunctuation "\V{"
syntax match viaductPunctuation "\V}"
syntax match viaductPunctuation "\V("
syntax match viaductPunctuation "\V)"
syntax match viaductPunctuation "\V["
syntax match viaductPunctuation "\V]"
syntax match viaductPunctuation "\V;"
syntax match viaductPunctuation "\V:"
syntax match viaductPunctuation "\V,"
syntax match viaductOperator "\V<"
syntax match viaductOperator "\V>"
syntax match viaductOperator "\V="
syntax match viaductOperator "\V+"
syntax match viaductOperator "\V-"
syntax match viaductOperator "\V*"
syntax match viaductOperator "\V/"
syntax match viaductOperator "\V%"
syntax match viaductOperator "\V&"
syntax match viaductOperator "\V|"
syntax match viaductOperator "\V\^"
syntax match viaductOperator "\V!"
syntax match viaductOperator "\V~"
syntax match viaductOperator "\V=="
syntax match viaductOperator "\V!="
syntax match viaductOperator "\V<="
syntax match viaductOperator "\V>="
syntax match viaductOperator "\V<<"
syntax match viaductOperator "\V>>"
syntax match viaductOperator "\V:="
syntax match viaductComment "//.*$" contains=@Spell

highlight default link viaductStructure StorageClass
highlight default link viaductControl Conditional
highlight default link viaductChannel Statement
highlight default link viaductLabel PreProc
highlight default link viaductType Type
highlight default link viaductBuiltin Function
highlight default link viaductConstant Constant
highlight default link viaductNumber Number
highlight default link viaductName Identifier
highlight default link viaductOperator Operator
highlight default link viaductPunctuation Delimiter
highlight default link viaductComment Comment

let b:current_syntax = "viaduct"
