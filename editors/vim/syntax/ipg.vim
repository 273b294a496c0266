" Vim syntax file for grammars of ipg.
if exists("b:current_syntax")
  finish
endif
syntax case match
syntax iskeyword @,48-57,_
syntax match ipgName "\<\h\w*\>"
syntax match ipgNumber "\<0x\x\+\|\<\d\+"
syntax match ipgOperator "->\|<<\|>>\|&&\|||\|[=!<>]=\|[][{}(),.;=?:+*%/<>&|^!-]"
syntax keyword ipgKeyword for to do switch case else where many tok
syntax keyword ipgPlace start end EOI
syntax keyword ipgPrimitive U8 U16LE U16BE U32LE U32BE U64LE U64BE Bytes
syntax match ipgEscape "\\\%(x\x\x\|[\"\\]\)" contained
syntax region ipgString start=+"+ skip=+\\[\\"]+ end=+"+ oneline contains=ipgEscape
syntax match ipgComment "#.*$" contains=@Spell
highlight default link ipgName Identifier
highlight default link ipgNumber Number
highlight default link ipgOperator Operator
highlight default link ipgKeyword Statement
highlight default link ipgPlace Constant
highlight default link ipgPrimitive Type
highlight default link ipgEscape SpecialChar
highlight default link ipgString String
highlight default link ipgComment Comment
let b:current_syntax = "ipg"
