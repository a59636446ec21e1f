" Vim syntax file for ame, a language for Automatic Mutual Exclusion. docs/LANGUAGE.md has the table of words.
" To use it: `set runtimepath^=PATH/editors/vim`.
if exists('b:current_syntax')
  finish
endif

syntax case match
syntax match ameComment /;.*/
syntax match ameNumber /\<\d\+\>\|-\d\+\>/
syntax match ameOperator /[+*<=]\|-\d\@!/
syntax match ameBad /[^[:space:]()A-Za-z0-9_+*<=;-]/

" A word of a form stands directly behind its parenthesis.
syntax match ameOpen /(/ nextgroup=ameForm,ameCompound skipwhite skipempty
syntax keyword ameForm contained fn rec app let do if not ref get set print call peek pair fst snd
syntax keyword ameForm contained async blockUntil unprotected
syntax keyword ameCompound contained Ref Fun Pair
syntax keyword ameType Unit Bool Int
syntax keyword ameConstant unit true false
syntax keyword ameYield yield

highlight default link ameComment Comment
highlight default link ameNumber Number
highlight default link ameOperator Operator
highlight default link ameBad Error
highlight default link ameForm Keyword
highlight default link ameYield Keyword
highlight default link ameCompound Type
highlight default link ameType Type
highlight default link ameConstant Constant

let b:current_syntax = 'ame'
