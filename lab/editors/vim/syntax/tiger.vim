" Tiger, the language of Appel's Modern Compiler Implementation, appendix A.
if exists("b:current_syntax")
  finish
endif

syntax keyword tigerConditional if then else
syntax keyword tigerRepeat      while for to do break
syntax keyword tigerStructure   let in end type var function array of
syntax keyword tigerConstant    nil
syntax keyword tigerType        int string
syntax keyword tigerStandard    print flush getchar ord chr size substring concat not exit
syntax match   tigerNumber      "\<\d\+\>"
syntax match   tigerOperator    ":=\|<>\|<=\|>=\|[-+*/=<>&|]"
syntax match   tigerEscape      contained "\\\([nt\"\\]\|\^[@-_]\|\d\{3}\|\_s\+\\\)"
syntax region  tigerString      start=+"+ skip=+\\\\\|\\"+ end=+"+ contains=tigerEscape
syntax region  tigerComment     start="/\*" end="\*/" contains=tigerComment,@Spell

highlight default link tigerConditional Conditional
highlight default link tigerRepeat      Repeat
highlight default link tigerStructure   Structure
highlight default link tigerConstant    Constant
highlight default link tigerType        Type
highlight default link tigerStandard    Function
highlight default link tigerNumber      Number
highlight default link tigerOperator    Operator
highlight default link tigerEscape      SpecialChar
highlight default link tigerString      String
highlight default link tigerComment     Comment

let b:current_syntax = "tiger"
" :make tells the first fault, and the editor jumps to it.
setlocal commentstring=/*%s*/
let &l:makeprg = 'tiger check --gnu %'
setlocal errorformat=%f:%l:%c:\ %m
