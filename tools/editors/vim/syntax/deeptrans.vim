" The texts of DeepTrans: models, request lists, images and logs.
if exists('b:current_syntax')
  finish
endif

syntax case match
syntax match deeptransNumber "\<\(0x\x\+\|\d\+\)\>"
syntax match deeptransConstant "\<\d\+:\(0x\x\+\|\d\+\)\>"

" First words of lines.
syntax match deeptransHeader "^\s*\(model\|requests\|image\|impossible\|budget\)\>"
syntax match deeptransLine "^\s*\(word\|address\|reg\|input\|var\|tables\|keep\|context\|access\|end\)\>"
syntax match deeptransLine "^\s*legal\s\+\(context\|access\)\>"
syntax match deeptransItem "^\s*\(forward\|backward\|try\|split\|close\|open\|unvisited\)\>"

" A node: its name and its act.
syntax match deeptransLine "^\s*node\>" nextgroup=deeptransNode skipwhite
syntax match deeptransNode "\<\l\w*\>" contained nextgroup=deeptransAct skipwhite
syntax match deeptransAct "\<\(let\|read\|if\|fault\|done\)\>" contained
syntax match deeptransOperator "(\s*\zs\(not\|and\|or\|xor\|add\|sub\|slice\|concat\|sext\|shl\|shr\|eq\|ltu\|ite\)\>"

" Demands and links: what they speak of, and the side that a take names.
syntax match deeptransDemand "^\s*\(via\|avoid\|ends\|page\|bits\|range\|share\|apart\)\>" nextgroup=deeptransWhat skipwhite
syntax match deeptransWhat "\<\(done\|fault\|reg\|in\|word\|cell\|pa\|table\|page\)\>" contained
syntax match deeptransDemand "^\s*take\>" nextgroup=deeptransTaken skipwhite
syntax match deeptransTaken "\<\l\w*\>" contained nextgroup=deeptransSide skipwhite
syntax match deeptransSide "\<\(then\|else\)\>" contained

syntax match deeptransComment "#.*$" contains=@Spell

highlight default link deeptransHeader PreProc
highlight default link deeptransLine Statement
highlight default link deeptransItem Statement
highlight default link deeptransDemand Statement
highlight default link deeptransNode Function
highlight default link deeptransAct Keyword
highlight default link deeptransWhat Type
highlight default link deeptransSide Type
highlight default link deeptransOperator Operator
highlight default link deeptransConstant Number
highlight default link deeptransNumber Number
highlight default link deeptransComment Comment

let b:current_syntax = 'deeptrans'
