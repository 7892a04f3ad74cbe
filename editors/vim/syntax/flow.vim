" Session texts of OmniSim.
if exists('b:current_syntax')
  finish
endif

syntax match flowComment /\(^\|\s\)\zs#.*$/
syntax match flowNumber /\(^\|\s\)\zs\d\+\ze\(\s\|$\)/
syntax match flowOperator /\(^\|\s\)\zs\(?:\|<<\|>>\|==\|!=\|<u\|<s\|[-+*&|^~\/%]\)\ze\(\s\|$\)/
syntax match flowStatement /^\s*\zs\(flow\|source\|sink\|fifo\|module\|reg\|mem\|block\|loop\|temp\|at\|goto\|branch\|stop\|input\|limits\|depth\|end\)\ze\(\s\|$\)/
syntax match flowWord /\s\zs\(while\|if\|sext\)\ze\s/
syntax match flowOperation /\s\zs\(set\|load\|store\|read\|write\|tryread\|trywrite\|empty\|full\)\ze\s/

highlight default link flowComment Comment
highlight default link flowNumber Number
highlight default link flowOperator Operator
highlight default link flowStatement Statement
highlight default link flowWord Keyword
highlight default link flowOperation Function

let b:current_syntax = 'flow'
