" Syntax of the designs of hgdb. Written by editors/make.
if exists('b:current_syntax')
  finish
endif
syntax match hgdbOperator /\.\.\|<<\|>>\|<=\|==\|!=\|[-+*&|^~<=#]/
syntax match hgdbName /\<\a\w*\>/
syntax match hgdbNumber /\<\d\+\>/
syntax match hgdbLiteral /\<\d\+'\(h\x\+\|d\d\+\)\>/
syntax match hgdbComment +//.*$+
syntax keyword hgdbStructure module input output wire reg inst let
syntax keyword hgdbStatement comb ff clk import
syntax keyword hgdbConditional if else for in gen case default
syntax keyword hgdbFunction bits cat zext mux all any parity
highlight default link hgdbStructure Structure
highlight default link hgdbStatement Statement
highlight default link hgdbConditional Conditional
highlight default link hgdbFunction Function
highlight default link hgdbOperator Operator
highlight default link hgdbNumber Number
highlight default link hgdbComment Comment
highlight default link hgdbLiteral Number
let b:current_syntax = 'hgdb'
