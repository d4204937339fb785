" Vim syntax file
" Language: scripts of toolbus (*.tb)

if exists('b:current_syntax')
  finish
endif

syntax iskeyword @,48-57,_,-
syntax case match

" the order decides between matches that begin at one place: a later one wins
syntax match toolbusName '\<[a-z][A-Za-z0-9_-]*'
syntax match toolbusVariable '\<[A-Z][A-Za-z0-9_-]*'
syntax match toolbusNumber '-\?\d\+'
syntax match toolbusOperator ':=\|>>\|||\|[.+*?]'
syntax match toolbusPunctuation '[(){},:=<>]\|\[\|\]'
syntax match toolbusOperator ':=\|>>\|||'
syntax keyword toolbusReserved process is tool toolbus let in endlet if then else fi
syntax keyword toolbusAtom create delta execute no-note printf rec-connect rec-disconnect rec-event rec-msg rec-note
syntax keyword toolbusAtom rec-value shutdown snd-ack-event snd-do snd-eval snd-msg snd-note snd-terminate subscribe tau unsubscribe
syntax keyword toolbusTime delay timeout abs-delay abs-timeout
syntax keyword toolbusType bool int str list term
syntax keyword toolbusBoolean true false
syntax keyword toolbusFunction equal not-equal not and or add sub mul div mod less less-equal greater greater-equal
syntax keyword toolbusFunction size first next join member index msec sec min hour
syntax match toolbusEscape contained '\\["\\nrt]'
syntax match toolbusFormat contained '%[dst%]'
syntax region toolbusString start='"' skip='\\["\\nrt]' end='"' oneline contains=toolbusEscape,toolbusFormat
syntax match toolbusComment '%%.*$' contains=toolbusTodo
syntax keyword toolbusTodo contained TODO FIXME

highlight default link toolbusReserved Keyword
highlight default link toolbusAtom Statement
highlight default link toolbusTime Statement
highlight default link toolbusType Type
highlight default link toolbusBoolean Boolean
highlight default link toolbusFunction Function
highlight default link toolbusVariable Identifier
highlight default link toolbusNumber Number
highlight default link toolbusOperator Operator
highlight default link toolbusString String
highlight default link toolbusEscape SpecialChar
highlight default link toolbusFormat SpecialChar
highlight default link toolbusComment Comment
highlight default link toolbusTodo Todo

let b:current_syntax = 'toolbus'
