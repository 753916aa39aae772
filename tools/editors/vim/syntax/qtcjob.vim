" The job files of qtc (docs/JOB_FILES.md). The folder vim belongs to ~/.vim/pack/qtc/start/qtc.
if exists("b:current_syntax")
  finish
endif
syntax case match
" A line counts by its first word; what is no word of the language is shown as wrong.
syntax match qtcWrong "^\s*[^#[:space:]]\S*"
syntax match qtcComment "^\s*#.*$"
syntax match qtcDirective "^\s*\(workers\|job\|input\|map\|filter\|reduce\|order\|blocks\|priority\)\ze\(\s\|$\)" nextgroup=qtcPlain skipwhite
syntax match qtcDirective "^\s*\(cancel-after\|suspend-after\|watch\|then\|on-failed\|on-canceled\)\ze\(\s\|$\)"
syntax match qtcJob "^\s*job\s\+" nextgroup=qtcName
syntax match qtcName "[A-Za-z0-9_-]\{1,64}\ze\s*$" contained
syntax match qtcKind "\(^\s*input\s\+\)\@<=\(lines\|files\|pieces\|job\|all\|any\)\ze\(\s\|$\)"
syntax match qtcKind "\(^\s*map\s\+\)\@<=\(same\|length\|digest\|field\|number\)\ze\(\s\|$\)"
syntax match qtcKind "\(^\s*filter\s\+\(not\s\+\)\?\)\@<=\(contains\|wildcard\|longer\)\ze\(\s\|$\)"
syntax match qtcKind "\(^\s*filter\s\+\)\@<=not\ze\(\s\|$\)"
syntax match qtcKind "\(^\s*reduce\s\+\)\@<=\(count\|bytes\|sum\|join\|chain\|greatest\|tally\)\ze\(\s\|$\)"
syntax match qtcKind "\(^\s*order\s\+\)\@<=\(ordered\|unordered\)\ze\(\s\|$\)"
syntax match qtcKind "\(^\s*then\s\+\)\@<=\(first\|sorted\|concat\)\ze\(\s\|$\)"
syntax match qtcNumber "\s\@<=-\?\d\{1,10}\ze\(\s\|$\)"
syntax match qtcEscape "\\x\x\x"
syntax match qtcBadEscape "\\\(x\x\x\)\@!"

highlight default link qtcWrong Error
highlight default link qtcComment Comment
highlight default link qtcDirective Statement
highlight default link qtcJob Statement
highlight default link qtcName Function
highlight default link qtcKind Type
highlight default link qtcNumber Number
highlight default link qtcEscape SpecialChar
highlight default link qtcBadEscape Error

let b:current_syntax = "qtcjob"
