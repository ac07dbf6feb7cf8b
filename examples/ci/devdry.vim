" As ~/.vim/compiler/devdry.vim: in a rules file `:compiler devdry` and then `:make`; `:cnext` goes from message to message.
if exists("current_compiler")
  finish
endif
let current_compiler = "devdry"
CompilerSet makeprg=devdry\ verify\ --strict\ --no-summary\ --ignore\ comments\ --format=gcc\ %:S
CompilerSet errorformat=%f:%l:%c:\ %trror:\ %m,%f:%l:%c:\ %tarning:\ %m,%-G%.%#
