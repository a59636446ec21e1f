" Vim settings for ame.
if exists('b:did_ftplugin')
  finish
endif
let b:did_ftplugin = 1

setlocal commentstring=;\ %s comments=:; lisp
let &l:makeprg = (executable('./why') ? './why' : 'why') . ' %:S'
setlocal errorformat=%f:%l:%c:\ %m
setlocal lispwords=fn,rec,let,do,if,async,unprotected
let b:undo_ftplugin = 'setlocal commentstring< comments< lisp< lispwords< makeprg< errorformat<'
