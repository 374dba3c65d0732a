" Compiler file of Vim for mesh: `:compiler mesh`, and then `:make` checks the project and goes to its fault. The project is
" the folder that Vim is in, or g:mesh_paths. No warehouse is read. The program is $MESH, or `mesh` above the folder tools/
" that this file, or what it is a link to, is in.
if exists('current_compiler')
    finish
endif
let current_compiler = 'mesh'
if exists(':CompilerSet') != 2
    command -nargs=* CompilerSet setlocal <args>
endif

let s:top = fnamemodify(resolve(expand('<sfile>:p')), ':h:h:h')
let s:paths = ' --paths ' . shellescape(get(g:, 'mesh_paths', '.'), 1)
let s:plan = shellescape(empty($MESH) ? s:top . '/mesh' : $MESH, 1) . ' --warehouse :memory:' . s:paths . ' plan'
let s:make = s:plan . ' 2>&1 >/dev/null | ' . shellescape(s:top . '/tools/mesh-at', 1) . ' --bytes' . s:paths
" A bar is escaped twice: once for `:make`, and once for `:set`.
execute 'CompilerSet makeprg=' . escape(escape(s:make, '|'), ' \|"')
CompilerSet errorformat=%f:%l:%c:\ %m
