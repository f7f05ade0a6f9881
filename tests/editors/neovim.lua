-- What Neovim's own client shows of a document: run by tests/editors/open as `nvim --headless -u FILE -c "luafile
-- neovim.lua"`, where FILE has the lines of docs/SERVER.md for Neovim, with the document in $RAST_DOCUMENT.
local function fail(text)
  io.stderr:write('neovim: ' .. text .. '\n')
  vim.cmd('cquit 1')
end

local function check(is_so, text)
  if not is_so then
    fail(text)
  end
end

-- Waits until something holds.
local function wait(text, holds)
  check(vim.wait(10000, holds, 10), 'waited in vain: ' .. text)
end

vim.cmd('edit ' .. vim.fn.fnameescape(vim.env.RAST_DOCUMENT))
local buffer = vim.api.nvim_get_current_buf()

-- The client that the lines started: `get_clients` is of Neovim 0.10, where the other name went.
local id
wait('the server', function()
  for _, client in pairs((vim.lsp.get_clients or vim.lsp.get_active_clients)()) do
    if client.name == 'rast' then
      id = client.id
    end
  end
  return id
end)
wait('the document', function() return vim.lsp.buf_is_attached(buffer, id) end)

local function diagnostics()
  return vim.diagnostic.get(buffer)
end

-- The answer to a request about the document.
local function ask(method, params)
  params = vim.tbl_extend('keep', params or {}, { textDocument = vim.lsp.util.make_text_document_params(buffer) })
  local answers = vim.lsp.buf_request_sync(buffer, method, params, 10000)
  check(answers and answers[id] and answers[id].result, 'no answer to ' .. method)
  return answers[id].result
end

wait('a diagnostic', function() return #diagnostics() == 1 end)
local wrong = diagnostics()[1]
check(wrong.message == 'expected R_CURLY', 'message: ' .. wrong.message)
check(wrong.lnum == 3 and wrong.col == 5, 'diagnostic at ' .. wrong.lnum .. ':' .. wrong.col)

-- The brace that is missing.
vim.api.nvim_buf_set_lines(buffer, 4, 4, false, { '}' })
wait('no diagnostic', function() return #diagnostics() == 0 end)

local symbols = ask('textDocument/documentSymbol')
check(#symbols == 1 and symbols[1].name == 'main' and symbols[1].kind == 12, 'symbols')
local folds = ask('textDocument/foldingRange')
check(#folds == 2 and folds[1].startLine == 0 and folds[1].endLine == 4, 'folds')
check(folds[2].startLine == 1 and folds[2].endLine == 3, 'inner fold')
local selected = ask('textDocument/selectionRange', { positions = { { line = 2, character = 8 } } })
check(selected[1].range.start.character == 8 and selected[1].range['end'].character == 12, 'selection')
check(selected[1].parent, 'selection without what is around it')
local together = ask('textDocument/documentHighlight', { position = { line = 3, character = 4 } })
check(#together == 2 and together[1].range.start.line == 1 and together[1].range.start.character == 18, 'highlights')
local tokens = ask('textDocument/semanticTokens/full')
check(#tokens.data % 5 == 0 and tokens.data[3] == 2 and tokens.data[4] == 1, 'tokens')

-- Each letter that is typed is a change of its own.
vim.api.nvim_win_set_cursor(0, { 1, 0 })
vim.api.nvim_feedkeys(vim.api.nvim_replace_termcodes('Ostruct é𐐀 {<Esc>', true, true, true), 'xt', false)
wait('diagnostics of what was typed', function() return #diagnostics() > 0 end)
vim.cmd('normal! dd')
wait('no diagnostic again', function() return #diagnostics() == 0 end)

vim.lsp.stop_client(id)
wait('the end', function() return vim.lsp.client_is_stopped(id) end)
print('neovim: passed')
vim.cmd('qall!')
