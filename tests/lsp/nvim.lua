-- Neovim edits a file with jx-lsp attached, and prints what it shows after each step, as `LINE:COLUMN MESSAGE` or `accepted`. After each
-- step it writes what it has to NAME.N, so that others can check it. Columns count bytes, as nvim tells them.
local server = os.getenv('JX_LSP_PROGRAM')
local name = os.getenv('JX_LSP_TEXT')
local shown = 0
local step = 0
local seen = -1

local handler = vim.lsp.handlers['textDocument/publishDiagnostics']
vim.lsp.handlers['textDocument/publishDiagnostics'] = function(fault, result, context, config)
  handler(fault, result, context, config)
  seen = result.version or seen
end

local client = vim.lsp.start_client({ name = 'jx', cmd = { server }, root_dir = '.', flags = { debounce_text_changes = 0 } })
vim.cmd('edit ' .. name)
local buffer = vim.api.nvim_get_current_buf()
vim.lsp.buf_attach_client(buffer, client)

local function show(what)
  local wanted = vim.lsp.util.buf_versions[buffer]
  local came = vim.wait(60000, function() return seen >= (wanted or 0) end, 5)
  step = step + 1
  vim.cmd('silent noautocmd keepalt write! ' .. name .. '.' .. step)
  local lines = {}
  for _, mark in ipairs(vim.diagnostic.get(buffer)) do
    table.insert(lines, mark.lnum .. ':' .. mark.col .. ' ' .. mark.message)
  end
  local told = #lines == 0 and 'accepted' or table.concat(lines, ' and ')
  io.stdout:write(step .. ' ' .. what .. (came and ': ' or ': late: ') .. told .. '\n')
end

local function keys(words)
  vim.api.nvim_feedkeys(vim.api.nvim_replace_termcodes(words, true, false, true), 'xt', false)
end

vim.wait(60000, function() return vim.lsp.buf_is_attached(buffer, client) and seen >= 0 end, 5)
show('opened')
keys('gg0ix<Esc>')
show('typed')
keys('u')
show('undone')
keys('gg$a<CR>[é😀,<Esc>')
show('typed behind a line')
keys('u')
show('undone')
keys('gg0f😀x')
show('an emoji deleted')
keys('u')
show('undone')
keys('yyp')
show('a line pasted')
keys('u')
show('undone')
vim.api.nvim_buf_set_lines(buffer, -1, -1, false, { string.rep('[1, "é😀"], ', 20000) })
show('many bytes pasted')
keys('u')
show('undone')
keys('dG')
show('all deleted')
keys('u')
show('undone')
vim.api.nvim_buf_set_text(buffer, 0, 1, 0, 1, { '"a": 1,', '' })
show('two lines put in')
keys('u')
show('undone')
vim.lsp.stop_client(client)
vim.wait(2000, function() return vim.lsp.client_is_stopped(client) end, 5)
vim.cmd('qa!')
