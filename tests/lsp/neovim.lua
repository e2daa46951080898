-- Neovim's own client, without a window, by editors/vim: a slip is shown, its fix is applied, a layout is made, a name changes.
-- Each line that it writes is compared by tests/lsp/neovim.
require("basin").setup({ server = vim.env.LSP, settings = { program = false } })
local function say(text) io.stdout:write(text .. "\n") end
local function line(number) return vim.api.nvim_buf_get_lines(0, number - 1, number, false)[1] or "" end
vim.cmd("edit policy.rpl")
if not vim.wait(20000, function() return #vim.diagnostic.get(0) > 0 end, 20) then say("no diagnostic") end
for _, one in ipairs(vim.diagnostic.get(0)) do
  say(("shown: line %d, `%s`: %s"):format(one.lnum + 1, line(one.lnum + 1):sub(one.col + 1, one.end_col), one.message:match("[^\n]*")))
  vim.api.nvim_win_set_cursor(0, { one.lnum + 1, one.col })
end
local asked = vim.lsp.util.make_range_params()
asked.context = { diagnostics = vim.lsp.diagnostic.get_line_diagnostics(0) }
for _, answer in pairs(vim.lsp.buf_request_sync(0, "textDocument/codeAction", asked, 20000) or {}) do
  local action = (answer.result or {})[1]
  if action then
    say("fix: " .. action.title)
    vim.lsp.util.apply_workspace_edit(action.edit, "utf-16")
  end
end
vim.wait(20000, function() return #vim.diagnostic.get(0) == 0 end, 20)
say("left: " .. #vim.diagnostic.get(0))
say(line(3))
vim.api.nvim_buf_set_lines(0, 2, 3, false, { "Dam.Outflow[t]:=Max( Dam.Inflow[t],40 \"m3/step\" ) ; # 😀" })
vim.lsp.buf.formatting_sync({}, 20000)
say(line(3))
vim.api.nvim_win_set_cursor(0, { 3, 3 })
vim.lsp.buf.rename("Lake")
vim.wait(20000, function() return line(3):find("Lake") ~= nil end, 20)
say(line(3))
vim.cmd("qa!")
