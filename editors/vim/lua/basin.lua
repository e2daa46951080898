-- Neovim's own client for the language server: require('basin').setup({ server = '/path/to/tools/lsp' })
local basin = {}

function basin.setup(options)
  local running = {} -- the client of each folder
  local function attach(event)
    local folder = vim.fn.fnamemodify(event.file, ':p:h')
    if not running[folder] or not vim.lsp.get_client_by_id(running[folder]) then
      running[folder] = vim.lsp.start_client({
        name = 'basin',
        cmd = { options.server },
        root_dir = folder,
        init_options = options.settings,
      })
    end
    vim.lsp.buf_attach_client(event.buf, running[folder])
  end
  vim.api.nvim_create_autocmd({ 'BufRead', 'BufNewFile' }, {
    pattern = { '*.rpl', '*.require', '*model.toml', '*inputs.csv' },
    callback = attach,
  })
end

return basin
