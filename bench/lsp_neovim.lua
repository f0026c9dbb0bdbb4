-- Tries the language server with Neovim's own client: each program of examples/ is opened, changed and mended.
--
--   SWIFTCHECK_LSP=SERVER SWIFTCHECK=CHECKER nvim --headless -u NONE -S bench/lsp_neovim.lua
--
-- SERVER is a built swiftcheck_lsp, CHECKER a program that is called as `CHECKER check FILE`; else those of this repository are
-- taken. What Neovim shows of a buffer must be what the checker says of its text: after it is opened, after each mend that the server
-- offers, and after a comment with `é😀` is put before each line. After it is closed nothing may be shown. It ends with status 1 if
-- anything differs.
local top = vim.fn.fnamemodify(debug.getinfo(1, "S").source:sub(2), ":p:h:h")
local server = vim.env.SWIFTCHECK_LSP or (top .. "/crates/swiftcheck_lsp/out/swiftcheck_lsp")
local checker = vim.env.SWIFTCHECK or (top .. "/swiftcheck")
local counts = { opened = 0, changed = 0, mended = 0, differences = 0 }
local published = {}

local client = vim.lsp.start_client({
  name = "swiftcheck",
  cmd = { server },
  root_dir = top,
  handlers = {
    ["textDocument/publishDiagnostics"] = function(err, result, context, config)
      published[result.uri] = (published[result.uri] or 0) + 1
      vim.lsp.diagnostic.on_publish_diagnostics(err, result, context, config)
    end,
  },
})

-- What Neovim shows of a buffer: line and column in bytes, both from 1, code and text.
local function shown(buffer)
  local all = {}
  for _, one in ipairs(vim.diagnostic.get(buffer)) do
    table.insert(all, string.format("%d:%d: error %s: %s", one.lnum + 1, one.col + 1, one.code or one.user_data.lsp.code, one.message))
  end
  return table.concat(all, "\n")
end

-- What the checker says of the text of a buffer, without notes.
local function checked(buffer)
  local path = vim.fn.tempname() .. ".swift"
  vim.fn.writefile(vim.api.nvim_buf_get_lines(buffer, 0, -1, true), path)
  local all = {}
  for _, line in ipairs(vim.fn.systemlist({ checker, "check", path })) do
    if line:match("^%d+:%d+: error ") then
      table.insert(all, line)
    end
  end
  return table.concat(all, "\n")
end

local function compare(name, buffer)
  local wanted, found = checked(buffer), shown(buffer)
  if wanted ~= found then
    counts.differences = counts.differences + 1
    print(string.format("%s differs\n--- wanted\n%s\n--- shown\n%s\n", name, wanted, found))
  end
end

-- Does something, and waits until the server has shown what it finds then.
local function after(buffer, work)
  local uri = vim.uri_from_bufnr(buffer)
  local before = published[uri] or 0
  work()
  if not vim.wait(10000, function() return (published[uri] or 0) > before end, 5) then
    counts.differences = counts.differences + 1
    print(uri .. ": nothing was shown\n")
  end
end

-- The first edit that the server offers for what is shown of a buffer.
local function offered(buffer)
  for _, one in ipairs(vim.diagnostic.get(buffer)) do
    local params = {
      textDocument = vim.lsp.util.make_text_document_params(buffer),
      range = { start = { line = one.lnum, character = 0 }, ["end"] = { line = one.lnum + 1, character = 0 } },
      context = { diagnostics = {} },
    }
    local answers = vim.lsp.buf_request_sync(buffer, "textDocument/codeAction", params, 10000) or {}
    local action = answers[client] and answers[client].result and answers[client].result[1]
    if action then
      return action
    end
  end
end

for _, path in ipairs(vim.fn.glob(top .. "/examples/*.swift", true, true)) do
  local name = vim.fn.fnamemodify(path, ":t")
  local buffer = vim.fn.bufadd(path)
  vim.fn.bufload(buffer)
  after(buffer, function() vim.lsp.buf_attach_client(buffer, client) end)
  counts.opened = counts.opened + 1
  compare(name, buffer)
  local action = offered(buffer)
  while action do
    after(buffer, function() vim.lsp.util.apply_workspace_edit(action.edit, "utf-16") end)
    counts.mended = counts.mended + 1
    print(string.format("%s: %s\n", name, action.title))
    compare(name .. " after a mend", buffer)
    action = offered(buffer)
  end
  after(buffer, function()
    local lines = vim.tbl_map(function(line) return "/* é😀 */ " .. line end, vim.api.nvim_buf_get_lines(buffer, 0, -1, true))
    vim.api.nvim_buf_set_lines(buffer, 0, -1, true, lines)
  end)
  counts.changed = counts.changed + 1
  compare(name .. " after a change", buffer)
  after(buffer, function() vim.lsp.buf_detach_client(buffer, client) end)
  if shown(buffer) ~= "" then
    counts.differences = counts.differences + 1
    print(name .. ": something is shown after it was closed\n")
  end
end

print(string.format("%d opened, %d changed, %d mended, %d differences\n", counts.opened, counts.changed, counts.mended, counts.differences))
vim.lsp.stop_client(client)
vim.cmd(counts.differences == 0 and "qall!" or "cquit!")
