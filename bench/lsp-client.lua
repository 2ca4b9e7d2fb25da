-- What bench/lsp-client.sh has Neovim do.
local folder, codes = vim.env.NULLCHECK_FOLDER, "file:///CODES.md"
local file, beside, later = folder .. "/A.java", folder .. "/B.java", folder .. "/C.java"
local ended

local function say(words)
  io.stdout:write(words .. "\n")
end

local function fail(words)
  say("not seen: " .. words)
  vim.cmd("cquit 1")
end

-- Waits until it holds, and ends with status 1 where it doesn't come.
local function see(what, holds)
  local began = vim.loop.hrtime()
  if not vim.wait(60000, holds, 1) then
    fail(what)
  end
  say(string.format("seen: %s (%d ms)", what, (vim.loop.hrtime() - began) / 1000000))
end

local function diagnostics(name)
  return vim.diagnostic.get(vim.uri_to_bufnr(vim.uri_from_fname(name)))
end

-- What the server said of a diagnostic beside its place and words; Neovim keeps it here.
local function told(one)
  return one.user_data and one.user_data.lsp or {}
end

-- Whether the file has exactly one diagnostic, with this code, at this line and column, both from 0, the column in bytes.
local function has_one(name, code, line, column)
  local found = diagnostics(name)
  local one = found[1]
  return #found == 1 and (one.code or told(one).code) == code and one.lnum == line and one.col == column
end

local function has_none(name)
  return #diagnostics(name) == 0
end

-- Whether the file's first diagnostic has this number of places that tell why, the first with these words, and the link to its code's text.
local function tells(name, count, words, anchor)
  local one = told(diagnostics(name)[1] or {})
  local related = one.relatedInformation or {}
  return #related == count and related[1].message == words and one.codeDescription and one.codeDescription.href == codes .. anchor
end

local function write(name, lines)
  vim.fn.writefile(lines, name)
end

vim.cmd("edit " .. file)
local buffer = vim.api.nvim_get_current_buf()
local config = {
  name = "nullcheck",
  cmd = { vim.env.NULLCHECK_LSP, "--codes", codes },
  root_dir = folder,
  flags = { debounce_text_changes = 0 },
  on_exit = function(code)
    ended = code
  end,
}
local client
if vim.lsp.start then
  client = vim.lsp.start(config)
else
  client = vim.lsp.start_client(config)
  vim.lsp.buf_attach_client(buffer, client)
end

see("the open file's diagnostic", function()
  return has_one(file, "DEREF", 4, 11)
end)
see("why it is, and a link to its code's text", function()
  return tells(file, 1, "null is written", "#deref")
end)
see("a diagnostic of the file that isn't open", function()
  return has_one(beside, "DEREF", 1, 28)
end)

vim.api.nvim_buf_set_text(buffer, 3, 15, 3, 19, { '"a"' })
see("none where the null is edited away", function()
  return has_none(file) and has_one(beside, "DEREF", 1, 28)
end)

vim.api.nvim_buf_set_text(buffer, 3, 15, 3, 18, { 'null; String t = "\u{1F600}\u{E9}"' })
see("it again, where the null is back", function()
  return has_one(file, "DEREF", 4, 11)
end)
vim.api.nvim_buf_set_lines(buffer, 3, 5, false, { '    String s = null; String t = "\u{1F600}\u{E9}"; return s.length();' })
see("its column behind characters beyond the basic plane", function()
  return has_one(file, "DEREF", 3, 49)
end)
vim.api.nvim_buf_set_text(buffer, 3, 49, 3, 50, { "t" })
see("none where the other text is dereferenced, by a change behind them", function()
  return has_none(file)
end)

vim.api.nvim_buf_set_lines(buffer, 1, 2, false, { '  static String find() { return "a"; }' })
see("the other file's diagnostic gone, by an edit of this one", function()
  return has_none(beside)
end)
vim.cmd("undo")
see("it again, by an undo", function()
  return has_one(beside, "DEREF", 1, 28)
end)

write(later, { "class C {", "  int size() { return A.find().length(); }", "}" })
vim.cmd("silent write")
see("a diagnostic of a file that is new in the folder, behind a save", function()
  return has_one(later, "DEREF", 1, 22)
end)
vim.fn.delete(later)
vim.lsp.buf_notify(buffer, "workspace/didChangeWatchedFiles", { changes = {} })
see("none of it where it is gone, behind a change of watched files", function()
  return has_none(later)
end)

-- An inferred field, and the annotation that the server offers for it.
vim.api.nvim_buf_set_lines(buffer, 0, -1, false, {
  "class A {",
  "  static @Nullable String find() { return null; }",
  '  private String held = "";',
  "  void forget() { this.held = null; }",
  "  int size() { return this.held.length(); }",
  "}",
})
see("a diagnostic of an inferred field, and why it may be null", function()
  return has_one(file, "DEREF", 4, 22) and tells(file, 2, "the field `held` may be null: written", "#deref")
end)
local function actions(line, column)
  local at = { line = line, character = column }
  local params = {
    textDocument = vim.lsp.util.make_text_document_params(buffer),
    range = { start = at, ["end"] = at },
    context = { diagnostics = {} },
  }
  local replies = vim.lsp.buf_request_sync(buffer, "textDocument/codeAction", params, 60000) or {}
  return replies[client] and replies[client].result or {}
end
local offered = actions(4, 24)
see("a code action at the diagnostic, and none elsewhere", function()
  return #offered == 1 and offered[1].title == "write what is inferred of the field `held`" and #actions(0, 0) == 0
end)
vim.lsp.util.apply_workspace_edit(offered[1].edit, "utf-16")
see("what it writes: an import and the annotation", function()
  local lines = vim.api.nvim_buf_get_lines(buffer, 0, -1, false)
  return lines[1] == "import org.checkerframework.checker.nullness.qual.*;" and lines[4] == '  private @Nullable String held = "";'
end)
see("the diagnostic behind it, a line further down: the field is declared so", function()
  return has_one(file, "DEREF", 5, 22) and tells(file, 1, "the field `held` may be null: declared so", "#deref")
end)

vim.cmd("silent write")
vim.api.nvim_buf_set_lines(buffer, 5, 6, false, { "  int size() { return 0; }" })
see("none where the dereference is edited away", function()
  return has_none(file)
end)
vim.cmd("edit " .. beside)
vim.cmd("bdelete! " .. buffer)
see("that of the text on disk, where the file is closed without a save", function()
  return has_one(file, "DEREF", 5, 22)
end)

vim.lsp.stop_client(client)
see("the server's end with status 0", function()
  return ended == 0
end)
vim.cmd("qall!")
