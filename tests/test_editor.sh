#!/usr/bin/env bash
# The language server as clients meet it: a small client of our own, and the editors that this machine has.
set -uo pipefail
# shellcheck source=lib.sh
. "$(dirname "$0")/lib.sh"
editor=$(realpath "${EDITOR_PROGRAM:-$top/build/devdry-lsp}")

told_by python3 "$top/tests/editor.py" "$editor" "$program"
told_by python3 "$top/tests/editor_changes.py" "$editor" "$program"
told_by python3 "$top/tests/editor_texts.py" "$editor" "$program"

goes_well "the session of the gate is what verify, update and fmt say" python3 "$top/tests/editor_session.py" "$program"
same "the session of the gate" "$(cksum < "$top/crates/devdry_lsp/stdout")" "$("$editor" < "$top/crates/devdry_lsp/stdin" | cksum)"

cd "$work" || exit 1
printf 'SUBSYSTEMM=="block", TAG+="x"\nKERNEL=="sda",TAG+="y"\n' > 70-mine.rules

# Neovim without a screen: a mistake is reported, a word is told, and the file is formatted.
cat > try.lua << END
local seen = 0
vim.lsp.handlers["textDocument/publishDiagnostics"] = function(error, result)
  seen = #result.diagnostics
  if not vim.g.first then vim.g.first = result.diagnostics[1].code .. " " .. seen end
end
vim.cmd("edit 70-mine.rules")
local id = vim.lsp.start_client({ name = "devdry", cmd = { "$editor" }, root_dir = "." })
vim.lsp.buf_attach_client(0, id)
vim.wait(20000, function() return vim.g.first ~= nil end, 20)
local place = { textDocument = vim.lsp.util.make_text_document_params(), position = { line = 1, character = 2 } }
local hover = vim.lsp.buf_request_sync(0, "textDocument/hover", place, 20000)
vim.api.nvim_buf_set_lines(0, 0, 1, false, { 'SUBSYSTEM=="block", TAG+="x"' })
vim.wait(20000, function() return seen == 1 end, 20)
local edits = vim.lsp.buf_request_sync(0, "textDocument/formatting",
  { textDocument = place.textDocument, options = { tabSize = 4, insertSpaces = true } }, 20000)
vim.lsp.util.apply_text_edits(edits[id].result, 0, "utf-16")
local out = io.open("seen", "w")
out:write(vim.g.first, "\n", tostring(hover[id].result ~= nil), "\n", seen, "\n", table.concat(vim.api.nvim_buf_get_lines(0, 0, -1, false), "\n"), "\n")
out:close()
vim.cmd("qa!")
END
if has nvim; then
    HOME=$work timeout 60 nvim --headless -u NONE -n -c "luafile try.lua" > nvim.log 2>&1
    same "neovim: a mistake, a word, mended while it is typed, formatted" \
        "$(printf 'V2 2\ntrue\n1\nSUBSYSTEM=="block", TAG+="x"\nKERNEL=="sda", TAG+="y"')" "$(cat seen 2> /dev/null || cat nvim.log)"
else
    skipped "neovim" "there is no nvim"
fi

# An author's hour with Neovim, set up as docs/editors.md says for its version: a rule with five mistakes outside of udev's
# folders, each reported, one told about, one mended by its action, the others by hand, and the rest by formatting.
# rows_for EDITOR N: the Nth block of the section on an editor
rows_for() {
    awk -v section="## $1" -v wanted="$2" '/^## / { on = $0 == section } on && /^    / { if (!within) count++; if (count == wanted) print substr($0, 5) }
        { within = /^    / }' "$top/docs/editors.md"
}
mkdir -p "$work/bin" "$work/.config/nvim" "$work/repository"
ln -s "$editor" "$work/bin/devdry-lsp"
cat > hour.lua << 'END'
local out = io.open(vim.env.HOME .. "/hour", "w")
local function codes()
  local found = vim.tbl_map(function(it) return (it.lnum + 1) .. ":" .. it.code .. it.severity end, vim.diagnostic.get(0))
  table.sort(found)
  return table.concat(found, " ")
end
local function reported(wanted)
  vim.wait(20000, function() return codes() == wanted end, 20)
  out:write(codes(), "\n")
end
local function asked(method, line, more)
  local place = { line = line, character = 2 }
  local document = { uri = vim.uri_from_bufnr(0) }
  local params = { textDocument = document, position = place, range = { start = place, ["end"] = place }, context = { diagnostics = {} } }
  for _, response in pairs(vim.lsp.buf_request_sync(0, "textDocument/" .. method, vim.tbl_extend("force", params, more or {}), 20000)) do
    return response.result
  end
end
local function row(number, text) vim.api.nvim_buf_set_lines(0, number - 1, number, false, { text }) end
row(1, 'SUBSYSTEMM=="block", TAG+="x"')
reported("1:V21")
vim.api.nvim_buf_set_lines(0, 1, 1, false,
  { 'KERNEL="sd*", TAG+="y"', 'KERNEL=="sd*" TAG+="z"', 'KERNEL=="sr*", GOTO="end"', 'KERNEL=="sd*",SYMLINK+="disk/$nam"' })
reported("1:V21 2:V31 3:S12 4:V71 5:S22 5:V61")
out:write(asked("hover", 1).contents.value:match("^[^:]*"), "\n")
local action = asked("codeAction", 0)[1]
out:write(action.title, "\n")
vim.lsp.util.apply_workspace_edit(action.edit, "utf-16")
reported("2:V31 3:S12 4:V71 5:S22 5:V61")
row(2, 'KERNEL=="sd*", TAG+="y"')
row(5, 'KERNEL=="sd*",SYMLINK+="disk/$name"')
vim.api.nvim_buf_set_lines(0, 5, 5, false, { 'LABEL="end"' })
reported("3:S12 5:S22")
vim.lsp.util.apply_text_edits(asked("formatting", 0, { options = { tabSize = 4, insertSpaces = true } }), 0, "utf-16")
reported("")
out:close()
vim.cmd("write")
vim.cmd("qa!")
END
if has nvim; then
    knows() { [ "$(nvim --headless -u NONE -c "lua io.stdout:write(tostring($1 ~= nil))" -c 'qa!' 2> /dev/null)" = true ]; }
    if knows 'vim.lsp.config'; then rows_for Neovim 1; else { knows 'vim.lsp.start' || rows_for Neovim 3; rows_for Neovim 2; } fi > .config/nvim/init.lua
    (cd repository && PATH=$work/bin:$PATH HOME=$work XDG_CONFIG_HOME=$work/.config timeout 120 \
        nvim --headless -n 60-mine.rules -c "luafile ../hour.lua" > ../hour.log 2>&1)
    same "neovim as docs/editors.md sets it up: five mistakes are reported, told about and mended" "$(printf '%s\n' '1:V21' \
        '1:V21 2:V31 3:S12 4:V71 5:S22 5:V61' 'Compares the name that the kernel gave the device' 'Write SUBSYSTEM' \
        '2:V31 3:S12 4:V71 5:S22 5:V61' '3:S12 5:S22' '')" "$(cat hour 2> /dev/null || cat hour.log)"
    block=$(printf '%s\n' 'C: add' 'P: /devices/pci0/block/sda' 'U: block' 'N: sda')
    same "the file that was written, by devdry" "link disk/sda tag x tag y tag z" "$(cd repository && echo "$block" \
        | "$program" events -r none --with 60-mine.rules 2>&1 | grep -E '^(tag|link) ' | sort | tr '\n' ' ' | sed 's/ $//')"
fi

# Emacs in batch, with eglot.
cat > try.el << END
(require 'eglot)
(require 'flymake)
(define-derived-mode udev-mode conf-mode "udev")
(add-to-list 'eglot-server-programs '(udev-mode . ("$editor")))
(find-file "70-mine.rules")
(udev-mode)
(setq eglot-sync-connect 20)
(eglot--connect '(udev-mode) (eglot--current-project) 'eglot-lsp-server '("$editor") "udev")
(eglot--maybe-activate-editing-mode)
(flymake-mode 1)
(let ((deadline (+ (float-time) 20)))
  (while (and (< (float-time) deadline) (null (flymake-diagnostics))) (accept-process-output nil 0.1)))
(goto-char (point-min))
(search-forward "MM")
(delete-char -1)
(eglot--signal-textDocument/didChange)
(eglot-format-buffer)
(princ (format "%s\n%s" (length (flymake-diagnostics)) (buffer-string)))
END
if has emacs && emacs --batch --eval "(progn (package-initialize) (require 'eglot))" > /dev/null 2>&1; then
    git init -q . 2> /dev/null
    HOME=$work timeout 60 emacs --batch --eval "(package-initialize)" -l try.el > emacs.out 2> emacs.log
    same "emacs: mended and formatted" "$(printf 'SUBSYSTEM=="block", TAG+="x"\nKERNEL=="sda", TAG+="y"')" \
        "$(tail -n +2 emacs.out | sed '/^$/d' || true)$([ -s emacs.out ] || tail -n 5 emacs.log)"
else
    skipped "emacs" "there is no emacs with eglot"
fi
