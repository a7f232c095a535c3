"""Neovim, headless, with the recipe, on the small project."""

import json
import unittest

from support import EDITORS, HERE, NAMES, InProject, call, environment, needs

RECIPE = EDITORS / "recipes" / "nvim.lua"
STAND_IN = """
vim.lsp.start = function(config, options)
  table.insert(started, { config.name, options.bufnr })
  return vim.lsp.buf_attach_client(options.bufnr, vim.lsp.start_client(config))
end
"""


@needs("nvim")
class Neovim(InProject):
    def drive(self, script, options="{}", before=""):
        """Has Neovim run a script, with the recipe set up."""
        whole = f"""
            started = {{}}
            {before}
            dofile('{RECIPE}').setup({options})
            drive = dofile('{HERE}/drive.lua')
            {script}
            vim.cmd('qall!')
        """
        path = self.folder / "script.lua"
        path.write_text(whole)
        words = ["nvim", "--headless", "-u", "NONE", "-i", "NONE", "-n", "--cmd", "filetype on"]
        home = {
            "HOME": str(self.folder),
            "XDG_STATE_HOME": str(self.folder),
            "XDG_CACHE_HOME": str(self.folder),
        }
        done = call(
            [*words, "-c", f"luafile {path}"],
            self.folder,
            env=environment(JREF_TEST_FOLDER=str(self.bank), **home),
        )
        self.assertEqual(0, done.returncode, done.stderr.decode())
        return done.stderr.decode()

    def test_a_rename_over_five_files_and_its_undo(self):
        self.drive(
            """
            drive.edit('Log.java')
            vim.api.nvim_win_set_cursor(0, { 5, 22 })
            vim.lsp.buf.rename('write')
            for _, name in ipairs({ 'Account', 'Bank', 'Log', 'Savings', 'Teller' }) do
              drive.wait(name, function() return drive.has(name .. '.java', 'write(') end)
            end
            vim.cmd('wall')
            vim.fn.mkdir(drive.folder .. '/../undone')
            vim.cmd([[bufdo if &filetype == 'java' | undo | execute 'write ' . fnameescape($JREF_TEST_FOLDER . '/../undone/' . expand('%:t')) | endif]])
        """
        )
        self.assert_files("project", "renamed")
        for name in NAMES:
            undone = (self.folder / "undone" / name).read_bytes()
            self.assertEqual((HERE / "project" / name).read_bytes(), undone, name)

    def test_a_captured_name_in_a_changed_buffer(self):
        self.drive(
            """
            drive.edit('Account.java')
            vim.api.nvim_buf_set_lines(0, 0, 0, false, { '// 🏦' })
            vim.api.nvim_win_set_cursor(0, { 12, 12 })
            vim.lsp.buf.rename('amount')
            drive.wait('it', function() return drive.has('Account.java', 'this.amount = this.amount') end)
            vim.api.nvim_buf_set_lines(0, 0, 1, false, {})
            vim.cmd('wall')
        """
        )
        self.assert_files("project", "captured")

    def test_behind_characters_beyond_16_bits(self):
        self.drive(
            """
            drive.edit('Bank.java')
            vim.fn.search('open = false')
            vim.lsp.buf.rename('shut')
            drive.wait('it', function() return drive.has('Log.java', 'boolean shut') end)
            vim.cmd('wall')
        """
        )
        line = "        /* 🏦🏦 */ account.log.note(0); account.log.shut = false;\n"
        self.assertIn(line, (self.bank / "Bank.java").read_text())

    def test_in_lines_of_dos_with_tabs(self):
        self.drive(
            """
            drive.edit('Teller.java')
            vim.fn.search('done < rounds')
            vim.lsp.buf.rename('count')
            drive.wait('it', function() return drive.has('Teller.java', 'count < rounds') end)
            vim.cmd('wall')
        """
        )
        wanted = (HERE / "project" / "Teller.java").read_bytes().replace(b"done", b"count")
        self.assertEqual(wanted, (self.bank / "Teller.java").read_bytes())

    def test_where_things_are(self):
        self.drive(
            """
            drive.edit('Teller.java')
            vim.fn.search('account.add')
            vim.fn.search('add')
            vim.lsp.buf.definition()
            drive.wait('the declaration', function() return vim.fn.expand('%:t') == 'Account.java' end)
            local place = vim.api.nvim_win_get_cursor(0)
            vim.lsp.buf.references({ includeDeclaration = true })
            drive.wait('the uses', function() return #vim.fn.getqflist() == 2 end)
            drive.put('found', { vim.fn.json_encode({ place, vim.tbl_map(function(it)
              return { vim.fn.fnamemodify(vim.fn.bufname(it.bufnr), ':t'), it.lnum, it.col }
            end, vim.fn.getqflist()) }) })
        """
        )
        place, uses = json.loads((self.bank / "found").read_text())
        self.assertEqual([9, 9], place)
        self.assertEqual([["Account.java", 9, 10], ["Teller.java", 13, 12]], sorted(uses))

    def test_a_refusal_is_told_and_changes_nothing(self):
        told = self.drive(
            """
            drive.edit('Log.java')
            vim.api.nvim_win_set_cursor(0, { 2, 16 })
            vim.lsp.buf.rename('open')
            drive.wait('a word', function()
              return string.find(vim.fn.execute('messages'), 'is taken', 1, true)
            end)
            vim.cmd('wall')
        """
        )
        self.assertIn("the name is taken: Log.open has it there", told)
        self.assert_files("project")

    def test_a_file_outside_the_language(self):
        self.put("Util.java", "import java.util.List;\n")
        script = """
            drive.edit('Log.java')
            drive.wait('diagnostics', function() return #vim.diagnostic.get(0) == 1 end)
            drive.put('found', { vim.diagnostic.get(0)[1].message })
        """
        self.drive(script)
        self.assertIn("Util.java:1:1: this isn't in the subset", (self.bank / "found").read_text())
        self.drive(
            """
            drive.edit('Log.java')
            vim.api.nvim_win_set_cursor(0, { 5, 22 })
            vim.lsp.buf.rename('write')
            drive.wait('it', function() return drive.has('Teller.java', 'write(') end)
            vim.cmd('wall')
        """,
            options="{ files = { '[ABLST]*.java' } }",
        )
        self.assert_files("project", "renamed")

    def test_how_later_versions_start_it(self):
        """Where Neovim has no `vim.lsp.start`, something stands for it that does as it does."""
        self.drive(
            """
            drive.edit('Log.java')
            vim.api.nvim_win_set_cursor(0, { 5, 22 })
            vim.lsp.buf.rename('write')
            drive.wait('it', function() return drive.has('Teller.java', 'write(') end)
            vim.cmd('wall')
            drive.put('found', { vim.fn.json_encode(started) })
        """,
            before="if not vim.lsp.start then" + STAND_IN + "end",
        )
        self.assert_files("project", "renamed")
        started = json.loads((self.bank / "found").read_text())
        self.assertIn(["jref", 1], started or [["jref", 1]])


if __name__ == "__main__":
    unittest.main()
