"""Tests of the pages' links, examples and words, and of the pictures of their figures:

    python3 tools/run_tests.py gate.test_docs

Words to avoid have ceilings in words.txt. `python3 tools/gate/test_docs.py` prints the places of each.
"""

import glob
import os
import re
import subprocess
import sys
import textwrap
import unittest

TOP = os.path.dirname(os.path.dirname(os.path.dirname(os.path.abspath(__file__))))


def text_of(*path):
    with open(os.path.join(TOP, *path), encoding="utf-8") as file:
        return file.read()


def anchors(page):
    """Returns the headings of a page as a link names them: in small letters, with dashes and without marks."""
    return {re.sub(r"[^\w\- ]", "", heading.lower()).replace(" ", "-") for heading in re.findall(r"^#+ (.*)$", page, re.M)}


def texts_of(*patterns):
    """Returns the texts of the files that these patterns name, by their paths."""
    found = [path for pattern in patterns for path in glob.glob(os.path.join(TOP, pattern), recursive=True)]
    return {path: text_of(path) for path in sorted(os.path.relpath(path, TOP) for path in found)}


def pages():
    """Returns the pages of the repository, by their paths."""
    return texts_of("README.md", "CONTRIBUTING.md", "docs/*.md")


def has_code(text, code):
    """Returns whether these lines are in a text, which may indent all of them further, as code within a type."""
    return any("\n" + textwrap.indent(textwrap.dedent(code), " " * width) in "\n" + text for width in range(0, 16, 4))


# Words


def lines_of_comments(text, mark):
    """Yields the comments of a file of code, with the numbers of their lines. `mark` begins a comment."""
    for number, line in enumerate(text.splitlines(), 1):
        if comment := re.search(rf"(?:^|\s){mark}(?:\s(.*))?$", line):
            yield number, comment[1] or ""


def paragraphs(lines):
    """Joins lines of text, with their numbers, into paragraphs, by the number of the first line. Code and the targets of links
    are left out."""
    texts, fence, first, before = {}, "", None, None
    for number, line in ((number, line.strip()) for number, line in lines):
        if line.startswith("```"):
            fence = "" if fence else line
        is_text = line and not line.startswith("```") and fence in ("", "```mermaid")
        is_new = first is None or number != before + 1 or re.match(r"- |\d+\. |\||#", line)
        if not is_text:
            first = None
        elif is_new:
            first, texts[number] = number, line
        else:
            texts[first] += " " + line
        before = number
    return {number: re.sub(r"`[^`]*`", "``", re.sub(r"\]\([^)\s]*\)", "]", text)) for number, text in texts.items()}


def written():
    """Returns the paragraphs of all pages and of the comments of all crates, by files and lines."""
    lines = {path: enumerate(page.splitlines(), 1) for path, page in pages().items()}
    for ending, mark in (("rt", "//[/!]?"), ("antt", "--")):
        files = texts_of(*(f"crates/*/{folder}/**/*.{ending}" for folder in ("src", "specs", "proofs")))
        lines.update({path: lines_of_comments(text, mark) for path, text in files.items()})
    parts = {path: paragraphs(of_file) for path, of_file in lines.items()}
    return {f"{path}:{number}": text for path, part in parts.items() for number, text in part.items()}


def ceilings():
    """Returns the rows of words.txt: a ceiling, the words as a regular expression, and a replacement."""
    lines = [line for line in text_of("tools", "gate", "words.txt").splitlines() if line and not line.startswith("#")]
    rows = [re.fullmatch(r"(\d+)  +(.*?\S)  +(\S.*)", line).groups() for line in lines]
    return [(int(most), words, instead) for most, words, instead in rows]


def places(words, texts):
    """Returns a file and a line for each time that these words are written."""
    return [place for place, text in texts.items() for _ in re.findall(words, text)]


class Docs(unittest.TestCase):
    def test_links_lead_to_files_and_headings(self):
        for name, page in pages().items():
            for link in re.findall(r"\]\(([^)\s]+)\)", page):
                if re.match(r"\w+://", link):
                    continue
                with self.subTest(page=name, link=link):
                    path, _, heading = link.partition("#")
                    target = os.path.normpath(os.path.join(os.path.dirname(name), path)) if path else name
                    self.assertTrue(os.path.exists(os.path.join(TOP, target)))
                    if heading:
                        self.assertIn(heading, anchors(text_of(target)))

    def test_the_readme_names_each_page(self):
        named = set(re.findall(r"\]\(docs/([^)#]+\.md)\)", text_of("README.md")))
        self.assertEqual(named, {os.path.basename(path) for path in pages() if path.startswith("docs/")})

    def test_the_guide_has_the_example_that_is_proved_and_run(self):
        example = text_of("crates", "status_tests", "src", "example.rt")
        tested = re.findall(r"^// The example begins\.\n(.*?)^// The example ends\.$", example, re.M | re.S)
        self.assertEqual(len(tested), 1)
        self.assertIn(tested[0], re.findall(r"^```rust\n(.*?)^```$", text_of("docs", "GUIDE.md"), re.M | re.S))

    def test_the_missed_changes_are_tested(self):
        """The names of two rows, and the name of a test."""
        page, rows = text_of("docs", "MISSED_CHANGES.md"), text_of("tools", "status_program", "rows", "replay_histories.txt")
        for name in re.search(r"the rows\s+`([^`]+)`\s+and\s+`([^`]+)`", page).groups():
            self.assertIn(f"\n== {' '.join(name.split())}\n", rows)
        name, path = re.search(r"The test\s+`(\w+)`\s+in\s+\[this file\]\((.*?)\)\s+runs both", page).groups()
        self.assertIn(f"def {name}(self)", text_of("docs", path))

    def test_the_readme_is_short(self):
        self.assertLessEqual(len(text_of("README.md").split()), 1200)

    def test_the_manual_page_has_each_option_of_the_help(self):
        page = text_of("docs", "GIT_DIRTY.md")
        synopsis, options = page[page.index("## Synopsis") : page.index("## Lines")].split("## Options")
        helped = re.findall(r"^  (?:(-\w)(?:, )?)? *(--\w+)?(?: <\w+>)?  ", text_of("crates", "git_dirty", "stdout"), re.M)
        words = [word for pair in helped for word in pair if word and word != "--help"]
        self.assertGreater(len(words), 6)
        for word in words:
            with self.subTest(word=word):
                self.assertRegex(synopsis + options, rf"(?<![\w-]){word}\b")

    def test_the_manual_page_has_each_extension_that_is_known(self):
        code = text_of("crates", "git_repository", "src", "format.rt")
        known = re.findall(r"^const (?:OLD|NEW)_EXTENSIONS.*?^\];", code, re.M | re.S)
        names = [name for text in known for name in re.findall(r'b"([\w-]+)"', text)]
        page = text_of("docs", "GIT_DIRTY.md")
        listed = re.search(r"these extensions are known, and another one is a failure:\s(.*?)\. In version 0", page, re.S).group(1)
        shown = [word.lower() for word in re.findall(r"`([\w-]+)`", listed)]
        self.assertEqual([word for word in shown if word not in ("sha1", "sha256", "files")], names)

    def test_the_files_that_are_named_are_there(self):
        # A file of a repository that bench/folder.py makes.
        others = {"crates/part0000/file00.txt"}
        for name, page in pages().items():
            for path in set(re.findall(r"`((?:tools|crates|bench)/[\w./+-]+\.\w+)`", page)) - others:
                with self.subTest(page=name, path=path):
                    self.assertTrue(os.path.isfile(os.path.join(TOP, path)))

    def test_the_examples_for_callers_are_quoted_from_what_is_proved(self):
        page = text_of("docs", "GUIDE.md")
        examples = re.findall(r"^```rust\n(.*?)^```$.*?\]\(([^)\s]+)\)", page, re.M | re.S)
        self.assertGreater(len(examples), 0)
        self.assertEqual(len(examples), page.count("```rust"))
        for example, link in examples:
            with self.subTest(link=link, example=example):
                path = os.path.normpath(os.path.join("docs", link))
                self.assertRegex(path, r"^crates/(git_checkout|status_callers|status_tests|program_tests)/src/")
                self.assertIn("\n" + example, "\n" + text_of(path))

    def test_the_names_for_callers_are_in_their_modules(self):
        rows = re.findall(r"^\| `(\w+)` \| (crate )?`([\w:]+)` \|", text_of("docs", "GUIDE.md"), re.M)
        self.assertGreater(len(rows), 30)
        for name, is_crate, module in rows:
            with self.subTest(name=name, module=module):
                if is_crate:
                    self.assertIn(name, re.findall(r"\w+", text_of("crates", module, "src", "lib.rt")))
                    continue
                # A module of gix_status is in its root, or in that of a crate which its root re-exports, or a file of such a
                # crate.
                top, _, inner = module.partition("::")
                root = text_of("crates", "gix_status", "src", "lib.rt")
                within = re.compile(rf"^pub mod {top} \{{\n(.*?)^\}}$", re.M | re.S)
                if own := within.search(root):
                    names = own[1]
                else:
                    self.assertRegex(root, rf"\b{top}\b")
                    files = texts_of(f"crates/status_*/src/{top}.rt", f"crates/status_*/src/{top}/mod.rt")
                    roots = texts_of("crates/status_*/src/lib.rt")
                    names = "\n".join([*files.values(), *(part for text in roots.values() for part in within.findall(text))])
                if inner:
                    self.assertRegex(names, rf"\b{inner}\b")
                    inside = (f"crates/status_*/src/{folder}{inner}.rt" for folder in (top + "/", ""))
                    files = "\n".join(texts_of(*inside).values())
                    parents = "\n".join(texts_of(f"crates/status_*/src/{top}/mod.rt").values())
                    names = files or re.search(rf"^pub mod {inner} \{{\n(.*?)^\}}$", parents, re.M | re.S)[1]
                self.assertRegex(names, rf"\bpub (use|struct|enum)\b[^;{{]*\{{?[^;}}]*\b{name}\b")

    def test_the_members_that_an_interface_has_to_write_are_those_of_its_trait(self):
        traits = {}
        for path, text in texts_of("crates/*/src/**/*.rt").items():
            for trait, body in re.findall(r"^pub trait (\w+)[^\n]*\{\n(.*?)^\}", text, re.M | re.S):
                members = re.findall(r"^    ghost (\w+): \{ (.*?) \}(?: = \{.*?\})?;$", body, re.M | re.S)
                # A type may have several lines.
                traits.setdefault(trait, []).append((path, {(member, " ".join(kind.split())) for member, kind in members}))
        rows = re.findall(r"^\| `([\w:]+)::(\w+)` \| `([^`]*)` \|", text_of("docs", "GHOST_MEMBERS.md"), re.M)
        shown = {}
        for trait, member, kind in rows:
            shown.setdefault(trait, set()).add((member, kind))
        self.assertGreater(len(shown), 12)
        for trait, members in shown.items():
            module, _, name = trait.rpartition("::")
            with self.subTest(trait=trait):
                self.assertEqual([found for path, found in traits[name] if f"/{module}/" in path or not module], [members])

    def test_each_note_on_proofs_has_code_of_the_file_that_is_linked_before_it(self):
        for note in re.split(r"^### ", text_of("docs", "PROVING.md"), flags=re.M)[1:]:
            parts = re.split(r"^```\w+\n(.*?)^```$", note, flags=re.M | re.S)
            with self.subTest(note=note.partition("\n")[0]):
                self.assertGreater(len(parts), 1)
            for before, code in zip(parts[::2], parts[1::2]):
                with self.subTest(code=code):
                    link = re.findall(r"\]\((\.\./crates/[^)\s]+)\):\n\n$", before)
                    self.assertEqual(len(link), 1)
                    self.assertIn("\n" + code, "\n" + text_of("docs", *link))

    def test_each_note_on_proofs_is_in_the_table_at_the_top(self):
        top, _, notes = text_of("docs", "PROVING.md").partition("\n### ")
        linked = re.findall(r"\]\(#([^)]*)\)", top)
        self.assertEqual(len(linked), len(set(linked)))
        headings = re.findall(r"^### .*$", "### " + notes, re.M)
        self.assertEqual(set(linked), anchors("\n".join(headings)) | {"notes-without-an-example"})

    def test_the_code_for_newcomers_is_of_the_file_that_is_linked_before_it(self):
        parts = re.split(r"^ *```(?:rust|antt|python|edit|row)\n(.*?)^ *```$", text_of("CONTRIBUTING.md"), flags=re.M | re.S)
        self.assertGreater(len(parts), 12)
        for before, code in zip(parts[::2], parts[1::2]):
            with self.subTest(code=code):
                link = re.findall(r"\]\(((?:crates|tools)/[^)\s]+)\)", before)[-1]
                self.assertTrue(has_code(text_of(link), code), link)

    def test_the_functions_that_newcomers_prove_are_there(self):
        paths = re.findall(r"`rt check --only ([a-z_:]+)`", text_of("CONTRIBUTING.md"))
        self.assertGreater(len(paths), 2)
        for path in paths:
            module, _, function = path.rpartition("::")
            with self.subTest(path=path):
                files = texts_of(f"crates/*/src/{(module or function).replace('::', '/')}.rt")
                self.assertRegex("\n".join(files.values()), rf"\bfn {function}\b" if module else ".")

    def test_each_crate_begins_with_its_sentence(self):
        lines = re.findall(r"^(\w+):", text_of("crates.txt"), re.M)
        shown = re.findall(r"^\| `(\w+)` \| (.*) \|$", text_of("docs", "ARCHITECTURE.md"), re.M)
        self.assertEqual([name for name, _ in shown if name in lines], lines)
        for name, sentence in shown:
            with self.subTest(crate=name):
                root = "lib.rt" if os.path.exists(os.path.join(TOP, "crates", name, "src", "lib.rt")) else "main.rt"
                first = re.match(r"((?://! .*\n)+)", text_of("crates", name, "src", root)).group(1)
                self.assertEqual(" ".join(first.replace("//! ", "").split()), sentence)

    def test_the_files_that_architecture_names_are_there(self):
        named = set(re.findall(r"(?<![\w./])(?:crates|docs|tools|bench)/[\w./-]*\w/?", text_of("docs", "ARCHITECTURE.md")))
        self.assertGreater(len(named), 30)
        for path in named:
            with self.subTest(path=path):
                self.assertTrue(os.path.exists(os.path.join(TOP, path)))

    def test_the_words_to_search_for_are_in_the_folders_that_are_named(self):
        page = text_of("docs", "ARCHITECTURE.md")
        table = page[page.index("| You add | Search for | In |") :].partition("\n\n")[0]
        rows = re.findall(r"^\| [^|]* \| `(\w+)` \| ((?:`[\w/.]+` ?)+) \|$", table, re.M)
        self.assertEqual(len(rows), table.count("\n") - 1)
        for word, paths in rows:
            for path in re.findall(r"`([^`]+)`", paths):
                with self.subTest(word=word, path=path):
                    within = [f"{path}/**/*.{ending}" for ending in ("rt", "antt", "py")]
                    files = texts_of(path) if os.path.isfile(os.path.join(TOP, path)) else texts_of(*within)
                    self.assertRegex("\n".join(files.values()), rf"\b{word}\b")

    def test_the_page_has_the_numbers_of_tests(self):
        functions = sum(len(re.findall(r"^ +def test_", text, re.M)) for text in texts_of("tools/*/*.py").values())
        tests = sum(text.count("#[test]") for text in texts_of("crates/*/src/**/*.rt").values())
        rows = sum(len(re.findall("^== ", text, re.M)) for text in texts_of("tools/status_program/rows/*.txt").values())
        beside = sum(len(re.findall("^=[=!] ", text, re.M)) for text in texts_of("tools/*/*rows.txt").values())
        words = f"{tests} tests in Rattle, .* {rows} rows of text, .* {beside} rows next to git, .* {functions} test functions in Python"
        self.assertRegex(" ".join(text_of("docs", "EVIDENCE.md").split()), words)

    def linked_definitions(self):
        """Returns the files of specs/ that PROOFS links, with the names of these links, by crates."""
        page = text_of("docs", "PROOFS.md")
        rows = re.findall(r"^\| `(\w+)` \| (.*) \|$", page[page.index("## Definitions") :], re.M)
        return {crate: re.findall(rf"\[`(\w+)`\]\(\.\./crates/{crate}/specs/([\w/]+)\.antt\)", row) for crate, row in rows}

    def test_each_file_of_definitions_is_linked_once(self):
        files = {}
        for path in texts_of("crates/*/specs/**/*.antt"):
            _, crate, _, inside = path.split(os.sep, 3)
            # A file Lib only names the others.
            files.setdefault(crate, set()).update({inside.removesuffix(".antt")} - {"Lib"})
        linked = self.linked_definitions()
        self.assertEqual(set(linked), set(files))
        for crate, links in linked.items():
            with self.subTest(crate=crate):
                self.assertEqual(sorted(path for _, path in links), sorted(files[crate]))

    def test_the_files_of_definitions_are_those_that_the_links_name(self):
        for crate, links in self.linked_definitions().items():
            for name, path in links:
                with self.subTest(crate=crate, name=name):
                    self.assertEqual(name, path)
                    self.assertRegex(text_of("crates", crate, "specs", path + ".antt"), r"(?m)^(\S.* )?(abbrev|unfoldable|record|data|module)\b")

    def test_the_pictures_have_the_figures_of_the_page(self):
        command = [sys.executable, os.path.join(TOP, "bench", "plot.py"), "--check"]
        ran = subprocess.run(command, capture_output=True, text=True)
        self.assertEqual((ran.returncode, ran.stderr), (0, ""))


class Words(unittest.TestCase):
    def test_words_to_avoid_are_written_no_more_often(self):
        texts = written()
        for most, words, instead in ceilings():
            there = places(words, texts)
            with self.subTest(words=words):
                self.assertLessEqual(len(there), most, f"at {len(there)} places, and at most {most}; write: {instead}")
            if len(there) < most:
                print(f"tools/gate/words.txt: lower {most} to {len(there)}: {words}")

    def test_comments_are_found(self):
        text = "//! One\nfn f() {} // two\n    /// three\nlet url = \"https://four\";\n//\n"
        self.assertEqual(list(lines_of_comments(text, "//[/!]?")), [(1, "One"), (2, "two"), (3, "three"), (5, "")])
        self.assertEqual(list(lines_of_comments("-- one\nx = y --z\n--\n", "--")), [(1, "one"), (3, "")])

    def test_paragraphs_are_joined_without_code(self):
        page = "want\nof `want of` memory\n\n```rust\nwhere the\n```\n- [one](want)\n  two\n- three\n```mermaid\nfour\n```\n"
        joined = {1: "want of `` memory", 7: "- [one] two", 9: "- three", 11: "four"}
        self.assertEqual(paragraphs(enumerate(page.splitlines(), 1)), joined)
        self.assertEqual(paragraphs([(1, "one"), (3, "two"), (4, "three")]), {1: "one", 3: "two three"})

    def test_words_to_avoid_are_found_wherever_they_are(self):
        texts = {"a:1": "Just where it stands, stands it.", "b:2": "It understands."}
        self.assertEqual(places(r"\bstands\b", texts), ["a:1", "a:1"])


if __name__ == "__main__":
    everything = written()
    for limit, expression, _ in ceilings():
        for place in places(expression, everything) if limit else []:
            print(f"{expression}: {place}")
