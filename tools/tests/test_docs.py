"""Whether the pages of docs/ name what is there: the crates, their public calls, and the pages that they point to."""
import os
import re
import unittest

TOP = os.path.dirname(os.path.dirname(os.path.dirname(os.path.realpath(__file__))))
# Crates of tests promise nothing to a user.
OF_TESTS = {"test_libraries", "test_certificates", "test_rows"}
# What a row names that is no function: types and fields of contracts, clauses, and words of the prose.
NAME = re.compile(r"`([a-z_]+)`")


def text_of(*path):
    with open(os.path.join(TOP, *path), encoding="utf-8") as file:
        return file.read()


def crates():
    lines = (line.partition("#")[0] for line in text_of("crates.txt").splitlines())
    return {line.partition(":")[0].split()[0] for line in lines if ":" in line}


def sources(crate):
    folder = os.path.join(TOP, "crates", crate, "src")
    return "\n".join(text_of("crates", crate, "src", name) for name in os.listdir(folder) if name.endswith(".rt"))


def rows(page):
    """The crates and the last cell of each row of a table whose first cell names crates."""
    for line in text_of("docs", page).splitlines():
        cells = [cell.strip() for cell in line.strip("|").split(" | ")]
        named = NAME.findall(cells[0]) if line.startswith("| `") else []
        if named and set(named) <= crates():
            yield named, cells[-1]


def public_names(crate):
    text = sources(crate)
    return set(re.findall(r"\b(?:fn|struct|enum|trait|ensures) ([A-Za-z_]+)", text)) | set(re.findall(r"^\s+pub ([a-z_]+):", text, re.M))


class Pages(unittest.TestCase):
    def test_each_crate_has_its_row(self):
        proved = {name for named, _ in rows("proved.md") for name in named}
        missing = crates() - OF_TESTS - proved - {"qecode_commands", "qc_program", "dense_commands", "dense_program"}
        self.assertFalse(missing, "docs/proved.md has no row of these crates")

    def test_the_calls_of_a_row_are_there(self):
        for named, cell in rows("proved.md"):
            known = set().union(*map(public_names, named))
            # "`close` to `meets`" names the ends of a list.
            calls = re.findall(r"`([A-Za-z_]+)`", cell)
            lost = [call for call in calls if call not in known]
            self.assertFalse(lost, f"the row of {', '.join(named)} in docs/proved.md names what its crate hasn't")

    def test_pages_point_to_pages(self):
        pages = [os.path.join("docs", name) for name in os.listdir(os.path.join(TOP, "docs")) if name.endswith(".md")]
        for page in [*pages, "README.md", "CONTRIBUTING.md", os.path.join("bench", "README.md")]:
            for path in re.findall(r"`((?:docs|bench|tools|examples|crates)/[A-Za-z0-9_./-]*[A-Za-z0-9_])`", text_of(page)):
                # What a build makes isn't there in a fresh checkout.
                with self.subTest(page=page, path=path):
                    self.assertTrue("/out/" in path or os.path.exists(os.path.join(TOP, path)), f"{page} points to {path}")


if __name__ == "__main__":
    unittest.main()
