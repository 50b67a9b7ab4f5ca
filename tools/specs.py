"""The files of the grammar's definitions, each with the file of the crate's source that it belongs to."""
import glob
import os

TOP = os.path.dirname(os.path.dirname(os.path.abspath(__file__)))
FILES = {"Grammar": "grammar.rs", "Params": "grammar/params.rs", "Atom": "grammar/expressions/atom.rs",
         "Expressions": "grammar/expressions.rs", "Operators": "grammar/expressions.rs", "Items": "grammar/items.rs", "Entry": "grammar.rs"}


def files():
    """The definitions: those of the grammar, and of its operators."""
    return sorted(path for crate in ("grammar", "operators") for path in glob.glob(os.path.join(TOP, "crates", crate, "specs", "*.antt")))
