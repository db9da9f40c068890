"""The colours of cells on exported pages: a lexer for Pygments, with the words of grammar.py."""
import grammar
from pygments.lexer import RegexLexer, words
from pygments.token import Comment, Keyword, Name, Number, Operator, Punctuation, String, Text


class RelviewLexer(RegexLexer):
    """Scripts of relview, and magics."""

    name = "relview"
    aliases = ["relview"]
    filenames = ["*.rv"]
    mimetypes = ["text/x-relview"]
    tokens = {
        "root": [
            (r"^\s*%.*$", Comment.Preproc),
            (r"#.*$", Comment.Single),
            (r'"[^"\n]{1,255}"', String),
            (r"\b[pi]-[12](?!\w)", Name.Builtin),
            (words(sorted(grammar.KEYWORDS), prefix=r"\b", suffix=r"\b"), Keyword),
            (words(sorted(grammar.BASE1 | grammar.BASE2), prefix=r"\b", suffix=r"\b"), Name.Builtin),
            (r"[0-9]+", Number.Integer),
            (r"[A-Za-z][A-Za-z0-9_]*(?=\s*\()", Name.Function),
            (r"[A-Za-z][A-Za-z0-9_]*", Name),
            (r"[-|&*\\/^=]", Operator),
            (r"[()\[\]{},;:.]", Punctuation),
            (r"\s+", Text),
            (r".", Text),
        ]
    }
