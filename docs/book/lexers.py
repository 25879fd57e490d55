"""Pygments lexers for Rattle (.rt) and antt (.antt)."""

from pygments.lexer import RegexLexer, bygroups
from pygments.token import Comment, Keyword, Name, Number, Operator, Punctuation, String, Text

NAME = r"[^\s(){}.;,@\"«»]+"


class AnttLexer(RegexLexer):
    """antt, the language of definitions, statements and proofs."""

    name, aliases, filenames = "antt", ["antt"], ["*.antt"]
    tokens = {
        "root": [
            (r"\s+", Text),
            (r"--.*", Comment.Single),
            (r'"(?:\\.|[^"\\])*"', String),
            (
                r"(use|mod|module|where|record|data|let|in|if|then-by|pub|abbrev|unfoldable)(?=\s|$)",
                Keyword,
            ),
            (r"(Type)(\s+)(\d+)", bygroups(Keyword.Type, Text, Number)),
            (r"\d+(?![^\s(){}.;,@])", Number),
            (r"(→|≡|≤|<|×|λ|:|=|\+|-|\*|/|%|\^|⊎|∷|\|\|)(?=[\s().;,]|$)", Operator),
            (r"[(){}.;,@«»]", Punctuation),
            (NAME, Name),
        ]
    }


class RattleLexer(RegexLexer):
    """Rattle: Rust with contracts, whose clauses are antt."""

    name, aliases, filenames = "Rattle", ["rattle"], ["*.rt"]
    tokens = {
        "root": [
            (r"\s+", Text),
            (r"//.*", Comment.Single),
            (r'"(?:\\.|[^"\\])*"', String),
            (r"#!?\[[^\]]*\]", Comment.Preproc),
            (
                r"(pub|fn|extern|use|ghost|mod|struct|enum|const|let|mut|if|else|while|return|match|as|requires|"
                r"ensures|continue|for|in)(?![\w-])",
                Keyword,
            ),
            (r"(u8|u16|u32|u64|usize|bool)(?![\w-])", Keyword.Type),
            (r"\d[\w]*", Number),
            (r"->|[&|^+*/%<>=!→≡≤×λ]+", Operator),
            (r"[(){}\[\].;:,]", Punctuation),
            (r"[\w'·₀-₉-]+", Name),
            (r".", Text),
        ]
    }
