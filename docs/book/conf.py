"""Sphinx's settings for the book; docs/book/make writes its sources."""

import sys
from pathlib import Path

sys.path.insert(0, str(Path(__file__).resolve().parent))
from lexers import AnttLexer, RattleLexer  # noqa: E402

project = "Mahyrei: what may be relied on"
author = "Mahyrei"
extensions = ["myst_parser"]
source_suffix = {".md": "markdown"}
myst_heading_anchors = 3
suppress_warnings = ["myst.header"]
html_theme = "basic"
html_title = project
html_short_title = "Mahyrei"
html_static_path = ["static"]
templates_path = ["templates"]
html_css_files = ["book.css"]
html_theme_options = {"navigation_with_keys": False}
html_sidebars = {"**": ["searchbox.html", "globaltoc.html"]}
html_show_sphinx = False
html_show_copyright = False
html_copy_source = False
html_show_sourcelink = False
html_use_index = False
html_permalinks = False
highlight_language = "text"
pygments_style = "default"


def setup(app):
    app.add_lexer("antt", AnttLexer)
    app.add_lexer("rattle", RattleLexer)
