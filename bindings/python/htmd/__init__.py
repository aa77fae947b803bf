"""HTML to Markdown and Markdown to HTML, by a converter that is proved to follow its rules.

>>> import htmd
>>> htmd.convert("<h1>Tea</h1><p>Use <b>fresh</b> water.</p>")
'# Tea\\n\\nUse **fresh** water.'
>>> [node["type"] for node in htmd.document("<h1>Tea</h1><p>Use <b>fresh</b> water.</p>")["children"]]
['heading', 'paragraph']
>>> htmd.markdown_to_html("Use **fresh** water.")
'<p>Use <strong>fresh</strong> water.</p>\\n'
"""

from htmd._convert import Refused, convert, document, markdown_to_html
from htmd._version import __version__

__all__ = ["Refused", "__version__", "convert", "document", "markdown_to_html"]
