"""Makes a page: one file that has all it needs. Its data and, if it has plots, plotly's script are packed by gzip, as
base64, and web/begin.js unpacks them in the browser."""
import base64
import gzip
import html
import json
import os

from . import ends
from .ends import package, read_bytes

WEB = os.path.join(os.path.dirname(os.path.abspath(__file__)), 'web')
BEGINS = '<!DOCTYPE html>\n<!-- a page of tcreplay -->\n'

PAGE = BEGINS + """<html lang="en">
<head>
<meta charset="utf-8">
<meta name="viewport" content="width=device-width, initial-scale=1">
<meta name="color-scheme" content="light dark">
<title>%(title)s</title>
<style>
%(style)s
</style>
</head>
<body>
<noscript><p class="alarm">This page needs a browser that runs its scripts.</p></noscript>
<p class="alarm" id="unpacking" hidden></p>
%(body)s
%(packed)s
%(scripts)s
<script>
%(begin)s
</script>
</body>
</html>
"""


def look_ahead(path, force=False, inputs=()):
    """Sees that a page may be made under this name: before the work begins, and again before the page gets its name."""
    ends.can_be_written(path)
    ends.can_be_replaced(path, [BEGINS.encode()], force, inputs)


def plotly_script():
    return package('plotly.offline', 'python3-plotly').get_plotlyjs()


def text_of(*path):
    return read_bytes(os.path.join(*path)).decode()


def escaped(text):
    return html.escape(str(text))


def json_of(data):
    """As JSON that no part of a page can take for its own end, packed or not."""
    return json.dumps(data, separators=(',', ':'), allow_nan=False).replace('<', '\\u003c')


def packed(name, text):
    """A part of the page that the browser unpacks."""
    told = base64.b64encode(gzip.compress(text.encode(), 9, mtime=0)).decode()
    return '<script type="text/plain" id="%s">%s</script>' % (name, told)


def write_page(path, title, folder, name, data, has_plots, force=False, inputs=()):
    """Writes the page of NAME.html and NAME.js of a folder, with this data."""
    parts = [packed('packed-data', json_of(data))]
    parts += [packed('packed-plotly', plotly_script())] if has_plots else []
    scripts = [text_of(WEB, 'page.js'), text_of(folder, name + '.js')]
    page = PAGE % {
        'title': escaped(title), 'style': text_of(WEB, 'page.css'), 'body': text_of(folder, name + '.html'),
        'packed': '\n'.join(parts), 'begin': text_of(WEB, 'begin.js'),
        'scripts': '\n'.join('<script type="text/plain" class="own-script">\n%s\n</script>' % each for each in scripts)}
    with ends.written(path, lambda: look_ahead(path, force, inputs)) as file:
        file.write(page)
