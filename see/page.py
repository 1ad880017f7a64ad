"""One web page from files of page/ and some data: it needs no other file, no server and no network.

Data come as JSON (`about`) and as named bytes (`parts`), which the page has compressed. Texts of lines and plans stand
in the JSON alone, where no letter ends a script, and the page shows them as text. Its policy runs its own script alone.
"""
import base64
import hashlib
import json
import pathlib
import zlib

HERE = pathlib.Path(__file__).resolve().parent / 'page'


def joined(names):
    return '\n'.join((HERE / name).read_text().rstrip('\n') for name in names) + '\n'


def digest(text):
    return "'sha256-" + base64.b64encode(hashlib.sha256(text.encode()).digest()).decode() + "'"


def as_json(value):
    """JSON that can stand in a script element."""
    text = json.dumps(value, separators=(',', ':'))
    return text.replace('<', '\\u003c').replace('>', '\\u003e').replace('&', '\\u0026')


def packed(parts):
    """Where each part stands in the bytes, and the bytes as base64 of what zlib makes of them. Parts begin at 4s."""
    places, data = {}, bytearray()
    for name, part in parts.items():
        places[name] = [len(data), len(part)]
        data += part + bytes(-len(part) % 4)
    return places, base64.b64encode(zlib.compress(bytes(data), 9)).decode()


def page(title, body, styles, scripts, about, parts=None):
    """The text of a page: a title that is ours, names of files in page/, and its data."""
    places, data = packed(parts or {})
    held = f'<script type="text/plain" id="data">{data}</script>\n' if parts else ''
    style = joined(styles)
    script = "(() => {\n'use strict';\n" + joined(scripts) + '})();\n'
    policy = f"default-src 'none'; script-src {digest(script)}; style-src {digest(style)}; base-uri 'none'; " \
        "form-action 'none'"
    return f'''<!doctype html>
<html lang="en">
<head>
<meta charset="utf-8">
<meta http-equiv="Content-Security-Policy" content="{policy}">
<meta name="viewport" content="width=device-width, initial-scale=1">
<title>{title}</title>
<style>{style}</style>
</head>
<body>
{joined([body])}<script type="application/json" id="about">{as_json({**about, 'parts': places})}</script>
{held}<script>{script}</script>
</body>
</html>
'''
