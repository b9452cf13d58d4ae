"""One file of HTML with a ladder: the data, and what draws them, with nothing from outside."""

from __future__ import annotations

import html
import json
import pathlib
from string import Template

HERE = pathlib.Path(__file__).parent
ESCAPES = {character: f"\\u{ord(character):04x}" for character in "<>&"}

PAGE = Template("""\
<!doctype html>
<html lang="en">
<head>
<meta charset="utf-8">
<meta name="viewport" content="width=device-width, initial-scale=1">
<meta name="color-scheme" content="light dark">
<meta http-equiv="Content-Security-Policy" content="default-src 'none'; style-src 'unsafe-inline'; \
script-src 'unsafe-inline'">
<title>$title</title>
<style>
body { margin: 0; background: Canvas; }
$style</style>
</head>
<body>
<main id="ladder"><noscript>This picture is drawn by JavaScript.</noscript></main>
<script type="application/json" id="data">$data</script>
<script>
$script
drawLadder(
  document.getElementById("ladder"),
  JSON.parse(document.getElementById("data").textContent),
  { all: location.hash === "#all" },
);
</script>
</body>
</html>
""")


def page(data: dict[str, object]) -> str:
    """The file's text."""
    style = (HERE / "ladder.css").read_text("utf-8")
    script = (HERE / "ladder.js").read_text("utf-8")
    return PAGE.substitute(title=html.escape(str(data["title"])), style=style, script=script, data=as_json(data))


def as_json(data: dict[str, object]) -> str:
    """Data that may stand in a script's element: none of their characters begins markup or ends the element."""
    text = json.dumps(data, ensure_ascii=True, separators=(",", ":"))
    return "".join(ESCAPES.get(character, character) for character in text)
