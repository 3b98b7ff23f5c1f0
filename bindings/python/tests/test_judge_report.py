"""The report of a conversation: one page that is whole HTML, needs no network, and can be used by keyboard and ear."""
import html.parser
import os
import re
import shutil
import subprocess
import tempfile

from helping import frame, notice, patience, request
from judging import Case

from bullmyrtle.judge import Event, Report, Talk, summary_of

VOID = {"meta", "input", "br"}


class Page(html.parser.HTMLParser):
    """Reads a page: what isn't closed as it was opened, and each tag with its attributes."""

    def __init__(self, text):
        super().__init__()
        self.open, self.faults, self.tags, self.texts = [], [], [], []
        self.feed(text)
        self.faults += self.open

    def handle_starttag(self, tag, attributes):
        self.tags.append((tag, dict(attributes)))
        if tag not in VOID:
            self.open.append(tag)

    def handle_endtag(self, tag):
        if not self.open or self.open.pop() != tag:
            self.faults.append(f"/{tag}")

    def handle_data(self, data):
        self.texts.append(data)

    def all(self, name):
        return [attributes for tag, attributes in self.tags if tag == name]

    @property
    def text(self):
        return " ".join(" ".join(self.texts).split())


def talked(*seen, rules="lsp", framing="frames"):
    """The report of what was seen: sides, and what they wrote or how they ended."""
    with tempfile.TemporaryDirectory() as room:
        file = os.path.join(room, "talk.html")
        talk, report = Talk(rules, framing), Report(file, "a <b> & c")
        for at, (side, what) in enumerate(seen):
            event = Event(
                side, b"" if isinstance(what, str) else what, what if isinstance(what, str) else "", at * 10
            )
            found = talk.ended(side, what, event.at) if event.ended else talk.saw(side, event.data, event.at)
            report.take(talk.new, found, event)
        report.write(talk)
        talk.close()
        with open(file, encoding="utf-8") as it:
            return it.read()


SESSION = (
    ("client", frame(request(0, "initialize", {"capabilities": {}}))),
    ("server", frame({"jsonrpc": "2.0", "id": 0, "result": {"capabilities": {}}})),
    ("client", frame(notice("initialized", {}))),
    ("client", frame(request(1, "<script>alert(1)</script>", {"a": "</pre><script>"}))),
    ("client", frame(request(2, "shutdown"))),
    ("server", frame({"jsonrpc": "2.0", "id": 1, "error": {"code": -32601, "message": "</pre>"}})),
    ("server", frame(notice("$/progress", {"token": "t", "value": 1}))),
    ("server", b"Content-Length: 1\r\n\r\n{"),
    ("server", "closed"),
    ("client", "closed"),
)


class Reports(Case):
    def setUp(self):
        self.page = Page(talked(*SESSION))

    def test_whole(self):
        self.assertEqual(self.page.faults, [])

    def test_nothing_from_elsewhere(self):
        for tag, attributes in self.page.tags:
            self.assertNotIn("src", attributes, tag)
            self.assertTrue(attributes.get("href", "#").startswith("#"), attributes)
        policy = [it["content"] for it in self.page.all("meta") if it.get("http-equiv")]
        self.assertEqual(
            policy, ["default-src 'none'; style-src 'unsafe-inline'; script-src 'unsafe-inline'"]
        )

    def test_what_came_from_outside_is_text(self):
        self.assertEqual(len(self.page.all("script")), 1)
        self.assertIn("</pre><script>", self.page.text)
        self.assertIn("a <b> & c", self.page.text)

    def test_rules_that_are_broken_often_are_grouped(self):
        """Where a rule is broken more than once, each has a line with a count and the first place; else there is none."""
        answer = b'{"jsonrpc":"2.0","id":%d,"result":1}\n'
        seen = [("server", it) for it in (answer % 1, answer % 2, b"5\n")]
        how = {"rules": "jsonrpc", "framing": "lines"}
        self.assertNotIn("By rule", Page(talked(seen[0], seen[2], **how)).text)
        page = Page(talked(*seen, **how))
        self.assertEqual(page.faults, [])
        self.assertIn(
            "By rule level who count rule first must server 2 not-owed message 1 at byte 0", page.text
        )
        talk = Talk("jsonrpc", "lines")
        for it in (answer % 1, answer % 2, b"5\n"):
            talk.saw("server", it)
        offset = 2 * len(answer % 1)
        self.assertEqual(
            [it for it in summary_of(talk) if it.startswith("found: must")],
            [
                "found: must: server: not-owed (JSON-RPC 4.1, 5), 2 times, first in message 1 at byte 0",
                f"found: must: server: object (JSON-RPC 4), once, first in message 3 at byte {offset}",
            ],
        )

    def test_links_lead_to_messages(self):
        ids = [it["id"] for _, it in self.page.tags if "id" in it]
        self.assertEqual(len(ids), len(set(ids)))
        for it in self.page.all("a"):
            self.assertIn(it["href"][1:], ids)

    def test_answers_are_joined_to_requests(self):
        text = self.page.text
        self.assertIn("initialize request, id 0 83 bytes at byte 22", text)
        self.assertIn("answered by server 1 , after 10 ms", text)
        self.assertIn("answers client 1 , after 10 ms", text)
        self.assertIn("error, id 1", text)
        self.assertIn("not answered", text)

    def test_findings_are_in_place_and_listed(self):
        rows = [it for it in self.page.all("li") if "data-f" in it]
        self.assertEqual({it["id"]: it["data-f"] for it in rows}, {"c4": "note", "s3": "must", "s4": "must"})
        self.assertEqual(self.page.text.count("a progress for a token that nobody gave"), 2)
        self.assertIn("Findings 2 must, 0 should, 1 note", self.page.text)

    def test_keyboard_and_ear(self):
        """Each message is told by words, and each control has its label; headings stand in order."""
        self.assertEqual(self.page.all("html")[0]["lang"], "en")
        self.assertEqual(len(self.page.all("main")), 1)
        self.assertEqual(len(self.page.all("h1")), 1)
        self.assertEqual(len(self.page.all("details")), len(self.page.all("summary")))
        for it in range(1, 5):
            self.assertIn(f"client {it}:", self.page.text)
            self.assertIn(f"server {it}:", self.page.text)
        labels, controls = len(self.page.all("label")), len(self.page.all("input")) + len(
            self.page.all("select")
        )
        self.assertEqual(labels, controls)
        self.assertEqual(len(self.page.all("fieldset")), len(self.page.all("legend")))
        self.assertEqual(self.page.all("output")[0]["aria-live"], "polite")

    def test_empty(self):
        page = Page(talked())
        self.assertEqual(page.faults, [])
        self.assertIn("Nothing is found.", page.text)

    def test_batches_and_long_messages(self):
        batch = b'[{"jsonrpc":"2.0","method":"a","id":1},{"jsonrpc":"2.0","method":"b"},1,2,3]\n'
        page = Page(
            talked(
                ("client", batch),
                ("server", b'{"jsonrpc":"2.0","method":"' + b"x" * 9999 + b'"}\n'),
                rules="jsonrpc",
                framing="lines",
            )
        )
        self.assertEqual(page.faults, [])
        self.assertIn(
            "array: a request, id 1; b notification; (no method) no message and 2 more",
            page.text.replace(" ;", ";"),
        )
        self.assertLess(max(map(len, page.texts[page.texts.index("Messages") :])), 2100)

    def test_many_methods(self):
        """The most frequent ones can be filtered by, and all others together."""
        lines = [b'{"jsonrpc":"2.0","method":"m%d"}\n' % (it % 700) for it in range(1_300)]
        page = Page(talked(("client", b"".join(lines)), rules="jsonrpc", framing="lines"))
        self.assertEqual(page.faults, [])
        self.assertEqual(len(page.all("option")), 502)
        self.assertIn("(others)", page.texts)

    def test_contrast(self):
        """Each colour of a text can be read on each ground that it stands on (WCAG, 4.5 to 1)."""
        from bullmyrtle.judge._page import HEAD

        light, dark = re.findall(r":root \{(.*?)\}", HEAD, re.S)
        for text in (light, dark):
            colours = dict(re.findall(r"--([\w-]+): #([0-9a-f]{6})", text))
            for name in ("text", "dim", "link", "must", "should", "note"):
                for ground in ("back", "client", "server", "mark"):
                    ratio = contrast(colours[name], colours[ground])
                    self.assertGreaterEqual(ratio, 4.5, (name, ground))


# What a reader does in the page, and what is shown then.
USED = """<script>
const told = [], shown = () => rows.filter((it) => !it.hidden).map((it) => it.id).join(" ");
const choose = (name, value) => {
  if (name === "found") form.elements.found.checked = value;
  else if (name === "side") form.querySelector(`[name=side][value="${value}"]`).checked = true;
  else form.elements[name].value = value;
  form.dispatchEvent(new Event("change", { bubbles: true }));
  told.push(shown());
};
told.push(form.hidden, shown());
choose("side", "s");
choose("found", true);
told.push(form.elements.count.value);
choose("side", "");
choose("method", [...form.elements.method.options].find((it) => it.text === "initialize").value);
choose("found", false);
document.querySelector('.findings a[href="#s4"]').click();
told.push(shown());
const answers = document.querySelector("#s1 .links a");
answers.dispatchEvent(new FocusEvent("focusin", { bubbles: true }));
told.push(document.querySelector(".pair").id);
setTimeout(() => {
  told.push(document.activeElement.id);
  document.documentElement.dataset.told = told.join("|");
}, 50);
</script></body>"""


class InABrowser(Case):
    """The page's own script, in Chromium."""

    def test_filters_and_links(self):
        if shutil.which("chromium") is None:
            self.skipTest("chromium isn't there: the report's filters aren't tried")
        room = tempfile.mkdtemp()
        # (where a process of the browser's may still write as it ends)
        self.addCleanup(shutil.rmtree, room, ignore_errors=True)
        file = os.path.join(room, "talk.html")
        with open(file, "w", encoding="utf-8") as it:
            it.write(talked(*SESSION).replace("</body>", USED))
        words = [
            "chromium",
            "--headless",
            "--no-sandbox",
            "--disable-gpu",
            f"--user-data-dir={room}/profile",
        ]
        ended = subprocess.run(
            [*words, "--virtual-time-budget=5000", "--dump-dom", f"file://{file}"],
            env={**os.environ, "HOME": room},
            stdout=subprocess.PIPE,
            stderr=subprocess.DEVNULL,
            timeout=patience(120),
            check=False,
        )
        (told,) = re.findall(r'data-told="([^"]*)"', ended.stdout.decode())
        whole = "c1 s1 c2 c3 c4 s2 s3 s4"
        self.assertEqual(
            told.split("|"),
            [
                "false",
                whole,
                "s1 s2 s3 s4",
                "s3 s4",
                "2 of 8 messages",
                "c4 s3 s4",
                "",
                "c1 s1",
                whole,  # (a link leads to a message that the filters hide)
                "c1",  # (the request that this answers)
                "s4",
            ],
        )


def contrast(one, other):
    def light(colour):
        parts = [int(colour[at : at + 2], 16) / 255 for at in (0, 2, 4)]
        red, green, blue = [it / 12.92 if it <= 0.03928 else ((it + 0.055) / 1.055) ** 2.4 for it in parts]
        return 0.2126 * red + 0.7152 * green + 0.0722 * blue

    high, low = sorted((light(one), light(other)), reverse=True)
    return (high + 0.05) / (low + 0.05)
