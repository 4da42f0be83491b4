/** Tests `cleanPage`, rule by rule. */
import assert from "node:assert/strict";
import { readFile } from "node:fs/promises";
import { describe } from "node:test";
import { isShownElement } from "../src/shown.js";
import { CLEAN_BLOCKS, CLEAN_INLINES } from "../src/clean_tree.js";
import { BROWSERS, it } from "./browsers.mjs";
import { CleaningPage } from "./clean_page.mjs";

const LINK = "https://example.org/a?b=1&amp;c=2";

/** For each rule: pages, each with its expected result, and with options. */
const RULES = {
  "ordinary HTML is read as browsers read it": [
    ["<!doctype html><html><head><title>t</title></head><body><p>a</body></html>", "<p>a</p>"],
    ["<P CLASS=x>A &copy; B & C<p>two", "<p>A © B &amp; C</p><p>two</p>"],
    ["a < b > c &#0;&notit; <br/>", "<p>a &lt; b &gt; c \ufffd¬it;<br></p>"],
    [
      "<?xml version='1.0'?><![CDATA[x]]>a<!-- b -->c<!--[if mso]><p>d</p><![endif]-->",
      "<p>ac</p>",
    ],
    ["<![if !mso]><p>a</p><![endif]>", "<p>a</p>"],
    ["a</br>b</img>c<p/>d", "<p>a<br>bc</p><p>d</p>"],
    ["<b>a<i>b</b>c</i>", "<p><b>a<i>b</i></b><i>c</i></p>"],
    ["x\u0000y\r\nz&#13;w", "<p>xy z w</p>"],
    ["\ud800a\udc00😀", "<p>\ufffda\ufffd😀</p>"],
    ["a\ud800\ue000\udc00\ufffd", "<p>a\ufffd\ue000\ufffd\ufffd</p>"],
    ["\ufeffa", "<p>a</p>"],
    ["", ""],
    [" \n ", ""],
  ],
  "Word's items become lists": [
    [
      "<p style='mso-list:l0 level1 lfo1'><![if !supportLists]><span style='mso-list:Ignore'>·<span>" +
        "&nbsp;&nbsp;</span></span><![endif]>a</p>\n<p style='mso-list:l0 level2 lfo1'>" +
        "<span style='mso-list:Ignore'>o</span>b</p><p style='mso-list:l0 level1 lfo1'>" +
        "<span style='mso-list:Ignore'>·</span>c</p><p>d</p>",
      "<ul><li>a<ul><li>b</li></ul></li><li>c</li></ul><p>d</p>",
    ],
    [
      "<p style='mso-list:l0 level1 lfo1'><span style='mso-list:Ignore'>3.</span>a</p>" +
        "<p style='mso-list:l0 level2 lfo1'><span style='mso-list:Ignore'>b)</span>b</p>" +
        "<p style='mso-list:l0 level3 lfo1'><span style='mso-list:Ignore'>IV.</span>c</p>",
      '<ol start="3"><li>a<ol type="a"><li>b<ol type="I"><li>c</li></ol></li></ol></li></ol>',
    ],
    [
      "<p style='mso-list:l0 level1 lfo1'>1.&nbsp;&nbsp; <b>a</b></p><p style='mso-list:l1 level1 lfo2'>•\u00a0b",
      "<ol><li><b>a</b></li></ol><ul><li>b</li></ul>",
    ],
    ["<p style='mso-list:l0 level3 lfo1'>§ a</p>", "<ul><ul><ul><li>a</li></ul></ul></ul>"],
    ["<h1 style='mso-list:l0 level1 lfo1'>1. a</h1>", "<h1>1. a</h1>"],
    ["<p style='mso-list:none'>a</p>", "<p>a</p>"],
  ],
  "elements that act, or hold no text, are removed with their content": [
    ["a<script>b</script><style>c</style><noscript>d</noscript><template>e</template>", "<p>a</p>"],
    [
      "a<iframe>b</iframe><object>c</object><embed><svg><text>d</text></svg><math><mi>e</mi></math>",
      "<p>a</p>",
    ],
    [
      "a<audio>b</audio><video>c</video><canvas>d</canvas><input><textarea>e</textarea>",
      "<p>a</p>",
    ],
    ["a<select><option>b</select><datalist><option>c</datalist><meta><link><base>", "<p>a</p>"],
    ["<p hidden>a</p><p style='display: none'>b</p><p style='mso-hide:all'>c</p>d", "<p>d</p>"],
    ["a<br class='Apple-interchange-newline'>", "<p>a</p>"],
    ["<xml><w:Document>a</w:Document></xml>b", "<p>b</p>"],
  ],
  "elements get the names of the tables": [
    [
      "<strike>a</strike><tt>b</tt><acronym>c</acronym>",
      "<p><s>a</s><code>b</code><abbr>c</abbr></p>",
    ],
    [
      "<big>a</big><nobr>b</nobr><bdo dir=rtl>c</bdo>",
      '<p><span style="font-size: large;">a</span>b<span dir="rtl">c</span></p>',
    ],
    ["<section><h2>a</h2><article>b</article></section>", "<h2>a</h2><p>b</p>"],
    ["<center>a</center>", '<p style="text-align: center;">a</p>'],
    ["<menu><li>a</menu><xmp><b></xmp>", "<ul><li>a</li></ul><pre>&lt;b&gt;</pre>"],
    ["<b style='font-weight: normal'><p>a</p></b>", "<p>a</p>"],
    [
      "<i style='font-style: normal'>a</i><b style='font-weight: 700'>b</b>",
      '<p>a<b style="font-weight: 700;">b</b></p>',
    ],
    ["<o:p>a</o:p><x-y>b</x-y><button>c</button><label>d</label>", "<p>abcd</p>"],
    ["<form>a<fieldset><legend>b</legend>c</fieldset></form>", "<p>a</p><p>b</p><p>c</p>"],
  ],
  "attributes are those of the tables": [
    ["<p id=a name=b onclick=c data-d=e role=f aria-label=g tabindex=1>x", "<p>x</p>"],
    [
      "<p dir=rtl lang=de title='a \"b\" <c>'>x",
      '<p dir="rtl" lang="de" title="a &quot;b&quot; &lt;c&gt;">x</p>',
    ],
    [`<a href=' ${LINK} ' target=_blank ping=x>a</a>`, `<p><a href="${LINK}">a</a></p>`],
    [
      "<a href='java&#10;script:x'>a</a><a href='data:text/html,x'>b</a><a href=x>c</a>",
      "<p>abc</p>",
    ],
    ["<a href=x>a</a>", '<p><a href="x">a</a></p>', { relative: true }],
    ["<a name=x>a</a><a title=t>b</a>", '<p>a<span title="t">b</span></p>'],
    [
      "<img src=https://x/i.png alt=A width=20 height=50% srcset=y onerror=x>",
      '<p><img src="https://x/i.png" alt="A" width="20"></p>',
    ],
    [
      "<img src=cid:a@b><img src=data:image/png;base64,AA==>",
      '<p><img src="cid:a@b"><img src="data:image/png;base64,AA=="></p>',
    ],
    [
      "<img src=file:///x.png alt='A photo'>, <img src='data:image/svg+xml,<svg/>'>",
      "<p>A photo,</p>",
    ],
    [
      "<ol start=3 type=a reversed=x><li value=7 type=x>a</ol>",
      '<ol start="3" type="a" reversed=""><li value="7">a</li></ol>',
    ],
    [
      "<table><tr><td colspan=2 bgcolor=red headers=x>a<th scope=col rowspan=0>b</table>",
      '<table><tbody><tr><td colspan="2">a</td><th scope="col">b</th></tr></tbody></table>',
    ],
    [
      "<font color=#F00 size=+2 face='Arial'>a</font><font color=red>b</font><font color=x>c</font>",
      '<p><font color="#ff0000" size="+2" face="Arial">a</font><font color="#ff0000">b</font>c</p>',
    ],
    ["<p class='a b'>x", "<p>x</p>"],
    ["<p class='a b'>x", '<p class="b">x</p>', { classes: ["b", "c"] }],
    ["<p contenteditable=false>x", "<p>x</p>"],
    [
      "<p contenteditable=FALSE>x<b contenteditable>y</b>",
      '<p contenteditable="false">x<b>y</b></p>',
      { locked: true },
    ],
    [
      "<p align=right>a<div align=justify>b</div><h1 align=x>c",
      '<p style="text-align: right;">a</p><p style="text-align: justify;">b</p><h1>c</h1>',
    ],
    ["<p align=right style='text-align: left'>a", '<p style="text-align: left;">a</p>'],
  ],
  "styles are formats, alignment and margins": [
    [
      "<p style='position: fixed; top: 0; z-index: 9; background: url(x); --a: b; opacity: 0'>a",
      "<p>a</p>",
    ],
    [
      "<p style='color: red; background: #ff0'>a",
      '<p style="color: rgb(255, 0, 0); background-color: rgb(255, 255, 0);">a</p>',
    ],
    [
      "<p style='color: rgba(0, 0, 0, .5)'>a<p style='color: transparent'>b",
      '<p style="color: rgb(128, 128, 128);">a</p><p>b</p>',
    ],
    ["<p style='color: hsl(120 100% 50%)'>a", '<p style="color: rgb(0, 255, 0);">a</p>'],
    [
      "<p style='color: windowtext'>a<p style='color: currentcolor'>b<p style='color: inherit'>c",
      "<p>a</p><p>b</p><p>c</p>",
    ],
    [
      "<p style='font-size: 11pt'>a<p style='font-size: large'>b<p style='font-size: 900px'>c",
      '<p style="font-size: 15px;">a</p><p style="font-size: large;">b</p><p>c</p>',
    ],
    [
      "<p style='font-family: \"Times New Roman\", Arial, serif'>a",
      `<p style="font-family: 'Times New Roman', Arial, serif;">a</p>`,
    ],
    [
      "<p style='font: italic bold 12px Arial'>a",
      '<p style="font-family: Arial; font-size: 12px; font-weight: bold; font-style: italic;">a</p>',
    ],
    [
      "<span style='text-decoration: line-through underline'>a</span>",
      '<p><span style="text-decoration: underline line-through;">a</span></p>',
    ],
    [
      "<p style='margin: 1px 0 1px 36pt; text-indent: -18pt'>a",
      '<p style="margin-left: 48px;">a</p>',
    ],
    ["<span style='margin-left: 9px'>a</span>", "<p>a</p>"],
    [
      "<span style='font-weight: 400; font-style: normal; text-decoration: none; vertical-align: baseline'>a</span>",
      "<p>a</p>",
    ],
    [
      "<h1><span style='font-weight: 400'>a</span></h1>",
      '<h1><span style="font-weight: 400;">a</span></h1>',
    ],
    [
      "<ul style='list-style-type: square'><li>a</ul>",
      '<ul style="list-style-type: square;"><li>a</li></ul>',
    ],
    ["<span style=''>a</span><font>b</font>", "<p>ab</p>"],
  ],
  "deep elements are unwrapped": [
    ["<i>a<u>b<s>c</s></u></i>", "<p><i>a<u>bc</u></i></p>", { maxDepth: 3 }],
    ["<i><span><font><div>a<b>b<br></b></div></font></span></i>", "<p><i>ab<br></i></p>", { maxDepth: 2 }],
    ["<b>a<pre>b\n  c</pre></b>", "<p>a b<br>&nbsp; c<br></p>", { maxDepth: 1 }],
    [
      "<blockquote><div title=a><p>b</p><p>c</p></div></blockquote>",
      '<blockquote><p title="a">b<br>c<br></p></blockquote>',
      { maxDepth: 2 },
    ],
  ],
  "elements hold what they may hold": [
    [
      "<a href=https://x/>a<table><tr><td><a href=https://y/>b</a></table></a>",
      '<p><a href="https://x/">a</a></p><table><tbody><tr><td><a href="https://x/">b</a></td></tr></tbody></table>',
    ],
    [
      "<b>a<p>b</p> <p>c <i>d</i></p></b>",
      "<p><b>a</b></p><p><b>b</b></p><p><b>c <i>d</i></b></p>",
    ],
    [
      "<a href=https://x/><h2>a</h2><img src=https://x/i></a>",
      '<h2><a href="https://x/">a</a></h2><p><a href="https://x/"><img src="https://x/i"></a></p>',
    ],
    [
      "<p>a<table><tr><td>b</table>c",
      "<p>a</p><table><tbody><tr><td>b</td></tr></tbody></table><p>c</p>",
    ],
    ["<h1>a<div>b</div><ul><li>c</ul></h1>", "<h1>a</h1><h1>b</h1><ul><li>c</li></ul>"],
    ["<li>a<li>b", "<ul><li>a</li><li>b</li></ul>"],
    ["<dd>a<dt>b", "<dl><dd>a</dd><dt>b</dt></dl>"],
    ["<ul>a<li>b<p>c</p></ul>", "<ul><li>a</li><li><p>b</p><p>c</p></li></ul>"],
    ["<ol><div><li>a</div><ul><li>b</ul></ol>", "<ol><li>a</li><ul><li>b</li></ul></ol>"],
    ["<dl><div><dt>a<dd>b</div>c</dl>", "<dl><dt>a</dt><dd>b</dd><dd>c</dd></dl>"],
    ["<ul> </ul><dl></dl><table></table><blockquote> </blockquote>a", "<p>a</p>"],
    ["<table>a<tr>b<td>c</table>", "<p>ab</p><table><tbody><tr><td>c</td></tr></tbody></table>"],
    [
      "<table><caption>a</caption><col span=2><thead><tr><th>b<tfoot><tr><td>c</table>",
      '<table><caption>a</caption><colgroup><col span="2"></colgroup><thead><tr><th>b</th></tr></thead><tfoot><tr><td>c</td></tr></tfoot></table>',
    ],
  ],
  "inline nodes next to blocks are in paragraphs": [
    ["a", "<p>a</p>"],
    ["a<hr>b<b>c</b>", "<p>a</p><hr><p>b<b>c</b></p>"],
    ["<div>a</div><div><div>b</div></div>", "<p>a</p><p>b</p>"],
    ["<div dir=rtl>a<div>b</div></div>", '<div dir="rtl"><p>a</p><p>b</p></div>'],
    [
      "<ul><li><p>a</p><li><p>b</p><ul><li>c</ul><li><div>d</div></ul>",
      "<ul><li>a</li><li>b<ul><li>c</li></ul></li><li>d</li></ul>",
    ],
    ["<ul><li dir=ltr><p dir=ltr>a</p></ul>", '<ul><li dir="ltr">a</li></ul>'],
    [
      "<table><tr><td><p>a</p><td><p>b</p>c</table>",
      "<table><tbody><tr><td>a</td><td><p>b</p><p>c</p></td></tr></tbody></table>",
    ],
    [
      "<blockquote>a<blockquote>b</blockquote></blockquote>",
      "<blockquote><p>a</p><blockquote>b</blockquote></blockquote>",
    ],
    [" a <b>b</b>  ", " a <b>b</b> ", { inline: true }],
    ["<p>a</p>b", "<p>a</p><p>b</p>", { inline: true }],
  ],
  "whitespace is what browsers show": [
    ["<p>\n a  <b> b </b> <br> c&nbsp; </p>\n<p>d</p>", "<p>a <b>b</b><br>c&nbsp;</p><p>d</p>"],
    ["<p></p><p> <b> </b></p><p>&nbsp;</p><p><o:p>&nbsp;</o:p></p>", "<p><br></p>".repeat(4)],
    ["<pre>\n\n a\n  b </pre>", "<pre><br> a\n  b </pre>"],
    ["<pre><div>a  b</div><div>c</div></pre>", "<p>a&nbsp; b</p><p>c</p>"],
    [
      "<p style='white-space: pre-wrap'>a  b\n c\td</p>",
      "<p>a&nbsp; b<br>&nbsp;c&nbsp;&nbsp;&nbsp; d</p>",
    ],
    ["<p style='white-space: pre-line'>a  b\nc</p>", "<p>a b<br>c</p>"],
    ["<p>a <img src=https://x/i> b", '<p>a <img src="https://x/i"> b</p>'],
  ],
};

describe("the names of a clean page", () => {
  it("are shown", () => {
    const names = [...CLEAN_BLOCKS, ...CLEAN_INLINES];
    assert.deepEqual(names.filter((name) => !isShownElement(name)), []);
  });
});

describe("the package", () => {
  it("has cleaning by itself, with its types", async () => {
    const file = new URL("../package.json", import.meta.url);
    const { exports } = JSON.parse(await readFile(file, "utf8"));
    assert.deepEqual(exports["./clean.js"], { types: "./src/clean.d.ts", default: "./src/clean.js" });
  });
});

for (const { Browser, name, skip } of BROWSERS) {
  describe(`cleaning in ${name}`, { skip }, () => {
    const page = new CleaningPage(Browser);

    for (const [rule, rows] of Object.entries(RULES)) {
      it(rule, async () => {
        for (const [html, expected, options] of rows) {
          assert.equal(await page.clean(html, options), expected, html);
        }
      });
    }
  });
}
