/** What a region keeps from the page that it stands in. */
import assert from "node:assert/strict";
import { after, before, describe, it } from "node:test";
import { setTimeout as sleep } from "node:timers/promises";
import { BROWSERS } from "./browsers.mjs";
import { POLICY, hostPage, trap } from "./region_host.mjs";
import { RegionPage } from "./region_page.mjs";

/** The attributes that a page may have of a hostile one, where the host allows nothing more. */
const SHOWN =
  /^(?:dir|lang|title|style|href|rel|src|alt|width|height|referrerpolicy|data-hedit(?:-link|-image)?)$/;

/** How long a page has to ask for what it loads. */
const PAUSE = 400;

/** Hostile pages by what they try; `TRAP` leads to what hears of it. */
const HOSTILE = {
  "navigates by meta": '<meta http-equiv="refresh" content="0;url=TRAP/meta"><p>a</p>',
  "changes addresses by base": '<base href="TRAP/base/" target="x"><p>a</p>',
  "loads by link":
    '<link rel="stylesheet" href="TRAP/css"><link rel="prefetch" href="TRAP/pre">' +
    '<link rel="preload" as="image" href="TRAP/image"><link rel="icon" href="TRAP/icon">',
  "joins the host's form":
    '<p><input form="form" name="stolen" value="1">' +
    '<button form="form" formaction="TRAP/f">x</button></p>',
  "has a form of its own": '<form action="TRAP/form" id="f"><input name="a" autofocus></form>',
  "makes a custom element of the host": '<x-host>a</x-host><p is="x-host">b</p>',
  "shadows elements by ids": '<p id="field">a</p><p id="ran">b</p><a id="victim">c</a>',
  "shadows properties of the document by names":
    '<img name="cookie" src="data:image/gif;base64,AA=="><form name="body"></form>' +
    '<embed name="title">',
  "covers the page by position":
    '<div style="position:fixed;inset:0;z-index:9999;background:red">x</div>' +
    '<p style="position:absolute;top:-99px;left:0;width:2000px;height:2000px">y</p>' +
    '<p style="margin-top:-300px;height:300px">z</p>' +
    '<p style="transform:translateY(-200px) scale(9)">w</p>',
  "loads by styles":
    '<p style="background:url(TRAP/bg);list-style-image:url(TRAP/l);content:url(TRAP/c)">a</p>' +
    '<p style="border-image:url(TRAP/b) 1;cursor:url(TRAP/k),auto;filter:url(TRAP/f#a)">b</p>' +
    '<p style="mask-image:url(TRAP/m);--a:url(TRAP/v);background:var(--a)">c</p>',
  "loads by objects":
    '<object data="TRAP/o"></object><embed src="TRAP/e"><video src="TRAP/v" poster="TRAP/p" autoplay>' +
    '</video><audio src="TRAP/a" autoplay></audio><input type="image" src="TRAP/i">' +
    '<bgsound src="TRAP/b"></bgsound><applet code="TRAP/c"></applet>',
  "loads by attributes":
    '<table background="TRAP/t"><tbody><tr><td background="TRAP/d">a</td></tr></tbody></table>' +
    '<p><img srcset="TRAP/s 1x" alt="x"><img lowsrc="TRAP/l"><picture><source srcset="TRAP/q"></picture></p>',
  "loads frames": '<frameset onload="ran.push(1)"><frame src="TRAP/frame"></frame></frameset>',
  "runs by events":
    '<img src="data:image/gif;base64,AA==" onerror="ran.push(1)"><details open ontoggle="ran.push(2)">' +
    "<summary>x</summary></details><marquee onstart=\"ran.push(3)\">x</marquee>" +
    '<p onfocus="ran.push(4)" tabindex="0" autofocus>a</p><body onload="ran.push(5)">b</body>',
  "has addresses that run":
    '<p><a href="javascript:ran.push(1)">a</a><a href="java&#9;script:ran.push(2)">b</a>' +
    '<a href="data:text/html,x">c</a><a href="vbscript:x">d</a><img src="javascript:ran.push(3)"></p>',
  "takes a slot or a part": '<slot name="x">a</slot><p slot="x" part="y" popover="">b</p>',
  "says something in a comment": "<!-- htmx: TRAP/c --><p>a</p><!--{{secret}}-->",
  "acts by a framework's attributes":
    '<p data-controller="x" hx-get="TRAP/h" hx-trigger="load" role="alert" aria-live="assertive">a</p>',
};

for (const { Browser, name, skip } of BROWSERS) {
  describe(`the page around a region in ${name}`, { skip }, () => {
    const region = new RegionPage(Browser, hostPage());
    /** @type {Awaited<ReturnType<typeof trap>>} */
    let heard;
    before(async () => {
      heard = await trap();
    });
    after(() => heard.close());

    const start = (html, id) =>
      region.page.evaluate((page, where) => window.start(page, { id: where }), html, id);

    /** What the host's page has, whatever the region shows. */
    const look = () =>
      region.page.evaluate(() => {
        const { top, left } = document.getElementById("cover").getBoundingClientRect();
        const all = [...window.region.element.querySelectorAll("*")];
        const form = /** @type {HTMLFormElement} */ (document.getElementById("form"));
        const isComment = ({ nodeType }) => nodeType === 8;
        const comments = [...window.region.element.childNodes].filter(isComment);
        return {
          isCovered: document.elementFromPoint(left + 5, top + 5)?.id !== "cover",
          fields: [...form.elements].map((each) => each.id),
          field: document.getElementById("field").localName,
          base: document.baseURI === location.href,
          global: typeof window.victim,
          cookie: typeof document.cookie,
          body: document.body.localName,
          forms: document.forms.length,
          ran: window.ran,
          made: window.made,
          names: all.map((each) => each.localName),
          attributes: all.flatMap((each) => each.getAttributeNames()),
          comments: comments.map((each) => each.data.trim()),
          difference: window.region.check(),
          html: window.region.html(),
        };
      });

    for (const [what, page] of Object.entries(HOSTILE)) {
      it(`stays, whatever ${what}`, { timeout: 60_000 }, async () => {
        const html = page.replaceAll("TRAP", heard.address);
        for (const id of ["host", "page"]) {
          await start(html, id);
          await sleep(PAUSE);
          const { names, attributes, comments, html: printed, ...rest } = await look();
          assert.deepEqual(rest, {
            isCovered: false,
            fields: ["field"],
            field: "input",
            base: true,
            global: "undefined",
            cookie: "string",
            body: "body",
            forms: 1,
            ran: [],
            made: 0,
            difference: null,
          });
          assert.deepEqual(heard.asked, []);
          const acting = /^(base|meta|link|form|input|button|object|embed|video|audio|frame|x-)/;
          assert.deepEqual(names.filter((each) => acting.test(each)), []);
          assert.deepEqual(attributes.filter((each) => !SHOWN.test(each)), []);
          assert.equal(comments.join(""), "");
          // What isn't shown is in the HTML that the region gives.
          assert.equal(printed.length > 0, true);
          const [tag] = /<[a-z-]+/.exec(html);
          assert.ok(printed.includes(tag), printed);
        }
      });
    }

    it("is asked for images, and says from where they are shown", async () => {
      const html = `<p><img src="${heard.address}/a"><img src="cid:b"><img src="x"><img src="cid:c"></p>`;
      const shown = await region.page.evaluate(async (page) => {
        const gif = "data:image/gif;base64,R0lGODlhAQABAAAAACH5BAEKAAEALAAAAAABAAEAAAICTAEAOw==";
        const asked = [];
        const image = (src) => {
          asked.push(src);
          return { "cid:b": gif, "cid:c": Promise.resolve(gif), x: "javascript:x" }[src] ?? null;
        };
        window.start(page, { view: { image } });
        const { region } = window;
        const images = [...region.element.querySelectorAll("img")];
        const sources = () => images.map((each) => each.src.slice(0, 9));
        const before = sources();
        await new Promise((resolve) => setTimeout(resolve, 50));
        return [asked, before, sources(), region.check(), region.html()];
      }, html);
      const [asked, before, now, difference, printed] = shown;
      assert.deepEqual(asked, [`${heard.address}/a`, "cid:b", "x", "cid:c"]);
      assert.deepEqual(before, ["", "data:imag", "", ""]);
      assert.deepEqual(now, ["", "data:imag", "", "data:imag"]);
      assert.equal(difference, null);
      assert.equal(printed, html);
      assert.deepEqual(heard.asked, []);
    });

    it("may allow more, and not what acts", async () => {
      const page =
        '<p id="a" onclick="x()" style="position:fixed" class="m q"><input type="checkbox" form="form">' +
        '<a href="javascript:x()" target="_top">b</a><video controls></video></p>' +
        '<x-host>c</x-host><base href="x"><meta name="a"><slot></slot><p title="t">d</p><ul><li>e</li></ul>';
      const shown = await region.page.evaluate((html) => {
        window.start(html, { view: { element: () => true, attribute: () => true } });
        return [window.region.element.innerHTML, window.region.check(), window.made];
      }, page);
      assert.deepEqual(shown, [
        '<p id="a" class="m q"><input type="checkbox">' +
          '<a target="_top" data-hedit-link="">b</a><video controls=""></video></p>' +
          '<span data-hedit="x-host">c</span><span data-hedit="base"></span>' +
          '<span data-hedit="meta"></span><span data-hedit="slot"></span>' +
          '<p title="t">d</p><ul><li>e</li></ul>',
        null,
        0,
      ]);
      const less = await region.page.evaluate((html) => {
        const element = (name) => name !== "li" && undefined;
        const attribute = (_, each, value) => (each === "title" ? value.toUpperCase() : undefined);
        window.start(html, { view: { element, attribute, classes: ["m"] } });
        return [window.region.element.innerHTML, window.region.check()];
      }, page);
      assert.match(less[0], /^<p class="m">.*<p title="T">d<\/p><ul><div data-hedit="li">e<\/div><\/ul>$/);
      assert.equal(less[1], null);
    });
  });

  describe(`a strict page in ${name}`, { skip }, () => {
    const region = new RegionPage(Browser, hostPage(POLICY));

    const look = () =>
      region.page.evaluate(() => {
        const { element } = window.region;
        const { color } = getComputedStyle(element.firstChild);
        const { contain } = getComputedStyle(element);
        return { html: window.region.html(), color, contain, ran: window.ran.splice(0) };
      });

    it("has a region and its styles, without a violation", async () => {
      const page = '<p style="color: red;">a <b>b</b></p>';
      await region.page.evaluate((markup) => window.start(markup), page);
      await region.click([0, 0], 1);
      await region.type("x");
      await region.press("Enter");
      await region.press("Control+b");
      await region.type("y");
      const { html, color, contain, ran } = await look();
      assert.match(html, /^<p style="color: red;">ax<\/p><p style="color: red;">.*y.*<b>b<\/b><\/p>$/);
      assert.equal(color, "rgb(255, 0, 0)");
      assert.match(contain, /^(?:layout paint|paint layout)$/);
      assert.deepEqual(ran, []);
    });

    it("has what is cleaned", async () => {
      const page = '<p style="color: red">a <b>b</b>&copy;<p title=x>c';
      await region.page.evaluate((markup) => window.start(markup, { clean: true }), page);
      const { html, color, ran } = await look();
      assert.equal(html, '<p style="color: rgb(255, 0, 0);">a <b>b</b>©</p><p title="x">c</p>');
      assert.equal(color, "rgb(255, 0, 0)");
      // Chromium says so of the styles in a document that is parsed and shows nothing.
      assert.deepEqual(ran.filter((each) => each !== "style-src-attr"), []);
      const others = region.takeComplaints().filter((each) => !/inline style.*clean_nodes\.js/s.test(each));
      assert.deepEqual(others, []);
    });
  });
}
