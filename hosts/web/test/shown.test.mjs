/** The tables of what a page shows of HTML from elsewhere. */
import assert from "node:assert/strict";
import { describe, it } from "node:test";
import * as shown from "../src/shown.js";

describe("what is shown", () => {
  it("is an element of the tables", () => {
    for (const name of ["p", "li", "td", "b", "img", "section"]) {
      assert.ok(shown.isShownElement(name), name);
    }
    for (const name of ["base", "input", "video", "x-a", "form", "marquee", "constructor"]) {
      assert.ok(!shown.isShownElement(name), name);
    }
  });

  it("is never what acts, whatever a host allows", () => {
    for (const name of ["base", "meta", "link", "x-a", "form", "object", "slot", "script", "a:b"]) {
      assert.ok(!shown.isAllowable(name), name);
    }
    assert.ok(shown.isAllowable("input") && shown.isAllowable("video"));
    for (const [name, value] of [
      ["onclick", "x"],
      ["style", "top: 0"],
      ["form", "f"],
      ["is", "x-a"],
      ["href", " java\nscript:x"],
      ["poster", "vbscript:x"],
    ]) {
      assert.ok(!shown.isAllowableAttribute(name, value), name);
    }
    assert.ok(shown.isAllowableAttribute("id", "x") && shown.isAllowableAttribute("href", "ftp://x/"));
  });

  it("stands in a placeholder of its kind otherwise", () => {
    const kinds = ["body", "form", "input", "x-a", "legend"].map(shown.placeholderOf);
    assert.deepEqual(kinds, ["div", "div", "span", "span", "div"]);
  });

  it("leads to an address whose scheme is listed, as the browser reads it", () => {
    const links = ["https://x/", "HTTP://x/", "mailto:a@x", "tel:1"];
    assert.ok(links.every((address) => shown.isLinkAddress(address)));
    const others = [
      "javascript:x",
      " java\tscript:x",
      "data:text/html,x",
      "blob:x",
      "vbscript:x",
      "file:///x",
      "a/b",
      "//x/",
      "/x",
      "#x",
      "?x",
      "",
      "https:x",
      "\\\\x\\y",
    ];
    assert.deepEqual(others.filter((address) => shown.isLinkAddress(address)), []);
    const relative = others.filter((address) => shown.isLinkAddress(address, true));
    assert.deepEqual(relative, ["a/b", "//x/", "/x", "#x", "?x", "", "https:x", "\\\\x\\y"]);
  });

  it("loads images of listed types", () => {
    const images = ["https://x/", "cid:1@x", "blob:https://x/1", "data:image/PNG;base64,AA"];
    assert.ok(images.every((address) => shown.isImageAddress(address)));
    const others = ["data:image/svg+xml,x", "data:text/html,x", "javascript:x", "x.png", "ftp://x/"];
    assert.deepEqual(others.filter((address) => shown.isImageAddress(address)), []);
  });

  it("has the attributes of its table", () => {
    const value = (name, attribute, text, allowed = {}) =>
      shown.shownAttribute(name, attribute, text, allowed);
    assert.equal(value("p", "title", "a < b"), "a < b");
    assert.equal(value("p", "href", "https://x/"), null);
    assert.equal(value("td", "colspan", "1000"), "1000");
    assert.equal(value("td", "colspan", "1001"), null);
    assert.equal(value("img", "width", "100%"), null);
    assert.equal(value("p", "id", "x"), null);
    assert.equal(value("constructor", "name", "x"), null);
    assert.equal(value("p", "constructor", "x"), null);
    assert.equal(value("p", "class", "a b"), null);
    assert.equal(value("p", "class", " a b\n", { classes: ["b", "c"] }), "b");
    assert.equal(value("p", "class", "m-a xm-a m-a.", { classes: /m-[a-z]+/g }), "m-a");
    assert.equal(value("a", "href", "u"), null);
    assert.equal(value("a", "href", "u", { relative: true }), "u");
    const attributes = { p: ["class", "lang", "src", "style", "constructor"], img: ["src"] };
    const known = Object.entries(attributes).map(([name, names]) =>
      names.filter((attribute) => shown.isKnownAttribute(name, attribute)),
    );
    assert.deepEqual(known, [["class", "lang"], ["src"]]);
    const link = new Map([["href", "u"]]);
    assert.deepEqual(shown.addedAttributes("a", link), [["rel", "noopener noreferrer"]]);
    assert.deepEqual(shown.addedAttributes("a", new Map()), []);
  });

  it("has the properties of its table, with values that can't cover the page", () => {
    for (const [property, value] of [
      ["color", "rgb(1, 2, 3)"],
      ["border-top-color", "red"],
      ["font-size", "13.5px"],
      ["font-family", '"Times New Roman", Zoë'],
      ["line-height", "1.5"],
      ["text-align", "center"],
      ["margin-left", "40px"],
      ["margin-left", "auto"],
      ["width", "100%"],
      ["display", "table-cell"],
      ["text-decoration-line", "underline line-through"],
    ]) {
      assert.ok(shown.isShownStyle(property, value), `${property}: ${value}`);
    }
    for (const [property, value] of [
      ["position", "fixed"],
      ["color", "var(--x)"],
      ["font-size", "201px"],
      ["font-size", "100vh"],
      ["line-height", "11"],
      ["margin-left", "-1px"],
      ["width", "2001px"],
      ["width", "calc(1px)"],
      ["display", "flex"],
      ["background-image", 'url("x")'],
      ["list-style-image", 'url("x")'],
      ["--x", "1"],
      ["z-index", "1"],
      ["font-family", "v\\61r(--x)"],
    ]) {
      assert.ok(!shown.isShownStyle(property, value), `${property}: ${value}`);
    }
  });
});
