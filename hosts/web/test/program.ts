/** A program that uses the package's types. types.test.mjs has tsc compile it, which never runs it. */
import { BadPlace, Engine, HeditError, NodeKind, PageRefused, Question, Status, load } from "hedit";
import { Editor, type Change, type Limits, type Node, type PageKind, type Point } from "hedit";
import { HABITS, Region, type Choices, type Habits, type RefusedEvent } from "hedit/region.js";
import { cleanPage, type CleanOptions, type Dropped } from "hedit/clean.js";

type Same<A, B> = (<T>() => T extends A ? 1 : 2) extends <T>() => T extends B ? 1 : 2 ? true : false;

/** Compiles if the two types are the same. */
function same<A, B>(_is: Same<A, B>): void {}

export async function edits(page: string | Uint8Array): Promise<void> {
  const engine: Engine = await load(new URL("https://example.com/hedit.wasm"));
  const limits: Limits = { labelCap: 1000, undoDepth: 10 };
  const editor: Editor = engine.open(page, limits);
  const point: Point = { label: 2, offset: 0 };
  editor.select({ path: [0, 0], offset: 5 }, point);
  same<boolean, ReturnType<typeof editor.exec>>(true);
  editor.exec("bold", new Uint8Array(), new Set(["undo"]));
  const value: string = editor.ask(Question.VALUE, "bold");
  const state: boolean = editor.ask(Question.STATE, value);
  const node: Node = editor.node(editor.labelAt([0]));
  same<typeof node.kind, 1 | 3 | 8 | 9>(true);
  for (const child of editor.children(node.label)) same<typeof child, number>(true);
  const { status } = engine.session("");
  same<typeof status, Status>(true);
  console.log(state, status === Status.DONE, node.kind === NodeKind.TEXT);
  editor.changes().forEach(follow);
  // @ts-expect-error: only `Engine.open` makes editors.
  new Editor();
  // @ts-expect-error: only `load` makes engines.
  new Engine();
  // @ts-expect-error: a value is a text.
  const flag: boolean = editor.ask(Question.VALUE, "bold");
  // @ts-expect-error: what an editor answers isn't changed.
  node.length = 1;
  // @ts-expect-error: nor is a point.
  point.label = 1;
  // @ts-expect-error: nor are numbers.
  editor.counts().undo = 0;
  // @ts-expect-error: there is no such view.
  editor.view(4);
  // @ts-expect-error: what is private to the class isn't there.
  editor.library;
}

function follow(change: Change): void {
  if (change.type === "insert") {
    same<typeof change.before, number | null>(true);
    console.log(change.tree.map(({ attributes }) => attributes.get("href")));
    // @ts-expect-error: a tree isn't changed.
    change.tree[0].value = "";
  } else if (change.type === "replace") {
    same<typeof change.put, string>(true);
  }
}

export function explains(error: unknown): void {
  if (error instanceof PageRefused) {
    const kind: PageKind = error.kind;
    console.log(kind === "bad-tag", error.at);
    // @ts-expect-error: an error isn't changed.
    error.at = 0;
  } else if (error instanceof HeditError) {
    same<typeof error.status, Status | undefined>(true);
  }
  console.log(error instanceof BadPlace && error.status === Status.BAD_PLACE);
}

export function makes(engine: Engine, element: HTMLElement): Region {
  const choices: Choices = {
    keepStyle: HABITS.keepStyle,
    clean: { classes: ["note"], report: ({ kind, name }: Dropped) => console.log(kind, name) },
    denied: ["createLink"],
    separator: "div",
    undoDepth: 100,
    view: { image: async (src) => src, attribute: (_name, _attribute, value) => value },
    reload: () => load(),
  };
  const region = new Region(engine, element, choices);
  region.addEventListener("change", function (event) {
    same<typeof event, Event>(true);
    console.log(this.html({ composing: "without" }), event.type);
  });
  region.addEventListener("refused", (event) => {
    same<typeof event, RefusedEvent>(true);
    same<typeof event.reason, "denied" | "impossible" | "lossy" | "unknown">(true);
  });
  region.addEventListener("error", ({ message }) => console.log(message), { once: true });
  region.addEventListener("other", (event: Event) => console.log(event));
  same<typeof region.status, "ready" | "busy" | "contested" | "stopped" | "closed">(true);
  same<keyof Habits, keyof typeof HABITS>(true);
  const sum: number = region.step(() => 1);
  region.readOnly = Region.of(element) === region && Region.isSupported().ok && sum > 0;
  // @ts-expect-error: a separator is one of two.
  new Region(engine, element, { separator: "span" });
  // @ts-expect-error: a status is only read.
  region.status = "ready";
  // @ts-expect-error: the habits by default aren't changed.
  HABITS.keepStyle = false;
  return region;
}

export function cleans(html: string, options: CleanOptions): string {
  return cleanPage(html, { ...options, classes: /note-.*/, maxDepth: 5, inline: true });
}
