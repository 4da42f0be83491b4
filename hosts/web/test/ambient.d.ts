/**
 * What the tests use beside the modules of src, for their check of types. Debian has no types of Node's modules, so
 * that these are anything. Some parts of tests run in the windows of a browser itself.
 */

declare module "node:*";

declare const Buffer: any;
declare const process: any;

declare const Cc: any;
declare const ChromeUtils: any;
declare const Ci: any;
declare const Services: any;
declare const addMessageListener: any;
declare const content: any;
declare const gBrowser: any;
declare const sendAsyncMessage: any;

interface Window {
  [name: string]: any;
}

/** What a selector finds has the properties of its own kind. */
interface ParentNode {
  querySelector(selectors: string): any;
  querySelectorAll(selectors: string): NodeListOf<any>;
}

declare namespace CSS {
  const highlights: any;
}

interface Array<T> {
  toReversed(): T[];
}

interface SymbolConstructor {
  readonly dispose: unique symbol;
}
