/** What browsers have, and Debian's TypeScript doesn't know yet. */

interface HTMLElement {
  showPopover(): void;
  hidePopover(): void;
}

interface ToggleEvent extends Event {
  readonly newState: string;
}

interface Selection {
  modify(alter?: string, direction?: string, granularity?: string): void;
}
