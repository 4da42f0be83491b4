/** The composer's theme: the system's, or one that was chosen in its place. */

/** Under which name the browser keeps a theme that was chosen. */
const KEY = "hedit-theme";

const SYSTEM_IS_DARK = matchMedia("(prefers-color-scheme: dark)");

const { dataset } = document.documentElement;

function systemTheme() {
  return SYSTEM_IS_DARK.matches ? "dark" : "light";
}

/** The theme that was chosen before, if one was. */
function keptTheme() {
  try {
    return localStorage.getItem(KEY);
  } catch {
    return null;
  }
}

/**
 * Keeps the theme that was chosen, where the browser keeps anything.
 * @param {string} theme
 */
function keepTheme(theme) {
  try {
    localStorage.setItem(KEY, theme);
  } catch {
    // It lasts as long as the page then.
  }
}

/**
 * Shows the page in its theme, which the button turns.
 * @param {HTMLElement} button
 */
export function startTheme(button) {
  const show = () => {
    const theme = dataset.theme ?? systemTheme();
    button.setAttribute("aria-pressed", String(theme === "dark"));
  };
  const kept = keptTheme();
  if (kept === "dark" || kept === "light") {
    dataset.theme = kept;
  }
  SYSTEM_IS_DARK.addEventListener("change", show);
  button.addEventListener("click", () => {
    dataset.theme = (dataset.theme ?? systemTheme()) === "dark" ? "light" : "dark";
    keepTheme(dataset.theme);
    show();
  });
  show();
}
