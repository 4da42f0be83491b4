/** The theme that was chosen, before anything is shown. The composer keeps it under the same name. */
(() => {
  try {
    const kept = localStorage.getItem("hedit-theme");
    if (kept === "dark" || kept === "light") {
      document.documentElement.dataset.theme = kept;
    }
  } catch {
    // The browser keeps nothing: the theme is the system's.
  }
})();
