/** The theme's button, the list of pages on small screens, and the heading that is being read. */
"use strict";

{
  const SYSTEM_IS_DARK = matchMedia("(prefers-color-scheme: dark)");
  const { dataset } = document.documentElement;

  /**
   * An element of the page, by its ID.
   * @param {string} id
   */
  const byId = (id) => /** @type {HTMLElement} */ (document.getElementById(id));

  function startTheme() {
    const button = byId("theme");
    const theme = () => dataset.theme ?? (SYSTEM_IS_DARK.matches ? "dark" : "light");
    const show = () => button.setAttribute("aria-pressed", String(theme() === "dark"));
    button.addEventListener("click", () => {
      dataset.theme = theme() === "dark" ? "light" : "dark";
      try {
        localStorage.setItem("hedit-theme", dataset.theme);
      } catch {
        // It lasts as long as the page then.
      }
      show();
    });
    SYSTEM_IS_DARK.addEventListener("change", show);
    button.hidden = false;
    show();
  }

  function startMenu() {
    const [button, pages] = [byId("menu"), byId("pages")];
    /** @param {boolean} isOpen */
    const show = (isOpen) => {
      button.setAttribute("aria-expanded", String(isOpen));
      document.body.classList.toggle("shows-pages", isOpen);
    };
    button.addEventListener("click", () => show(button.getAttribute("aria-expanded") === "false"));
    document.addEventListener("keydown", ({ key }) => key === "Escape" && show(false));
    byId("content").addEventListener("click", () => show(false));
    pages.querySelector("[aria-current]")?.scrollIntoView({ block: "nearest" });
  }

  /** Marks the link of the last heading that has reached the top. */
  function startHeadings() {
    const links = [...document.querySelectorAll(".headings a")];
    const found = links.map((link) => document.getElementById(decodeURIComponent(link.getAttribute("href")?.slice(1) ?? "")));
    const show = () => {
      const passed = found.filter((heading) => heading && heading.getBoundingClientRect().top < 120).length;
      links.forEach((link, place) => link.classList.toggle("current", place === passed - 1));
    };
    let isWaiting = false;
    addEventListener("scroll", () => {
      if (!isWaiting) {
        isWaiting = true;
        requestAnimationFrame(() => {
          isWaiting = false;
          show();
        });
      }
    });
    show();
  }

  startTheme();
  startMenu();
  startHeadings();
}
