// A file dropped anywhere on a zone goes into the zone's own field. Without this script the fields work all the same.
"use strict";

for (const zone of document.querySelectorAll(".drop")) {
  const field = zone.querySelector("input[type=file]");
  const over = (on) => (event) => {
    event.preventDefault();
    zone.classList.toggle("over", on);
  };
  zone.addEventListener("dragenter", over(true));
  zone.addEventListener("dragover", over(true));
  zone.addEventListener("dragleave", over(false));
  zone.addEventListener("drop", (event) => {
    over(false)(event);
    if (!event.dataTransfer.files.length) return;
    const given = new DataTransfer();
    const taken = field.multiple ? [...event.dataTransfer.files] : [event.dataTransfer.files[0]];
    taken.forEach((file) => given.items.add(file));
    field.files = given.files;
    field.dispatchEvent(new Event("change", { bubbles: true }));
  });
}

// A file that misses its zone must not replace the page.
for (const name of ["dragover", "drop"]) window.addEventListener(name, (event) => event.preventDefault());
