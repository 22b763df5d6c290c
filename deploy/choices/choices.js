/* Moves programmes on the page without asking the server. Without this script, each button sends the form, and the server does the same. */
const form = document.getElementById("editor");

/** Does a button of the list or of the programmes that may be added, and returns whether it was one. */
function done(word, row, chosen, offered) {
  if (word === "up" && row.previousElementSibling) row.previousElementSibling.before(row);
  else if (word === "down" && row.nextElementSibling) row.nextElementSibling.after(row);
  else if (word === "top") chosen.prepend(row);
  else if (word === "add") chosen.append(row);
  else if (word === "out") offered.prepend(row);
  else return word === "up" || word === "down";
  return true;
}

if (form) {
  const [chosen, offered] = ["chosen", "offered"].map((id) => document.getElementById(id));
  const labels = JSON.parse(offered.dataset.labels);
  const list = form.elements.namedItem("list");
  const saved = document.getElementById("unsaved").hidden ? list.value : null;

  /** Gives a row the buttons of the list that it is in. */
  const dress = (row) => {
    const name = row.firstElementChild.textContent;
    const words = row.parentElement === chosen ? ["up", "down", "top", "out"] : ["add"];
    row.querySelector(".buttons").replaceChildren(
      ...words.map((word) => {
        const button = document.createElement("button");
        Object.assign(button, { className: "small", name: "do", value: `${word} ${row.dataset.code}`, textContent: labels[word] });
        button.setAttribute("aria-label", labels.of.replace("{button}", labels[word]).replace("{programme}", name));
        return button;
      }),
    );
  };
  const show = () => {
    list.value = [...chosen.children].map((row) => row.dataset.code).join(" ");
    document.getElementById("unsaved").hidden = list.value === saved;
    document.getElementById("empty").hidden = chosen.children.length > 0;
    document.getElementById("count").textContent = chosen.children.length;
  };
  form.addEventListener("click", (event) => {
    const button = event.target.closest("li button");
    if (!button) return;
    const [word, row, parent] = [button.value.split(" ")[0], button.closest("li"), button.closest("li").parentElement];
    if (!done(word, row, chosen, offered)) return;
    event.preventDefault();
    if (row.parentElement !== parent) dress(row);
    show();
    (row.querySelector(`button[value^="${word} "]`) ?? row.querySelector("button")).focus();
  });
  let isSent = false;
  form.addEventListener("submit", () => {
    isSent = true;
  });
  addEventListener("beforeunload", (event) => {
    if (!isSent && !document.getElementById("unsaved").hidden) event.preventDefault();
  });
}
