// @ts-check
// Begins, once all other parts are there.

function start() {
  const facts = [data.kind, data.profile === null ? null : `profile ${data.profile}`, data.bits === null ? null : counted(data.bits, "bit of work", "bits of work"), `${data.sent} sent`];
  $("name").append(named(data.name));
  follow();
  $("facts").append(...facts.filter(Boolean).map(text => make("li", {}, text)));
  if (data.fault || data.status) {
    $("fault").hidden = false;
    $("fault").append("The program ends with ", make("b", {}, String(data.status)), ": ", make("span", { class: "mono" }, data.fault), blocks.length ? ". What stands before that is shown." : ". There is nothing to show.");
  }
  if (!stops.length) { $("graph").hidden = true; document.querySelector("footer").hidden = true; paintChosen(); setTab("help"); return; }
  $("at").max = stops.length - 1;
  paintLegend();
  drawGraph();
  listen();
  readAddress();
  paint();
  if (takeView()) return;
  setZoom(Math.max(fitting(), 0.7));
  $("pane").scrollTo($("pane").scrollWidth, ($("pane").scrollHeight - $("pane").clientHeight) / 2);
  if (state.one !== null) reveal(state.one);
}

start();
