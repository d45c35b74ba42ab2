// @ts-check
// Follows a journal that is served while a node writes it: takes the page anew where there is news, but never while
// the picture is held, and at the place and zoom at which it stands.

const KEPT = "view";

function keepView() {
  const pane = $("pane");
  sessionStorage.setItem(KEPT, JSON.stringify([state.zoom, pane.scrollLeft, pane.scrollTop]));
}

// Puts the picture where it stood before it was taken anew.
function takeView() {
  const kept = data.live ? sessionStorage.getItem(KEPT) : null;
  if (!kept) return false;
  sessionStorage.removeItem(KEPT);
  const [zoom, left, top] = JSON.parse(kept);
  setZoom(zoom);
  $("pane").scrollTo(left, top);
  return true;
}

function say(text) {
  if ($("live").textContent !== text) $("live").textContent = text;
}

// Whether somebody is at work on the page, so that it isn't taken anew.
const isBusy = () => held.size > 0 || document.activeElement === $("search") || written.timer !== 0 && addressOf() !== (location.hash || "#");

function renew() {
  if (isBusy()) { setTimeout(renew, 200); return; }
  if (stops.length) keepView();
  location.reload();
}

function follow() {
  if (!data.live) return;
  const events = new EventSource("/events");
  let renewing = false;
  $("live").hidden = false;
  events.addEventListener("message", event => {
    const { version, node, fault } = JSON.parse(event.data);
    say(fault ? `The journal can't be shown: ${fault}` : node === false ? "Live: nobody holds this journal's lock, so no node of bin/spectre is at work on it. New blocks show as they come." : "Live: new blocks show as they come.");
    if (version !== data.live && !renewing) { renewing = true; renew(); }
  });
  events.addEventListener("error", () => say("What serves this page is gone; what stood last is shown."));
}
