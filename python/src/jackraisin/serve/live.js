"use strict";

// Puts the served cube into the explorer, and asks for it again when there is another state of it; the view, its place, and what is
// being typed stay.
(() => {
  const PAUSE = 1000;
  const { name, escaped } = document.querySelector("meta[name=datacube-served]").dataset;
  const isEscaped = escaped === "1";
  let shown = null; // the cube that this script put in
  let known = null, latest = null; // the state that is shown, and the one that the server told of
  let news = {}, time = "", events = null;
  let isAsking = false, isWarned = false;

  async function put(file) {
    if (cube !== shown) return;
    if (!shown) {
      await open(file, isEscaped);
    } else {
      const read = await readCube(file, () => true, isEscaped), top = rowsSeen.top;
      if (cube !== shown) return;
      cube = read;
      view = fromAddress(location.hash, true);
      await show();
      rowsSeen.go(top);
    }
    shown = cube;
    time = new Date().toLocaleTimeString("en-GB");
  }

  /** Says above the cube what it is of. */
  function describe() {
    if (!shown || cube !== shown) return;
    const how = news.connected === false ? "of before the connection to the database was lost; now it is" : "as they are at";
    const now = news.connected === false ? new Date().toLocaleTimeString("en-GB") : time;
    const without = news.skipped ? `, without ${number(news.skipped)} of the table's rows that no cube can have` : "";
    const differed = news.verified === false ? ". It differed from the table, which was copied again, and hasn't been compared since" : "";
    by("about").textContent = `${name}: ${number(cube.count)} lines, ${how} ${now}${without}${differed}`;
  }

  async function ask() {
    const answer = await fetch("cube.csv", { cache: "no-store" });
    if (!answer.ok) return warn(await answer.text());
    const found = answer.headers.get("Datacube-State");
    await put(new File([await answer.blob()], name, { type: "text/csv" }));
    known = found;
    describe();
  }

  async function follow() {
    // (whoever opens another file looks at that one)
    if (isAsking || latest === null || known === latest || cube !== shown) return;
    isAsking = true;
    const start = performance.now();
    try {
      await ask();
    } catch (fault) {
      if (!(fault instanceof TypeError)) throw fault;
      warn("The server doesn't answer: has it ended?");
    }
    setTimeout(() => {
      isAsking = false;
      follow();
    }, Math.max(PAUSE, 5 * (performance.now() - start)));
  }

  function warn(text) {
    isWarned = true;
    tell(text);
  }

  function listen() {
    const mine = (events = new EventSource("events"));
    mine.addEventListener("message", (event) => {
      news = JSON.parse(event.data);
      if (news.state === null) return warn(news.why);
      if (isWarned) tell("");
      isWarned = false;
      latest = String(news.state);
      describe();
      follow();
    });
    mine.addEventListener("error", () => {
      warn(mine.readyState === EventSource.CLOSED
        ? "The server takes no more questions from this page: open the address that it shows." : "The server doesn't answer: has it ended?");
    });
  }

  // (a browser has six connections to a server for all its tabs, so one that isn't seen gives its own up)
  document.addEventListener("visibilitychange", () => {
    events?.close();
    if (!document.hidden) listen();
  });
  if (!document.hidden) listen();
})();
