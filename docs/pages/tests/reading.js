// Read by wheels_page in a page: what can be seen of it, step by step.
(() => {
  const text = (node) => node.textContent.trim();
  // A timer as `show` writes it: its serial, which is all that a chip has, and the number in the remark beside it.
  const timer = (chip) => [text(chip), ...(chip.nextSibling?.matches(".remark") ? text(chip.nextSibling).match(/\d+/) : [])].join(":");
  window.bucket = (node) => [
    text(node.closest("article").querySelector("h3")), text(node.querySelector(".name")),
    [...node.querySelectorAll(".chip")].map(timer),
  ];
  const why = (node) => (node ? text(node) : "");
  const answer = (node) => [node.firstChild.textContent, why(node.querySelector(".why"))];
  const isOff = (node) => node.disabled || node.getAttribute("aria-disabled") === "true";
  // Shows all timers of all slots.
  const unfold = () => {
    for (let more; (more = document.querySelector("#wheels .more")); ) more.click();
  };
  const read = () => {
    unfold();
    const here = document.querySelector(".is-here");
    return {
      now: text(document.querySelector("#now")),
      buckets: [...document.querySelectorAll("#wheels .bucket")].filter((node) => node.checkVisibility()).map(window.bucket),
      gone: [...document.querySelectorAll("#wheels .left-it")].map((node) => [
        text(node.closest("article").querySelector("h3")), text(node.closest("li").querySelector(".name")), text(node),
      ]),
      arrows: document.querySelectorAll("#wheels .arrows .arrow").length,
      dashed: [...document.querySelectorAll("#wheels .left")].reduce(
        (sum, node) => sum + node.getAttribute("d").split("M").length - 1, 0),
      top: document.querySelector("#wheels").getBoundingClientRect().top,
      followed: document.querySelector("#serial").value,
      news: text(document.querySelector("#news")),
      // The wheel and the digit that the table marks, of now and of the deadline.
      marked: [...document.querySelectorAll("#digits td.level")].map((node) => [
        text(node.closest("table").tHead.rows[0].cells[node.cellIndex]), text(node)]),
      because: [...document.querySelectorAll(".because")].map(text).join(" "),
      line: here ? Number(text(here.querySelector(".number"))) : 0,
      answers: here ? [...here.querySelectorAll(".answer")].map(answer) : [],
    };
  };
  // Clicks a button up to so many times, as long as it isn't disabled; at the end of the script a step on would add a line.
  window.clicked = (selector, most) => {
    const button = document.querySelector(selector);
    const steps = [];
    const times = [];
    const slider = document.querySelector("#slider");
    const isEnd = () => selector === "#next" && slider.value === slider.max;
    while (!isOff(button) && !isEnd() && steps.length < most) {
      const start = performance.now();
      button.click();
      document.body.getBoundingClientRect();
      times.push(performance.now() - start);
      steps.push(read());
    }
    return JSON.stringify({ steps, times });
  };
  window.slide = (step) => {
    const slider = document.querySelector("#slider");
    slider.value = step;
    slider.dispatchEvent(new Event("input"));
  };
  window.historyOf = (serial) => {
    const field = document.querySelector("#serial");
    field.value = serial;
    field.dispatchEvent(new Event("input", { bubbles: true }));
    const row = (node) => [node.firstChild.textContent, node.querySelector("small").textContent];
    return JSON.stringify([...document.querySelectorAll(".history li button")].map(row));
  };
  const nameOf = window.nameOf = (node) => node.ariaLabel || text(node) || [...node.labels ?? []].map(text).join(" ");
  window.unnamed = () => [...document.querySelectorAll("button, input, select, textarea, [role=slider], [role=group]")]
    .filter((node) => !nameOf(node) && !node.hasAttribute("aria-labelledby")).length;
  // The lengths of the rests while it plays; they are not waited for.
  window.played = () => new Promise((done) => {
    const rests = {};
    const wait = window.setTimeout;
    const button = document.querySelector("#play");
    window.setTimeout = (act, time) => {
      rests[parseInt(text(document.querySelector("#at")), 10)] = time;
      return wait(act, 0);
    };
    const see = () => (text(button) === "Play" ? done(JSON.stringify(rests)) : wait(see, 10));
    button.click();
    see();
  });
  // The part of the screen in which the stage is seen.
  const sight = () => {
    const stage = document.querySelector(".stage");
    const bottom = document.querySelector(".controls").getBoundingClientRect().top;
    const { top } = stage.getBoundingClientRect();
    return getComputedStyle(stage).overflowY === "auto" ? { top, bottom } : { top: 0, bottom };
  };
  const isInside = (node, isBeside) => {
    const seen = isBeside ? { top: 0, bottom: sight().bottom } : sight();
    const { top, bottom, left, right } = node.getBoundingClientRect();
    return top >= seen.top && bottom <= seen.bottom && left >= 0 && right <= window.innerWidth;
  };
  const box = (node) => node.getBoundingClientRect();
  const ring = (wheel) => wheel.querySelector(".track");
  // What of a step is not on the screen: the lowest wheel, rings that timers left or came to, arrows, and what is said, which
  // is beside the wheels or under them.
  window.unseen = () => {
    const wheels = [...document.querySelectorAll("#wheels .wheel")];
    const lowest = document.querySelector("#wheels [data-focus$='-0']").closest(".wheel");
    const rings = wheels.filter((node) => node === lowest || node.querySelector(".went")).map(ring);
    const news = document.querySelector("#news");
    const said = [news.closest(".side"), news].some((node) => node.scrollTop) || news.scrollHeight > news.clientHeight;
    const isApart = wheels.every((wheel) => box(news).right <= box(wheel).left || box(news).top >= box(wheel).bottom);
    return [...rings, ...document.querySelectorAll(".arrows path"), news].filter((node) => !isInside(node, node === news))
      .map((node) => `${node.getAttribute("class")} of ${text(node.closest("section") ?? node).slice(0, 20)} is not all on the screen`)
      .concat(said ? ["what is said is cut"] : [], isApart ? [] : ["what is said is over a wheel"]);
  };
  // Whether the rings are what is seen first: a third of the width of the wheels, or one of 180 pixels.
  window.smallRings = () => {
    const widths = [...document.querySelectorAll("#wheels > .wheel")].map((wheel) => box(ring(wheel)).width);
    const sum = widths.reduce((a, b) => a + b);
    return sum >= box(document.querySelector("#wheels")).width / 3 || widths[0] >= 180 ? [] : [`rings of ${widths} pixels`];
  };
  // Where each ring is: on the screen, or on a phone, which scrolls as a whole, on the page.
  window.places = () => Object.fromEntries([...document.querySelectorAll("#wheels .wheel")].map((wheel) => {
    const { left, top, width } = box(ring(wheel));
    return [text(wheel.querySelector("h3")), [left, top + window.scrollY, width].map(Math.round).join(" ")];
  }));
  // What scrolls without a stop of the Tab key, or has a stop and doesn't scroll.
  window.needless = () => [...document.querySelectorAll(".scroll")]
    .filter((node) => (node.tabIndex === 0) !== (node.scrollHeight > node.clientHeight || node.scrollWidth > node.clientWidth))
    .map((node) => node.className);
  // What can't be brought on the screen by scrolling.
  window.unreached = () => ["#legend", "#intro summary", "#followed", "#lines"].filter((name) => {
    const node = document.querySelector(name);
    node.scrollIntoView({ block: "start", behavior: "instant" });
    const { top } = node.getBoundingClientRect();
    return top < -1 || top > document.querySelector(".controls").getBoundingClientRect().top;
  });
  // Controls that are too small for a finger.
  window.untouched = (least) => [...document.querySelectorAll("button, a, select, summary, input[type=text]")]
    .filter((node) => node.checkVisibility() && !node.closest("#lines"))
    .filter((node) => Math.min(node.offsetHeight, Math.max(node.offsetWidth, 36)) < least)
    .map((node) => `${text(node)} has ${node.offsetHeight} pixels`);
  window.current = () => JSON.stringify(read());
  // What has the focus, in a word.
  window.focused = () => {
    const node = document.activeElement;
    return node.dataset.focus ?? (node.id || node.hash || text(node.localName === "body" ? document.createElement("i") : node) || node.localName);
  };
  // The parts of arrows that run through a text or a ring.
  window.crossed = () => {
    const texts = [...document.querySelectorAll("#wheels .slot-label, #wheels .digit, #wheels h3, #wheels header p, #wheels .name," +
        " #wheels .chip, #wheels .went, #wheels .none")].filter((node) => node.checkVisibility());
    const boxes = texts.map((node) => [text(node), node.getBoundingClientRect()]);
    const rings = [...document.querySelectorAll("#wheels .wheel svg")].map((svg) => {
      const { a, e, f } = svg.getScreenCTM();
      return [e, f, 99 * a];
    });
    const found = new Set();
    for (const path of document.querySelectorAll("#wheels .arrows .arrow")) {
      const { e, f } = path.getScreenCTM();
      for (let at = 0; at < path.getTotalLength(); at += 1) {
        const { x, y } = path.getPointAtLength(at);
        const [left, top] = [x + e, y + f];
        for (const [said, box] of boxes)
          if (left > box.left && left < box.right && top > box.top && top < box.bottom) found.add(`an arrow through '${said}'`);
        for (const [middleX, middleY, radius] of rings)
          if (Math.hypot(left - middleX, top - middleY) < radius) found.add("an arrow through a ring");
      }
    }
    return [...found];
  };
  // Whether the present line can be seen in the list of lines.
  window.lineIsSeen = () => {
    const row = document.querySelector(".is-here > button").getBoundingClientRect();
    const list = document.querySelector("#lines").getBoundingClientRect();
    return row.top >= list.top - 1 && row.bottom <= list.bottom + 1;
  };
  const channel = (value) => (value <= 0.04045 ? value / 12.92 : ((value + 0.055) / 1.055) ** 2.4);
  const numbers = (colour) => colour.match(/[\d.]+/g).map(Number);
  const light = (colour) => {
    const [red, green, blue] = numbers(colour).map((value) => channel(value / 255));
    return 0.2126 * red + 0.7152 * green + 0.0722 * blue;
  };
  const ratio = (one, other) => (Math.max(light(one), light(other)) + 0.05) / (Math.min(light(one), light(other)) + 0.05);
  const behind = (node) => {
    for (let at = node; at; at = at.parentElement) {
      const [, , , alpha = 1] = numbers(getComputedStyle(at).backgroundColor);
      if (alpha) return getComputedStyle(at).backgroundColor;
    }
    return "rgb(255, 255, 255)";
  };
  // Texts with less contrast than WCAG asks for (1.4.3), and rings and borders of what can be used (1.4.11).
  window.faint = () => {
    const found = new Set();
    const walk = document.createTreeWalker(document.body, NodeFilter.SHOW_TEXT);
    while (walk.nextNode()) {
      const node = walk.currentNode.parentElement;
      if (!walk.currentNode.textContent.trim() || !node.checkVisibility() || node.closest("script, style, noscript")) continue;
      const style = getComputedStyle(node);
      const back = node.closest(".rider") ? null : behind(node);
      const isLarge = parseFloat(style.fontSize) >= 24 || (parseFloat(style.fontSize) >= 18.66 && Number(style.fontWeight) >= 700);
      const colour = node.closest("svg") ? style.fill : style.color;
      if (back && ratio(colour, back) < (isLarge ? 3 : 4.5))
        found.add(`'${text(node).slice(0, 30)}' has ${ratio(colour, back).toFixed(2)} : 1`);
    }
    for (const node of document.querySelectorAll("#wheels .track"))
      if (ratio(getComputedStyle(node).stroke, behind(node.closest("article"))) < 3) found.add("a ring is too faint");
    for (const node of document.querySelectorAll("button:not(.chip), input[type=text], select")) {
      const style = getComputedStyle(node);
      if (node.checkVisibility() && parseFloat(style.borderTopWidth) && ratio(style.borderTopColor, behind(node.parentElement)) < 3)
        found.add(`the border of ${nameOf(node)} is too faint`);
    }
    return [...found];
  };
  // What a screen reader would speak by itself, and roles that promise what the page doesn't do.
  window.spoken = () => [...document.querySelectorAll("[aria-live], output, [role=status], [role=alert], [role=log]")]
    .map((node) => `${node.id} ${node.getAttribute("aria-live") ?? node.getAttribute("role") ?? node.localName}`);
  // Elements whose use of ARIA or of HTML is wrong, by the rules of Lighthouse that can be seen here.
  window.misused = () => {
    const found = [];
    const ids = [...document.querySelectorAll("[id]")].map(({ id }) => id);
    if (new Set(ids).size !== ids.length) found.push("an id is there twice");
    if (document.querySelectorAll("h1").length !== 1) found.push("not one h1");
    if (!document.documentElement.lang) found.push("no language");
    if (document.querySelectorAll("main").length !== 1) found.push("not one main");
    for (const node of document.querySelectorAll("[role=img], [aria-hidden=true], button, a, summary"))
      if (node.querySelector("button, a, input, select, [tabindex]")) found.push(`what can be used is in ${node.localName}`);
    for (const node of document.querySelectorAll("[tabindex]"))
      if (node.tabIndex > 0) found.push("a tabindex above 0");
    for (const node of document.querySelectorAll("ol, ul"))
      if ([...node.children].some(({ localName }) => localName !== "li")) found.push(`${node.id || node.className} has not only li`);
    for (const node of document.querySelectorAll("[role=slider]"))
      if (["valuemin", "valuemax", "valuenow"].some((name) => !node.hasAttribute(`aria-${name}`))) found.push("a slider without its value");
    for (const node of document.querySelectorAll("#wheels [role=slider]")) {
      const said = [node.ariaValueNow, node.ariaValueText.replace("slot ", "")];
      const shown = text(node.closest(".wheel").querySelector(".digit"));
      if (said.some((value) => value !== shown)) found.push(`a hand at ${shown} is said to be at ${said}`);
    }
    for (const node of document.querySelectorAll("[aria-labelledby]"))
      if (!document.getElementById(node.getAttribute("aria-labelledby"))) found.push("a label that isn't there");
    let level = 1;
    for (const node of [...document.querySelectorAll("h1, h2, h3, h4")].filter((one) => one.checkVisibility())) {
      if (Number(node.localName[1]) > level + 1) found.push(`${text(node)} is ${node.localName} after h${level}`);
      level = Number(node.localName[1]);
    }
    return found;
  };
})();
